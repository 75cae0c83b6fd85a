"""Plays the cases of tests/cases with crates/test_runner: each as it is written, and all its edit lines at once. A case that begins with a short
run is also run with each spacing up to 12, and if it has no other command, broken off after each step. A failure prints the lines that the
case would need. The environment variable SESSIONS names the program, and CASES the folder or file that is played, if it is not all."""
import os
import unittest

from case_files import FOLDER, name_of, read_cases, session_files
from playing import play_case
from vembrusk.player import Difference


class CasesTest(unittest.TestCase):

    def test_cases(self) -> None:
        wanted = os.environ.get('CASES', '')
        paths = [path for path in session_files() if str(path.relative_to(FOLDER)).startswith(wanted)]
        self.assertTrue(paths)
        for path in paths:
            for case in read_cases(path):
                with self.subTest(case=name_of(case)):
                    try:
                        play_case(case)
                    except Difference as difference:
                        self.fail(str(difference))
