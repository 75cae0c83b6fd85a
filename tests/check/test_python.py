"""Runs the tests of the package for Python, the files of `python/tests`, with the built programs: each file in a process of its own, and several
at the same time."""
import os
import sys
from concurrent.futures import ThreadPoolExecutor
from pathlib import Path
from subprocess import CompletedProcess

from helpers import DEPENDENCIES_PROGRAM, PROGRAM, TOP, TRACE_PROGRAM, ProgramTest

FILES = sorted((TOP / 'python/tests').glob('test_*.py'))


class PythonTest(ProgramTest):

    def run_file(self, path: Path) -> CompletedProcess:
        env = {**os.environ, 'CPMRUN': str(PROGRAM), 'CPMDEPS': str(DEPENDENCIES_PROGRAM), 'CPMTRACE': str(TRACE_PROGRAM)}
        words = [sys.executable, '-B', '-W', 'error', '-m', 'unittest', path.stem]
        return self.run_command(*words, cwd=path.parent, env=env, timeout=600)

    def test_the_tests_of_the_package_pass(self) -> None:
        self.assertGreater(len(FILES), 8)
        with ThreadPoolExecutor(len(os.sched_getaffinity(0))) as pool:
            for path, done in zip(FILES, pool.map(self.run_file, FILES)):
                with self.subTest(path.stem):
                    self.assertEqual(done.returncode, 0, done.stderr.decode())
