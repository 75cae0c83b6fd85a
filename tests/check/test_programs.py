"""Runs the built program on each case of three programs of CP/M: once without edit lines, and once with them if the case has some.
Compares standard output, standard error, the status and the files that were written.

A case is a folder PROGRAM/cases/NAME with the words of the command line: `tail`, `files/` for --files, `console.bin` for --console, `args`
for other words, one a line, and `edits.txt` for --edits. The expected results are in `expect/` and `expect-edits/`, large files only by
their sums, in `out.sum`."""
import os
from pathlib import Path

from helpers import PROGRAM, TOP, ProgramTest, words_of_case

CASES = sorted(TOP.glob('tests/programs/*/cases/*/'))


def files_of(folder: Path) -> dict[str, bytes]:
    """Returns the files of a folder by their names."""
    return {path.name: path.read_bytes() for path in folder.iterdir()} if folder.exists() else {}


class CaseTest(ProgramTest):

    def expect_case(self, case: Path, expected: Path, out: Path, *words: object) -> None:
        """Expects the results that the folder `expected` has, with the files in the folder `out`."""
        done = self.run_command(PROGRAM, *words, cwd=case)
        self.assertEqual(f'{done.returncode}\n', (expected / 'status').read_text(), 'status')
        self.assertEqual(done.stdout, (expected / 'stdout').read_bytes(), 'standard output')
        self.assertEqual(done.stderr, (expected / 'stderr').read_bytes(), 'standard error')
        if (expected / 'out.sum').exists():
            sums = self.run_command('cksum', '--', *sorted(os.listdir(out)), cwd=out)
            self.assertEqual(sums.stdout, (expected / 'out.sum').read_bytes(), 'sums of files')
            return
        wanted = files_of(expected / 'out')
        self.expect_names(out, *wanted)
        for name, data in files_of(out).items():
            self.assertEqual(data, wanted[name], name)

    def test_each_program_has_cases(self) -> None:
        programs = {path.parent for path in TOP.glob('tests/programs/*/*.com')}
        self.assertEqual(programs, {case.parent.parent for case in CASES})

    def test_each_case_has_its_result(self) -> None:
        for case in CASES:
            with self.subTest(case=case.relative_to(TOP)):
                out = self.work / f'{case.parent.parent.name}-{case.name}'
                out.mkdir()
                self.expect_case(case, case / 'expect', out, *words_of_case(case), '--out', out)

    def test_each_case_with_edit_lines_has_its_replies(self) -> None:
        out = self.work / 'out'
        out.mkdir()
        for case in CASES:
            if (case / 'edits.txt').exists():
                with self.subTest(case=case.relative_to(TOP)):
                    self.expect_case(case, case / 'expect-edits', out, *words_of_case(case), '--edits', 'edits.txt')
