"""Runs the built program with --explain: the last line of standard error says where the run stopped and what to do. Nothing else changes."""
from pathlib import Path

from helpers import HI, PROGRAM, ProgramTest
from vembrusk.assembler import assemble

STOPS = {
    'Limit': (3, ['l: JMP l'], 'after 1000000 steps, at 0100; --limit 10000000 lets it run on'),
    'Halt': (4, ['NOP; HLT'], 'HLT at 0101'),
    'Undefined ED': (5, ['DB 0EDH'], 'at 0100; Z80 programs have such opcodes, and this is an 8080'),
    'SystemArea FF0C': (6, ['CALL 0FF0CH'], 'called from 0100: console output of the BIOS, which is not here'),
    'SystemArea FF0D': (6, ['LXI H,0FF0DH; LXI D,0107H; PUSH D; PCHL'], 'called to return to 0107: no entry of the BIOS'),
    'NoDollar': (8, ['MVI C,9; LXI D,0300H; CALL 5'], 'call 9 from 0105: no $ from 0300 on'),
    'ConsoleExhausted': (7, ['MVI C,1; CALL 5'],
                         'call 1 from 0102: the program waits for a key, and the console input has no more; give it by --typed or --console'),
    'Unsupported 27': (9, ['MVI C,27; CALL 5'], 'call 27 from 0102: address of the allocation vector'),
    'BadDrive 5': (10, ['MVI C,15; LXI D,fcb; CALL 5; RET; fcb: DB 5; DS 35'], 'call 15 from 0105: drive E'),
    'BadDrive 4': (10, ['MVI C,14; MVI E,4; CALL 5'], 'call 14 from 0104: drive E'),
}
"""For each stop its status, a program, and its explanation."""


class ExplanationTest(ProgramTest):
    """Runs with and without --explain."""

    def program_of(self, code: list[str]) -> Path:
        """Returns the program of these instructions."""
        return self.put('stop.com', assemble(code))

    def test_each_stop_has_its_line(self) -> None:
        for stop, (status, code, line) in STOPS.items():
            with self.subTest(stop=stop):
                program = self.program_of(code)
                self.expect(status, '', f'stop {stop}\n', program)
                self.expect(status, '', f'stop {stop}\n{line}\n', program, '--explain')

    def test_a_warm_boot_has_none(self) -> None:
        self.expect(0, 'Hi', 'stop WarmBoot\n', HI, '--explain')

    def test_the_largest_limit_has_no_larger_one(self) -> None:
        """The limit of the next run is ten times the steps, at most the largest."""
        program = self.program_of(['l: JMP l'])
        for limit, advice in (0, '; --limit 10 lets it run on'), (3, '; --limit 30 lets it run on'):
            self.expect(3, '', f'stop Limit\nafter {limit} steps, at 0100{advice}\n', program, '--limit', str(limit), '--explain')

    def test_a_kept_disk_is_mentioned(self) -> None:
        """It comes after all other lines. A disk on which nothing was to change is not mentioned."""
        (self.work / 'd').mkdir()
        make = 'MVI C,22; LXI D,fcb; CALL 5; MVI C,1; CALL 5; fcb: DB 0,"NEW        "; DS 24'
        for code, lines, kept in (make, 'disk unchanged\n', ' (--partial changes the disk all the same)'), ('MVI C,1; NOP; CALL 5', '', ''):
            at = '010A' if lines else '0103'
            line = f'call 1 from {at}: the program waits for a key, and the console input has no more; give it by --typed or --console{kept}\n'
            self.expect(7, '', f'stop ConsoleExhausted\n{lines}{line}', self.program_of([code]), '--disk', self.work / 'd', '--explain')

    def test_an_explanation_that_cannot_be_written_changes_no_status(self) -> None:
        for words in [], ['--explain']:
            with open('/dev/full', 'w') as full:
                done = self.run_command(PROGRAM, self.program_of(['NOP; HLT']), *words, stderr=full)
            self.assertEqual((done.returncode, done.stdout), (4, b''))

    def test_an_error_and_edit_lines_have_none(self) -> None:
        self.expect(1, '', 'cpmrun: cannot read none\n', 'none', '--explain', cwd=self.work)
        edits = self.put('edits', 'run\n')
        plain = self.run_command(PROGRAM, HI, '--edits', edits)
        explained = self.run_command(PROGRAM, HI, '--edits', edits, '--explain')
        self.assertEqual((explained.returncode, explained.stdout, explained.stderr), (plain.returncode, plain.stdout, b''))
