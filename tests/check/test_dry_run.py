"""Runs the built program with --dry-run: it prints what a run would do, in the order in which a run does it, and changes no file."""
from pathlib import Path

from helpers import HI, PROGRAM, RECORD, ProgramTest, calls
from test_disk import WARM_BOOT


class DryRunTest(ProgramTest):
    """A test with three folders: `d` and `e` are disks, and `o` is for changed files."""

    def setUp(self) -> None:
        super().setUp()
        for name in 'd', 'e', 'o':
            (self.work / name).mkdir()

    def program_of(self, *acts: str, end: str = 'RET') -> Path:
        """Returns a program that makes these calls of files."""
        return self.put('calls.com', calls(*acts, end=end))

    def all_files(self) -> dict[str, tuple[int, bytes | None]]:
        """Returns the time of the last change, and the bytes, of what is below the folder of the test."""
        return {str(path): (path.lstat().st_mtime_ns, path.read_bytes() if path.is_file() else None) for path in self.work.rglob('*')}

    def expect_of(self, status: int, err: str, *words: object, out: str = '') -> None:
        """Expects the end of a run in the folder of the test, and that no file is another one after it."""
        before = self.all_files()
        self.expect(status, out, err, *words, cwd=self.work)
        self.assertEqual(self.all_files(), before)

    def test_a_run_would_do_all_in_this_order(self) -> None:
        """Files outside of disks come first; on disks new files, ones that replace others, and then removals, each in the order of names."""
        for name in 'd/b', 'd/old', 'd/z', 'e/c', 'o/OUT':
            self.put(name, 'one')
        program = self.program_of('19 Z', '19 OLD', '22 NEW', '21 B', '22 A', '22 B:M', '21 B:C', '22 D:OUT', '22 D:ADD')
        words = [program, '--disk', 'd', '--disk-b', 'e', '--out-d', 'o']
        would = ('would write o/ADD\nwould replace o/OUT\nwould write d/a\nwould write d/new\nwould write e/m\n'
                 'would replace d/b\nwould replace e/c\nwould remove d/old\nwould remove d/z\n')
        self.expect_of(0, f'{would}{WARM_BOOT}gone OLD\ngone Z\n', *words, '--dry-run')
        self.expect(0, '', f'{WARM_BOOT}gone OLD\ngone Z\n', *words, cwd=self.work)
        self.assertEqual({path.name for path in (self.work / 'd').iterdir()}, {'a', 'new', 'b'})
        self.assertEqual({path.name for path in (self.work / 'e').iterdir()}, {'m', 'c'})
        self.assertEqual({path.name for path in (self.work / 'o').iterdir()}, {'ADD', 'OUT'})

    def test_unchanged_disks_would_be_left(self) -> None:
        """A disk on which nothing was to change has no line. With --partial the stop does not count."""
        self.put('d/b', 'one')
        for end, status, stop in ('HLT', 4, 'stop Halt\n'), ('JMP 0FF0CH', 6, 'stop SystemArea FF0C\n'):
            words = [self.program_of('21 B', '22 C:NEW', end=end), '--disk', 'd', '--disk-b', 'e', '--out-c', 'o', '--dry-run']
            self.expect_of(status, f'would write o/NEW\nwould leave d unchanged\n{stop}disk unchanged\n', *words)
            self.expect_of(status, f'would write o/NEW\nwould replace d/b\n{stop}', *words, '--partial')
            self.expect_of(status, f'would write o/NEW\nwould leave ../{self.work.name}/d unchanged\n{stop}disk unchanged\n',
                           *words[:2], f'../{self.work.name}/d', *words[3:])

    def test_nothing_is_said_if_nothing_would_be_done(self) -> None:
        self.put('d/b', 'one')
        for words in [HI], [HI, '--disk', 'd'], [HI, '--files', 'd', '--out', 'o']:
            self.expect_of(0, WARM_BOOT, *words, '--dry-run', out='Hi')
        self.expect_of(0, WARM_BOOT, self.program_of('22 NEW'), '--files', 'd', '--dry-run')

    def test_lines_that_cannot_be_written_change_nothing(self) -> None:
        self.put('d/b', 'one')
        program = self.program_of('21 B', '22 NEW')
        before = self.all_files()
        with open('/dev/full', 'w') as full:
            done = self.run_command(PROGRAM, program, '--disk', self.work / 'd', '--dry-run', stderr=full)
        self.assertEqual((done.returncode, done.stdout, self.all_files()), (0, b'', before))

    def test_no_report_is_written(self) -> None:
        self.put('trace', 'old')
        words = [self.program_of('22 NEW'), '--disk', 'd', '--deps', 'rule', '--trace', 'trace', '--dry-run']
        self.expect_of(0, f'would write d/NEW\n{WARM_BOOT}', *words)
        self.expect_of(0, f'would write d/NEW\n{WARM_BOOT}', *words[:3], '--deps', '-', '--dry-run')

    def test_errors_are_the_ones_of_a_run(self) -> None:
        """A changed file without a place, and a path at which no regular file is."""
        program = self.program_of('22 NEW', '22 C:X')
        self.expect_of(1, 'cpmrun: cannot write C:X: drive C has no folder\n', program, '--disk', 'd', '--dry-run')
        (self.work / 'o/NEW').symlink_to('else')
        self.expect_of(1, 'cpmrun: cannot write o/NEW: it is no regular file\n', program, '--out', 'o', '--disk-c', 'd', '--dry-run')
        self.expect_of(1, "error: invalid value 'calls.com' for '--deps <FILE>': the run reads this file\n\nFor more information, try '--help'.\n",
                       'calls.com', '--disk', 'd', '--deps', 'calls.com', '--dry-run')

    def test_control_characters_are_shown_as_escapes(self) -> None:
        (self.work / 'a\tb').mkdir()
        self.expect_of(0, f'would write a\\tb/NEW\n{WARM_BOOT}', self.program_of('22 NEW'), '--out', 'a\tb', '--dry-run')

    def test_edit_lines_exclude_it(self) -> None:
        done = self.run_command(PROGRAM, HI, '--edits', HI, '--dry-run')
        self.assertEqual((done.returncode, done.stderr.splitlines()[0]),
                         (1, b"error: the argument '--edits <FILE>' cannot be used with '--dry-run'"))

    def test_the_disk_is_written_without_it(self) -> None:
        self.expect(0, '', WARM_BOOT, self.program_of('22 NEW', '21 NEW'), '--disk', 'd', cwd=self.work)
        self.assertEqual((self.work / 'd/NEW').read_bytes(), RECORD)
