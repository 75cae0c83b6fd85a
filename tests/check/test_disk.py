"""Runs the built program over folders that are drives, for what the cases of tests/cases/command/disks.txt cannot say: modes and times of files,
links and other entries, files that are too long, and that a run over a disk leaves what `--files` and `--out` of one folder leave."""
import os
import shutil

from helpers import PROGRAM, RECORD, TOP, ProgramTest, calls, words_of_case
from test_command import NOT_HOST_NAMES
from test_programs import files_of

WARM_BOOT = 'stop WarmBoot\n'
EVERYTHING = '????????.???'
PADDED = b'one' + b'\x1a' * 125


class DiskTest(ProgramTest):
    """A test with a disk."""

    def setUp(self) -> None:
        self.addCleanup(os.umask, os.umask(0o022))
        super().setUp()
        self.disk = self.work / 'disk'
        self.disk.mkdir()

    def run_calls(self, *acts: str, gone: str = '', **how) -> None:
        """Runs a program that makes these calls of files over the disk, and expects that it ends and that these files are gone."""
        lines = ''.join(f'gone {name}\n' for name in gone.split())
        self.expect(0, '', WARM_BOOT + lines, self.put('calls.com', calls(*acts)), '--disk', self.disk, **how)

    def expect_files(self, **files: bytes) -> None:
        """Expects exactly these files in the disk."""
        self.assertEqual({path.name: path.read_bytes() for path in self.disk.iterdir()}, files)


class KeptTest(DiskTest):
    """What stays as it is."""

    def test_a_file_whose_records_are_unchanged_is_not_written(self) -> None:
        """One file is renamed there and back, one is deleted and made again, and one is not used."""
        for name, data in ('a', b'one'), ('b', RECORD), ('c', b'one'), ('d', b'old'):
            self.put(f'disk/{name}', data)
            os.utime(self.disk / name, ns=(10**18 + 1,) * 2)
        before = {name: (self.disk / name).stat() for name in 'abcd'}
        self.run_calls('23 A X', '23 X A', '19 B', '22 B', '21 B', '21 D')
        self.expect_files(a=b'one', b=RECORD, c=b'one', d=RECORD)
        for name in 'abc':
            after = (self.disk / name).stat()
            self.assertEqual((after.st_ino, after.st_mtime_ns), (before[name].st_ino, before[name].st_mtime_ns), name)
        self.assertGreater((self.disk / 'd').stat().st_mtime_ns, before['d'].st_mtime_ns)

    def test_a_changed_file_keeps_its_mode(self) -> None:
        for name, mode in ('a', 0o600), ('B', 0o444), ('c', 0o777), ('old', 0o400):
            self.put(f'disk/{name}', 'one').chmod(mode)
        self.run_calls('21 A', '21 B', '21 C', '22 NEW', '23 OLD D', gone='OLD')
        self.assertEqual({path.name: path.stat().st_mode & 0o777 for path in self.disk.iterdir()},
                         {'a': 0o600, 'B': 0o444, 'c': 0o777, 'd': 0o644, 'new': 0o644})

    def test_other_hard_links_keep_the_old_contents(self) -> None:
        self.put('disk/a', 'one')
        self.put('disk/b', 'one')
        for name in 'ab':
            os.link(self.disk / name, self.work / name)
        self.run_calls('21 A', '19 B', gone='B')
        self.expect_files(a=RECORD)
        self.assertEqual([(self.work / name).read_bytes() for name in 'ab'], [b'one'] * 2)

    def test_what_is_no_host_file_stays(self) -> None:
        for name in NOT_HOST_NAMES:
            (self.disk / name).write_text('kept', errors='surrogateescape')
        for name in 'sub', 'sub/sub', 'b.txt':
            (self.disk / name).mkdir()
        self.put('disk/sub/a.txt', 'kept')
        os.mkfifo(self.disk / 'fifo')
        (self.disk / 'link.txt').symlink_to('a.txt')
        (self.disk / 'nowhere').symlink_to('none')
        names = os.listdir(self.disk)
        self.put('disk/a.txt', 'one')
        err = f'{WARM_BOOT}gone A.TXT\nleft by an ended run: {self.disk}/.X.new\n'
        self.expect(0, '', err, self.put('calls.com', calls(f'19 {EVERYTHING}')), '--disk', self.disk)
        self.expect_names(self.disk, *names)
        self.assertEqual([(self.disk / name).read_text() for name in [*NOT_HOST_NAMES, 'sub/a.txt']], ['kept'] * (len(NOT_HOST_NAMES) + 1))

    def test_a_disk_may_be_a_link(self) -> None:
        (self.work / 'to-disk').symlink_to('disk')
        self.disk = self.work / 'to-disk'
        self.run_calls('22 NEW', '21 NEW')
        self.assertTrue(self.disk.is_symlink())
        self.expect_files(NEW=RECORD)


class StopTest(DiskTest):
    """What is done whatever the stop is, and if it cannot be written."""

    def test_the_text_and_the_files_are_there_if_the_stop_cannot_be_written(self) -> None:
        self.put('disk/a', 'one')
        self.expect(0, '', '', self.put('calls.com', calls('23 A B')), '--disk', self.disk, preexec_fn=lambda: os.close(2))
        self.expect_files(b=PADDED)

    def test_with_partial_files_are_changed_whatever_the_stop_is(self) -> None:
        """A call is five steps, and the first one sets the buffer; so the limit comes before the last call."""
        self.put('disk/old', 'one')
        program = self.put('calls.com', calls('22 A', '21 A', '19 OLD', '22 B', '22 C'))
        self.expect(3, '', 'stop Limit\ngone OLD\n', program, '--disk', self.disk, '--limit', '29', '--partial')
        self.expect_files(a=RECORD, b=b'')


class SameTest(DiskTest):
    """A disk, and folders for `--files` and `--out`."""

    def test_a_disk_has_what_files_and_out_have_and_nothing_that_is_gone(self) -> None:
        """The names of these cases are in upper case."""
        cases = [case for case in sorted(TOP.glob('tests/programs/*/cases/*/')) if (case / 'files').is_dir()]
        self.assertGreater(len(cases), 10)
        for case in cases:
            with self.subTest(case=case.relative_to(TOP)):
                disk, out = (self.work / f'{case.parent.parent.name}-{case.name}-{kind}' for kind in ('disk', 'out'))
                shutil.copytree(case / 'files', disk)
                out.mkdir()
                words = words_of_case(case)
                at = words.index('--files')
                done, other = (self.run_command(PROGRAM, *words[:at], *more, *words[at + 2:], cwd=case)
                               for more in (['--disk', disk, '--partial'], ['--files', 'files', '--out', out]))
                self.assertEqual((done.returncode, done.stdout, done.stderr), (other.returncode, other.stdout, other.stderr))
                gone = [line.removeprefix('gone ') for line in other.stderr.decode().splitlines() if line.startswith('gone ')]
                left = {**files_of(case / 'files'), **files_of(out)}
                self.assertEqual(files_of(disk), {name: data for name, data in left.items() if name not in gone})
