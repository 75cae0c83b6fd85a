"""Runs the built program over disks for what it does outside and says of it: which folders are locked and synced, what others change meanwhile,
what an ended run left, reports that go into its own outputs, and programs that look for a BIOS."""
import errno
import fcntl
import os
import pty
import select
import signal
import stat
import subprocess
import tty
from pathlib import Path

from failures import FailureTest
from helpers import DEPENDENCIES_PROGRAM, HI, PROGRAM, RECORD, TRACE_PROGRAM, calls
from test_disk import WARM_BOOT
from vembrusk.assembler import assemble

NEVER = -1
"""The number of no call."""
EACH = 0
"""The number of each call."""
UNCHANGED = 'disk unchanged\n'
PRINT = 'MVI E,46; MVI C,2; CALL 5; RET'
"""Prints a dot, whose writing is the first call of this kind, and ends."""


class SureTest(FailureTest):
    """A test that runs in its folder, which has the disk `d` and two other folders."""

    library = 'fail'

    def setUp(self) -> None:
        super().setUp()
        self.addCleanup(os.umask, os.umask(0o022))
        for name in 'd', 'e', 'o':
            (self.work / name).mkdir()

    def program_of(self, *acts: str, end: str = 'RET') -> Path:
        """Returns a program that makes these calls of files."""
        return self.put('calls.com', calls(*acts, end=end))

    def run_at(self, at: int, kinds: str, *words: object, cwd: Path | None = None, **environment: object):
        """Runs the program, with its call of the system of these kinds that has this number failing, or as the environment says."""
        self.environment = {'FAIL_CALLS': kinds, **{name: str(value) for name, value in environment.items()}}
        return self.run_with_failure(at, PROGRAM, *words, cwd=cwd or self.work, timeout=20)

    def expect_at(self, status: int, err: str, at: int, kinds: str, *words: object, out: str = '', **environment: object) -> None:
        """Expects the end of such a run."""
        done = self.run_at(at, kinds, *words, **environment)
        self.assertEqual((done.returncode, done.stdout.decode(), done.stderr.decode()), (status, out, err))
        self.assertTrue(at == NEVER or self.mark.exists(), 'there is no such call')

    def expect_end_of(self, status: int, err: str, *words: object, out: str = '', **how) -> None:
        """Expects the end of a run in the folder."""
        self.expect(status, out, err, *words, cwd=self.work, **how)

    def log_of(self, kinds: str, *words: object, status: int = 0, **how) -> list[str]:
        """Returns the calls of the system of these kinds that a run makes, with paths from the folder of the test."""
        log = self.work / 'log'
        done = self.run_at(NEVER, kinds, *words, FAIL_LOG=log, **how)
        self.assertEqual(done.returncode, status, done.stderr)
        lines = log.read_text().replace(f'{self.work}/', '').splitlines() if log.exists() else []
        log.unlink(missing_ok=True)
        return lines

    def put_disk(self, *names: str) -> None:
        """Writes these files of the disk, and removes all others."""
        for path in (self.work / 'd').iterdir():
            path.unlink()
        for name in names:
            self.put(f'd/{name}', 'one')

    def expect_folder(self, name: str, **files: bytes) -> None:
        """Expects exactly these files in a folder."""
        self.assertEqual({path.name: path.read_bytes() for path in (self.work / name).iterdir()}, files)


class LockTest(SureTest):
    """Which folders are locked, in which order, and what waits."""

    def test_two_disks_are_locked_in_the_order_of_their_inodes(self) -> None:
        """Whatever their paths are, so two runs do not wait for each other."""
        folders = sorted('de', key=lambda name: (self.work / name).stat().st_ino)
        program = self.program_of()
        for cwd, one, other in ('.', 'd', 'e'), ('.', 'e', 'd'), ('d', '.', '../e'), ('e', '.', '../d'), ('o', '../e', '../d/../d/'):
            log = self.log_of('l', program, '--disk', one, '--disk-c', other, cwd=self.work / cwd)
            self.assertEqual(log, [f'l {name}' for name in folders], (cwd, one, other))

    def test_folders_of_two_devices_that_have_one_inode_are_two(self) -> None:
        program = self.program_of('22 NEW')
        self.expect_at(0, WARM_BOOT, NEVER, '', program, '--disk', 'd', '--disk-b', 'e', '--out-c', 'o', FAIL_SWAPS=1)
        self.expect_folder('d', NEW=b'')
        self.assertEqual(self.run_at(NEVER, '', program, '--disk', 'd', '--disk-b', 'd/.', FAIL_SWAPS=1).returncode, 1)

    def test_a_run_goes_on_where_the_system_has_no_locks(self) -> None:
        for number in errno.ENOLCK, errno.EOPNOTSUPP, errno.ENOSYS:
            with self.subTest(errno.errorcode[number]):
                self.put_disk('a')
                self.expect_at(0, WARM_BOOT, EACH, 'l', self.program_of('21 A'), '--disk', 'd', FAIL_ERROR=number)
                self.expect_folder('d', a=RECORD)
        self.expect_at(1, 'cpmrun: cannot read d\n', EACH, 'l', self.program_of('21 A'), '--disk', 'd')

    def test_two_runs_of_a_pipe_may_have_one_disk(self) -> None:
        """The second has the text of the first as its script, which it reads before it locks the disk."""
        self.put('w.com', calls('22 W', '21 W', end=PRINT))
        self.put('r.com', calls('22 R', end='MVI C,1; CALL 5; RET'))
        pipe = '"$0" w.com --disk d 2> err | "$0" r.com --disk d --console /dev/stdin'
        substitution = '"$0" r.com --disk d --console <("$0" w.com --disk d 2> err)'
        for line in [pipe] * 20 + [substitution] * 5:
            done = self.run_with_children('bash', '-c', line, str(PROGRAM), cwd=self.work, timeout=20)
            self.assertEqual((done.returncode, done.stdout, done.stderr.decode()), (0, b'.', WARM_BOOT), line)
            self.assertEqual((self.work / 'err').read_text(), WARM_BOOT)
            self.expect_folder('d', W=RECORD, R=b'')
            self.put_disk()

    def test_folders_are_read_after_the_script(self) -> None:
        """So a listing or a trace whose script a run writes sees what that run made."""
        self.put('w.com', calls('22 W', end=PRINT))
        line = '{ sleep 0.3; "$0" w.com --disk d 2> err; } | "$@" r.com --disk d --console /dev/stdin'
        self.put('r.com', calls('15 W'))
        for words, shown in ([TRACE_PROGRAM, '--file', 'W'], b' 15 open file W = 00'), ([DEPENDENCIES_PROGRAM, '--make', 'out'], b'out: r.com d/W'), \
                ([PROGRAM, '--trace', '-'], b' 15 open file W = 00'):
            self.put_disk()
            done = self.run_with_children('bash', '-c', line, str(PROGRAM), *map(str, words), cwd=self.work, timeout=20)
            self.assertIn(shown, done.stdout)

    def wait_on(self, *words: object, err: int) -> tuple[subprocess.Popen, int]:
        """Starts a run while another program has locked the disk. Returns it, and the lock."""
        lock = os.open(self.work / 'd', os.O_RDONLY)
        self.addCleanup(os.close, lock)
        fcntl.flock(lock, fcntl.LOCK_EX)
        process = subprocess.Popen([PROGRAM, *words], stdin=subprocess.DEVNULL, stdout=subprocess.DEVNULL, stderr=err, cwd=self.work,
                                   env={**os.environ, 'TERM': 'xterm'})
        self.addCleanup(process.wait)
        self.addCleanup(process.kill)
        return process, lock

    def read_until(self, terminal: int, text: bytes) -> bytes:
        """Returns what comes from a terminal up to this text. Fails if it does not come."""
        found = b''
        while text not in found:
            self.assertTrue(select.select([terminal], [], [], 20)[0], found)
            found += os.read(terminal, 4096)
        return found

    def test_a_terminal_shows_that_a_run_waits(self) -> None:
        terminal, end = pty.openpty()
        self.addCleanup(os.close, terminal)
        tty.setraw(end)
        for folder in 'd', './d/':
            line = f'waiting for {folder}'.encode()
            process, lock = self.wait_on(self.program_of('22 NEW'), '--disk-b', 'e', '--disk', folder, err=end)
            self.assertTrue(self.read_until(terminal, line).startswith(line), 'it comes at once')
            self.assertIsNone(process.poll())
            fcntl.flock(lock, fcntl.LOCK_UN)
            self.read_until(terminal, WARM_BOOT.encode())
            self.assertEqual(process.wait(20), 0)
        os.close(end)

    def test_a_waiting_run_shows_no_control_character(self) -> None:
        terminal, end = pty.openpty()
        self.addCleanup(os.close, terminal)
        tty.setraw(end)
        (self.work / 'e\x1bf').symlink_to('d')
        process, lock = self.wait_on(self.program_of('22 NEW'), '--disk', 'e\x1bf', err=end)
        self.assertEqual(self.read_until(terminal, b'k'), b'waiting for a disk')
        fcntl.flock(lock, fcntl.LOCK_UN)
        self.assertEqual(process.wait(20), 0)
        os.close(end)

    def test_a_pipe_does_not_show_that_a_run_waits(self) -> None:
        process, lock = self.wait_on(self.program_of('22 NEW'), '--disk', 'd', err=subprocess.PIPE)
        with self.assertRaises(subprocess.TimeoutExpired):
            process.wait(0.5)
        fcntl.flock(lock, fcntl.LOCK_UN)
        self.assertEqual(process.communicate(timeout=20), (None, WARM_BOOT.encode()))


class SyncTest(SureTest):
    """What outlasts a power failure."""

    def test_only_folders_in_which_a_file_is_changed_are_synced(self) -> None:
        words = ['--disk', 'd', '--disk-b', 'e', '--out-c', 'o']
        for acts, synced in (['15 A', '20 B:A'], []), (['22 X', '19 X'], []), (['21 A'], 'd'), (['21 B:A'], 'e'), (['22 B:NEW'], 'e'), \
                (['19 OLD'], 'd'), (['19 B:OLD', '22 NEW'], 'de'), (['22 C:X'], []), (['22 C:X', '19 OLD'], 'do'):
            with self.subTest(acts=acts):
                (self.work / 'o/X').unlink(missing_ok=True)
                self.put_disk('a', 'old')
                for name in 'a', 'old':
                    self.put(f'e/{name}', 'one')
                log = self.log_of('y', self.program_of(*acts), *words)
                self.assertEqual(sorted(line for line in log if '/' not in line), [f'y {name}' for name in synced])
                self.assertTrue(synced or log == [], log)

    def test_a_folder_that_cannot_be_synced(self) -> None:
        """The files are changed. Some file systems refuse it always, by the other errors."""
        for end, status, stop, words in ('RET', 0, WARM_BOOT, []), ('HLT', 4, 'stop Halt\n', ['--partial']):
            for number in errno.EINVAL, errno.EOPNOTSUPP, errno.ENOSYS, errno.EIO:
                with self.subTest(stop=stop, error=errno.errorcode[number]):
                    program = self.program_of('21 A', '19 OLD', end=end)
                    self.put_disk('a', 'old')
                    at = self.log_of('y', program, '--disk', 'd', *words, status=status).index('y d') + 1
                    self.put_disk('a', 'old')
                    err, found = (f'{stop}gone OLD\nnot synced: d\n', 1) if number == errno.EIO else (f'{stop}gone OLD\n', status)
                    self.expect_at(found, err, at, 'y', program, '--disk', 'd', *words, FAIL_ERROR=number)
                    self.expect_folder('d', a=RECORD)

    def test_files_outside_of_disks_are_synced_with_a_disk(self) -> None:
        """A program may move a file from the disk to another folder: the copy is there before the file is gone."""
        self.put_disk('x.txt')
        log = self.log_of('yu', self.program_of('15 X.TXT', '22 B:X.TXT', '21 B:X.TXT', '19 X.TXT'), '--disk', 'd', '--out-b', 'o')
        self.assertEqual(log, ['y o/.X.TXT.new', 'y o', 'u d/x.txt', 'y d'])

    def test_all_contents_are_synced_before_a_name_is_changed(self) -> None:
        self.put_disk('a', 'old')
        self.put('e/c', 'one')
        self.put('o/B', 'one')
        log = self.log_of('ynu', self.program_of('21 A', '22 NEW', '22 B:B', '21 C:C', '19 OLD'), '--disk', 'd', '--out-b', 'o', '--disk-c', 'e')
        names = ['n d/.new.new d/new', 'n d/.a.new d/a', 'n e/.c.new e/c', 'u d/old']
        self.assertEqual(log, ['y o/.B.new', 'n o/.B.new o/B', 'y o', 'y d/.new.new', 'y d/.a.new', 'y e/.c.new', *names, 'y d', 'y e'])

    def test_each_folder_that_cannot_be_synced_is_named(self) -> None:
        program = self.program_of('22 A', '22 B:B', '22 C:C')
        for kinds, folders in ('y o', ['o']), ('y d', ['d']), ('y e', ['e']):
            with self.subTest(folders=folders):
                words = [program, '--disk', 'd', '--out-b', 'o', '--disk-c', 'e']
                self.put_disk()
                for name in 'e/C', 'o/B':
                    (self.work / name).unlink(missing_ok=True)
                at = self.log_of('y', *words).index(kinds) + 1
                for name in 'd/A', 'e/C', 'o/B':
                    (self.work / name).unlink()
                self.expect_at(1, WARM_BOOT + ''.join(f'not synced: {name}\n' for name in folders), at, 'y', *words)
                self.assertTrue(all((self.work / name).exists() for name in ('d/A', 'e/C', 'o/B')))

    def test_a_file_that_replaces_another_is_synced_without_a_disk(self) -> None:
        self.put('o/A.TXT', 'old').chmod(0o640)
        self.put_disk('a.txt')
        words = [self.program_of('21 A.TXT'), '--files', 'd', '--out', 'o']
        self.expect_at(1, 'cpmrun: cannot write o/A.TXT\n', 1, 'y', *words)
        self.expect_folder('o', **{'A.TXT': b'old'})
        self.assertEqual(self.log_of('y', *words)[:1], ['y o/.A.TXT.new'])
        self.expect_folder('o', **{'A.TXT': RECORD})
        self.assertEqual(stat.S_IMODE((self.work / 'o/A.TXT').stat().st_mode), 0o640)


class EndTest(SureTest):
    """What a run that is ended, or that is refused a change, leaves, and what is said of it."""

    def test_a_refused_rename_names_all_that_is_left(self) -> None:
        names = ['a.dat', 'b.dat', 'c.dat', 'd.dat']
        program = self.program_of(*(f'21 {name.upper()}' for name in names), '19 OLD')
        for at, left in (2, ': its contents are in d/.b.dat.new, those of other files in d/.c.dat.new, d/.d.dat.new'), \
                (3, ': its contents are in d/.c.dat.new, those of other files in d/.d.dat.new'), (4, ': its contents are in d/.d.dat.new'):
            with self.subTest(at=at):
                self.put_disk(*names, 'old')
                self.expect_at(1, f'cpmrun: cannot write d/{names[at - 1]}{left}\n', at, 'n', program, '--disk', 'd')
                done, rest = names[:at - 1], names[at - 1:]
                self.expect_folder('d', old=b'one', **dict.fromkeys(done, RECORD), **dict.fromkeys(rest, b'one'),
                                   **{f'.{name}.new': RECORD for name in rest})

    def expect_left(self, stop: str, status: int, names: list[str], *words: object) -> None:
        """Expects that a run reports these files as left, the first three by their names."""
        done = self.run_command(PROGRAM, *words, cwd=self.work)
        first, *lines = done.stderr.decode().splitlines()
        self.assertEqual((done.returncode, first), (status, stop))
        shown = [line for line in lines if line in [f'left by an ended run: {name}' for name in names]]
        self.assertEqual(len(set(shown)), min(len(names), 3), lines)
        self.assertEqual(lines, shown + ([f'and {len(names) - 3} more'] if len(names) > 3 else []))

    def test_later_runs_report_what_an_ended_run_left(self) -> None:
        files = [f'F{number}.DAT' for number in range(5)]
        done = self.run_at(1, 'n', self.program_of(*(f'22 {name}' for name in files)), '--disk', 'd', FAIL_KILLS=1)
        self.assertEqual(done.returncode, -signal.SIGKILL)
        names = [f'd/.{name}.new' for name in files]
        self.expect_folder('d', **{Path(name).name: b'' for name in names})
        quiet, halt = self.program_of('15 NONE'), self.put('halt.com', assemble(['HLT']))
        for _ in range(2):
            self.expect_left('stop WarmBoot', 0, names, quiet, '--disk', 'd')
            self.expect_left('stop WarmBoot', 0, names, quiet, '--disk', 'e', '--disk-c', 'd')
            self.expect_left('stop Halt', 4, names, halt, '--disk', 'd')
        for words in ['--files', 'd'], ['--disk', 'e', '--files-b', 'd'], ['--disk', 'e', '--out-b', 'd'], ['--out', 'd'], ['--disk', 'e']:
            self.expect_end_of(0, WARM_BOOT, quiet, *words)
        while names:
            (self.work / names.pop()).unlink()
            self.expect_left('stop WarmBoot', 0, names, quiet, '--disk', 'd')

    def test_other_hidden_files_are_not_reported(self) -> None:
        names = ['.x.dat.newer', '.a b.new', '.a b.dat.new', '.muchtoolong.new', '.x.toolong.new', '.new', 'x.new', '.x.dat', '.x.dat.old', '.a.b.c.new',
                 '.a.new.', '.a.new.x', '.a.new.1.2', '.a.1.new.', '..new', '.new.1']
        self.put_disk(*names)
        self.expect_end_of(0, WARM_BOOT, self.program_of('15 NONE'), '--disk', 'd')
        self.expect_names(self.work / 'd', *names)


class MeanwhileTest(SureTest):
    """What others do to a disk before a run changes it."""

    def test_a_file_that_is_saved_while_contents_are_synced_stays(self) -> None:
        """All new contents are written then, and no file is changed."""
        for at, name in (1, 'a.dat'), (2, 'a.dat'), (3, 'a.dat'), (3, 'b.dat'), (3, 'old'), (2, 'new'), (3, 'new'):
            with self.subTest(at=at, name=name):
                self.put_disk('a.dat', 'b.dat', 'old')
                self.expect_at(1, f'cpmrun: cannot write d/{name}: it was changed meanwhile\n', at, 'y',
                               self.program_of('21 A.DAT', '22 NEW', '21 B.DAT', '19 OLD'), '--disk', 'd', FAIL_SAVES=f'd/{name}')
                self.expect_folder('d', **{'a.dat': b'one', 'b.dat': b'one', 'old': b'one', name: b'saved'})

    def test_a_disk_gets_no_513th_file(self) -> None:
        """The program prints before it ends, and then another program makes a file."""
        files = {f'F{number:03}': b'one' for number in range(511)}
        self.put_disk(*files)
        message = 'cpmrun: d would have more than 512 files\n'
        program = self.program_of('22 NEW', '21 F000', end=PRINT)
        self.expect_at(1, message, 1, 'w', program, '--disk', 'd', out='.', FAIL_SAVES='d/F511')
        files['F511'] = b'saved'
        self.expect_folder('d', **files)
        self.expect_end_of(1, message, program, '--disk', 'd', out='.')
        self.expect_end_of(1, message, self.program_of('22 NEW', '22 B:B', '22 C:C'), '--disk', 'd', '--out-b', 'o', '--disk-c', 'e', '--deps', 'rule')
        self.expect_end_of(1, message, self.program_of('22 NEW', end='HLT'), '--disk', 'd', '--partial')
        self.expect_end_of(4, f'stop Halt\n{UNCHANGED}', self.program_of('22 NEW', end='HLT'), '--disk', 'd')
        self.assertFalse((self.work / 'rule').exists())
        self.expect_folder('o')
        self.expect_folder('e')
        self.expect_folder('d', **files)
        self.expect_end_of(0, f'{WARM_BOOT}gone F000\n', self.program_of('19 F000', '22 NEW'), '--disk', 'd')
        del files['F000']
        self.expect_folder('d', NEW=b'', **files)

    def test_a_disk_gets_no_two_files_of_one_name(self) -> None:
        """The names of the disk are in upper case, and another program makes `New` while the run makes `NEW`."""
        self.put_disk('OLD', 'A')
        self.expect_at(1, 'cpmrun: two files would be NEW\n', 1, 'w', self.program_of('21 A', '19 OLD', '22 NEW', end=PRINT), '--disk', 'd',
                       out='.', FAIL_SAVES='d/New')
        self.expect_folder('d', A=b'one', OLD=b'one', New=b'saved')


class ReportTest(SureTest):
    """Where the rule of a run is written."""

    def rule(self, *words: object) -> bytes:
        """Returns the rule of a session for the target `out`."""
        return self.run_command(DEPENDENCIES_PROGRAM, *words, '--make', 'out', cwd=self.work).stdout

    def test_a_rule_on_standard_output_comes_after_the_text(self) -> None:
        """Also to a file to which standard output is redirected."""
        (self.work / 'link').symlink_to('/dev/stdout')
        for path in '/dev/stdout', '/dev/fd/1', 'link', '-', 'log', './log':
            with self.subTest(path=path):
                log = self.put('log', 'kept\n')
                with log.open('ab') as out:
                    done = self.run_command(PROGRAM, HI, '--deps', path, '--target', 'out', stdout=out, cwd=self.work)
                self.assertEqual((done.returncode, done.stderr.decode()), (0, WARM_BOOT))
                self.assertEqual(log.read_bytes(), b'kept\nHi' + self.rule(HI))
        self.assertFalse((self.work / '-').exists())

    def test_a_rule_on_standard_error_is_appended(self) -> None:
        (self.work / 'link').symlink_to('/dev/stderr')
        for path in '/dev/stderr', '/dev/fd/2', 'link', 'log':
            with self.subTest(path=path):
                log = self.put('log', 'kept\n')
                with log.open('ab') as err:
                    done = self.run_command(PROGRAM, HI, '--deps', path, '--target', 'out', stderr=err, cwd=self.work)
                self.assertEqual((done.returncode, done.stdout), (0, b'Hi'))
                rule, stop = self.rule(HI), WARM_BOOT.encode()
                self.assertIn(log.read_bytes(), [b'kept\n' + rule + stop, b'kept\n' + stop + rule])

    def test_a_hyphen_is_no_file_of_the_disk(self) -> None:
        """`-` is a CP/M name, but as FILE it is standard output."""
        trace = self.run_command(TRACE_PROGRAM, HI).stdout.decode()
        for folder in '--disk', '--files', '--out':
            with self.subTest(folder=folder):
                self.expect_end_of(0, WARM_BOOT, HI, folder, '.', '--trace', '-', out=f'Hi{trace}')
                self.put_disk('-')
                self.expect(0, f'Hiout: {HI}\n', WARM_BOOT, HI, folder, '.', '--deps', '-', '--target', 'out', cwd=self.work / 'd')

    def test_a_rule_may_have_the_temporary_name_of_a_changed_file(self) -> None:
        for disk, name in ('d', '.a.new'), ('d', '.a.new.1'), ('./d', '.a.new'):
            self.put_disk('a')
            self.expect_end_of(0, WARM_BOOT, self.program_of('21 A'), '--disk', disk, '--deps', f'd/{name}')
            self.expect_names(self.work / 'd', 'a', name)
            self.assertEqual((self.work / 'd/a').read_bytes(), RECORD)
            self.assertTrue((self.work / 'd' / name).read_text().startswith(f'{disk}/a: {self.work}/calls.com'))

    def test_a_rule_is_no_file_of_a_disk(self) -> None:
        """It would count as one, and the next run would read it. A name that is no CP/M name is free, and each name in a folder of `--out`."""
        for option, name in ('--disk', 'rule'), ('--disk', 'New'), ('--disk', 'r.d'), ('--disk-c', 'rule'):
            mistake = f"error: invalid value './d/{name}' for '--deps <FILE>': it would be a file of a disk\n\nFor more information, try '--help'.\n"
            self.expect_end_of(1, mistake, self.program_of('22 NEW'), option, 'd', '--deps', f'./d/{name}')
            self.expect_folder('d')
        for option, name in ('--disk', '.rule'), ('--disk', 'rule.text'), ('--out', 'rule'):
            self.put_disk()
            self.expect_end_of(0, WARM_BOOT, self.program_of('22 NEW'), option, 'd', '--deps', f'./d/{name}')
            self.expect_names(self.work / 'd', 'NEW', name)

    def test_a_rule_may_have_the_longest_name(self) -> None:
        self.put_disk('a')
        for name in 'r' * 251, 'r' * 255:
            self.expect_end_of(0, 'stop WarmBoot\n', self.program_of('21 A'), '--disk', 'd', '--deps', f'o/{name}', '--target', 'out')
            self.assertTrue((self.work / 'o' / name).read_text().startswith('out: '))
            self.expect_end_of(0, 'stop WarmBoot\n', self.program_of('21 A'), '--disk', 'd', '--deps', f'o/{name}', '--target', 'other')
            self.assertTrue((self.work / 'o' / name).read_text().startswith('other: '))
        self.expect_names(self.work / 'o', 'r' * 251, 'r' * 255)


class BiosTest(SureTest):
    """Programs that look at the table of the BIOS, whose cells are zero after the one of the warm start."""

    TAKE = 'LHLD 1; LXI D,9; DAD D; MOV E,M; INX H; MOV D,M; XCHG; PCHL'
    """Takes the address of the console output out of its jump, and jumps there: to 0."""

    def test_a_disk_stays_if_the_program_looked_for_the_bios(self) -> None:
        ends = [('FF0C', self.TAKE), ('FF0C', 'LDA 0FF20H; LHLD 0FF0CH; RET'), ('FF00', 'LDA 0FF00H; RET'), ('FF06', 'LHLD 0FF05H; RET'),
                ('FFFF', 'LDA 0FFFFH; JMP 0')]
        for cell, end in ends:
            with self.subTest(end=end):
                self.put_disk('a', 'old')
                program = self.program_of('21 A', '22 NEW', '19 OLD', end=end)
                line = f'looked for the BIOS at {cell}\n'
                self.expect_end_of(6, f'{WARM_BOOT}{UNCHANGED}{line}', program, '--disk', 'd')
                self.expect_folder('d', a=b'one', old=b'one')
                done = self.run_command(PROGRAM, program, '--disk', 'd', '--partial', cwd=self.work)
                self.assertEqual((done.returncode, sorted(done.stderr.decode().splitlines())), (6, ['gone OLD', line[:-1], 'stop WarmBoot']))
                self.expect_folder('d', a=RECORD, new=b'')

    def test_a_look_for_the_bios_is_only_reported_at_the_warm_start(self) -> None:
        self.put_disk('a')
        for end, status, stop in ('LDA 0FF0CH; HLT', 4, 'stop Halt\n'), ('LDA 0FF0CH; JMP 0FF0CH', 6, 'stop SystemArea FF0C\n'):
            self.expect_end_of(status, stop + UNCHANGED, self.program_of('21 A', end=end), '--disk', 'd')
        self.expect_folder('d', a=b'one')

    def test_a_look_for_the_bios_is_reported_if_no_file_is_changed(self) -> None:
        self.put_disk('a')
        self.expect_end_of(6, f'{WARM_BOOT}looked for the BIOS at FF0C\n', self.program_of('15 A', end=self.TAKE), '--disk-b', 'd')

    def test_listings_and_traces_do_not_report_a_look_for_the_bios(self) -> None:
        program = self.program_of('15 A', end=self.TAKE)
        for words in [DEPENDENCIES_PROGRAM, program, '--make', 'out'], [TRACE_PROGRAM, program], [PROGRAM, program, '--edits', self.put('run', 'run\n')]:
            done = self.run_command(*words, '--disk', 'd', cwd=self.work)
            self.assertEqual((done.returncode, b'BIOS' in done.stdout + done.stderr), (0, False), words)

    def test_the_lines_after_a_stop_come_in_one_order(self) -> None:
        program = self.program_of('19 OLD', '21 A', end=self.TAKE)
        words = [program, '--disk', 'd', '--partial']
        self.put_disk('a', 'old', '.a.new')
        at = self.log_of('y', *words, status=6).index('y d') + 1
        self.put_disk('a', 'old', '.a.new', '.old.new.12')
        done = self.run_at(at, 'y', *words)
        lines = done.stderr.decode().splitlines()
        self.assertEqual((done.returncode, [*lines[:3], *sorted(lines[3:5]), *lines[5:]]), (1, [
            'stop WarmBoot', 'looked for the BIOS at FF0C', 'gone OLD', 'left by an ended run: d/.a.new', 'left by an ended run: d/.old.new.12',
            'not synced: d']))

    def test_a_run_without_a_disk_may_look_for_the_bios(self) -> None:
        self.put_disk('a')
        self.expect_end_of(0, WARM_BOOT, self.program_of('21 A', end=self.TAKE), '--files', 'd', '--out', 'o')
        self.expect_folder('o', A=RECORD)

    def test_a_program_may_look_at_the_warm_start_and_below(self) -> None:
        """The jump at 0 leads to FF03H. From FE00H to FEFFH is the BDOS."""
        for end in 'LHLD 1; MOV A,M; INX H; MOV A,M; INX H; MOV A,M; RET', 'LHLD 1; PCHL', 'LDA 0FEFFH; LHLD 6; MOV A,M; RET', 'JMP 0':
            with self.subTest(end=end):
                self.put_disk('a')
                self.expect_end_of(0, WARM_BOOT, self.program_of('21 A', end=end), '--disk', 'd')
                self.expect_folder('d', a=RECORD)

    def test_a_program_may_read_what_it_wrote_there(self) -> None:
        """A program that uses this memory for its own data looks at nothing."""
        self.put_disk('a')
        end = 'MVI A,7; STA 0FF40H; LDA 0FF40H; RET'
        self.expect_end_of(0, WARM_BOOT, self.program_of('21 A', end=end), '--disk', 'd')
        self.expect_folder('d', a=RECORD)


class FolderTest(SureTest):
    """One folder for two options."""

    def test_a_folder_may_be_read_and_written_without_a_disk(self) -> None:
        self.put_disk('a', 'B')
        self.expect_end_of(0, WARM_BOOT, self.program_of('21 A', '21 B', '22 NEW'), '--files', 'd', '--out', 'd')
        self.expect_folder('d', a=b'one', A=RECORD, B=RECORD, NEW=b'')
        self.expect_end_of(0, WARM_BOOT, self.program_of('22 B:B', '21 B:B'), '--files-d', 'e', '--out-b', './e')
        self.expect_folder('e', B=RECORD)

    def test_two_drives_are_not_written_to_one_folder(self) -> None:
        """A file of one drive would replace one of the other with the same name."""
        program = self.program_of('22 A', '22 B:A', '21 B:A')
        for first, second, more in ('--out', '--out-b', []), ('--out-b', '--out-d', []), ('--out', '--out-b', ['--disk-d', 'd']):
            done = self.run_command(PROGRAM, program, first, 'o', second, './o/', *more, cwd=self.work)
            self.assertEqual((done.returncode, done.stdout), (1, b''))
            mistake = f"error: the argument '{first} <DIR>' cannot be used with '{second} <DIR>': both are the same folder\n"
            self.assertTrue(done.stderr.decode().startswith(mistake), done.stderr)
            self.expect_folder('o')

    def test_a_folder_has_one_option_if_there_is_a_disk(self) -> None:
        for words in ['--disk', 'd', '--disk-b', './d'], ['--disk', 'd', '--files-b', './d'], ['--disk', 'd', '--out-b', './d'], \
                ['--disk-c', 'e', '--files', 'd', '--out', './d']:
            done = self.run_command(PROGRAM, self.program_of('22 NEW'), *words, cwd=self.work)
            self.assertEqual((done.returncode, done.stdout), (1, b''))
            self.assertIn(b'both are the same folder', done.stderr)
        self.expect_folder('d')
