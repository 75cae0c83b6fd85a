"""Runs the built program where a user could lose work: an editor that is stopped, two runs on one disk, files that others make or save while
a program runs, names that are taken, and files that have no place. A disk is changed as a whole, or not at all."""
import fcntl
import os
import shutil
import signal
import stat
import subprocess
import tempfile
from pathlib import Path

from helpers import DEPENDENCIES_PROGRAM, PROGRAM, RECORD, TOP, TRACE_PROGRAM, ProgramTest, build_library, calls
from test_command import limit_file_size
from test_disk import PADDED, WARM_BOOT, DiskTest
from vembrusk.assembler import assemble

EDITOR = TOP / 'tests/programs/ed0/ed0.com'
CLOSED = 'cpmrun: cannot write standard output\n'
UNCHANGED = 'disk unchanged\n'

ENDS = [
    (0, 'WarmBoot', 'RET'),
    (4, 'Halt', 'HLT'),
    (5, 'Undefined 08', 'DB 8'),
    (6, 'SystemArea FE00', 'JMP 0FE00H'),
    (7, 'ConsoleExhausted', 'MVI C,1; CALL 5'),
    (9, 'Unsupported 3', 'MVI C,3; CALL 5'),
    (10, 'BadDrive 4', 'MVI C,14; MVI E,4; CALL 5'),
]
"""Ends of programs, each with its status and its cause."""

SPIN = 'spin: JMP spin'
COUNT = ['MVI D,4', 'outer: LXI B,0', 'inner: DCX B', 'MOV A,B', 'ORA C', 'JNZ inner', 'DCR D', 'JNZ outer', 'RET']
"""A program of a little more than 1,048,576 steps."""


class StopTest(DiskTest):
    """When a disk is changed: if the run stops by WarmBoot, or with --partial."""

    def test_an_editor_that_is_stopped_leaves_the_letter(self) -> None:
        letter = b''.join(b'this is line %03d of a letter\r\n' % number for number in range(770))
        words = [EDITOR, 'letter.txt', '--disk', self.disk, '--typed', r'i 1\rmore\rw\rq']
        self.put('disk/letter.txt', letter)
        for limit in 1000, 200_000, 500_000, 1_000_000:
            done = self.run_command(PROGRAM, *words, '--limit', str(limit))
            self.assertIn((done.returncode, done.stderr.decode()), [(3, 'stop Limit\n'), (3, f'stop Limit\n{UNCHANGED}')])
            self.expect_files(**{'letter.txt': letter})
        self.assertTrue(done.stderr.endswith(UNCHANGED.encode()), 'the letter is in part written at the limit')
        done = self.run_command(PROGRAM, *words)
        self.assertEqual((done.returncode, done.stderr.decode()), (0, WARM_BOOT))
        self.expect_files(**{'letter.txt': (text := b'more\r\n' + letter) + b'\x1a' * (-len(text) % 128)})

    def test_each_stop(self) -> None:
        self.put('disk/a', 'one')
        self.put('disk/old', 'one')
        for status, cause, end in ENDS:
            with self.subTest(cause):
                program = self.put('stops.com', calls('21 A', '22 NEW', '19 OLD', end=end))
                whole, partial = (self.work / f'{cause}-{kind}' for kind in ('whole', 'partial'))
                for folder in whole, partial:
                    shutil.copytree(self.disk, folder)
                self.expect(status, '', f'stop {cause}\n' + (UNCHANGED if status else 'gone OLD\n'), program, '--disk', whole)
                self.expect_names(whole, 'a', *(['old'] if status else ['new']))
                self.expect(status, '', f'stop {cause}\ngone OLD\n', program, '--disk', partial, '--partial')
                self.expect_names(partial, 'a', 'new')
                self.assertEqual([(folder / 'a').read_bytes() for folder in (whole, partial)], [b'one' if status else RECORD, RECORD])

    def test_only_a_disk_that_the_run_would_change_is_reported(self) -> None:
        """What is read, written as it was, or written elsewhere is no change of the disk."""
        self.put('disk/same', RECORD)
        (self.work / 'out').mkdir()
        words = ['--disk', self.disk, '--out-b', self.work / 'out', '--limit', '1000']
        for line, acts in ('', ['20 SAME']), ('', ['21 SAME']), ('', ['22 X', '19 X']), ('', ['21 B:NEW']), (UNCHANGED, ['22 X']), (UNCHANGED, ['19 SAME']):
            self.expect(3, '', f'stop Limit\n{line}', self.put('calls.com', calls(*acts, end=SPIN)), *words)
            self.expect_files(same=RECORD)
        self.put('calls.com', calls('22 B:NEW', '21 B:NEW', '22 X', end=SPIN))
        self.expect(3, '', f'stop Limit\n{UNCHANGED}', self.work / 'calls.com', *words)
        self.assertEqual((self.work / 'out/NEW').read_bytes(), RECORD)
        self.expect(3, '', 'stop Limit\n', self.work / 'calls.com', '--files', self.disk, '--limit', '1000')

    def test_a_run_on_a_disk_may_be_long(self) -> None:
        program = self.put('count.com', assemble(COUNT))
        self.expect(3, '', 'stop Limit\n', program, '--files', self.disk)
        for option in '--disk', '--disk-c':
            self.expect(0, '', WARM_BOOT, program, option, self.disk)
        self.expect(3, '', 'stop Limit\n', program, '--disk', self.disk, '--limit', '1000000')
        for other in DEPENDENCIES_PROGRAM, TRACE_PROGRAM:
            for option, cause in ('--files', 'Limit'), ('--disk', 'WarmBoot'), ('--disk-d', 'WarmBoot'):
                done = self.run_command(other, program, option, self.disk)
                self.assertEqual((done.stderr, done.stdout.decode().splitlines()[-1]), (b'', f'stop {cause}'))

    def test_an_interrupt_leaves_the_disk(self) -> None:
        """The program writes a file, prints a byte, and never ends."""
        self.put('disk/a', 'one')
        process = self.start(self.put('calls.com', calls('21 A', end=f'MVI E,120; MVI C,2; CALL 5; {SPIN}')), '--disk', self.disk)
        self.assertEqual(process.stdout.read(1), b'x')
        process.send_signal(signal.SIGINT)
        self.expect_end(-signal.SIGINT, '', '', process)
        self.expect_files(a=b'one')

    def test_a_run_that_failed_can_be_looked_at(self) -> None:
        """It opens a file, writes it, and halts."""
        self.put('disk/a', 'one')
        program = self.put('calls.com', calls('15 A', '21 A', end='HLT'))
        self.expect(4, '', f'stop Halt\n{UNCHANGED}', program, '--disk', self.disk)
        for other in TRACE_PROGRAM, DEPENDENCIES_PROGRAM:
            for option in '', '-b', '-c', '-d':
                done, wanted = (self.run_command(other, program, f'--{kind}{option}', self.disk) for kind in ('disk', 'files'))
                self.assertEqual((done.returncode, done.stdout, done.stderr), (0, wanted.stdout, b''))
                self.assertTrue(done.stdout.endswith(b'stop Halt\n'))
        self.expect_files(a=b'one')


class OutputTest(DiskTest):
    """Standard output that can't be written, and files that have no place."""

    def expect_closed(self, err: str, *words: object) -> None:
        """Expects this on standard error if nobody reads standard output."""
        read_end, write_end = os.pipe()
        os.close(read_end)
        with open(write_end, 'wb') as pipe:
            done = self.run_command(PROGRAM, *words, stdout=pipe)
        self.assertEqual((done.returncode, done.stderr.decode()), (1, err))

    def test_a_closed_pipe_leaves_the_disk(self) -> None:
        self.put('disk/a', 'one')
        out = self.work / 'out'
        out.mkdir()
        program = self.put('calls.com', calls('21 A', '22 B:NEW', end='MVI E,120; MVI C,2; CALL 5; RET'))
        self.expect_closed(CLOSED + UNCHANGED, program, '--disk', self.disk, '--out-b', out)
        self.expect_closed(CLOSED + UNCHANGED, program, '--disk', self.disk, '--out-b', out, '--partial')
        self.expect_closed(CLOSED, program, '--files', self.disk, '--out-b', out)
        self.expect_files(a=b'one')
        self.expect_names(out)
        self.expect(0, 'x', WARM_BOOT, program, '--disk', self.disk, '--out-b', out)
        self.expect_names(out, 'NEW')

    def test_no_file_is_changed_if_a_changed_file_has_no_place(self) -> None:
        """The message names the first such file. Without a disk nothing is lost, and the file is dropped."""
        self.put('disk/old', 'one')
        other, out = self.work / 'other', self.work / 'out'
        other.mkdir()
        out.mkdir()
        acts = ['22 C:NOTE.TXT', '22 D:X', '22 B:Y', '22 NEW', '19 OLD']
        program = self.put('calls.com', calls(*acts))
        for name, words in [
            ('B:Y', []), ('C:NOTE.TXT', ['--out-b', out]), ('D:X', ['--out-b', out, '--disk-c', other]), ('D:X', ['--out-b', out, '--out-c', other]),
        ]:
            for partial in [], ['--partial']:
                self.expect(1, '', f'cpmrun: cannot write {name}: drive {name[0]} has no folder\n', program, '--disk', self.disk, *words, *partial)
            self.expect_files(old=b'one')
            self.expect_names(other)
            self.expect_names(out)
        self.expect(0, '', f'{WARM_BOOT}gone OLD\n', program, '--files', self.disk, '--out-b', out)
        self.expect_names(out, 'Y')
        program = self.put('halts.com', calls(*acts, end='HLT'))
        lines = ''.join(f'not written {name}\n' for name in ('B:Y', 'C:NOTE.TXT', 'D:X'))
        self.expect(4, '', f'stop Halt\n{UNCHANGED}{lines}', program, '--disk', self.disk)
        self.expect(1, '', 'cpmrun: cannot write B:Y: drive B has no folder\n', program, '--disk', self.disk, '--partial')
        self.expect_files(old=b'one')
        program = self.put('calls.com', calls('22 NEW', '21 B:OLD'))
        self.expect(1, '', 'cpmrun: cannot write NEW: drive A has no folder\n', program, '--disk-b', self.disk)
        self.expect_files(old=b'one')

    def test_a_file_that_is_moved_to_a_drive_without_a_folder_is_not_lost(self) -> None:
        """The program writes the file there, and then erases it here, as each program moves a file to another drive."""
        self.put('disk/x.txt', 'one')
        program = self.put('move.com', calls('15 X.TXT', '22 C:X.TXT', '21 C:X.TXT', '19 X.TXT'))
        self.expect(1, '', 'cpmrun: cannot write C:X.TXT: drive C has no folder\n', program, '--disk', self.disk)
        self.expect_files(**{'x.txt': b'one'})


class FolderTest(ProgramTest):
    """Two folders that are the same one."""

    def expect_clash(self, first: str, second: str, *words: object) -> None:
        """Expects a usage error of two options, although the program is not there."""
        self.expect(1, '', f"error: the argument '--{first} <DIR>' cannot be used with '--{second} <DIR>': both are the same folder\n\n"
                    "Usage: cpmrun [OPTIONS] <PROGRAM> [TAIL]\n\nFor more information, try '--help'.\n", 'none.com', *words)

    def test_a_disk_that_is_a_folder_of_another_option_is_a_usage_error(self) -> None:
        (self.work / 's').mkdir()
        (self.work / 'link').symlink_to('s')
        folder = self.work / 's'
        for other in folder, f'{folder}/', f'{folder}/../s', self.work / 'link':
            for first, second in ('disk', 'disk-b'), ('disk', 'files-b'), ('disk-b', 'disk-d'), ('disk', 'out-c'), ('disk-c', 'files'):
                with self.subTest(other=other, first=first, second=second):
                    self.expect_clash(first, second, f'--{first}', folder, f'--{second}', other)
                    self.expect_clash(first, second, f'--{second}', other, f'--{first}', folder)

    def test_one_folder_may_be_read_twice(self) -> None:
        program = self.put('return.com', assemble(['RET']))
        self.expect(0, '', WARM_BOOT, program, '--files', self.work, '--files-b', self.work)
        self.expect(1, '', 'cpmrun: cannot read none\n', program, '--disk', 'none', '--disk-b', 'none')


class MeanwhileTest(DiskTest):
    """What others do while a program runs."""

    def setUp(self) -> None:
        super().setUp()
        for name in 'note.txt', 'old', 'kept':
            self.put(f'disk/{name}', 'one')
        self.program = self.put('calls.com', calls('21 NOTE.TXT', '19 OLD', '22 NEW'))

    def expect_refusal(self, name: str, mistake: str, process: subprocess.Popen) -> None:
        """Expects that a run ends with a message about a file of the disk, and leaves all files."""
        before = {path.name: path.read_bytes() for path in self.disk.iterdir()}
        self.expect_end(1, '', f'cpmrun: cannot write {self.disk}/{name}: {mistake}\n', process)
        self.expect_files(**before)

    def test_a_file_that_is_saved_while_the_program_runs_stays(self) -> None:
        for name, data in ('note.txt', b'saved'), ('note.txt', b'On'), ('old', b'saved'), ('old', b''), ('new', b'saved'):
            with self.subTest(name=name, data=data):
                with self.held(self.program, '--disk', self.disk) as process:
                    self.put(f'disk/{name}', data)
                self.expect_refusal(name, 'it was changed meanwhile', process)
                (self.disk / 'new').unlink(missing_ok=True)
                self.put('disk/note.txt', 'one')
                self.put('disk/old', 'one')

    def test_a_file_that_is_removed_while_the_program_runs_is_not_made_again(self) -> None:
        for name in 'note.txt', 'old':
            with self.held(self.program, '--disk', self.disk) as process:
                (self.disk / name).unlink()
            self.expect_refusal(name, 'it was changed meanwhile', process)
            self.put(f'disk/{name}', 'one')

    def test_files_that_the_run_leaves_may_be_saved(self) -> None:
        """A file that is saved with the same contents is no change either."""
        with self.held(self.program, '--disk', self.disk) as process:
            self.put('disk/kept', 'saved')
            self.put('disk/other', 'saved')
            (self.disk / 'note.txt').rename(self.disk / 'away')
            self.put('disk/note.txt', 'one')
        self.expect_end(0, '', f'{WARM_BOOT}gone OLD\n', process)
        self.expect_files(**{'note.txt': RECORD, 'new': b'', 'kept': b'saved', 'other': b'saved', 'away': b'one'})

    def test_a_second_run_waits_for_the_disk(self) -> None:
        second = self.put('second.com', calls('23 NOTE.TXT B', '19 NEW'))
        with self.held(self.program, '--disk', self.disk) as process:
            other = self.start(second, '--disk', self.disk)
            with self.assertRaises(subprocess.TimeoutExpired):
                other.wait(timeout=1)
            self.expect_names(self.disk, 'kept', 'note.txt', 'old')
        self.expect_end(0, '', f'{WARM_BOOT}gone OLD\n', process)
        self.expect_end(0, '', f'{WARM_BOOT}gone NEW\ngone NOTE.TXT\n', other)
        self.expect_files(b=RECORD, kept=b'one')

    def test_a_disk_is_locked_and_other_folders_are_not(self) -> None:
        for option, is_locked in ('--disk', True), ('--disk-d', True), ('--files', False), ('--out', False):
            with self.held(self.put('reads.com', calls('15 NOTE.TXT')), option, self.disk) as process:
                folder = os.open(self.disk, os.O_RDONLY)
                try:
                    fcntl.flock(folder, fcntl.LOCK_EX | fcntl.LOCK_NB)
                    self.assertFalse(is_locked, option)
                except BlockingIOError:
                    self.assertTrue(is_locked, option)
                finally:
                    os.close(folder)
            self.expect_end(0, '', WARM_BOOT, process)

    def test_two_runs_on_two_disks_do_not_wait_for_each_other(self) -> None:
        (self.work / 'other').mkdir()
        words = [self.program, '--limit', '0', '--disk', self.disk, '--disk-b', self.work / 'other']
        swapped = [self.program, '--limit', '0', '--disk', self.work / 'other', '--disk-b', self.disk]
        runs = [self.start(*each) for _ in range(10) for each in (words, swapped)]
        for run in runs:
            self.expect_end(3, '', 'stop Limit\n', run)


class NameTest(DiskTest):
    """Names that are taken."""

    @classmethod
    def setUpClass(cls) -> None:
        super().setUpClass()
        cls.preload = build_library('fail', Path(cls.enterClassContext(tempfile.TemporaryDirectory())))

    def log_of_calls(self, letters: str, *acts: str, words: tuple[object, ...] = ()) -> list[str]:
        """Runs a program that makes these calls of files over the disk, and returns its calls of the system of these kinds."""
        log = self.work / 'log'
        log.unlink(missing_ok=True)
        env = {**os.environ, 'LD_PRELOAD': str(self.preload), 'FAIL_CALLS': letters, 'FAIL_LOG': str(log)}
        done = self.run_command(PROGRAM, self.put('calls.com', calls(*acts)), '--disk', self.disk, *words, env=env)
        self.assertEqual((done.returncode, done.stdout), (0, b''), done.stderr)
        return log.read_text().replace(f'{self.disk}/', '').splitlines() if log.exists() else []

    def make_entry(self, path: Path, kind: str) -> None:
        """Makes something that is no regular file."""
        if kind == 'folder':
            path.mkdir()
        elif kind == 'fifo':
            os.mkfifo(path)
        elif kind == 'device':
            os.mknod(path, 0o666 | stat.S_IFCHR, os.makedev(1, 3))
        else:
            path.symlink_to('kept' if kind == 'link' else 'nowhere')

    def test_a_temporary_name_that_is_taken_is_the_users(self) -> None:
        self.put('disk/note.txt', 'one')
        self.assertEqual(self.log_of_calls('n', '21 NOTE.TXT'), ['n .note.txt.new note.txt'])
        mine = {'.note.txt.new': b'mine'}
        self.put('disk/.note.txt.new', 'mine').chmod(0o444)
        self.put('disk/note.txt', 'one')
        self.assertEqual(self.log_of_calls('n', '21 NOTE.TXT'), ['n .note.txt.new.1 note.txt'])
        self.expect_files(**{'note.txt': RECORD}, **mine)
        self.put('disk/.note.txt.new.2', 'mine too')
        self.put('disk/note.txt', 'one')
        self.assertEqual(self.log_of_calls('n', '21 NOTE.TXT'), ['n .note.txt.new.1 note.txt'])
        self.expect_files(**{'note.txt': RECORD, '.note.txt.new.2': b'mine too'}, **mine)

    def test_a_file_is_not_written_if_all_temporary_names_are_taken(self) -> None:
        self.put('disk/note.txt', 'one')
        names = ['.note.txt.new', *(f'.note.txt.new.{number}' for number in range(1, 1000))]
        for name in names:
            self.put(f'disk/{name}', '')
        self.expect(1, '', f'cpmrun: cannot write {self.disk}/note.txt: no temporary name beside it is free\n',
                    self.put('calls.com', calls('21 NOTE.TXT')), '--disk', self.disk)
        self.expect_names(self.disk, 'note.txt', *names)
        self.assertEqual((self.disk / 'note.txt').read_text(), 'one')
        (self.disk / names[-1]).unlink()
        self.assertEqual(self.log_of_calls('n', '21 NOTE.TXT'), [f'n {names[-1]} note.txt'])

    def test_a_temporary_name_may_be_a_folder_a_link_or_a_fifo(self) -> None:
        kinds = ['folder', 'fifo', 'link', 'nowhere']
        for number, kind in enumerate(kinds):
            self.make_entry(self.disk / f'.note.txt.new{f".{number}" if number else ""}', kind)
        names = os.listdir(self.disk)
        self.put('disk/kept', 'kept')
        self.put('disk/note.txt', 'one')
        self.assertEqual(self.log_of_calls('n', '21 NOTE.TXT'), ['n .note.txt.new.4 note.txt'])
        self.expect_names(self.disk, 'kept', 'note.txt', *names)
        self.assertEqual([(self.disk / name).read_bytes() for name in ('kept', 'note.txt')], [b'kept', RECORD])

    def test_what_is_no_regular_file_is_not_replaced(self) -> None:
        """Of the files outside of disks those before it are written."""
        program = self.put('calls.com', calls('21 A', '22 NEW', '21 NEW', '19 OLD', '22 AAA'))
        for option, name in ('--disk', 'new'), ('--out', 'NEW'):
            for kind in ['folder', 'fifo', 'link', 'nowhere', *(['device'] if os.geteuid() == 0 else [])]:
                with self.subTest(option=option, kind=kind):
                    folder = self.work / f'{option}-{kind}'
                    folder.mkdir()
                    for file in 'a', 'kept', 'old':
                        (folder / file).write_text('one')
                    self.make_entry(folder / name, kind)
                    before = [(path.name, path.lstat().st_mode, path.lstat().st_ino) for path in folder.iterdir()]
                    self.expect(1, '', f'cpmrun: cannot write {folder}/{name}: it is no regular file\n', program, option, folder, timeout=20)
                    after = [(path.name, path.lstat().st_mode, path.lstat().st_ino) for path in folder.iterdir()]
                    written = [] if option == '--disk' else ['AAA']
                    self.assertEqual(sorted(each for each in after if each[0] not in written), sorted(before))
                    self.assertEqual(sorted(each[0] for each in after if each not in before), written)
                    self.assertEqual([(folder / file).read_text() for file in ('a', 'kept', 'old')], ['one'] * 3)

    def test_a_file_that_becomes_a_folder_meanwhile_stays(self) -> None:
        self.put('disk/note.txt', 'one')
        with self.held(self.put('calls.com', calls('21 NOTE.TXT', '22 NEW')), '--disk', self.disk) as process:
            (self.disk / 'note.txt').unlink()
            (self.disk / 'note.txt').mkdir()
        self.expect_end(1, '', f'cpmrun: cannot write {self.disk}/note.txt: it is no regular file\n', process)
        self.expect_names(self.disk, 'note.txt')

    def test_a_backup_that_cannot_be_written_keeps_the_old_text(self) -> None:
        """An editor renames A.ASM to A.BAK, and makes A.ASM."""
        editor = ['19 A.BAK', '23 A.ASM A.BAK', '22 A.ASM', '21 A.ASM']
        self.put('disk/a.asm', 'one')
        (self.disk / 'a.bak').mkdir()
        self.expect(1, '', f'cpmrun: cannot write {self.disk}/a.bak: it is no regular file\n',
                    self.put('calls.com', calls(*editor)), '--disk', self.disk)
        self.expect_names(self.disk, 'a.asm', 'a.bak')
        self.assertEqual((self.disk / 'a.asm').read_bytes(), b'one')
        (self.disk / 'a.bak').rmdir()
        self.assertEqual(self.log_of_calls('nu', *editor), ['n .a.bak.new a.bak', 'n .a.asm.new a.asm'])
        self.expect_files(**{'a.asm': RECORD, 'a.bak': PADDED})

    def test_new_files_come_first_and_removals_last(self) -> None:
        for name in 'a', 'c', 'old', 'same':
            self.put(f'disk/{name}', RECORD if name == 'same' else 'one')
        log = self.log_of_calls('nuy', '19 OLD', '21 A', '22 B', '22 D', '21 D', '21 C', '21 SAME', '19 A', '22 Z', '22 A')
        self.assertEqual([line for line in log if line[0] != 'y'],
                         ['n .b.new b', 'n .d.new d', 'n .z.new z', 'n .a.new a', 'n .c.new c', 'u old'])
        syncs = [number for number, line in enumerate(log) if line[0] == 'y']
        self.assertEqual([log[number] for number in syncs], [*(f'y .{name}.new' for name in 'bdzac'), f'y {self.disk}'])
        self.assertEqual(syncs, [0, 1, 2, 3, 4, len(log) - 1], 'all is synced before the first rename, and the folder at the end')
        self.expect_files(a=b'', b=b'', c=RECORD, d=RECORD, z=b'', same=RECORD)

    def test_nothing_is_left_if_a_file_cannot_be_prepared(self) -> None:
        """No file may be longer than 4,096 bytes; BEN would be."""
        for name in 'ann', 'ben', 'old':
            self.put(f'disk/{name}', name)
        program = self.put('calls.com', calls('19 OLD', '22 NEW', '21 ANN', *['21 BEN'] * 33, '22 Z'))
        for words in ['--disk', self.disk], ['--disk', self.disk, '--partial']:
            self.expect(1, '', f'cpmrun: cannot write {self.disk}/ben\n', program, *words, preexec_fn=limit_file_size)
            self.expect_files(ann=b'ann', ben=b'ben', old=b'old')
