"""Runs the built program with its whole command line over real files and folders: each status and each message, which files of a folder
are host files, which files are written where, whether standard input is read, and how long a start takes."""
import os
import re
import resource
import shutil
import signal
import time
from pathlib import Path

from helpers import DRIVES, HI, OUT_OF_MEMORY, PROGRAM, RENAME, ProgramTest, build_library, calls, file_of_drive
from vembrusk.assembler import assemble

WARM_BOOT = 'stop WarmBoot\n'
READ_OPTIONS = ['--files', '--files-b', '--files-c', '--files-d', '--disk', '--disk-d', '--console', '--edits']

RETURN = assemble(['RET'])
"""Returns at once."""

LIST = assemble([
    'MVI C,17; LXI D,5CH', 'next: CALL 5; CPI 0FFH; JZ 0; LXI H,81H; MVI B,11',
    'letter: MOV E,M; MVI C,2; PUSH H; PUSH B; CALL 5; POP B; POP H; INX H; DCR B; JNZ letter', 'MVI E,0AH; MVI C,2; CALL 5; MVI C,18; JMP next'])
"""Prints a line with the name and the type of each file that the tail names."""

THREE = assemble([
    'again: MVI C,22; LXI D,5CH; CALL 5; LDA 5DH; ANI 2; RLC; RLC; RLC; RLC; STA 7DH; MVI C,34; CALL 5',
    "LXI H,5DH; INR M; MOV A,M; CPI 'D'; JNZ again; MVI E,'.'; MVI C,2; CALL 5; RET"])
"""Makes A, B and C, writes record 0 of A and record 32 of the others, and prints a point."""

A_OF_THREE = bytes.fromhex('022041') + bytes(125)
"""The file A that THREE makes: one record, the command tail with its length."""

B_OF_THREE = bytes(4096) + A_OF_THREE
"""The files B and C that THREE makes: 32 records of zeros before that one."""

STOPS = [
    (0, 'WarmBoot', 'RET'),
    (3, 'Limit', 'JMP 100H'),
    (4, 'Halt', 'HLT'),
    (5, 'Undefined 08', 'DB 8'),
    (6, 'SystemArea FE00', 'JMP 0FE00H'),
    (7, 'ConsoleExhausted', 'MVI C,1; CALL 5'),
    (8, 'NoDollar', 'MVI C,9; CALL 5'),
    (9, 'Unsupported 3', 'MVI C,3; CALL 5'),
    (10, 'BadDrive 4', 'MVI C,14; MVI E,4; CALL 5'),
]

OUT_OF_RANGE = [
    ('--slots', '0', '1..=4096'),
    ('--slots', '4097', '1..=4096'),
    ('--spacing', '0', '1..=1000000000'),
    ('--spacing', '1000000001', '1..=1000000000'),
    ('--limit', '4000000001', '0..=4000000000'),
]

NOT_HOST_NAMES = ['abcdefghi', 'a.long', 'a b', 'a+b', '.hidden', 'a.b.c', 'a*', 'a\nb', 'b:x', 'A:X', 'e:x', os.fsdecode(b'\xc3\xa4'),
                  '.X.new']
"""Names that no host file has: too long, with bytes that no name has, with nothing before the type, or with a drive."""

FULL_FOLDER = '''mount -t tmpfs -o size=12k none "$1" || exit
echo old > "$1/B"
"${@:3}"
status=$?
cp "$1"/.[!.]* "$1"/* "$2" 2> /dev/null
exit "$status"'''
"""Runs a command over a full folder, the first argument, and then copies its files to the second."""


def make_file(path: Path, size: int) -> None:
    """Makes a file of zeros, or changes the size of one."""
    path.touch()
    os.truncate(path, size)


def make_files(folder: Path, count: int, size: int) -> None:
    """Makes `count` files of `size` bytes in a folder."""
    folder.mkdir(exist_ok=True)
    for number in range(count):
        make_file(folder / f'f{number:03}', size)


def limit_file_size() -> None:
    """Makes each write past 4,096 bytes of a file fail with an error and no signal."""
    signal.signal(signal.SIGXFSZ, signal.SIG_IGN)
    resource.setrlimit(resource.RLIMIT_FSIZE, (4096, 4096))


class CommandTest(ProgramTest):
    """A test with the programs of the 8080 that several tests run."""

    def setUp(self) -> None:
        self.addCleanup(os.umask, os.umask(0o022))
        super().setUp()
        self.ret = self.put('return.com', RETURN)
        self.rename = self.put('rename.com', RENAME)
        self.drives = self.put('drives.com', DRIVES)
        self.list = self.put('list.com', LIST)
        self.three = self.put('three.com', THREE)

    def make_folder(self, name: str) -> Path:
        folder = self.work / name
        folder.mkdir()
        return folder

    def expect_error(self, message: str, *words: object) -> None:
        """Expects this message, status 1, and nothing on standard output."""
        self.expect(1, '', f'cpmrun: {message}\n', *words)

    def expect_bytes(self, path: Path, data: bytes) -> None:
        self.assertEqual(path.read_bytes(), data, path)


class MessageTest(CommandTest):
    """Statuses and messages."""

    def test_each_stop_has_its_status(self) -> None:
        for status, cause, program in STOPS:
            with self.subTest(cause):
                self.expect(status, '', f'stop {cause}\n', self.put('stops.com', assemble([program])))
        self.expect(0, 'Hi', WARM_BOOT, HI)
        self.expect(3, 'Hi', 'stop Limit\n', HI, '--limit', '5')

    def test_values_out_of_range_have_the_message_of_clap(self) -> None:
        for option, value, values in OUT_OF_RANGE:
            with self.subTest(option, value=value):
                message = f"error: invalid value '{value}' for '{option} <N>': {value} is not in {values}\n"
                self.expect(1, '', f"{message}\nFor more information, try '--help'.\n", HI, option, value)

    def test_the_usage_is_printed_for_help_and_for_a_missing_program(self) -> None:
        for status, words in [(0, ['--help']), (0, ['-h']), (1, []), (1, ['--limit', '5'])]:
            with self.subTest(words=words):
                done = self.run_command(PROGRAM, *words)
                usage, other = (done.stdout, done.stderr) if status == 0 else (done.stderr, done.stdout)
                self.assertEqual((done.returncode, other), (status, b''))
                self.assertRegex(usage, re.compile(rb'^Usage: cpmrun .*<PROGRAM>', re.MULTILINE))

    def test_missing_files_cannot_be_read(self) -> None:
        self.expect_error('cannot read none.com', 'none.com')
        self.expect_error(f'cannot read {self.work}', self.work)
        for option in READ_OPTIONS:
            with self.subTest(option):
                self.expect_error('cannot read none', HI, option, 'none')
        self.expect_error(f'cannot read {self.work}', HI, '--console', self.work)
        self.expect_error(f'cannot read {self.work}', HI, '--edits', self.work)
        self.expect_error(f'cannot read {self.ret}', HI, '--files', self.ret)

    def test_a_pipe_is_no_program_and_nothing_waits_for_it(self) -> None:
        pipe, link = self.work / 'pipe', self.work / 'link'
        os.mkfifo(pipe)
        link.symlink_to(pipe)
        for path in [pipe, link]:
            with self.subTest(path):
                self.expect(1, '', f'cpmrun: cannot read {path}\n', path, timeout=20)

    def test_a_program_can_be_a_link(self) -> None:
        (self.work / 'link').symlink_to(HI)
        self.expect(0, 'Hi', WARM_BOOT, self.work / 'link')

    def test_control_characters_of_a_path_are_shown(self) -> None:
        """A message is one line and does not control a terminal, whatever the path; other characters are as they are."""
        path = 'a\nb\r\tc\x1b[31m\x01\x7f ä"\\'
        shown = 'a\\nb\\r\\tc\\x1B[31m\\x01\\x7F ä"\\'
        self.expect_error(f'cannot read {shown}', path)
        for option in READ_OPTIONS:
            with self.subTest(option):
                self.expect_error(f'cannot read {shown}', HI, option, path)
        self.expect(1, '.', f'cpmrun: cannot write {shown}/A\n', self.three, 'a', '--out', path)

    def test_each_message_shows_a_path_of_300_bytes(self) -> None:
        path = 'a' * 150 + '/' + 'b' * 149
        self.assertEqual(len(path), 300)
        self.expect_error(f'cannot read {path}', path)
        for option in READ_OPTIONS:
            with self.subTest(option):
                self.expect_error(f'cannot read {path}', HI, option, path)
        self.expect(1, '.', f'cpmrun: cannot write {path}/A\n', self.three, 'a', '--out', path)

    def test_a_session_is_refused_for_the_first_part_that_is_wrong(self) -> None:
        longest_program = self.put('longest.com', bytes(64512))
        program = self.put('too-long.com', bytes(64513))
        longest_script = self.put('longest', bytes(1048576))
        script = self.put('too-long', bytes(1048577))
        self.expect(3, '', 'stop Limit\n', longest_program, '~' * 126, '--console', longest_script, '--limit', '0')
        for number, words in [
            (1, [program, '~' * 127, '--console', script]),
            (2, [HI, '\t' * 127, '--console', script]),
            (3, [HI, '\x7f', '--console', script]),
            (3, [HI, '\x1f']),
            (3, [HI, b'\xc3\xa4']),
            (4, [HI, '--console', script, '--edits', 'none']),
            (1, ['/dev/zero']),
            (4, [HI, '--console', '/dev/zero']),
        ]:
            with self.subTest(number, words=words):
                self.expect_error(f'session refused {number}', *words)

    def test_wrong_edit_lines_are_reported(self) -> None:
        for status, out, err, text in [
            (2, 'ok\n', 'cpmrun: line 2 is malformed\n', 'limit 5\nbogus\nrun\n'),
            (2, 'ok\n', 'cpmrun: line 2 is too long\n', 'limit 5\n' + ' ' * 65537),
            (0, '', '', ''),
        ]:
            with self.subTest(text[:20]):
                self.expect(status, out, err, HI, '--edits', self.put('edits', text))

    def test_a_failed_allocation_has_its_status(self) -> None:
        """Without memory for the first two, the names of a device and of a kind of terminal, the program goes on as without a terminal."""
        library = build_library('refuse', self.work)
        preload = {'LD_PRELOAD': str(library), 'REFUSE_AT': '3', 'REFUSE_MARK': str(self.work / 'mark')}
        self.expect(12, '', OUT_OF_MEMORY, HI, env={**os.environ, **preload})

    def test_the_first_error_is_reported(self) -> None:
        folder = self.make_folder('order')
        self.put('order/x', '')
        self.put('order/X', '')
        for message, words in [
            ('cannot read none.com', ['none.com', '--console', 'no-script']),
            ('cannot read no-script', [HI, '--files', 'none', '--console', 'no-script']),
            ('cannot read no-script', [HI, '--files-d', folder, '--console', 'no-script']),
            ('two files are X', [HI, '--files', folder, '--files-b', 'none']),
            ('cannot read none', [HI, '--files-b', 'none', '--files-c', folder]),
            ('two files are C:X', [HI, '--files-c', folder, '--files-d', 'none']),
            ('two files are D:X', [HI, '\x7f', '--files-d', folder]),
            ('cannot read no-script', [HI, '\x7f', '--console', 'no-script', '--edits', 'no-edits']),
            ('session refused 3', [HI, '\x7f', '--edits', 'no-edits']),
        ]:
            with self.subTest(message, words=words):
                self.expect_error(message, *words)


class HostFileTest(CommandTest):
    """Which files of a folder are host files."""

    def fill_folder(self, folder: Path) -> None:
        """Fills a folder with entries that are not host files, and with four that are."""
        for name in ['sub', 'sub.dir']:
            (folder / name).mkdir()
        for name in [*NOT_HOST_NAMES, 'a.txt', 'B-1', '#$@_.9', 'c.']:
            (folder / name).write_text(f'{name}\n', errors='surrogateescape')
        os.mkfifo(folder / 'fifo')
        (folder / 'link.txt').symlink_to('a.txt')
        (folder / 'nowhere').symlink_to('none')
        (folder / 'here').symlink_to('.')

    def test_regular_files_with_valid_names_are_host_files(self) -> None:
        folder = self.make_folder('mixed')
        self.fill_folder(folder)
        (self.work / 'to-mixed').symlink_to('mixed')
        names = '#$@_    9  \nA       TXT\nB-1        \nC          \n'
        for out, words in [
            (names, ['*.*', '--files', folder]),
            (names, ['b:*.*', '--files-b', f'{folder}/']),
            (names, ['C:*.*', '--files-c', self.work / 'to-mixed']),
            (names, ['d:*.*', '--files-d', f'{folder}/sub/..']),
            ('', ['b:*.*', '--files', folder, '--files-c', folder]),
        ]:
            with self.subTest(words=words):
                self.expect(0, out, WARM_BOOT, self.list, *words, timeout=20)

    def test_a_name_that_is_not_text_is_an_error_of_its_folder(self) -> None:
        for name in ['bytes', 'bytes-of-a-folder', 'half-a-letter']:
            self.make_folder(name)
            self.put(f'{name}/a.txt', '')
        self.put(os.fsdecode(b'bytes/\xff'), '')
        self.make_folder(os.fsdecode(b'bytes-of-a-folder/sub\x80'))
        self.put(os.fsdecode(b'half-a-letter/x\xc3'), '')
        for option, folder in [('--files', 'bytes'), ('--files-d', 'bytes-of-a-folder'), ('--files-b', 'half-a-letter/')]:
            with self.subTest(folder):
                self.expect_error(f'cannot read {self.work}/{folder}', HI, option, f'{self.work}/{folder}')

    def test_two_files_of_one_name_are_reported_before_any_is_read(self) -> None:
        folder = self.make_folder('twice')
        make_file(folder / 'a', 8388609)
        for name in ['z', 'Z', 'b.txt', 'B.TXT', 'c', 'c.']:
            (folder / name).touch()
        self.expect_error('two files are B.TXT', HI, '--files', folder)
        self.expect_error('two files are B:B.TXT', HI, '--files-b', folder)
        (folder / 'b.txt').unlink()
        self.expect_error('two files are D:C', HI, '--files-d', folder)
        (folder / 'c.').unlink()
        (folder / 'Z').unlink()
        (folder / 'Z').mkdir()
        (folder / 'C').symlink_to('c')
        self.expect_error('file A refused 1', HI, '--files', folder)
        (folder / 'a').unlink()
        self.expect(0, 'Hi', WARM_BOOT, HI, '--files', folder)

    def test_a_file_of_8388608_bytes_is_a_host_file(self) -> None:
        """The program leaves the count of the records of a file in A, H and L."""
        size = self.put('size.com', assemble(['MVI C,35; LXI D,5CH; CALL 5; LHLD 7DH; LDA 7FH; HLT']))
        edits = self.put('edits', 'run\n')
        folder = self.make_folder('big')
        make_file(folder / 'big.dat', 8388608)
        report = 'stop Halt\nsteps 7\nregs A=01 F=02 B=00 C=23 D=00 E=5C H=00 L=00 SP=FDFE PC=010E\ntext -\nend\n'
        self.expect(0, report, '', size, 'c:big.dat', '--files-c', folder, '--edits', edits)
        make_file(folder / 'big.dat', 8388609)
        self.expect_error('file C:BIG.DAT refused 1', size, 'c:big.dat', '--files-c', folder)
        make_file(folder / 'big.dat', 1 << 40)
        self.expect_error('file BIG.DAT refused 1', size, 'big.dat', '--files', folder)

    def test_all_drives_together_have_at_most_512_files(self) -> None:
        words = []
        for drive in ['', '-b', '-c', '-d']:
            make_files(self.work / f'many{drive}', 128, 1)
            words += [f'--files{drive}', self.work / f'many{drive}']
        edits = self.put('edits', 'file C:F127 -\nfile NEW -\ngone B:F000\nfile NEW -\n')
        self.expect(0, 'ok\nrefused 5\nok\nok\n', '', HI, *words, '--edits', edits)
        extra = self.put('many-b/b-513th', '')
        self.expect_error('file D:F127 refused 2', HI, *words)
        extra.unlink()
        full = self.work / 'many-a'
        make_files(full, 512, 0)
        self.expect(0, 'Hi', WARM_BOOT, HI, '--files', full)
        self.expect_error('file B:F000 refused 2', HI, '--files', full, '--files-b', self.work / 'many-b')
        make_file(self.work / 'many-b/f000', 8388609)
        self.expect_error('file B:F000 refused 1', HI, '--files', full, '--files-b', self.work / 'many-b')


class PermissionTest(CommandTest):
    """Files and folders that may not be read or written, by a user who is not root."""

    def setUp(self) -> None:
        super().setUp()
        copy = self.work / 'cpmrun'
        shutil.copy(PROGRAM, copy)
        copy.chmod(0o755)
        self.nobody: list[object] = [copy]
        if os.geteuid() == 0:
            self.nobody = ['setpriv', '--reuid=65534', '--regid=65534', '--clear-groups', copy]
            if not shutil.which('setpriv') or self.run_command(*self.nobody, '--version').returncode:
                self.skipTest('nobody else can run the program here')

    def set_mode(self, path: Path, mode: int) -> None:
        """Sets the mode of a path until the test ends."""
        self.addCleanup(path.chmod, 0o755)
        path.chmod(mode)

    def test_unreadable_files_and_folders_are_reported(self) -> None:
        names = ['closed', 'shut', 'listed']
        for name in names:
            make_files(self.work / name, 3, 1)
        closed, shut, listed = (self.work / name for name in names)
        edits = self.put('edits', (HI.parent / 'run.txt').read_bytes())
        for path, mode in [(closed / 'f001', 0), (shut, 0), (edits, 0), (listed, 0o444)]:
            self.set_mode(path, mode)
        for path, words in [
            (closed / 'f001', [self.ret, '--files', closed]),
            (closed / 'f001', [self.ret, '--files-b', f'{closed}/']),
            (closed / 'f001', [closed / 'f001']),
            (closed / 'f001', [self.ret, '--console', closed / 'f001']),
            (shut, [self.ret, '--files-c', shut]),
            (edits, [self.ret, '--edits', edits]),
        ]:
            with self.subTest(words=words):
                self.expect_command(1, '', f'cpmrun: cannot read {path}\n', *self.nobody, *words)
        done = self.run_command(*self.nobody, self.ret, '--files-d', listed)
        self.assertEqual((done.returncode, done.stdout), (1, b''))
        self.assertIn(done.stderr.decode(), [f'cpmrun: cannot read {path}\n' for path in listed.iterdir()], 'the first one in the folder')

    def test_an_unwritable_folder_is_reported(self) -> None:
        folder = self.make_folder('sealed')
        self.set_mode(folder, 0o555)
        self.expect_command(1, '.', f'cpmrun: cannot write {folder}/A\n', *self.nobody, self.three, 'a', '--out', folder)
        self.expect_names(folder)

    def test_a_file_of_an_unwritable_disk_stays(self) -> None:
        folder = self.make_folder('sealed')
        self.put('sealed/a.txt', 'one')
        self.set_mode(folder, 0o555)
        delete = self.put('delete.com', calls('19 A.TXT'))
        self.expect_command(1, '', f'cpmrun: cannot write {folder}/a.txt\n', *self.nobody, delete, '--disk', folder)
        self.expect_names(folder, 'a.txt')

    def test_an_unwritable_disk_is_as_it_was(self) -> None:
        """A disk that is only read may be sealed."""
        folder = self.make_folder('sealed')
        self.put('sealed/a.txt', 'one')
        self.put('sealed/old', 'one')
        self.set_mode(folder, 0o555)
        for name, acts in ('a.txt', ['21 A.TXT', '19 OLD']), ('new', ['22 NEW', '21 A.TXT']), ('new', ['23 OLD NEW']):
            program = self.put('calls.com', calls(*acts))
            self.expect_command(1, '', f'cpmrun: cannot write {folder}/{name}\n', *self.nobody, program, '--disk', folder)
        self.expect_names(folder, 'a.txt', 'old')
        self.expect_bytes(folder / 'a.txt', b'one')
        self.expect_command(0, '', WARM_BOOT, *self.nobody, self.put('calls.com', calls('15 A.TXT')), '--disk', folder)


class WrittenFileTest(CommandTest):
    """Which files are written where."""

    def make_host_folder(self) -> Path:
        """Returns a folder with the file a.txt."""
        folder = self.make_folder('host')
        self.put('host/a.txt', 'one')
        return folder

    def test_changed_files_are_written_with_all_their_records(self) -> None:
        folder = self.make_folder('written')
        host = self.make_host_folder()
        self.expect(0, '', f'{WARM_BOOT}gone A.TXT\n', self.rename, 'a.txt b.txt', '--files', host, '--out', folder)
        self.expect_names(folder, 'B.TXT')
        self.expect_bytes(folder / 'B.TXT', b'one' + b'\x1a' * 125)
        self.expect_names(host, 'a.txt')
        (folder / 'B.TXT').unlink()
        self.expect(0, '.', WARM_BOOT, self.three, 'a', '--out', f'{folder}/')
        self.expect_names(folder, 'A', 'B', 'C')
        self.expect_bytes(folder / 'A', A_OF_THREE)
        self.expect_bytes(folder / 'B', B_OF_THREE)
        self.expect_bytes(folder / 'C', B_OF_THREE)

    def test_the_current_folder_is_written_to(self) -> None:
        folder = self.make_folder('written')
        self.expect(0, '.', WARM_BOOT, self.three, 'a', '--out', '.', cwd=folder)
        self.expect_names(folder, 'A', 'B', 'C')

    def test_an_empty_path_is_a_usage_error(self) -> None:
        for words, name in [([self.three, f'--{option}', ''], f'--{option} <{value}>') for option, value in
                            [('files', 'DIR'), ('files-b', 'DIR'), ('console', 'FILE'), ('edits', 'FILE'), ('out', 'DIR'), ('out-d', 'DIR'), ('disk', 'DIR'),
                             ('disk-c', 'DIR')]] + [
                                ([''], '<PROGRAM>')]:
            with self.subTest(name):
                done = self.run_command(PROGRAM, *words)
                self.assertEqual((done.returncode, done.stdout, done.stderr.decode().splitlines()[0]),
                                 (1, b'', f"error: a value is required for '{name}' but none was supplied"))

    def test_a_changed_file_keeps_its_mode(self) -> None:
        folder = self.make_folder('private')
        for name, mode in ('A', 0o600), ('B', 0o444):
            (folder / name).write_text('old')
            (folder / name).chmod(mode)
        self.expect(0, '.', WARM_BOOT, self.three, 'a', '--out', folder)
        self.expect_bytes(folder / 'A', A_OF_THREE)
        self.assertEqual([(folder / name).stat().st_mode & 0o777 for name in 'ABC'], [0o600, 0o444, 0o644])

    def test_a_missing_folder_is_not_written_to(self) -> None:
        none = self.work / 'none'
        host = self.make_host_folder()
        self.expect(1, '.', f'cpmrun: cannot write {none}/A\n', self.three, 'a', '--out', none)
        self.expect(1, '.', f'cpmrun: cannot write {self.ret}/A\n', self.three, 'a', '--out', self.ret)
        self.expect_error(f'cannot write {none}/B.TXT', self.rename, 'a.txt b.txt', '--files', host, '--out', none)
        self.expect(0, '.', WARM_BOOT, self.three, 'a', '--out-b', none)
        self.expect(0, 'Hi', WARM_BOOT, HI, '--out', none)
        self.assertFalse(none.exists())

    def test_a_file_that_cannot_be_written_whole_does_not_appear(self) -> None:
        folder = self.make_folder('short')
        words = [self.three, 'a', '--out', folder]
        self.expect(1, '.', f'cpmrun: cannot write {folder}/B\n', *words, preexec_fn=limit_file_size)
        self.expect_names(folder, 'A')
        self.expect_bytes(folder / 'A', A_OF_THREE)

    def test_a_full_folder_keeps_its_old_file(self) -> None:
        """In 12,288 bytes there is room for A and for an old B, but not for a new B too."""
        folder = self.make_folder('full')
        after = self.make_folder('after')
        mounts = ['unshare', '--map-root-user', '--mount']
        if not shutil.which('unshare') or self.run_command(*mounts, 'mount', '-t', 'tmpfs', 'none', folder).returncode:
            self.skipTest('mounting is not allowed here')
        words = [folder, after, PROGRAM, self.three, 'a', '--out', folder]
        done = self.run_with_children(*mounts, 'bash', '-c', FULL_FOLDER, 'full', *words)
        self.assertEqual((done.returncode, done.stdout, done.stderr.decode()), (1, b'.', f'cpmrun: cannot write {folder}/B\n'))
        self.expect_names(after, 'A', 'B')
        self.expect_bytes(after / 'A', A_OF_THREE)
        self.expect_bytes(after / 'B', b'old\n')

    def test_links_and_folders_are_not_replaced(self) -> None:
        folder = self.make_folder('taken')
        self.make_folder('taken/C')
        kept = self.put('kept', 'kept\n')
        self.expect(1, '.', f'cpmrun: cannot write {folder}/C: it is no regular file\n', self.three, 'a', '--out', folder)
        self.expect_names(folder, 'A', 'B', 'C')
        self.expect_bytes(folder / 'A', A_OF_THREE)
        self.expect_bytes(folder / 'B', B_OF_THREE)
        for name in 'A', 'B':
            (folder / name).unlink()
        (folder / 'A').symlink_to('../kept')
        self.expect(1, '.', f'cpmrun: cannot write {folder}/A: it is no regular file\n', self.three, 'a', '--out', folder)
        self.expect_names(folder, 'A', 'C')
        self.assertTrue((folder / 'A').is_symlink())
        self.expect_bytes(kept, b'kept\n')
        self.expect_names(folder / 'C')

    def test_what_has_a_temporary_name_stays(self) -> None:
        """A link, a FIFO without a reader, a file that may not be written, and a folder."""
        folder = self.make_folder('first')
        kept = self.put('kept', 'kept\n')
        (folder / '.A.new').symlink_to('../kept')
        os.mkfifo(folder / '.B.new')
        self.put('first/.C.new', 'left\n').chmod(0o444)
        self.make_folder('first/.C.new.1')
        self.expect(0, '.', WARM_BOOT, self.three, 'a', '--out', folder, timeout=20)
        self.expect_names(folder, '.A.new', '.B.new', '.C.new', '.C.new.1', 'A', 'B', 'C')
        self.assertTrue((folder / '.A.new').is_symlink() and (folder / '.B.new').is_fifo())
        self.expect_bytes(folder / 'A', A_OF_THREE)
        self.expect_bytes(folder / 'B', B_OF_THREE)
        self.expect_bytes(folder / '.C.new', b'left\n')
        self.expect_bytes(kept, b'kept\n')

    def test_a_host_file_is_written_with_the_records_that_it_had(self) -> None:
        """The host file b has one record, and the run adds a second one as record 32 of B."""
        folder = self.make_folder('read')
        out = self.make_folder('written')
        self.put('read/b', 'old')
        self.expect(0, '.', WARM_BOOT, self.three, 'a', '--files', folder, '--out', out)
        self.expect_names(folder, 'b')
        self.expect_names(out, 'A', 'B', 'C')
        self.expect_bytes(folder / 'b', b'old')
        self.expect_bytes(out / 'B', b'old' + b'\x1a' * 125 + bytes(3968) + A_OF_THREE)

    def test_each_drive_has_its_folder(self) -> None:
        a, b, c, d, two, four = (self.make_folder(name) for name in ['a', 'b', 'c', 'd', 'two', 'four'])
        self.expect(0, '', WARM_BOOT, self.drives, 'x', '--out', a, '--out-b', b, '--out-c', c, '--out-d', d)
        none = self.work / 'none'
        self.expect_error(f'cannot write {none}/X', self.drives, 'x', '--out-b', two, '--out-c', none, '--out-d', four)
        for number, folder in [(1, a), (2, b), (3, c), (4, d), (2, two)]:
            with self.subTest(folder=folder.name):
                self.expect_names(folder, 'X')
                self.expect_bytes(folder / 'X', file_of_drive(number))
        self.expect_names(four)
        self.put('two/y', 'A')
        self.expect(0, '', f'{WARM_BOOT}gone B:Y\n', self.rename, 'b:y b:z', '--files-b', two, '--out', four)
        self.expect_names(four)

    def test_edit_lines_write_no_file(self) -> None:
        folder, other = self.make_folder('unwritten'), self.make_folder('other')
        edits = self.put('edits', 'run\n')
        done = self.run_command(PROGRAM, self.drives, 'x', '--out', folder, '--out-d', other, '--edits', edits)
        self.assertEqual(done.returncode, 0, done.stderr)
        self.assertRegex(done.stdout, re.compile(rb'^file D:X 0000', re.MULTILINE))
        self.expect_names(folder)
        self.expect_names(other)


class InputTest(CommandTest):
    """Standard input, and the time of a start."""

    def make_pipe(self, data: bytes) -> tuple[int, int]:
        """Returns the ends of a pipe that has these bytes."""
        ends = os.pipe()
        os.write(ends[1], data)
        return ends

    def test_standard_input_is_not_read(self) -> None:
        """All bytes of the pipe are there afterwards."""
        typed = self.put('typed.com', assemble(['MVI C,1; CALL 5; RET']))
        script = self.put('typed', 'a')
        edits = self.put('edits', 'limit 5\n')
        read_end, write_end = self.make_pipe(b'aa\nkept\n')
        with open(read_end, 'rb') as pipe:
            try:
                self.expect(7, '', 'stop ConsoleExhausted\n', typed, stdin=pipe, timeout=20)
                self.expect(0, 'a', WARM_BOOT, typed, '--console', script, stdin=pipe, timeout=20)
                self.expect(0, 'ok\n', '', typed, '--edits', edits, stdin=pipe, timeout=20)
            finally:
                os.close(write_end)
            self.assertEqual(pipe.read(), b'aa\nkept\n')

    def test_standard_input_is_read_by_its_path(self) -> None:
        typed = self.put('typed.com', assemble(['MVI C,1; CALL 5; RET']))
        read_end, write_end = self.make_pipe(b'kept')
        os.close(write_end)
        with open(read_end, 'rb') as pipe:
            self.expect(0, 'k', WARM_BOOT, typed, '--console', '/dev/stdin', stdin=pipe)

    def test_a_start_is_short(self) -> None:
        """The least time of ten starts is usually a fifth of these bounds."""
        halt = self.put('halt.com', assemble(['HLT']))
        folder = self.work / 'starts'
        make_files(folder, 512, 0)
        for path in folder.iterdir():
            path.write_bytes(bytes(16384))
        for seconds, words in [(0.05, [halt]), (0.5, [halt, '--files', folder])]:
            with self.subTest(words=words):
                times = []
                for _ in range(10):
                    start = time.perf_counter()
                    self.expect(4, '', 'stop Halt\n', *words)
                    times.append(time.perf_counter() - start)
                self.assertLessEqual(min(times), seconds)
