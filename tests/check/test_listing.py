"""Runs the built program cpmdeps: listings worked out by hand from what each instruction and call asks for, each status and message, and
each allocation and each system call failing in turn."""
import os
from dataclasses import dataclass
from pathlib import Path

from failures import FailureTest, Wanted
from helpers import DEPENDENCIES_PROGRAM, DRIVES, HI, TOP, ProgramTest
from test_command import STOPS
from vembrusk.assembler import assemble

GREETING = TOP / 'examples/greeting/greeting.com'
SORT = TOP / 'examples/sort'
CANNOT_WRITE = 'cpmdeps: cannot write standard output\n'
USAGE = "\nUsage: cpmdeps [OPTIONS] <PROGRAM> [TAIL]\n\nFor more information, try '--help'.\n"


@dataclass(frozen=True)
class Listing:
    """A run and what cpmdeps prints."""

    name: str
    code: str
    """The program, in mnemonics."""
    joined: str
    by_step: str
    tail: str = ''
    hosts: tuple[tuple[str, bytes], ...] = ()
    """The host files, as FOLDER/NAME: the folder `a` is that of drive A, and so on."""
    script: bytes | None = None
    limit: int | None = None


# A CALL 5 is three steps: the CALL, the jump at 0005, and the call. A RET of the program reads the zeros at FDFE, and the jump at 0000 is
# the last step. A file call reads its control block first: 33 bytes of it, or 36 for a random record.
LISTINGS = [
    Listing(
        'cells, the ones that an instruction reads too, and a stop that asks as the step after the last one',
        'JMP 104H; NOP; LHLD 200H; HLT',
        '''program 0100-0102 0104-0107 0200-0201 step 0
stop Halt
''',
        '''program 0100-0102 step 0
program 0104-0106 step 1
program 0107 step 2
program 0200-0201 step 1
stop Halt
'''),
    Listing(
        'cells that the run wrote itself are not asked for',
        'MVI A,1; STA 200H; LDA 200H; LDA 201H; HLT',
        '''program 0100-010B 0201 step 0
stop Halt
''',
        '''program 0100-0101 step 0
program 0102-0104 step 1
program 0105-0107 step 2
program 0108-010A step 3
program 010B step 4
program 0201 step 3
stop Halt
'''),
    Listing(
        'nothing is asked for after the limit',
        'MVI A,1; STA 200H; LDA 200H; LDA 201H; HLT',
        '''program 0100-0104 step 0
stop Limit
''',
        '''program 0100-0101 step 0
program 0102-0104 step 1
stop Limit
''', limit=2),
    Listing('a run of no steps asks for nothing', 'HLT', 'stop Limit\n', 'stop Limit\n', limit=0),
    Listing(
        'the script and its end, for which the stop asks',
        'MVI C,1; CALL 5; MVI C,1; CALL 5; RET',
        '''page 0005-0007 step 2
program 0100-0109 step 0
script 0 step 3
script end step 7
stop ConsoleExhausted
''',
        '''page 0005-0007 step 2
program 0100-0101 step 0
program 0102-0104 step 1
program 0105-0106 step 4
program 0107-0109 step 5
script 0 step 3
script end step 7
stop ConsoleExhausted
''', script=b'x'),
    Listing(
        'a file that is there and one that is not',
        'MVI C,15; LXI D,6CH; CALL 5; MVI C,15; LXI D,5CH; CALL 5; RET',
        '''page 0000-0002 0005-0007 005C-008C step 3
program 0100-0110 FDFE-FDFF step 0
file NOTE.TXT step 9
none GONE.TXT step 4
length NOTE.TXT 1 step 9
stop WarmBoot
''',
        '''page 0000-0002 step 11
page 0005-0007 step 3
page 005C-006B step 9
page 006C-008C step 4
program 0100-0101 step 0
program 0102-0104 step 1
program 0105-0107 step 2
program 0108-0109 step 5
program 010A-010C step 6
program 010D-010F step 7
program 0110 step 10
program FDFE-FDFF step 10
file NOTE.TXT step 9
none GONE.TXT step 4
length NOTE.TXT 1 step 9
stop WarmBoot
''', tail='note.txt gone.txt', hosts=(('a/note.txt', b'1'), ('a/other.txt', b'2'))),
    Listing(
        'files are in the order of drive, name and type',
        'MVI C,15; LXI D,6CH; CALL 5; MVI C,15; LXI D,5CH; CALL 5; RET',
        '''page 0000-0002 0005-0007 005C-008C step 3
program 0100-0110 FDFE-FDFF step 0
file ZED step 4
file B:NOTE.TXT step 9
length ZED 0 step 4
length B:NOTE.TXT 2 step 9
stop WarmBoot
''',
        '''page 0000-0002 step 11
page 0005-0007 step 3
page 005C-006B step 9
page 006C-008C step 4
program 0100-0101 step 0
program 0102-0104 step 1
program 0105-0107 step 2
program 0108-0109 step 5
program 010A-010C step 6
program 010D-010F step 7
program 0110 step 10
program FDFE-FDFF step 10
file ZED step 4
file B:NOTE.TXT step 9
length ZED 0 step 4
length B:NOTE.TXT 2 step 9
stop WarmBoot
''', tail='b:note.txt zed', hosts=(('a/zed', b''), ('b/NOTE.TXT', bytes(129)))),
    Listing(
        'a renamed file is asked for by its old name, and a read asks for its record',
        'MVI C,23; LXI D,5CH; CALL 5; MVI A,0; STA 8CH; MVI C,20; LXI D,6CH; CALL 5; RET',
        '''page 0000-0002 0005-0007 005C-008B step 3
program 0100-0115 FDFE-FDFF step 0
file NOTE.TXT step 4
none NEW.TXT step 4
length NOTE.TXT 1 step 11
record NOTE.TXT 0 step 11
stop WarmBoot
''',
        '''page 0000-0002 step 13
page 0005-0007 step 3
page 005C-007C step 4
page 007D-008B step 11
program 0100-0101 step 0
program 0102-0104 step 1
program 0105-0107 step 2
program 0108-0109 step 5
program 010A-010C step 6
program 010D-010E step 7
program 010F-0111 step 8
program 0112-0114 step 9
program 0115 step 12
program FDFE-FDFF step 12
file NOTE.TXT step 4
none NEW.TXT step 4
length NOTE.TXT 1 step 11
record NOTE.TXT 0 step 11
stop WarmBoot
''', tail='note.txt new.txt', hosts=(('a/note.txt', b'1'),)),
    Listing(
        'rows of records',
        'MVI A,5; STA 7DH; MVI C,33; LXI D,5CH; CALL 5; XRA A; STA 7DH; MVI C,33; LXI D,5CH; CALL 5; RET',
        '''page 0000-0002 0005-0007 005C-007C 007E-007F step 5
program 0100-0119 FDFE-FDFF step 0
file X step 6
length X 6 step 6
record X 0 5 step 6
stop WarmBoot
''',
        '''page 0000-0002 step 15
page 0005-0007 step 5
page 005C-007C step 6
page 007E-007F step 6
program 0100-0101 step 0
program 0102-0104 step 1
program 0105-0106 step 2
program 0107-0109 step 3
program 010A-010C step 4
program 010D step 7
program 010E-0110 step 8
program 0111-0112 step 9
program 0113-0115 step 10
program 0116-0118 step 11
program 0119 step 14
program FDFE-FDFF step 14
file X step 6
length X 6 step 6
record X 0 step 13
record X 5 step 6
stop WarmBoot
''', tail='x', hosts=(('a/x', bytes(700)),)),
    Listing(
        'a search asks for a directory, also of a drive without a folder',
        'MVI C,17; LXI D,5CH; CALL 5; RET',
        '''page 0000-0002 0005-0007 005C-007C step 3
program 0100-0108 FDFE-FDFF step 0
directory C step 4
stop WarmBoot
''',
        '''page 0000-0002 step 6
page 0005-0007 step 3
page 005C-007C step 4
program 0100-0101 step 0
program 0102-0104 step 1
program 0105-0107 step 2
program 0108 step 5
program FDFE-FDFF step 5
directory C step 4
stop WarmBoot
''', tail='c:*.txt', hosts=(('a/note.txt', b'1'),)),
    Listing(
        'a name that no host file can have',
        'MVI C,15; LXI D,5CH; CALL 5; RET',
        '''page 0000-0002 0005-0007 005C-007C step 3
program 0100-0108 FDFE-FDFF step 0
none =033f3f3f3f3f3f3f3f545854 step 4
stop WarmBoot
''',
        '''page 0000-0002 step 6
page 0005-0007 step 3
page 005C-007C step 4
program 0100-0101 step 0
program 0102-0104 step 1
program 0105-0107 step 2
program 0108 step 5
program FDFE-FDFF step 5
none =033f3f3f3f3f3f3f3f545854 step 4
stop WarmBoot
''', tail='d:*.txt'),
]

OPEN_TWO = assemble(['MVI C,15; LXI D,6CH; CALL 5; MVI C,15; LXI D,5CH; CALL 5; RET'])
"""Opens both names of its tail."""

SEARCH = assemble(['MVI C,17; LXI D,5CH; CALL 5; RET'])
"""Searches the name of its tail."""


class DependenciesTest(ProgramTest):
    """A test of cpmdeps."""

    def expect(self, status: int, out: bytes | str, err: bytes | str, *words: object, **how) -> None:
        self.expect_command(status, out, err, DEPENDENCIES_PROGRAM, *words, **how)

    def expect_error(self, message: str, *words: object) -> None:
        """Expects this message, status 1, and nothing on standard output."""
        self.expect(1, '', f'cpmdeps: {message}\n', *words)

    def make_folder(self, name: str, **files: bytes) -> Path:
        folder = self.work / name
        folder.mkdir()
        for file, data in files.items():
            (folder / file).write_bytes(data)
        return folder


class ListingTest(DependenciesTest):

    def words_of(self, listing: Listing, room: Path) -> list[object]:
        """Returns the arguments of a run, whose files are made in a folder."""
        words: list[object] = [room / 'it.com', listing.tail]
        (room / 'it.com').write_bytes(assemble([listing.code]))
        for name, data in listing.hosts:
            (room / name).parent.mkdir(exist_ok=True)
            (room / name).write_bytes(data)
        for drive, option in zip('abcd', ('--files', '--files-b', '--files-c', '--files-d')):
            words += [option, room / drive] if (room / drive).is_dir() else []
        if listing.script is not None:
            (room / 'script').write_bytes(listing.script)
            words += ['--console', room / 'script']
        return words + ([] if listing.limit is None else ['--limit', str(listing.limit)])

    def test_each_listing(self) -> None:
        for number, listing in enumerate(LISTINGS):
            with self.subTest(listing.name):
                words = self.words_of(listing, self.make_folder(f'room{number}'))
                self.expect(0, listing.joined, '', *words)
                self.expect(0, listing.by_step, '', *words, '--by-step')

    def test_the_stop_is_the_last_line_and_the_status_is_0(self) -> None:
        for _, cause, program in STOPS:
            with self.subTest(cause):
                done = self.run_command(DEPENDENCIES_PROGRAM, self.put('stops.com', assemble([program])))
                self.assertEqual((done.returncode, done.stderr), (0, b''))
                self.assertEqual(done.stdout.decode().splitlines()[-1], f'stop {cause}')

    def test_no_file_is_written_and_no_console_text(self) -> None:
        folder = self.make_folder('disk', x=b'one')
        drives = self.put('drives.com', DRIVES)
        done = self.run_command(DEPENDENCIES_PROGRAM, drives, 'x', '--files', folder, '--files-b', folder, cwd=self.work)
        self.assertEqual((done.returncode, done.stderr), (0, b''))
        self.expect_names(self.work, 'disk', 'drives.com')
        self.expect_names(folder, 'x')
        self.assertEqual((folder / 'x').read_bytes(), b'one')
        done = self.run_command(DEPENDENCIES_PROGRAM, HI)
        self.assertEqual(done.stdout.decode(), 'page 0000-0002 0005-0007 step 3\nprogram 0100-010B FDFE-FDFF step 0\nstop WarmBoot\n')

    def test_words_are_the_ones_of_cpmrun(self) -> None:
        folder = self.make_folder('disk')
        opens, out = self.put('opens.com', OPEN_TWO), 'stop Limit\n'
        self.expect(0, out, '', '--limit=0', f'--files={folder}', f'--files-d={folder}', '--', opens, '-x y')
        self.expect(0, out, '', opens, '--limit', '0', '--console', opens, '--by-step')
        (folder / 'x').touch()
        listed = self.run_command(DEPENDENCIES_PROGRAM, opens, 'b:x', '--files-b', folder).stdout
        self.assertIn(b'file B:X step 9\n', listed)
        self.expect(0, listed, '', opens, 'b:x', '--disk-b', folder)
        done = self.run_command(DEPENDENCIES_PROGRAM, GREETING, '--console', self.put('script', 'Ada\r'))
        self.expect(0, done.stdout, '', GREETING, '--typed', 'Ada')


class LargeTest(DependenciesTest):
    """The longest script and the longest file, read to their ends."""

    def expect_lines(self, wanted: list[str], *words: object) -> None:
        """Expects these lines after the lines about memory. A failure shows the first line that differs."""
        done = self.run_command(DEPENDENCIES_PROGRAM, *words)
        self.assertEqual((done.returncode, done.stderr), (0, b''))
        lines = [line for line in done.stdout.decode().splitlines() if not line.startswith(('page', 'program'))]
        self.assertEqual(len(lines), len(wanted), lines[:5])
        self.assertEqual(next(((one, other) for one, other in zip(lines, wanted) if one != other), None), None)

    def test_the_longest_script(self) -> None:
        """There are five steps for each byte, of which the fourth asks for it."""
        length = 1_048_576
        program, script = self.put('echo.com', assemble(['MVI C,1; CALL 5; JMP 100H'])), self.put('script', b'x' * length)
        words = [program, '--console', script, '--limit', '9000000']
        rest = [f'script end step {5 * length + 3}', 'stop ConsoleExhausted']
        self.expect_lines([f'script 0-{length - 1} step 3', *rest], *words)
        self.expect_lines([*(f'script {offset} step {5 * offset + 3}' for offset in range(length)), *rest], *words, '--by-step')

    def test_the_longest_file(self) -> None:
        """Step 4 opens the file, and of the seven steps for each record, from step 5 on, the fifth reads it."""
        code = assemble(['MVI C,15; LXI D,5CH; CALL 5', 'next: MVI C,20; LXI D,5CH; CALL 5; ORA A; JZ next; RET'])
        folder = self.make_folder('disk', X=bytes(8_388_608))
        words = [self.put('read.com', code), 'x', '--files', folder]
        head = ['file X step 4', 'length X 65536 step 4']
        self.expect_lines([*head, 'record X 0-65535 step 9', 'stop WarmBoot'], *words)
        records = [f'record X {number} step {7 * number + 9}' for number in range(65536)]
        self.expect_lines([*head, *records, 'stop WarmBoot'], *words, '--by-step')


class ErrorTest(DependenciesTest):
    """Statuses and messages."""

    def test_missing_files_and_refused_sessions_are_reported(self) -> None:
        folder = self.make_folder('disk', x=bytes(8_388_609))
        long = self.put('long.com', bytes(64513))
        twice = self.make_folder('twice', **{'a.txt': b'', 'A.TXT': b''})
        many = self.make_folder('many', **{f'f{number:03}': b'' for number in range(513)})
        not_text = self.make_folder('not-text', **{os.fsdecode(b'\xff'): b''})
        for message, words in [
            ('cannot read none.com', ['none.com']),
            ('cannot read none.txt', [HI, '--console', 'none.txt']),
            ('cannot read none.txt', [HI, '--files-b', 'none', '--console', 'none.txt']),
            ('cannot read none', [long, '--files-b', 'none']),
            ('session refused 1', [long]),
            ('session refused 3', [HI, 'a\tb']),
            ('file C:X refused 1', [HI, '--files-c', folder]),
            ('two files are B:A.TXT', [HI, '--files-b', twice]),
            ('file F512 refused 2', [HI, '--files', many]),
            (f'cannot read {not_text}', [HI, '--files-d', not_text]),
        ]:
            for more in [], ['--make', 'made'], ['--by-step']:
                with self.subTest(message, words=words, more=more):
                    self.expect_error(message, *words, *more)

    def test_usage_errors_have_the_text_of_clap(self) -> None:
        self.expect(1, '', f"error: unexpected argument 'b' found\n{USAGE}", HI, 'a', 'b')
        self.expect(1, '', f'error: invalid UTF-8 was detected in one or more arguments\n{USAGE}', HI, b'\xff')
        for words, first in [
            ([], 'error: the following required arguments were not provided:'),
            ([HI, '--edits', 'x'], "error: unexpected argument '--edits' found"),
            ([HI, '--out', 'x'], "error: unexpected argument '--out' found"),
            ([HI, '--make'], "error: a value is required for '--make <TARGET>' but none was supplied"),
            ([HI, '--make', ''], "error: a value is required for '--make <TARGET>' but none was supplied"),
            ([HI, '--files', ''], "error: a value is required for '--files <DIR>' but none was supplied"),
            ([HI, '--files-d='], "error: a value is required for '--files-d <DIR>' but none was supplied"),
            ([HI, '--console', ''], "error: a value is required for '--console <FILE>' but none was supplied"),
            ([''], "error: a value is required for '<PROGRAM>' but none was supplied"),
            ([HI, '--make', 'made', '--by-step'], "error: the argument '--make <TARGET>' cannot be used with '--by-step'"),
            ([HI, '--console', 'x', '--typed', 'y'], "error: the argument '--console <FILE>' cannot be used with '--typed <TEXT>'"),
            ([HI, '--typed', 'x', '--console', 'y', '--by-step', '--make', 'made'],
             "error: the argument '--make <TARGET>' cannot be used with '--by-step'"),
            (['none.com', '--typed', r'a\q'], r"error: invalid value 'a\q' for '--typed <TEXT>': unknown escape after a backslash"),
            ([HI, '--disk-b', 'x', '--files-b', 'y'], "error: the argument '--files-b <DIR>' cannot be used with '--disk-b <DIR>'"),
            ([HI, '--partial'], "error: unexpected argument '--partial' found"),
            ([HI, '--trace', 'x'], "error: unexpected argument '--trace' found"),
            ([HI, '--limit', '4000000001'], "error: invalid value '4000000001' for '--limit <N>': 4000000001 is not in 0..=4000000000"),
        ]:
            with self.subTest(first):
                done = self.run_command(DEPENDENCIES_PROGRAM, *words)
                self.assertEqual((done.returncode, done.stdout, done.stderr.decode().splitlines()[0]), (1, b'', first))
                self.assertTrue(done.stderr.endswith(b"For more information, try '--help'.\n"))

    def test_help_and_version(self) -> None:
        self.expect(0, 'cpmdeps 1.0.0\n', '', '--version')
        for words in ['--help'], ['-h'], [HI, '--help']:
            done = self.run_command(DEPENDENCIES_PROGRAM, *words)
            self.assertEqual((done.returncode, done.stderr), (0, b''))
            self.assertIn(USAGE.splitlines()[1], done.stdout.decode())

    def test_a_full_device_and_a_closed_output_are_reported(self) -> None:
        for words in [HI], [HI, '--by-step'], [HI, '--make', 'made'], ['--help']:
            with self.subTest(words=words):
                with open('/dev/full', 'wb') as full:
                    done = self.run_command(DEPENDENCIES_PROGRAM, *words, stdout=full)
                self.assertEqual((done.returncode, done.stderr.decode()), (1, CANNOT_WRITE))
                self.expect(1, '', CANNOT_WRITE, *words, preexec_fn=lambda: os.close(1))

    def test_a_closed_standard_error_changes_no_status(self) -> None:
        self.expect(1, '', '', 'none.com', preexec_fn=lambda: os.close(2))
        self.expect(0, 'stop Limit\n', '', HI, '--limit', '0', preexec_fn=lambda: os.close(2))


class DependencyFailures(FailureTest):
    """Each request of cpmdeps fails in turn."""

    program = DEPENDENCIES_PROGRAM
    name = 'cpmdeps'

    def words(self) -> list[object]:
        """Returns the arguments of a run with the folders of two drives, of which it asks for two files."""
        self.put('it.com', OPEN_TWO)
        return [self.work / 'it.com', 'x y', '--files', self.host(), '--files-d', self.host()]

    def wanted(self, *words: object, **how) -> Wanted:
        """Returns what a run with these arguments prints."""
        done = self.run_command(DEPENDENCIES_PROGRAM, *words)
        self.assertEqual((done.returncode, done.stderr), (0, b'stop WarmBoot\n' if '--make' in words else b''))
        return Wanted(done.stdout, done.stderr, **how)


class RefusalTest(DependencyFailures):
    library = 'refuse'

    def test_listings(self) -> None:
        greeting = [GREETING, 'a tail', '--console', self.put('script', 'Ada\r')]
        sort = [SORT / 'sort.com', 'names.txt sorted.txt', '--files', SORT / 'files']
        for words in [HI], [HI, '--by-step'], greeting, [*greeting, '--by-step'], self.words(), [*self.words(), '--make', 'made'], sort:
            self.each_in_turn(self.wanted(*words), *words)

    def test_help_and_errors(self) -> None:
        self.each_in_turn(self.wanted('--help', may_be_cut=False), '--help')
        use = [HI, 'a', 'b']
        for err, words in [
            (self.run_command(DEPENDENCIES_PROGRAM, *use).stderr, use),
            (b'cpmdeps: cannot read none.com\n', ['none.com']),
            (b'cpmdeps: cannot read none\n', [HI, '--files', 'none']),
        ]:
            self.each_in_turn(Wanted(b'', err, status=1, may_be_cut=False), *words)


class DeviceTest(DependencyFailures):
    library = 'fail'

    def each_call_fails(self) -> None:
        words = self.words()
        script = self.put('script', 'Ada\r')
        messages = (f'cannot read {words[0]}', f'cannot read {self.work}/host', f'cannot read {self.work}/host/x',
                    'cannot write standard output')
        for more in [], ['--by-step'], ['--make', 'made']:
            self.each_in_turn(self.wanted(*words, *more, messages=messages, fault_status=1, may_pass=False), *words, *more)
        words = [GREETING, '--console', script]
        messages = (f'cannot read {GREETING}', f'cannot read {script}', 'cannot write standard output')
        self.each_in_turn(self.wanted(*words, messages=messages, fault_status=1, may_pass=False), *words)

    def test_each_call_fails(self) -> None:
        self.environment = {'FAIL_CALLS': 'orwds'}
        self.each_call_fails()

    def test_each_read_or_write_of_one_byte_fails(self) -> None:
        self.environment = {'FAIL_CALLS': 'rw', 'FAIL_PIECES': '1'}
        self.each_call_fails()
