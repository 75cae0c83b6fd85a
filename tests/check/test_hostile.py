"""Runs the built program on hostile edit lines and outputs: outputs that close, texts that are cut, too many lines and too long ones, and
bytes that no line may have."""
import os
import select
import subprocess

from helpers import HI, PROGRAM, TOP, ProgramTest, report_of_hi
from vembrusk.assembler import assemble

CANNOT_WRITE = 'cpmrun: cannot write standard output\n'
RUN = HI.parent / 'run.txt'

FULL_LINES = [
    ('ok\n', 'insert 00 ', '4'),
    ('refused 1\n', 'replace 0 ', '4'),
    ('', 'remove 0 ', '0'),
    ('ok\n', 'file AB ', '4'),
    ('', 'gone ', 'A'),
    ('refused 6\n', 'poke 0100 ', '0'),
    ('', 'limit ', '0'),
    ('', 'drop ', '0'),
    ('', 'run', ' '),
]
"""The reply to a line of 65,536 bytes, or none if it is malformed; its first bytes, and the digit that fills it. A word has an even count
of digits, so a number has two digits if one would leave an odd count."""

LINES = ['insert 0 41', 'replace 0 -', 'remove 0 0', 'file A.TXT 41', 'file b:x -', 'gone C:X.Y', 'poke 010A 6f', 'limit 5', 'drop 10',
         'run']

NEARLY = [
    '', 'RUN', 'Run', 'runs', 'run 1', 'rerun', 'stop', 'limit', 'limit -', 'limit -5', 'limit +5', 'limit 0x5', 'limit 5.', 'limit 5 6',
    'limit 00000000005', 'limit 4,000', 'drop', 'drop -1', 'drop 18446744073709551616', 'insert', 'insert 0', 'insert 41',
    'insert 0 4', 'insert 0 414', 'insert 0 4G', 'insert 0 --', 'insert 0 -41', 'insert 0 0x41', 'insert 00000000000 41',
    'insert 0 41 42', 'replace - 41', 'remove 0', 'remove 0 -', 'remove 0 1 2', 'poke 10A 6F', 'poke 0010A 6F', 'poke 010A',
    'poke 010A 6', 'poke +10A 6F', 'poke 010G 6F', 'file A', 'file  41', 'file A 4', 'file .TXT 41', 'file A: 41', 'file E:X 41',
    'file AA:X 41', 'file ABCDEFGHI 41', 'file A.BCDE 41', 'file A.B.C 41', 'file A* 41', 'file A? 41', 'file A/B 41',
    'file .. 41', 'gone', 'gone A B', 'gone ::X',
]
"""Lines in the other case, with a sign, with too few or too many digits or words, or with wrong names."""

NEARLY_BYTES = [b'gone \xc3\xa4', b'gone \xe2\x84\xaa', b'file \xc5\xbf 41', b'limit \xef\xbc\x95', b'limit \xd9\xa5', b'\xef\xbb\xbfrun']
"""Lines with letters and digits that ASCII does not have."""


def variants(line: bytes, byte: bytes) -> list[bytes]:
    """Returns the line with the byte before each place, after the last one, and instead of each other byte."""
    longer = [line[:place] + byte + line[place:] for place in range(len(line) + 1)]
    changed = [line[:place] + byte + line[place + 1:] for place in range(len(line)) if line[place:place + 1] != byte]
    return longer + changed


class OutputTest(ProgramTest):
    """Outputs that close."""

    def setUp(self) -> None:
        """Makes a program that prints 249,999 bytes in 1,000,000 steps."""
        super().setUp()
        self.text = self.put('text.com', assemble(["MVI E,'x'; MVI C,2", 'again: CALL 5; JMP again']))

    def test_an_output_that_is_closed_is_an_error_and_no_signal(self) -> None:
        for words in [[HI], [HI, '--edits', RUN], ['--help'], ['--version']]:
            with self.subTest(words=words):
                read_end, write_end = os.pipe()
                os.close(read_end)
                with open(write_end, 'wb') as pipe:
                    done = self.run_command(PROGRAM, *words, stdout=pipe, timeout=20)
                self.assertEqual((done.returncode, done.stderr.decode()), (1, CANNOT_WRITE))

    def test_an_output_that_closes_is_an_error_and_no_signal(self) -> None:
        runs = self.put('runs', 'run\nrun\nrun\n')
        for first, words in [(b'x', [self.text]), (b's', [self.text, '--edits', runs])]:
            with self.subTest(words=words):
                self.assertEqual(self.result_of_reading_one_byte(*words), (1, first, CANNOT_WRITE.encode()))

    def result_of_reading_one_byte(self, *words: object) -> tuple[int, bytes, bytes]:
        """Returns the status, the first byte of the output, and the messages, if nobody reads the rest."""
        pipes = {'stdin': subprocess.DEVNULL, 'stdout': subprocess.PIPE, 'stderr': subprocess.PIPE}
        with subprocess.Popen([PROGRAM, *words], bufsize=0, cwd=TOP, **pipes) as process:
            try:
                self.assertTrue(select.select([process.stdout], [], [], 20)[0], 'no output')
                first = process.stdout.read(1)
                process.stdout.close()
                process.wait(timeout=20)
            finally:
                process.kill()
            return process.returncode, first, process.stderr.read()

    def test_a_run_that_prints_nothing_needs_no_output(self) -> None:
        program = self.put('return.com', assemble(['RET']))
        self.expect(0, '', 'stop WarmBoot\n', program, preexec_fn=lambda: os.close(1))


class LineTest(ProgramTest):
    """Edit texts that are cut, too long, or malformed."""

    def expect_replies(self, status: int, out: str, err: str, text: bytes | str) -> None:
        """Expects this of an edit text."""
        self.expect_long(status, out, err, HI, '--edits', self.put('lines', text))

    def expect_malformed(self, line: bytes) -> None:
        self.expect_replies(2, 'ok\n', 'cpmrun: line 2 is malformed\n', b'drop 0\n' + line + b'\nrun\n')

    def test_a_text_may_be_cut_anywhere(self) -> None:
        text = 'run\nlimit 5\n'
        report = report_of_hi('4869')
        ends = {length: (2, report, 'cpmrun: line 2 is malformed\n') for length in range(5, 11)}
        ends[0] = (0, '', '')
        ends[1] = ends[2] = (2, '', 'cpmrun: line 1 is malformed\n')
        ends[3] = ends[4] = (0, report, '')
        ends[11] = ends[12] = (0, f'{report}ok\n', '')
        for length in range(len(text) + 1):
            with self.subTest(text[:length]):
                self.expect_replies(*ends[length], text[:length])

    def test_a_text_has_at_most_a_million_lines(self) -> None:
        lines = 'drop 0\n' * 1000000
        malformed = 'cpmrun: line 1000001 is malformed\n'
        self.expect_replies(0, 'ok\n' * 1000000, '', lines)
        self.expect_replies(2, 'ok\n' * 1000000, malformed, f'{lines}drop 0')
        spaces = ' ' * 65531
        self.expect_replies(2, 'ok\n' * 1000000, 'cpmrun: line 1000001 is too long\n', f'{lines}drop 0{spaces}')
        self.expect_replies(2, 'ok\n' * 1000000, malformed, f'{lines}drop 0{spaces[1:]}\nrun\n')

    def test_a_line_has_at_most_65536_bytes(self) -> None:
        too_long = 'cpmrun: line 1 is too long\n'
        for reply, start, digit in FULL_LINES:
            with self.subTest(start):
                line = start.ljust(65536, digit)
                status, err = (0, '') if reply else (2, 'cpmrun: line 1 is malformed\n')
                self.expect_replies(status, reply, err, line)
                self.expect_replies(status, reply, err, f'{line}\n')
                self.expect_replies(2, '', too_long, line + digit)
        self.expect_replies(2, '', too_long, 'poke 0100 ' + '0' * 65528)
        self.expect(2, '', too_long, HI, '--edits', '/dev/zero')

    def test_no_other_byte_may_be_in_a_line(self) -> None:
        """Each of these bytes before each place of a line, after the last one, and instead of each byte."""
        for line in LINES:
            edits = self.put('lines', f'{line}\n')
            self.assertEqual(self.run_command(PROGRAM, HI, '--edits', edits).returncode, 0, line)
            for byte in [b'\0', b'\t', b'\r', b' ', b'\x80', b'\xff']:
                for variant in variants(line.encode(), byte):
                    with self.subTest(variant):
                        self.expect_malformed(variant)

    def test_lines_that_are_nearly_commands_are_malformed(self) -> None:
        for line in [*(line.encode() for line in NEARLY), *NEARLY_BYTES]:
            with self.subTest(line):
                self.expect_malformed(line)

    def test_at_most_131072_bytes_are_read_past_an_error(self) -> None:
        lines = self.put('lines', 'bogus\n' + 'run\n' * 100000)
        with subprocess.Popen(['cat', lines], stdin=subprocess.DEVNULL, stdout=subprocess.PIPE) as writer:
            try:
                self.expect(2, '', 'cpmrun: line 1 is malformed\n', HI, '--edits', '/dev/stdin', stdin=writer.stdout)
                left = len(writer.stdout.read())
            finally:
                writer.kill()
        self.assertGreaterEqual(left, 400006 - 131072)
