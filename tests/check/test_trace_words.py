"""Runs the built program cpmtrace with wrong words and with files and streams that fail: each status and message."""
import os

from helpers import HI, TRACE_PROGRAM, ProgramTest

CANNOT_WRITE = 'cpmtrace: cannot write standard output\n'
USAGE = "\nUsage: cpmtrace [OPTIONS] <PROGRAM> [TAIL]\n\nFor more information, try '--help'.\n"
NO_ADDRESS = 'not an address of 1 to 4 hexadecimal digits'
NO_RANGE = 'not ADDR or ADDR-ADDR with the lower address first'
NO_NAME = 'not a name of a file on the drives A to D'


class TraceWordsTest(ProgramTest):

    def expect(self, status: int, out: bytes | str, err: bytes | str, *words: object, **how) -> None:
        self.expect_command(status, out, err, TRACE_PROGRAM, *words, **how)

    def expect_bad_value(self, option: str, value: str, mistake: str) -> None:
        """Expects the message of a value that an option cannot have, although the program is not there."""
        message = f"error: invalid value '{value}' for '{option}': {mistake}\n\nFor more information, try '--help'.\n"
        self.expect(1, '', message, 'none.com', f'{option.split()[0]}={value}')

    def test_values_that_are_no_address_no_range_and_no_name(self) -> None:
        for value in '', 'G', '10000', '00100', '0x10', '10H', '+1', '-1', ' 1', '1-2', 'é':
            self.expect_bad_value('--at <ADDR>', value, NO_ADDRESS)
        for option in '--writes <RANGE>', '--reads <RANGE>':
            for value in '', '-', '1-', '-1', '2-1', '1-2-3', '1-10000', '1 - 2', '100+1', 'FFFF-0':
                self.expect_bad_value(option, value, NO_RANGE)
        for value in '', 'a.b.c', 'toolongname', 'a.text', 'e:a', 'a b', '*.txt', 'b:':
            self.expect_bad_value('--file <NAME>', value, NO_NAME)

    def test_the_first_wrong_value_is_reported(self) -> None:
        done = self.run_command(TRACE_PROGRAM, HI, '--file=', '--reads=', '--writes=', '--at=')
        self.assertTrue(done.stderr.startswith(b"error: invalid value '' for '--at <ADDR>'"), done.stderr)

    def test_values_at_the_ends_are_taken(self) -> None:
        for word in '--at=0', '--at=FFFF', '--at=fFfF', '--writes=0', '--writes=0-FFFF', '--reads=0100-100', '--file=a:12345678.123', '--file=D:x':
            self.expect(1, '', 'cpmtrace: cannot read none.com\n', 'none.com', word)

    def test_usage_errors(self) -> None:
        for words, first in [
            ([], 'error: the following required arguments were not provided:'),
            ([HI, '--make', 'x'], "error: unexpected argument '--make' found"),
            ([HI, '--trace', 'x'], "error: unexpected argument '--trace' found"),
            ([HI, '--disk', 'x', '--files', 'y'], "error: the argument '--files <DIR>' cannot be used with '--disk <DIR>'"),
            ([HI, '--at'], "error: a value is required for '--at <ADDR>' but none was supplied"),
            ([HI, '--console', 'x', '--typed', 'y'], "error: the argument '--console <FILE>' cannot be used with '--typed <TEXT>'"),
            ([HI, '--at=x', '--console', 'x', '--typed', 'y'], "error: the argument '--console <FILE>' cannot be used with '--typed <TEXT>'"),
            (['none.com', '--typed', r'a\q'], r"error: invalid value 'a\q' for '--typed <TEXT>': unknown escape after a backslash"),
            ([HI, '--last', '0'], "error: invalid value '0' for '--last <N>': 0 is not in 1..=4000000000"),
        ]:
            with self.subTest(first):
                done = self.run_command(TRACE_PROGRAM, *words)
                self.assertEqual((done.returncode, done.stdout, done.stderr.decode().splitlines()[0]), (1, b'', first))
                self.assertTrue(done.stderr.endswith(b"For more information, try '--help'.\n"))
                self.assertEqual(done.stderr.count(b'\nUsage: cpmtrace '), done.stderr.count(b'\nUsage: '))

    def test_words_that_are_not_text(self) -> None:
        self.expect(1, '', f'error: invalid UTF-8 was detected in one or more arguments\n{USAGE}', HI, b'\xff')

    def test_folders_that_are_no_drives(self) -> None:
        """One has a name that is not text, the other a 513th file."""
        not_text, many = self.work / 'not-text', self.work / 'many'
        for folder, names in (not_text, [os.fsdecode(b'\xff')]), (many, [f'f{number:03}' for number in range(513)]):
            folder.mkdir()
            for name in names:
                (folder / name).touch()
        self.expect(1, '', f'cpmtrace: cannot read {not_text}\n', HI, '--files-d', not_text)
        self.expect(1, '', 'cpmtrace: file F512 refused 2\n', HI, '--files', many)

    def test_help_and_version(self) -> None:
        self.expect(0, 'cpmtrace 1.0.0\n', '', '--version')
        for words in ['--help'], ['-h'], [HI, '--help']:
            done = self.run_command(TRACE_PROGRAM, *words)
            self.assertEqual((done.returncode, done.stderr), (0, b''))
            self.assertIn(USAGE.splitlines()[1], done.stdout.decode())

    def test_a_full_device_and_a_closed_output_are_reported(self) -> None:
        for words in [HI], [HI, '--steps'], [HI, '--last', '1'], ['--help']:
            with self.subTest(words=words):
                with open('/dev/full', 'wb') as full:
                    done = self.run_command(TRACE_PROGRAM, *words, stdout=full)
                self.assertEqual((done.returncode, done.stderr.decode()), (1, CANNOT_WRITE))
                self.expect(1, '', CANNOT_WRITE, *words, preexec_fn=lambda: os.close(1))

    def test_a_closed_standard_error_changes_no_status(self) -> None:
        self.expect(1, '', '', 'none.com', preexec_fn=lambda: os.close(2))
        self.expect(0, 'stop Limit\n', '', HI, '--limit', '0', preexec_fn=lambda: os.close(2))
