"""Runs the built program on the examples of README.md, and with errors of arguments, files and devices, and compares what it prints."""
import os

from helpers import HI, PROGRAM, TOP, ProgramTest

EDITS = HI.parent / 'edits.txt'
GREETING = TOP / 'examples/greeting/greeting.com'
CANNOT_WRITE = 'cpmrun: cannot write standard output\n'
USAGE = "\nUsage: cpmrun [OPTIONS] <PROGRAM> [TAIL]\n\nFor more information, try '--help'.\n"


class ExampleTest(ProgramTest):

    def test_examples_print_what_is_expected(self) -> None:
        typed = self.put('typed', 'Ada\r')
        greeting_edits = GREETING.parent / 'edits.txt'
        for status, out, err, words in [
            (0, EDITS.with_suffix('.out').read_bytes(), '', [HI, '--edits', EDITS]),
            (0, greeting_edits.with_suffix('.out').read_bytes(), '', [GREETING, '--edits', greeting_edits]),
            (0, 'Hi', 'stop WarmBoot\n', [HI]),
            (3, 'Hi', 'stop Limit\n', [HI, '--limit', '5']),
            (0, 'Name? Ada\r\nHello, Ada', 'stop WarmBoot\n', [GREETING, '--console', typed]),
            (7, 'Name? ', 'stop ConsoleExhausted\n', [GREETING]),
            (0, 'cpmrun 1.0.0\n', '', ['--version']),
        ]:
            with self.subTest(words=words):
                self.expect(status, out, err, *words)

    def test_missing_files_and_refused_sessions_are_reported(self) -> None:
        long = self.put('long.com', bytes(64513))
        for message, words in [
            ('cannot read none.com', ['none.com', '--edits', EDITS]),
            ('cannot read none.txt', [HI, '--edits', 'none.txt']),
            ('cannot read none.txt', [HI, '--console', 'none.txt', '--edits', 'none']),
            ('cannot read none.txt', [HI, '--files-b', 'none', '--console', 'none.txt']),
            ('cannot read none', [long, '--files-b', 'none', '--edits', 'none.txt']),
            ('session refused 1', [long, '--edits', 'none.txt']),
        ]:
            with self.subTest(message, words=words):
                self.expect(1, '', f'cpmrun: {message}\n', *words)

    def test_wrong_edit_lines_are_reported(self) -> None:
        for status, out, err, text in [
            (2, 'ok\n', 'cpmrun: line 2 is malformed\n', 'limit 5\nbogus\nrun\n'),
            (2, '', 'cpmrun: line 1 is too long\n', 'a' * 65537),
            (0, '', '', ''),
        ]:
            with self.subTest(text[:20]):
                self.expect(status, out, err, HI, '--edits', self.put('edits', text))

    def test_wrong_names_in_a_folder_are_reported(self) -> None:
        disk = self.work / 'disk'
        disk.mkdir()
        self.put('disk/a.txt', '')
        self.put('disk/A.TXT', '')
        self.expect(1, '', 'cpmrun: two files are B:A.TXT\n', HI, '--files-b', disk)
        self.put(os.fsdecode(b'disk/\xff'), '')
        self.expect(1, '', f'cpmrun: cannot read {disk}\n', HI, '--files', disk)

    def test_usage_errors_have_the_text_of_clap(self) -> None:
        """An argument that is not text has a message of ours in the same form."""
        self.expect(1, '', f"error: unexpected argument 'b' found\n{USAGE}", HI, 'a', 'b')
        self.expect(1, '', f'error: invalid UTF-8 was detected in one or more arguments\n{USAGE}', HI, b'\xff')

    def test_a_full_device_and_a_closed_output_are_reported(self) -> None:
        for words in [[HI], [HI, '--edits', EDITS]]:
            with self.subTest(words=words):
                with open('/dev/full', 'wb') as full:
                    done = self.run_command(PROGRAM, *words, stdout=full)
                self.assertEqual((done.returncode, done.stderr.decode()), (1, CANNOT_WRITE))
                self.expect(1, '', CANNOT_WRITE, *words, preexec_fn=lambda: os.close(1))

    def test_a_closed_standard_error_changes_no_status(self) -> None:
        self.expect(3, 'Hi', '', HI, '--limit', '5', preexec_fn=lambda: os.close(2))
        self.expect(1, '', '', 'none.com', preexec_fn=lambda: os.close(2))
