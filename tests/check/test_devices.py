"""Runs the built program with each of its system calls failing in turn, also when each read and each write moves one byte. It names the file or
folder that failed, or standard output; its output is a prefix, and each file that it wrote is whole. At the path of a file is the older file,
if there was one, or the whole new one."""
from failures import FailureTest, Wanted
from helpers import PROGRAM, TOP, report_of_hi
from vembrusk.assembler import assemble

GREETING = 'examples/greeting/greeting.com'
EDITS = 'examples/greeting/edits.txt'
PRINT = 'MVI E,120; MVI C,2; CALL 5'


class Devices(FailureTest):
    library = 'fail'

    def each_call_fails(self) -> None:
        """Tries one run and a replay of the greeting, a run with files on each drive, with and without older files, and one with disks."""
        script = self.put('script', 'Ada\r')
        console = {'fault_status': 1, 'may_pass': False}
        unread, unwritten = f'cannot read {GREETING}', 'cannot write standard output'
        one = Wanted(b'Name? Ada\r\nHello, Ada', b'stop WarmBoot\n', messages=(unread, f'cannot read {script}', unwritten), **console)
        self.each_in_turn(one, GREETING, '--console', script)
        replay = Wanted((TOP / 'examples/greeting/edits.out').read_bytes(), messages=(unread, f'cannot read {EDITS}', unwritten), **console)
        self.each_in_turn(replay, GREETING, '--edits', EDITS)
        words, files = self.drive_words()
        messages = (*(f'cannot read {path}' for path in (words[0], self.work / 'host', self.work / 'host/x')),
                    *(f'cannot read {self.work}/written/{drive}' for drive in 'abcd'),
                    *(f'cannot write {self.work}/written/{name}' for name in (*files, *(f'{drive}/.X.new' for drive in 'abcd'))))
        for before in {}, dict.fromkeys(files, b'o' * 1000):
            self.each_in_turn(Wanted(b'', b'stop WarmBoot\n', messages=messages, files=files, outside=4, before=before, **console), *words)
        words, stop, before, files = self.disk_words()
        wanted = Wanted(b'', stop.encode(), files=files, outside=1, before=before, **console)
        wanted.messages = (f'cannot read {words[0]}', *(f'cannot read {self.work}/written/{name}' for name in ('a', 'b', 'd', *before)),
                           *(f'cannot write {self.work}/written/{name}' for name in ('a', 'd', *files, *wanted.prepared(0))))
        self.each_in_turn(wanted, *words)

    def test_each_call_fails(self) -> None:
        self.environment = {'FAIL_CALLS': 'orwdslmyn'}
        self.each_call_fails()

    def test_each_change_fails(self) -> None:
        """The message is that of a file that is not renamed or removed, and no other."""
        self.environment = {'FAIL_CALLS': 'nu'}
        words, stop, before, files = self.disk_words()
        self.each_in_turn(Wanted(b'', stop.encode(), fault_status=1, messages=(), may_pass=False, files=files, outside=1, before=before), *words)

    def test_each_read_or_write_of_one_byte_fails(self) -> None:
        self.environment = {'FAIL_CALLS': 'rw', 'FAIL_PIECES': '1'}
        self.each_call_fails()

    def test_no_line_is_executed_after_a_failed_reply(self) -> None:
        """The program spins. A run of 4,000,000,000 steps takes much longer than the time that is given."""
        self.environment = {'FAIL_CALLS': 'w'}
        spin, edits = self.put('spin.com', assemble(['JMP 100H'])), self.put('edits', 'limit 4000000000\nrun\n')
        done = self.run_with_failure(1, PROGRAM, spin, '--edits', edits, timeout=8)
        self.assertEqual((done.returncode, done.stdout, done.stderr), (1, b'', b'cpmrun: cannot write standard output\n'))

    def test_a_run_ends_soon_after_its_text_fails(self) -> None:
        """The program prints a byte and spins. Without the failure it would run 4,000,000,000 steps."""
        self.environment = {'FAIL_CALLS': 'w'}
        program = self.put('spin.com', assemble([PRINT, 'spin: JMP spin']))
        done = self.run_with_failure(1, PROGRAM, program, '--limit', '4000000000', timeout=8)
        self.assertEqual((done.returncode, done.stdout, done.stderr), (1, b'', b'cpmrun: cannot write standard output\n'))

    def test_edit_lines_are_read_up_to_a_failure(self) -> None:
        """The program of twelve bytes is read in thirteen calls, and then the edit lines byte by byte."""
        self.environment = {'FAIL_CALLS': 'r', 'FAIL_PIECES': '1'}
        edits = self.put('edits', 'run\nlimit 5\n')
        for length in range(13):
            out = (report_of_hi('4869') if length >= 4 else '') + ('ok\n' if length >= 12 else '')
            done = self.run_with_failure(14 + length, PROGRAM, 'examples/hi/hi.com', '--edits', edits)
            with self.subTest(length=length):
                self.assertEqual((done.returncode, done.stdout.decode(), done.stderr.decode()), (1, out, f'cpmrun: cannot read {edits}\n'))
