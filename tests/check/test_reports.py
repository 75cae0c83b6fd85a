"""Runs the built program with reports of the run: a rule for make (`--deps`, `--target`) and a trace (`--trace`). A rule is in place with the
files of the run or not at all; a trace is written while the run goes on. A device, a FIFO or a link is written and never replaced."""
import os
import pty
import shutil
import signal
import stat
import subprocess
import threading
import time
import tty
from pathlib import Path

from failures import FailureTest, Wanted
from helpers import DEPENDENCIES_PROGRAM, HI, PROGRAM, RECORD, TOP, TRACE_PROGRAM, ProgramTest, build_library, calls
from test_disk import PADDED
from vembrusk.assembler import assemble

SORT = TOP / 'examples/sort'
WARM_BOOT = 'stop WarmBoot\n'
MORE = "\n\nFor more information, try '--help'.\n"
USAGE = f'\n\nUsage: cpmrun [OPTIONS] <PROGRAM> [TAIL]{MORE}'
ACTS = ['15 NOTE.TXT', '21 NOTE.TXT', '22 NEW', '19 OLD']
POLL = assemble(['poll: MVI C,11; CALL 5; JMP poll'])
"""Asks for ever whether a key is there, which takes 5 steps each time."""
PRINTED = 'MVI E,65; MVI C,2; CALL 5'
MAY_CHANGE = 'the run may change a file of this name'


class ReportTest(ProgramTest):
    """A test with a disk and a program that changes it."""

    def setUp(self) -> None:
        super().setUp()
        self.disk = self.work / 'disk'
        self.disk.mkdir()
        for name in 'note.txt', 'old':
            self.put(f'disk/{name}', 'one')
        self.program = self.put('calls.com', calls(*ACTS))
        self.run_words = [self.program, '--disk', self.disk]
        self.rule, self.trace = self.work / 'rule.d', self.work / 'trace'

    def printed(self, *words: object) -> bytes:
        """Returns what a program prints on standard output."""
        done = self.run_command(*words, cwd=self.work)
        self.assertEqual(done.returncode, 0, done.stderr)
        return done.stdout

    def expect_kept(self) -> None:
        """Expects the disk as it was."""
        self.assertEqual({path.name: path.read_bytes() for path in self.disk.iterdir()}, {'note.txt': b'one', 'old': b'one'})

    def expect_changed(self) -> None:
        self.assertEqual({path.name: path.read_bytes() for path in self.disk.iterdir()}, {'note.txt': RECORD, 'new': b''})


class TogetherTest(ReportTest):
    """Reports of one run."""

    def test_a_run_on_a_disk_with_its_rule_and_its_trace(self) -> None:
        before = self.work / 'before'
        shutil.copytree(self.disk, before)
        self.expect(0, '', f'{WARM_BOOT}gone OLD\n', *self.run_words, '--deps', self.rule, '--trace', self.trace)
        self.expect_changed()
        self.assertEqual(self.trace.read_bytes(), self.printed(TRACE_PROGRAM, self.program, '--disk', before))
        shutil.rmtree(self.disk)
        shutil.copytree(before, self.disk)
        both = self.rule.read_bytes()
        self.expect(0, '', f'{WARM_BOOT}gone OLD\n', *self.run_words, '--deps', self.rule)
        self.assertEqual(self.rule.read_bytes(), both)
        self.assertTrue(both.startswith(f'{self.disk}/new {self.disk}/note.txt: {self.program} '.encode()), both)
        self.expect_names(self.work, 'before', 'calls.com', 'disk', 'rule.d', 'trace')

    def test_a_run_with_folders_and_a_script(self) -> None:
        (self.work / 'made').mkdir()
        for words in (
            [SORT / 'sort.com', 'names.txt sorted.txt', '--files', SORT / 'files'],
            [TOP / 'examples/greeting/greeting.com', '--typed', 'Ada'],
            [HI], [HI, '--limit', '3'], [HI, '--limit', '0'],
        ):
            with self.subTest(words=words):
                done = self.run_command(PROGRAM, *words, '--out', self.work / 'made', '--trace', self.trace)
                self.assertEqual((done.returncode, done.stderr), (3, b'stop Limit\n') if '--limit' in words else (0, WARM_BOOT.encode()))
                self.assertEqual(self.trace.read_bytes(), self.printed(TRACE_PROGRAM, *words))

    def test_a_run_that_stops_is_traced_too(self) -> None:
        """The disk is unchanged, and the trace has the calls up to the stop."""
        program = self.put('calls.com', calls(*ACTS, end='HLT'))
        self.expect(4, '', 'stop Halt\ndisk unchanged\n', program, '--disk', self.disk, '--trace', self.trace)
        self.expect_kept()
        trace = self.trace.read_bytes()
        self.assertEqual(trace, self.printed(TRACE_PROGRAM, program, '--disk', self.disk))
        self.assertTrue(trace.endswith(b'stop Halt\n'))

    def test_the_target_of_a_rule(self) -> None:
        words = [SORT / 'sort.com', 'names.txt sorted.txt', '--files', SORT / 'files']
        (self.work / 'made').mkdir()
        for words in [HI], [HI, '--limit', '3'], words, [*words, '--out', self.work / 'made']:
            with self.subTest(words=words):
                done = self.run_command(PROGRAM, *words, '--deps', self.rule, '--target', 'the $ target')
                self.assertIn(done.returncode, (0, 3))
                read = words[:-2] if '--out' in words else words
                self.assertEqual(self.rule.read_bytes(), self.printed(DEPENDENCIES_PROGRAM, *read, '--make', 'the $ target'))
        self.expect(1, '', 'cpmrun: a rule for make cannot have the path a:b\n', 'none.com', '--deps', self.rule, '--target', 'a:b')

    def test_an_older_rule_is_replaced_as_a_whole_and_an_older_trace_is_emptied(self) -> None:
        for path in self.rule, self.trace:
            path.write_text('older ' * 1000)
            path.chmod(0o640)
        old = [path.stat().st_ino for path in (self.rule, self.trace)]
        self.expect(0, '', f'{WARM_BOOT}gone OLD\n', *self.run_words, '--deps', self.rule, '--trace', self.trace)
        self.assertTrue(self.rule.read_bytes().endswith(b'\n'))
        self.assertNotIn(b'older', self.rule.read_bytes() + self.trace.read_bytes())
        self.assertTrue(self.trace.read_bytes().endswith(b'stop WarmBoot\n'))
        self.assertEqual([path.stat().st_mode & 0o777 for path in (self.rule, self.trace)], [0o640, 0o640])
        self.assertEqual([path.stat().st_ino == number for path, number in zip((self.rule, self.trace), old)], [False, True])


class ClashTest(ReportTest):
    """Reports that cannot be written where they are to be written."""

    def expect_bad_file(self, option: str, path: object, mistake: str, *words: object) -> None:
        """Expects a usage error of the file of a report, and that nothing is changed."""
        before = {path: path.read_bytes() for path in self.work.rglob('*') if path.is_file()}
        done = self.run_command(PROGRAM, *words, f'--{option}', path, cwd=self.work)
        self.assertEqual((done.returncode, done.stderr.decode()), (1, f"error: invalid value '{path}' for '--{option} <FILE>': {mistake}{MORE}"))
        self.assertEqual({path: path.read_bytes() for path in self.work.rglob('*') if path.is_file()}, before)

    def test_a_report_is_no_file_that_the_run_reads(self) -> None:
        script = self.put('script', 'x')
        (self.work / 'b').mkdir()
        self.put('b/file', 'one')
        reads = 'the run reads this file'
        for option in 'deps', 'trace':
            for path in self.program, script, self.work / 'b/file':
                with self.subTest(option=option, path=path):
                    self.expect_bad_file(option, path, reads, *self.run_words, '--console', script, '--files-b', self.work / 'b')
        self.expect_bad_file('trace', 'calls.com', reads, 'calls.com')
        (self.work / 'link').symlink_to('calls.com')
        (self.work / 'to-b').symlink_to('b')
        for path in './calls.com', 'b/../calls.com', 'link':
            self.expect_bad_file('trace', path, reads, 'calls.com')
        self.expect_bad_file('deps', 'to-b/file', reads, 'calls.com', '--files', 'b')
        self.expect_kept()

    def test_a_report_is_no_link_to_a_file_of_the_run(self) -> None:
        """It would be written through the link."""
        (self.work / 'b').mkdir()
        (self.work / 'out').mkdir()
        self.put('b/file', 'one')
        self.put('out/NEW', 'older')
        for name, target in ('to-host', 'b/file'), ('to-disk', 'disk/note.txt'), ('to-out', 'out/NEW'), ('to-link', 'to-host'):
            (self.work / name).symlink_to(target)
        for option in 'deps', 'trace':
            for name in 'to-host', 'to-link':
                self.expect_bad_file(option, name, 'the run reads this file', *self.run_words, '--files-b', self.work / 'b')
            self.expect_bad_file(option, 'to-disk', 'the run reads this file', *self.run_words)
        self.expect_bad_file('deps', 'to-out', 'the run changes this file', self.program, '--out', self.work / 'out')
        self.expect_bad_file('trace', 'to-out', MAY_CHANGE, self.program, '--out', self.work / 'out')
        os.link(self.work / 'out/NEW', self.work / 'second')
        self.expect_bad_file('trace', 'second', MAY_CHANGE, self.program, '--out', self.work / 'out')
        (self.work / 'to-rule').symlink_to('rule.d')
        self.put('rule.d', 'older')
        self.expect_bad_file('deps', 'to-rule', "it is the file of '--trace <FILE>'", *self.run_words, '--trace', self.work / 'rule.d')
        self.expect_kept()

    def test_a_link_to_a_file_that_the_run_makes_keeps_the_file(self) -> None:
        """When the words are read, nothing is there."""
        out, link = self.work / 'out', self.work / 'to-new'
        out.mkdir()
        link.symlink_to('out/NEW')
        self.expect(1, '', f'cpmrun: cannot write {link}: it was changed meanwhile\n', self.program, '--out', out, '--deps', link)
        self.assertEqual((out / 'NEW').read_bytes(), b'')
        (out / 'NEW').unlink()

    def test_a_link_of_a_trace_to_a_file_that_the_run_makes(self) -> None:
        """The file is the trace's, and the run's is not written."""
        (self.work / 'out').mkdir()
        link = self.work / 'to-new'
        for target, words in ('out/NEW', [self.program, '--out', self.work / 'out']), ('disk/new', self.run_words):
            link.unlink(missing_ok=True)
            link.symlink_to(target)
            self.expect(1, '', f"error: invalid value '{link}' for '--trace <FILE>': the run changes this file{MORE}", *words, '--trace', link)
            self.assertTrue((self.work / target).read_bytes().endswith(b'stop WarmBoot\n'))
            (self.work / target).unlink()
            self.expect_kept()

    def test_a_report_is_no_file_that_the_run_changes(self) -> None:
        out = self.work / 'out'
        out.mkdir()
        for path, words in (out / 'NEW', [self.program, '--out', out]), ('out/../out/NEW', [self.program, '--out', out]):
            self.expect_bad_file('deps', path, 'the run changes this file', *words)
            self.expect_bad_file('trace', path, MAY_CHANGE, *words)
        self.expect_bad_file('deps', self.disk / 'new', 'it would be a file of a disk', *self.run_words)
        self.expect_bad_file('trace', self.disk / 'new', MAY_CHANGE, *self.run_words)
        self.expect_kept()

    def test_a_trace_has_no_name_of_a_file_in_a_folder_that_the_run_writes(self) -> None:
        """It is opened before the run, so it is not known yet which files the run changes."""
        out = self.work / 'out'
        out.mkdir()
        (self.work / 'to-out').symlink_to('out')
        words = [self.program, '--files', self.disk, '--out-d', out]
        for path in out / 'X', out / 'trace.txt', 'out/T', './out/t.$$$', 'to-out/x':
            self.expect_bad_file('trace', path, MAY_CHANGE, *words)
        self.expect_bad_file('trace', self.disk / 'trace', MAY_CHANGE, *self.run_words)
        for path in out / 'trace.text', out / '.trace', out / 'a:x', self.work / 'b':
            self.expect(0, '', f'{WARM_BOOT}gone OLD\n', *words, '--trace', path)
            self.assertTrue(path.read_bytes().endswith(b'stop WarmBoot\n'))

    def test_two_reports_have_two_files(self) -> None:
        for path in self.rule, './rule.d':
            self.expect_bad_file('deps', path, "it is the file of '--trace <FILE>'", *self.run_words, '--trace', self.rule)
        self.assertFalse(self.rule.exists())
        self.expect_kept()

    def test_words_that_exclude_each_other(self) -> None:
        for first, second, words in [
            ('--edits <FILE>', '--trace <FILE>', ['--edits', 'x', '--trace', 'y']),
            ('--edits <FILE>', '--deps <FILE>', ['--edits', 'x', '--deps', 'y']),
        ]:
            done = self.run_command(PROGRAM, 'none.com', *words)
            self.assertEqual((done.returncode, done.stdout), (1, b''))
            self.assertIn(done.stderr.decode(), [f"error: the argument '{one}' cannot be used with '{other}'{USAGE}"
                                                 for one, other in ((first, second), (second, first))])
        self.expect(1, '', f'error: the following required arguments were not provided:\n  --deps <FILE>{USAGE}', 'none.com', '--target', 'x')


class OtherFileTest(ReportTest):
    """Reports whose files are devices, FIFOs or links."""

    def expect_reports(self, path: Path, **how) -> None:
        """Runs with each report at a path, which stays what it is."""
        state = path.lstat()
        for option in '--deps', '--trace':
            self.expect(0, 'Hi', WARM_BOOT, HI, option, path, timeout=20, **how)
            self.assertEqual((path.lstat().st_ino, path.lstat().st_mode), (state.st_ino, state.st_mode))
        self.assertFalse([name for name in os.listdir(path.parent) if name.startswith('.')])

    def test_a_device_is_written(self) -> None:
        if os.geteuid() != 0:
            self.skipTest('only root makes devices')
        device = self.work / 'null'
        os.mknod(device, 0o666 | stat.S_IFCHR, os.makedev(1, 3))
        self.expect_reports(device)
        full = self.work / 'full'
        os.mknod(full, 0o666 | stat.S_IFCHR, os.makedev(1, 7))
        for option in '--deps', '--trace':
            done = self.run_command(PROGRAM, self.program, '--files', self.disk, option, full)
            self.assertEqual((done.returncode, done.stderr.decode().splitlines()[-1]), (1, f'cpmrun: cannot write {full}'))
            self.assertTrue(stat.S_ISCHR(full.lstat().st_mode))

    def test_a_fifo_is_written(self) -> None:
        fifo = self.work / 'fifo'
        os.mkfifo(fifo)
        for option, wanted in ('--deps', self.printed(DEPENDENCIES_PROGRAM, HI, '--make', fifo)), ('--trace', self.printed(TRACE_PROGRAM, HI)):
            found: list[bytes] = []
            reader = threading.Thread(target=lambda to=found: to.append(fifo.read_bytes()))
            reader.start()
            try:
                self.expect(0, 'Hi', WARM_BOOT, HI, option, fifo, timeout=20)
                self.assertTrue(stat.S_ISFIFO(fifo.lstat().st_mode))
            finally:
                if stat.S_ISFIFO(fifo.lstat().st_mode):
                    os.close(os.open(fifo, os.O_RDWR | os.O_NONBLOCK))
                reader.join(timeout=20)
            self.assertEqual(found, [wanted])

    def test_a_link_is_followed(self) -> None:
        link, kept = self.work / 'link', self.put('kept', 'older ' * 1000)
        link.symlink_to('kept')
        number = kept.stat().st_ino
        self.expect_reports(link)
        self.assertEqual((kept.stat().st_ino, kept.read_bytes()), (number, self.printed(TRACE_PROGRAM, HI)))
        kept.unlink()
        self.expect_reports(link)
        self.assertEqual(kept.read_bytes(), self.printed(TRACE_PROGRAM, HI))

    def test_standard_output_and_standard_error_are_files_too(self) -> None:
        trace = self.printed(TRACE_PROGRAM, HI).decode()
        for way in '/dev/stdout', '/dev/fd/1':
            self.expect(0, f'Hi{trace}', WARM_BOOT, HI, '--trace', way)
        done = self.run_command(PROGRAM, HI, '--trace', '/dev/stderr')
        self.assertEqual((done.returncode, done.stdout), (0, b'Hi'))
        self.assertIn(done.stderr.decode(), [WARM_BOOT + trace, trace + WARM_BOOT])


class FailedReportTest(ReportTest):
    """Reports that cannot be written."""

    def test_no_disk_is_changed_if_a_rule_cannot_be_prepared(self) -> None:
        """The file outside of disks is written before, and the trace is of the whole run."""
        (self.work / 'out').mkdir()
        program = self.put('calls.com', calls(*ACTS, '22 B:NEW'))
        path = self.work / 'none/report'
        self.expect(1, '', f'cpmrun: cannot write {path}\n', program, '--disk', self.disk, '--out-b', self.work / 'out', '--deps', path,
                    '--trace', self.trace)
        self.expect_kept()
        self.expect_names(self.work / 'out', 'NEW')
        self.assertTrue(self.trace.read_bytes().endswith(b'stop WarmBoot\n'))

    def test_nothing_is_run_if_a_trace_cannot_be_opened(self) -> None:
        (self.work / 'out').mkdir()
        path = self.work / 'none/trace'
        self.expect(1, '', f'cpmrun: cannot write {path}\n', HI, '--out', self.work / 'out', '--trace', path, '--deps', self.rule)
        self.expect(1, '', f'cpmrun: cannot write {path}\n', *self.run_words, '--trace', path)
        self.expect_kept()
        self.expect_names(self.work / 'out')
        self.expect_names(self.work, 'calls.com', 'disk', 'out')

    def test_a_folder_is_no_report(self) -> None:
        for option in '--deps', '--trace':
            done = self.run_command(PROGRAM, *self.run_words, option, self.work / 'disk')
            self.assertEqual((done.returncode, done.stdout), (1, b''))
            self.assertTrue(done.stderr.decode().splitlines()[-1].startswith(f'cpmrun: cannot write {self.disk}'), done.stderr)

    def test_a_closed_output_leaves_no_rule(self) -> None:
        done = self.run_command(PROGRAM, HI, '--deps', self.rule, preexec_fn=lambda: os.close(1))
        self.assertEqual((done.returncode, done.stderr.decode()), (1, 'cpmrun: cannot write standard output\n'))
        self.expect_names(self.work, 'calls.com', 'disk')

    def test_a_closed_output_is_not_written_into_the_trace(self) -> None:
        """A file that is opened while standard output is closed could get its number."""
        for closed in (1,), (0, 1), (0, 1, 2):
            done = self.run_command(PROGRAM, HI, '--trace', self.trace, preexec_fn=lambda numbers=closed: [os.close(number) for number in numbers])
            self.assertEqual(done.returncode, 1)
            if 2 not in closed:
                self.assertEqual(done.stderr.decode(), 'cpmrun: cannot write standard output\n')
            self.assertTrue(self.printed(TRACE_PROGRAM, HI).startswith(self.trace.read_bytes()))

    def test_a_trace_before_a_file_that_cannot_be_prepared(self) -> None:
        """A new file has the name of a folder."""
        (self.disk / 'new').mkdir()
        self.expect(1, '', f'cpmrun: cannot write {self.disk}/new: it is no regular file\n', *self.run_words, '--trace', self.trace)
        self.assertEqual((self.disk / 'note.txt').read_bytes(), b'one')
        self.expect_names(self.work, 'calls.com', 'disk', 'trace')


class StreamedTraceTest(ReportTest):
    """A trace is there while the program runs."""

    def expect_prefix(self, trace: bytes, *words: object) -> None:
        """Expects a first part of the trace of these words."""
        self.assertTrue(trace and self.printed(TRACE_PROGRAM, *words).startswith(trace))

    def test_a_trace_is_written_while_the_program_runs(self) -> None:
        process = self.start(self.put('poll.com', POLL), '--limit', '4000000000', '--trace', self.trace)
        end = time.monotonic() + 60
        while not self.trace.exists() or self.trace.stat().st_size < 1_000_000:
            self.assertTrue(process.poll() is None and time.monotonic() < end, 'no lines come')
            time.sleep(0.01)

    def test_a_trace_of_few_calls_is_written_while_the_program_runs(self) -> None:
        """The program makes one call, and then spins: the line comes at the latest after 1,000,000 steps, and not at the end."""
        process = self.start(self.put('spin.com', assemble([PRINTED, 'spin: JMP spin'])), '--limit', '4000000000', '--trace', self.trace)
        end = time.monotonic() + 60
        while not self.trace.exists() or not self.trace.stat().st_size:
            self.assertTrue(process.poll() is None and time.monotonic() < end, 'no line comes')
            time.sleep(0.01)
        self.assertEqual(process.stdout.read(1), b'A')

    def test_an_interrupted_run_leaves_a_first_part(self) -> None:
        program = self.put('poll.com', POLL)
        process = self.start(program, '--disk', self.disk, '--trace', self.trace)
        end = time.monotonic() + 60
        while not self.trace.exists() or not self.trace.stat().st_size:
            self.assertTrue(process.poll() is None and time.monotonic() < end, 'no lines come')
            time.sleep(0.01)
        process.send_signal(signal.SIGTERM)
        process.wait(60)
        self.expect_kept()
        self.expect_prefix(self.trace.read_bytes()[:100_000], program, '--to', '50000')

    def test_a_traced_run_keeps_no_lines_in_memory(self) -> None:
        """The trace of this run has 10,000,000 lines."""
        program = self.put('poll.com', POLL)
        words = [PROGRAM, program, '--limit', '50000000', '--trace', '/dev/null']
        self.expect_command(3, '', 'stop Limit\n', 'bash', '-c', 'ulimit -v 20000; exec "$@"', 'bash', *words)

    def test_a_full_disk_in_the_middle_of_a_trace(self) -> None:
        """The file may have 100 blocks of 1,024 bytes. The run ends long before its limit, and the disk is unchanged."""
        program = self.put('poll.com', calls(*ACTS, end='poll: MVI C,11; CALL 5; JMP poll'))
        done = self.run_command('bash', '-c', 'trap "" XFSZ; ulimit -f 100; exec "$@"', 'bash', PROGRAM, program, '--disk', self.disk, '--partial',
                                '--trace', self.trace, '--deps', self.rule)
        self.assertEqual((done.returncode, done.stdout, done.stderr.decode()), (1, b'', f'cpmrun: cannot write {self.trace}\n'))
        self.expect_kept()
        self.expect_names(self.work, 'calls.com', 'disk', 'poll.com', 'trace')
        self.assertEqual(self.trace.stat().st_size, 102_400)
        self.expect_prefix(self.trace.read_bytes(), program, '--disk', self.disk, '--to', '50000')

    def test_a_closed_pipe_ends_the_run(self) -> None:
        """The reader takes a few lines; the program would run for seconds."""
        program, fifo = self.put('poll.com', POLL), self.work / 'fifo'
        os.mkfifo(fifo)
        process = self.start(program, '--limit', '4000000000', '--trace', fifo)
        with fifo.open('rb') as pipe:
            self.expect_prefix(pipe.read(1000), program, '--to', '5000')
        self.expect_end(1, '', f'cpmrun: cannot write {fifo}\n', process)

    def test_an_unwritten_console_text_ends_the_trace(self) -> None:
        """The text is not sent, and the program would run for seconds."""
        program = self.put('spin.com', assemble([PRINTED, 'poll: MVI C,11; CALL 5; JMP poll']))
        with open('/dev/full', 'wb') as full:
            done = self.run_command(PROGRAM, program, '--disk', self.disk, '--trace', self.trace, stdout=full)
        self.assertEqual((done.returncode, done.stderr), (1, b'cpmrun: cannot write standard output\ndisk unchanged\n'))
        self.assertLess(self.trace.stat().st_size, 100_000_000)
        self.expect_prefix(self.trace.read_bytes()[:100_000], program, '--to', '50000')

    def test_both_texts_fail(self) -> None:
        with open('/dev/full', 'wb') as full:
            done = self.run_command(PROGRAM, HI, '--trace', '/dev/full', stdout=full, stderr=subprocess.PIPE)
        self.assertEqual((done.returncode, done.stderr), (1, b'cpmrun: cannot write /dev/full\n'))

    def test_a_traced_run_has_its_rule(self) -> None:
        """The rule is of the very run that is traced."""
        words = [SORT / 'sort.com', 'names.txt sorted.txt', '--files', SORT / 'files']
        self.expect(0, self.printed(PROGRAM, *words), WARM_BOOT, *words, '--deps', self.rule, '--trace', self.trace)
        self.assertEqual(self.rule.read_bytes(), self.printed(DEPENDENCIES_PROGRAM, *words, '--make', self.rule))
        self.assertEqual(self.trace.read_bytes(), self.printed(TRACE_PROGRAM, *words))


class StandardStreamTest(ReportTest):
    """A trace into standard output or standard error."""

    def test_a_hyphen_is_standard_output(self) -> None:
        trace = self.printed(TRACE_PROGRAM, HI).decode()
        self.expect(0, f'Hi{trace}', WARM_BOOT, HI, '--trace', '-', cwd=self.work)
        self.expect_names(self.work, 'calls.com', 'disk')

    def test_a_stream_is_not_emptied(self) -> None:
        trace = self.printed(TRACE_PROGRAM, HI)
        log = self.put('log', 'older\n')
        for path in '/dev/stdout', '/dev/fd/1', '-', log, './log':
            log.write_bytes(b'older\n')
            with log.open('ab') as out:
                done = self.run_command(PROGRAM, HI, '--trace', path, stdout=out, cwd=self.work)
            self.assertEqual((done.returncode, log.read_bytes()), (0, b'older\nHi' + trace))
        for path in '/dev/stderr', '/dev/fd/2', log:
            log.write_bytes(b'older\n')
            with log.open('ab') as err:
                done = self.run_command(PROGRAM, HI, '--trace', path, stderr=err, cwd=self.work)
            self.assertEqual((done.returncode, done.stdout, log.read_bytes()), (0, b'Hi', b'older\n' + trace + WARM_BOOT.encode()))

    def test_no_steps_are_shown_among_the_lines_on_a_terminal(self) -> None:
        """Without a trace the steps are shown (test_text.py)."""
        terminal, end = pty.openpty()
        tty.setraw(end)
        program = self.put('spin.com', assemble([PRINTED, 'spin: JMP spin']))
        words = [PROGRAM, program, '--limit', '6000000', '--trace', '/dev/stderr']
        environment = {**os.environ, 'TERM': 'xterm', 'LD_PRELOAD': str(build_library('clock', self.work))}
        process = subprocess.Popen(words, stdin=subprocess.DEVNULL, stdout=subprocess.DEVNULL, stderr=end, env=environment)
        os.close(end)
        text = b''
        try:
            while piece := os.read(terminal, 4096):
                text += piece
        except OSError:  # the other end is closed
            pass
        os.close(terminal)
        process.wait(60)
        self.assertEqual(text, self.printed(TRACE_PROGRAM, program, '--limit', '6000000') + b'stop Limit\n')


class ReportFailures(FailureTest):
    """A run over a disk with both reports."""

    def wanted(self, **how) -> tuple[Wanted, list[object]]:
        """Returns the end of a run that renames a file, and its arguments."""
        program = self.put('rename.com', calls('23 OLD NEW', '21 NOTE.TXT'))
        written = self.work / 'written'
        before = {'a/note.txt': b'one', 'a/old': b'one'}
        words = [program, '--disk', written / 'a', '--deps', written / 'd/rule', '--trace', written / 'd/trace']
        self.put_files(before)
        self.assertEqual(self.run_command(PROGRAM, *words).returncode, 0)
        made = self.take_files()
        files = {'a/new': PADDED, 'a/note.txt': RECORD, 'd/rule': made['d/rule'], 'a/old': None}
        return Wanted(b'', b'stop WarmBoot\ngone OLD\n', before=before, files=files, streamed={'d/trace': made['d/trace']}, **how), words


class ReportRefusals(ReportFailures):
    library = 'refuse'

    def test_each_allocation_fails(self) -> None:
        wanted, words = self.wanted(may_be_cut=False)
        self.each_in_turn(wanted, *words)


class ReportDevices(ReportFailures):
    library = 'fail'

    def test_each_call_fails(self) -> None:
        self.environment = {'FAIL_CALLS': 'orwdslmynu'}
        wanted, words = self.wanted(fault_status=1, may_pass=False)
        paths = [f'{self.work}/written/{name}' for name in ('a', *wanted.before, *wanted.files, *wanted.streamed)]
        paths += [f'{self.work}/written/{name}' for name in ('d', *wanted.prepared(0))]
        wanted.messages = tuple(f'cannot {verb} {path}' for verb in ('read', 'write') for path in (words[0], *paths))
        self.each_in_turn(wanted, *words)

    def test_the_program_is_killed_at_each_call(self) -> None:
        self.environment = {'FAIL_CALLS': 'orwdsplmynu', 'FAIL_KILLS': '1'}
        wanted, words = self.wanted()
        self.each_in_turn(wanted, *words)
