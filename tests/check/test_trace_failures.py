"""Runs the built program cpmtrace with each allocation and each system call failing in turn: it ends as without the failure, or prints a prefix of
its trace and names the fault. Its traces themselves are worked out by hand in tests/cases/trace."""
from failures import FailureTest, Wanted
from helpers import HI, TOP, TRACE_PROGRAM
from vembrusk.assembler import assemble

GREETING = TOP / 'examples/greeting/greeting.com'
SORT = TOP / 'examples/sort'
SORTING = [SORT / 'sort.com', 'names.txt sorted.txt', '--files', SORT / 'files']


class TraceFailures(FailureTest):
    """Each request of cpmtrace fails in turn."""

    program = TRACE_PROGRAM
    name = 'cpmtrace'

    def wanted(self, *words: object, **how) -> Wanted:
        """Returns what a run with these arguments prints."""
        done = self.run_command(TRACE_PROGRAM, *words)
        self.assertEqual((done.returncode, done.stderr), (0, b''))
        return Wanted(done.stdout, **how)


class RefusalTest(TraceFailures):
    library = 'refuse'

    def test_traces(self) -> None:
        greeting = [GREETING, 'a tail', '--typed', 'Ada']
        for words in [HI], [HI, '--steps'], [HI, '--last', '1'], greeting, [*greeting, '--reads', '0-FFFF'], SORTING, [*SORTING, '--file', 'sorted.txt']:
            self.each_in_turn(self.wanted(*words), *words)

    def test_a_call_that_is_tried(self) -> None:
        words = [*SORTING, '--writes', '0-FFFF', '--reads', '5C-7F']
        self.each_in_turn(self.wanted(*words), *words)

    def test_help_and_errors(self) -> None:
        self.each_in_turn(self.wanted('--help', may_be_cut=False), '--help')
        bad, use = [HI, '--at=x'], [HI, 'a', 'b']
        for err, words in [
            (self.run_command(TRACE_PROGRAM, *bad).stderr, bad),
            (self.run_command(TRACE_PROGRAM, *use).stderr, use),
            (b'cpmtrace: cannot read none.com\n', ['none.com']),
        ]:
            self.each_in_turn(Wanted(b'', err, status=1, may_be_cut=False), *words)


class DeviceTest(TraceFailures):
    library = 'fail'

    def each_call_fails(self) -> None:
        script = self.put('script', 'Ada\r')
        words = [GREETING, '--console', script, '--files', self.host()]
        messages = (f'cannot read {GREETING}', f'cannot read {script}', f'cannot read {self.work}/host', f'cannot read {self.work}/host/x',
                    'cannot write standard output')
        for more in [], ['--steps', '--last', '3']:
            self.each_in_turn(self.wanted(*words, *more, messages=messages, fault_status=1, may_pass=False), *words, *more)

    def test_each_call_fails(self) -> None:
        self.environment = {'FAIL_CALLS': 'orwds'}
        self.each_call_fails()

    def test_each_read_or_write_of_one_byte_fails(self) -> None:
        self.environment = {'FAIL_CALLS': 'rw', 'FAIL_PIECES': '1'}
        self.each_call_fails()

    def test_a_trace_ends_soon_after_a_failure(self) -> None:
        """The program spins. A trace of 4,000,000,000 steps takes minutes."""
        self.environment = {'FAIL_CALLS': 'w'}
        spin = self.put('spin.com', assemble(['JMP 100H']))
        done = self.run_with_failure(2, TRACE_PROGRAM, spin, '--steps', '--limit', '4000000000', timeout=8)
        self.assertEqual((done.returncode, done.stderr), (1, b'cpmtrace: cannot write standard output\n'))
        self.assertTrue(done.stdout and len(done.stdout) <= 4_096, len(done.stdout))

    def test_a_longer_trace_is_cut_where_it_fails(self) -> None:
        """Two pieces of about 4,096 bytes are written, and a third fails."""
        self.environment = {'FAIL_CALLS': 'w'}
        words = [*SORTING, '--steps']
        whole = self.wanted(*words).out
        self.assertGreater(len(whole), 3 * 4_096)
        done = self.run_with_failure(3, TRACE_PROGRAM, *words)
        self.assertEqual((done.returncode, done.stderr), (1, b'cpmtrace: cannot write standard output\n'))
        self.assertTrue(whole.startswith(done.stdout) and 2 * 4_000 <= len(done.stdout) <= 2 * 4_096, len(done.stdout))
