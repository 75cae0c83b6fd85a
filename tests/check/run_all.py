#!/usr/bin/env python3
"""Runs the tests of this folder, as `make check` does: each file in a process of its own, as many at once as there are cores, and then, one by
one, the tests that must run alone. `tests/check/run_all.py [MODULE..]` runs these files, by default all.

What a process prints is shown when it ends. The last line is `N passed, M failed`: a test that fails for several values counts once, and so
does a process that ends without a count. The status is 0 only if none failed. An interrupt ends all processes."""
import os
import signal
import subprocess
import sys
import tempfile
import threading
import time
import unittest
from collections.abc import Callable
from concurrent.futures import ThreadPoolExecutor, as_completed
from dataclasses import dataclass
from pathlib import Path

FOLDER = Path(__file__).resolve().parent
CORES = len(os.sched_getaffinity(0))
GRACE = 10
"""The seconds that a process has after an interrupt to end its own processes."""

ALONE = {
    'test_build.Build.test_a_failure_is_reported_and_the_next_build_resumes': 'proves crates beside each other, for which memory must be free',
    'test_build.Build.test_each_crate_is_proved_after_those_that_it_uses_and_beside_the_others': 'two waits of 0.6 s must overlap',
    'test_build.Build.test_a_terminal_has_one_line_which_is_written_again': 'counts the lines that are written during waits',
    'test_command.InputTest.test_a_start_is_short': 'measures the time of a start',
    'test_devices.Devices.test_no_line_is_executed_after_a_failed_reply': 'must end within 8 s',
    'test_devices.Devices.test_a_run_ends_soon_after_its_text_fails': 'must end within 8 s',
    'test_trace_failures.DeviceTest.test_a_trace_ends_soon_after_a_failure': 'must end within 8 s',
}
"""The tests that run alone, each with the reason."""


class Loader(unittest.TestLoader):
    """Loads the tests of a module without those that run alone."""

    def getTestCaseNames(self, testCaseClass: type[unittest.TestCase]) -> list[str]:
        before = f'{testCaseClass.__module__}.{testCaseClass.__qualname__}.'
        return [name for name in super().getTestCaseNames(testCaseClass) if before + name not in ALONE]


def run_here(name: str, report: Path) -> bool:
    """Runs the tests of a module, or one test, in this process. Writes the number of those that passed and the names of those that failed, and
    returns whether none did."""
    result = unittest.main(None, argv=['tests/check', name], testLoader=Loader(), exit=False).result
    found = [*(test for test, _ in result.failures + result.errors), *result.unexpectedSuccesses]
    # a value counts for its test, and what fails around tests, such as `setUpClass`, has a name and is no test
    failed = {test.id(): test.countTestCases() for test in (getattr(each, 'test_case', each) for each in found)}
    report.write_text('\n'.join([str(result.testsRun - sum(failed.values())), *failed]))
    return result.wasSuccessful()


@dataclass(frozen=True)
class Outcome:
    """What a process came to."""

    passed: int
    failed: list[str]
    shown: str


class Runner:
    """The processes that run, each in a group of its own, and with a folder of its own for temporary files."""

    def __init__(self, room: Path) -> None:
        self.room = room
        self.running: set[subprocess.Popen] = set()
        self.changed = threading.Condition()
        self.is_stopped = False

    def run_each(self, names: list[str], at_once: int, take: Callable[[Outcome], None]) -> None:
        """Runs modules or tests, and takes each outcome when it is there."""
        with ThreadPoolExecutor(at_once) as pool:
            try:
                for future in as_completed([pool.submit(self.run, name) for name in names]):
                    take(future.result())
            except BaseException:
                self.stop()
                raise

    def run(self, name: str) -> Outcome:
        """Runs a module or a test, and ends what it leaves in its group."""
        begun = time.monotonic()
        process = self.start(name)
        os.waitid(os.P_PID, process.pid, os.WEXITED | os.WNOWAIT)
        with self.changed:
            os.killpg(process.pid, signal.SIGKILL)
            _, status, used = os.wait4(process.pid, 0)
            process.returncode = os.waitstatus_to_exitcode(status)
            self.running.remove(process)
            self.changed.notify()
        report = self.room / f'{name}.report'
        passed, *failed = report.read_text().splitlines() if report.exists() else ['0', f'{name}: no count, and status {process.returncode}']
        if status and not failed:
            failed = [f'{name}: status {process.returncode}']
        text = (self.room / f'{name}.text').read_text(errors='replace')
        times = f'{time.monotonic() - begun:.0f} s, and {used.ru_utime + used.ru_stime:.1f} s of processors'
        return Outcome(int(passed), failed, f'{name}: {times}\n{text}')

    def start(self, name: str) -> subprocess.Popen:
        """Starts a process, unless all are to end. It ignores no signal, even if this process does."""
        folder = self.room / name
        folder.mkdir()
        words = ['env', '--default-signal', sys.executable, '-B', '-W', 'error', __file__, '--here', name, self.room / f'{name}.report']
        with open(self.room / f'{name}.text', 'wb') as text, self.changed:
            if self.is_stopped:
                raise InterruptedError
            process = subprocess.Popen(words, cwd=FOLDER.parents[1], env={**os.environ, 'TMPDIR': str(folder)}, stdin=subprocess.DEVNULL,
                                       stdout=text, stderr=subprocess.STDOUT, process_group=0)
            self.running.add(process)
        return process

    def stop(self) -> None:
        """Ends all processes, and waits for them."""
        with self.changed:
            self.is_stopped = True
            for number in signal.SIGINT, signal.SIGKILL:
                for process in self.running:
                    os.killpg(process.pid, number)
                self.changed.wait_for(lambda: not self.running, GRACE)


def run_all(modules: list[str]) -> bool:
    """Runs these modules, shows what they came to, and returns whether no test failed."""
    outcomes: list[Outcome] = []

    def take(outcome: Outcome) -> None:
        print(outcome.shown, flush=True)
        outcomes.append(outcome)

    with tempfile.TemporaryDirectory(prefix='check-', ignore_cleanup_errors=True) as room:
        os.chmod(room, 0o755)  # some tests run programs as another user
        runner = Runner(Path(room))
        runner.run_each(modules, CORES, take)
        runner.run_each([test for test in ALONE if test.split('.')[0] in modules], 1, take)
    failed = [name for outcome in outcomes for name in outcome.failed]
    for name in failed:
        print(f'failed: {name}')
    print(f'{sum(outcome.passed for outcome in outcomes)} passed, {len(failed)} failed')
    return not failed


class Interrupted(BaseException):
    """A signal that is to end all."""


def interrupt(number: int, _: object) -> None:
    for each in signal.SIGINT, signal.SIGTERM, signal.SIGHUP:
        signal.signal(each, signal.SIG_IGN)
    raise Interrupted(number)


def main() -> None:
    if sys.argv[1:2] == ['--here']:
        sys.exit(not run_here(sys.argv[2], Path(sys.argv[3])))
    for number in signal.SIGINT, signal.SIGTERM, signal.SIGHUP:
        if signal.getsignal(number) != signal.SIG_IGN:
            signal.signal(number, interrupt)
    try:
        sys.exit(not run_all(sys.argv[1:] or sorted(path.stem for path in FOLDER.glob('test_*.py'))))
    except Interrupted as caught:
        [number] = caught.args
        signal.signal(number, signal.SIG_DFL)
        os.kill(os.getpid(), number)


if __name__ == '__main__':
    main()
