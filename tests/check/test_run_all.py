"""Tests run_all.py, which runs the tests of this folder, on a few small modules: the sum, what fails, what ends without a count, and interrupts;
and `./check`, with stand-ins for what it calls."""
import contextlib
import os
import shutil
import signal
import subprocess
import time
from pathlib import Path

from helpers import TOP, WorkTest

MODULES = {
    'test_good': 'def test_one(self): print("good")\n    def test_two(self): pass',
    'test_values': 'def test_each(self):\n        for value in 1, 2, 3:\n            with self.subTest(value):\n                self.assertEqual(value, 3)\n'
                   '    def test_other(self): pass',
    'test_error': 'def test_error(self): raise OSError("an error")',
    'test_class': '@classmethod\n    def setUpClass(cls): raise OSError("no class")\n    def test_one(self): pass',
    'test_success': '@unittest.expectedFailure\n    def test_unexpected(self): pass',
    'test_skipped': '@unittest.skip("not here")\n    def test_skipped(self): pass',
    'test_warns': 'def test_warning(self): warnings.warn("a warning")',
    'test_exits': 'def test_exit(self): os._exit(0)',
    'test_killed': 'def test_killed(self): os.kill(os.getpid(), 9)',
    'test_late': 'def test_late(self): atexit.register(os._exit, 3)',
}
"""Modules, each with the methods of a test."""

SLOW = '''def test_slow(self):
        words = ['sh', '-c', 'echo $$ >> "$PLACE"; sleep 60 & echo $! >> "$PLACE"; wait']
        own = subprocess.Popen(words, start_new_session=True)
        try:
            subprocess.run(words)
        finally:
            os.killpg(own.pid, 9)
            own.wait()'''
"""A test that waits for a process of its group, and for one of another session, which it ends itself."""


class RunAllTest(WorkTest):

    def setUp(self) -> None:
        super().setUp()
        self.folder = self.work / 'tests/check'
        self.folder.mkdir(parents=True)
        shutil.copy(Path(__file__).with_name('run_all.py'), self.folder)
        (self.work / 'temporary').mkdir()
        self.env = {**os.environ, 'TMPDIR': str(self.work / 'temporary'), 'PLACE': str(self.work / 'place')}

    def make_module(self, name: str, text: str) -> None:
        head = 'import atexit, os, subprocess, sys, tempfile, time, unittest, warnings\nclass It(unittest.TestCase):\n'
        self.put(f'tests/check/{name}.py', f'{head}    {text}\n')

    def run_all(self, *modules: str) -> tuple[int, list[str]]:
        """Returns the status, and the lines of what is printed."""
        done = self.run_with_children(self.folder / 'run_all.py', *modules, env=self.env, cwd=self.work, stderr=subprocess.STDOUT)
        self.expect_names(self.work / 'temporary')
        return done.returncode, done.stdout.decode().splitlines()

    def test_each_failure_counts_once(self) -> None:
        wanted = {
            'test_good': (2, ''), 'test_values': (1, 'test_values.It.test_each'), 'test_error': (0, 'test_error.It.test_error'),
            'test_class': (0, 'setUpClass (test_class.It)'), 'test_success': (0, 'test_success.It.test_unexpected'), 'test_skipped': (1, ''),
            'test_warns': (0, 'test_warns.It.test_warning'), 'test_exits': (0, 'test_exits: no count, and status 0'),
            'test_killed': (0, 'test_killed: no count, and status -9'), 'test_late': (1, 'test_late: status 3'),
            'test_none': (0, 'unittest.loader._FailedTest.test_none'),
        }
        for name, text in MODULES.items():
            self.make_module(name, text)
        for name, (passed, failed) in wanted.items():
            with self.subTest(name):
                status, lines = self.run_all(name)
                self.assertEqual((status, lines[-1]), (bool(failed), f'{passed} passed, {bool(failed):d} failed'))
                self.assertEqual(lines[-2].removeprefix('failed: '), failed)
        status, lines = self.run_all()
        self.assertEqual((status, lines[-1]), (1, '5 passed, 8 failed'))
        self.assertEqual(sorted(line for line in lines if line.startswith('failed: ')),
                         sorted(f'failed: {failed}' for name, (_, failed) in wanted.items() if failed and name != 'test_none'))
        for line in 'good', 'OSError: an error', 'UserWarning: a warning', 'AssertionError: 1 != 3', 'AssertionError: 2 != 3':
            self.assertIn(line, lines)

    def test_modules_run_at_the_same_time_and_each_is_shown_as_a_whole(self) -> None:
        """As many wait for each other as there are cores."""
        names = [f'test_{letter}' for letter in 'abcdefgh'[:len(os.sched_getaffinity(0))]]
        (self.work / 'places').mkdir()
        for name in names:
            self.make_module(name, f'''def test_waits(self):
        open("places/{name}", "w").close()
        print("{name} begins", flush=True)
        while len(os.listdir("places")) < {len(names)}: time.sleep(0.02)
        print("{name} ends", flush=True)''')
        status, lines = self.run_all()
        self.assertEqual((status, lines[-1]), (0, f'{len(names)} passed, 0 failed'))
        for name in names:
            self.assertEqual(lines.index(f'{name} begins') + 1, lines.index(f'{name} ends'))

    def test_a_test_that_runs_alone_runs_once(self) -> None:
        self.make_module('test_command', 'def test_one(self): pass\nclass InputTest(unittest.TestCase):\n    def test_a_start_is_short(self): pass')
        status, lines = self.run_all()
        self.assertEqual((status, lines[-1]), (0, '2 passed, 0 failed'))
        self.assertEqual([line for line in lines if line.startswith('Ran ')], [line for line in lines if line.startswith('Ran 1 test in ')])

    def test_each_process_has_a_folder_which_is_removed(self) -> None:
        self.make_module('test_leaves', 'def test_one(self): os.mkdir(os.path.join(tempfile.mkdtemp(), "left")); os.kill(os.getpid(), 9)')
        self.assertEqual(self.run_all()[1][-1], '0 passed, 1 failed')

    def test_what_a_test_leaves_in_its_group_is_ended(self) -> None:
        self.make_module('test_leaves', 'def test_one(self): subprocess.run("sleep 60 & echo $! > place", shell=True)')
        self.assertEqual(self.run_all()[1][-1], '1 passed, 0 failed')
        self.expect_ended((self.work / 'place').read_text())

    def expect_ended(self, process: str) -> None:
        """Expects that a process ends soon, or has ended."""
        state = Path('/proc', process.strip(), 'stat')
        end = time.monotonic() + 20
        with contextlib.suppress(FileNotFoundError, ProcessLookupError):
            while ') Z ' not in state.read_text():
                self.assertLess(time.monotonic(), end, 'a process is left')
                time.sleep(0.02)

    def test_an_interrupt_ends_all(self) -> None:
        self.make_module('test_slow', SLOW)
        self.make_module('test_slow_too', SLOW)
        for number in signal.SIGINT, signal.SIGTERM, signal.SIGHUP:
            place = self.put('place', '')
            words = ['env', '--default-signal', self.folder / 'run_all.py']
            with subprocess.Popen(words, env=self.env, cwd=self.work, stdout=subprocess.PIPE, stderr=subprocess.PIPE) as runner:
                while len(processes := place.read_text().split()) < 8:
                    time.sleep(0.02)
                runner.send_signal(number)
                out, err = runner.communicate(timeout=20)
            self.assertEqual((runner.returncode, out, err), (-number, b'', b''))
            self.expect_names(self.work / 'temporary')
            for process in processes:
                self.expect_ended(process)


class CheckTest(WorkTest):

    def setUp(self) -> None:
        super().setUp()
        for folder in 'bin', 'scripts', 'tests/check', 'crates/test_runner/out':
            (self.work / folder).mkdir(parents=True)
        shutil.copy(TOP / 'check', self.work)
        self.make_script('crates/test_runner/out/test_runner', '')
        for name in 'cpmrun', 'cpmdeps', 'cpmtrace':
            self.make_script(name, f'echo the-{name}')

    def make_script(self, name: str, text: str) -> None:
        self.put(name, f'#!/bin/sh\n{text}\n').chmod(0o755)

    def check(self, of_rt: str, of_tests: str, *crates: str) -> tuple[int, list[str]]:
        """Returns the status, and the lines of what is printed, if these are commands in place of `rt` and of the tests."""
        self.make_script('bin/rt', of_rt)
        self.make_script('tests/check/run_all.py', of_tests)
        env = {'PATH': f'{self.work}/bin:/usr/bin:/bin', 'PROGRAM': 'another'}
        done = self.run_with_children('./check', *crates, env=env, cwd=self.work, stderr=subprocess.STDOUT)
        return done.returncode, done.stdout.decode().splitlines()

    def test_the_sum_is_of_both(self) -> None:
        good = 'echo "3 passed, 0 failed"'
        for of_rt, of_tests, status, line in [
            (good, 'echo "5 passed, 0 failed"', 0, '8 passed, 0 failed'),
            (good, 'echo "5 passed, 2 failed"; exit 1', 1, '8 passed, 2 failed'),
            ('echo "2 passed, 1 failed"; exit 1', 'echo "5 passed, 2 failed"; exit 1', 1, '7 passed, 3 failed'),
            ('echo broken', good, 1, '3 passed, 1 failed'), (good, 'echo broken; exit 1', 1, '3 passed, 1 failed'),
            (f'{good}; exit 1', good, 1, '6 passed, 1 failed'), (good, f'{good}; kill -9 $$', 1, '6 passed, 1 failed'),
        ]:
            with self.subTest(rt=of_rt, tests=of_tests):
                found, lines = self.check(f'[ "$*" = ci ] || exit 9\n{of_rt}', of_tests)
                self.assertEqual((found, lines[-1]), (status, line))

    def test_the_tests_get_the_built_program_by_each_name(self) -> None:
        names = 'PROGRAM', 'DEPENDENCIES_PROGRAM', 'TRACE_PROGRAM', 'SESSIONS'
        found, lines = self.check('echo "3 passed, 0 failed"', f'echo {" ".join(f"${name}" for name in names)}\necho "1 passed, 0 failed"')
        self.assertEqual(found, 0)
        self.assertIn('the-cpmrun the-cpmdeps the-cpmtrace crates/test_runner/out/test_runner', lines)

    def test_what_was_proved_is_not_proved_again(self) -> None:
        shutil.copytree(TOP / 'scripts', self.work / 'scripts', dirs_exist_ok=True)
        names = ['cpmrun', 'cpmdeps', 'cpmtrace']
        for name in names:
            shutil.copy(TOP / name, self.work)
        (self.work / 'crates/executable/src').mkdir(parents=True)
        self.put('crates/executable/src/main.rt', '')
        self.put('crates.txt', '')
        made = 'crates/executable/out/executable'
        good = '\n'.join(['[ "$*" = ci ] || { echo "rt $*"; exit 9; }', 'sleep 0.1', f'mkdir -p {Path(made).parent}',
                          f"echo 'echo \"${{0##*/}} of ci\"' > {made}", f'chmod +x {made}', 'echo "3 passed, 0 failed"'])
        tests = '$PROGRAM; $DEPENDENCIES_PROGRAM; $TRACE_PROGRAM\necho "1 passed, 0 failed"'
        of_ci = [f'{name} of ci' for name in names]
        (self.work / 'out').mkdir()
        for name in names:  # what was built before
            self.make_script(f'out/{name}', 'echo older')
        self.put('out/cpmrun.sources', 'a record')
        status, lines = self.check(good, tests)
        self.assertEqual((status, lines[-1]), (0, '4 passed, 0 failed'))
        self.assertEqual([line for line in lines if line.endswith('of ci')], of_ci)
        self.assertEqual([os.readlink(self.work / 'out' / name) for name in names[1:]], ['cpmrun'] * 2)
        # a source that changes meanwhile: the program of before is not taken for that of now
        status, lines = self.check(f'{good}\ntouch crates/executable/src/main.rt', tests)
        self.assertNotEqual([line for line in lines if line.endswith('of ci')], of_ci)

    def test_one_crate_up_to_the_first_step_that_fails(self) -> None:
        steps = ['crates/test_runner rt check', '. rt must-fail one', '. ./cpmrun --build', '. tests/check/run_all.py test_one test_two']
        self.make_script('scripts/crate_steps', '[ "$*" = one ] || { echo "no such crate" >&2; exit 1; }\n' + '\n'.join(f'echo {step}' for step in steps))
        done = 'echo "in ${PWD##*/}: $*"'
        tests = f'{done} $PROGRAM\necho "5 passed, 0 failed"'
        status, lines = self.check(done, tests, 'one')
        self.assertEqual((status, lines[-1]), (0, '8 passed, 0 failed'))
        self.assertEqual([line for line in lines if not line.startswith('check: ')],
                         ['in test_runner: check', f'in {self.work.name}: must-fail one', 'the-cpmrun', f'in {self.work.name}: test_one test_two',
                          '5 passed, 0 failed', '8 passed, 0 failed'])
        for of_rt, of_tests, last in [(f'{done}; exit 2', tests, '0 passed, 1 failed'), (f'{done}; [ "$1" = check ]', tests, '1 passed, 1 failed'),
                                      (done, 'echo "5 passed, 2 failed"; exit 1', '8 passed, 2 failed'), (done, 'exit 1', '3 passed, 1 failed'),
                                      (done, 'echo broken', '3 passed, 1 failed')]:
            with self.subTest(rt=of_rt, tests=of_tests):
                status, lines = self.check(of_rt, of_tests, 'one')
                self.assertEqual((status, lines[-1]), (1, last))
        self.assertEqual(self.check(done, tests, 'two'), (1, ['no such crate']))


class StepsTest(WorkTest):
    """What `make check CRATE=..` does, in a tree of small crates."""

    CRATES = """ground:
above: ground clap
main_of: above
dependency_command: above
trace_command: above
executable: main_of dependency_command trace_command
# tests
test_above: above
test_ground: ground
test_runner: ground
"""
    FILES = {
        'rules': 'from helpers import TOP, RuleTest', 'ran': 'from helpers import HI, PROGRAM, TOP', 'named': "PLACE = 'above/src/lib.rt'",
        'path': '# crates/above', 'word': "# above PROGRAM\nimport above\nPLACE = 'aboveness'", 'item': '# it is above::item\nfrom failures import FailureTest',
        'played': 'from playing import Play\nfrom failures import FailureTest', 'traced': 'from helpers import TRACE_PROGRAM, ProgramTest',
        'listed': 'from helpers import DEPENDENCIES_PROGRAM',
    }
    """The text of files of tests, by their names without `test_`."""

    def setUp(self) -> None:
        super().setUp()
        for line in self.CRATES.splitlines():
            (self.work / 'crates' / line.partition(':')[0] / 'src').mkdir(parents=True)
        (self.work / 'crates/above/must-fail').mkdir()
        self.put('crates/above/must-fail/one.edit', '')
        self.put('crates/test_above/src/lib.rt', '#[test]\nfn test_it() {}\n')
        self.put('crates/test_runner/src/main.rt', 'fn main() {}\n')
        self.put('crates.txt', self.CRATES)
        shutil.copytree(TOP / 'python/vembrusk', self.work / 'python/vembrusk')
        shutil.copytree(TOP / 'scripts', self.work / 'scripts')
        for name in 'Makefile', 'check':
            shutil.copy(TOP / name, self.work)
        (self.work / 'tests/check').mkdir(parents=True)
        shutil.copy(TOP / 'tests/check/helpers.py', self.work / 'tests/check')
        for name, text in self.FILES.items():
            self.put(f'tests/check/test_{name}.py', f'{text}\n')

    def expect_steps(self, crate: str, files: str, *steps: str) -> None:
        """Expects that the crate is formatted, then these steps, and last that these files of tests are run."""
        last = f'. tests/check/run_all.py {" ".join(f"test_{name}" for name in files.split())}'
        self.expect_command(0, '\n'.join([f'crates/{crate} rt fmt', *steps, last, '']), '', self.work / 'scripts/crate_steps', crate)

    def test_the_steps_of_each_kind_of_crate(self) -> None:
        run, build = 'crates/test_runner rt run -- data/commands', '. ./cpmrun --build'
        self.expect_steps('above', 'item named path rules', 'crates/above rt check', '. rt must-fail above', 'crates/test_above rt test', build)
        self.expect_steps('ground', 'played rules', 'crates/ground rt check', 'crates/test_ground rt check', 'crates/test_runner rt check', run)
        self.expect_steps('test_runner', 'played rules', 'crates/test_runner rt check', run)
        self.expect_steps('test_above', 'rules', 'crates/test_above rt test')
        self.expect_steps('executable', 'item listed ran rules traced', 'crates/executable rt check', build)
        self.expect_steps('trace_command', 'rules traced', 'crates/trace_command rt check', build)
        self.expect_steps('dependency_command', 'listed rules', 'crates/dependency_command rt check', build)
        self.expect_steps('main_of', 'rules', 'crates/main_of rt check')

    def test_there_must_be_such_a_crate(self) -> None:
        for crate in 'none', 'clap', 'test', '.':
            done = self.run_command('make', '-s', '-C', self.work, 'check', f'CRATE={crate}')
            self.assertEqual((done.returncode, done.stdout), (2, b''))
            self.assertEqual(done.stderr.decode().splitlines()[0], f'check: {crate} is no crate of crates.txt')
