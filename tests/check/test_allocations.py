"""Plays the cases of tests/cases/worked with crates/test_runner, each with each allocation failing in turn, and the cases of the three programs of
CP/M, each run in two parts. If an allocation fails, the program checks that the runner is unchanged, and executes the command again. The
environment variable SESSIONS names it."""
from dataclasses import replace
from pathlib import Path

from case_files import FOLDER, command_of, name_of, read_cases
from failures import FailureTest
from helpers import TOP
from playing import SESSIONS, Play, answers_in, answers_to, kept_in, report_in
from vembrusk.cases import LIMIT, Case, Setup

OUT_OF_MEMORY = 'out of memory'


def commands_of(case: Case) -> list[str]:
    """Returns the commands of a case, with a question about what its run depends on."""
    play = Play(case)
    play.begin(case.session, ['ok'])
    play.send('ask dependencies', None)
    play.commands()
    return play.sent


class Failures:
    """Compares answers with those of a run in which no allocation fails. Once an allocation failed in a run, checkpoints may be missing and more
    steps be executed."""

    def __init__(self) -> None:
        self.is_whole = True

    def difference(self, command: str, wanted: list[str], got: list[str]) -> list[str] | None:
        answer = [line for line in got if line != OUT_OF_MEMORY]
        if OUT_OF_MEMORY in got and (command == 'run' or command.startswith('ask')):
            self.is_whole = False
        counts = wanted[-1:] == ['left out 0']
        if counts:
            self.is_whole &= answer[-1] == 'left out 0'
        if not self.is_whole:
            if counts:
                steps = [int(step) for step in answer[-2].split()[2:]]
                if steps != sorted(set(steps)):
                    return answer
                wanted, answer = wanted[:-2], answer[:-2]
            wanted, answer = ([line for line in lines if not line.startswith('executed')] for lines in (wanted, answer))
        return None if answer == wanted else got


class RunnerTest(FailureTest):
    library = 'refuse'

    def test_each_allocation_fails(self) -> None:
        cases = [case for path in sorted((FOLDER / 'worked').glob('*.txt')) for case in read_cases(path)]
        self.assertGreater(len(cases), 20)
        for case in cases:
            commands = commands_of(case)
            wanted = answers_to(commands)
            file = self.put('commands', ''.join(f'{command}\n' for command in commands))
            for at in range(1, 100_001):
                done = self.run_with_failure(at, SESSIONS, file)
                *answers, last = answers_in(done.stdout.decode())
                failures = Failures()
                with self.subTest(case=name_of(case), allocation=at):
                    self.assertEqual((done.returncode, done.stderr, last, len(answers)), (0, b'', ['ok'], len(wanted)), done.stdout[-200:])
                    for command, one, answer in zip(commands, wanted, answers):
                        self.assertIsNone(failures.difference(command, one, answer), (command, one))
                if not self.mark.exists():
                    break
            self.assertGreater(at, 6, f'{name_of(case)}: fewer than six allocations')

    def test_cases_of_programs(self) -> None:
        """Runs each to its end, up to half its steps, and to its end from there. Cases with arguments of their own, or with a large file, are left to
        test_programs."""
        cases = [case for case in sorted((TOP / 'tests/programs').glob('*/cases/*'))
                 if not (case / 'args').exists() and not (case / 'expect/out.sum').exists()]
        self.assertGreater(len(cases), 3)
        for case in cases:
            with self.subTest(case=case):
                self.check_case(session_of(case), case / 'expect')

    def check_case(self, session: Setup, expected: Path) -> None:
        *_, answer = answers_to([command_of(session), 'run'])
        whole = report_in(answer)
        half = whole.steps // 2
        _, first, _, second, _, third = answers_to([command_of(session), 'run', f'limit {half}', 'run', f'limit {LIMIT}', 'run'])
        self.assertEqual(report_in(first), whole)
        self.assertEqual((report_in(second).stop, report_in(second).steps), ('Limit', half))
        self.assertEqual((report_in(third), kept_in(third)[0]), (whole, 0))
        files = tuple((path.name, path.read_bytes()) for path in sorted((expected / 'out').glob('[!.]*')))
        self.assertEqual(whole.text, (expected / 'stdout').read_bytes())
        self.assertEqual(f'stop {whole.stop}\n', (expected / 'stderr').read_text())
        self.assertEqual(whole.files, files)


def session_of(case: Path) -> Setup:
    """Returns the session of a case of tests/programs."""
    files = tuple((path.name, path.read_bytes()) for path in sorted((case / 'files').glob('[!.]*')))
    session = Setup(program=(case.parent.parent / f'{case.parent.parent.name}.com').read_bytes(), files=files, spacing=100)
    if (case / 'tail').exists():
        session = replace(session, tail=(case / 'tail').read_bytes().removesuffix(b'\n'))
    if (case / 'console.bin').exists():
        session = replace(session, script=(case / 'console.bin').read_bytes())
    return session
