"""Plays the cases of tests/cases with crates/test_runner, by the player of the package `vembrusk`, which this one extends by checkpoints, executed
steps, cells, and programs of calls. The environment variable SESSIONS names the program."""
import itertools
import os
import re
import subprocess
import tempfile
from collections.abc import Iterator
from dataclasses import replace
from pathlib import Path

from case_files import EDIT, RUN, command_of, name_of, parse_kept, spell_kept
from helpers import TOP
from vembrusk.assembler import assemble
from vembrusk.cases import LIMIT, Case, CaseError, Command, Outcome, Setup, digits, line_of, parse_bytes, parse_outcome, spell
from vembrusk.player import Difference
from vembrusk.player import Play as CasePlay

SESSIONS = Path(os.environ.get('SESSIONS', TOP / 'crates/test_runner/out/test_runner')).resolve()
SHORT = 150
"""The largest number of steps of a run that is also broken off after each of them."""
PIECES = (1, 5, 4096)
"""The largest numbers of bytes of edit lines that are read at once."""
SPACINGS = range(1, 13)
"""The spacings of checkpoints with which a short run is made again."""
START = assemble(['LXI B,1193H; PUSH B; POP PSW'])
"""Sets the flags S, AC and CY, at the start of a program of calls."""
AT_START = {'A': 0x11, 'F': 0x93, 'B': 0x11, 'C': 0x93, 'D': 0, 'E': 0, 'H': 0, 'L': 0, 'SP': 0xFDFE, 'PC': 0}
"""The registers after it."""
AT_CALL = {'A': 0x11, 'B': 0x22, 'H': 0x33, 'L': 0x44}
"""The registers that a call finds, beside its number in C and its parameter in DE."""


def answers_in(out: str) -> list[list[str]]:
    """Returns the lines of each answer, and those after the last."""
    answers: list[list[str]] = [[]]
    for line in out.splitlines():
        if line == '.':
            answers.append([])
        else:
            answers[-1].append(line)
    return answers


def answers_to(commands: list[str]) -> list[list[str]]:
    """Returns the lines of the answer to each command."""
    with tempfile.NamedTemporaryFile('w', suffix='.cmd') as file:
        file.write(''.join(f'{command}\n' for command in commands))
        file.flush()
        done = subprocess.run([SESSIONS, file.name], capture_output=True, text=True, timeout=120, check=False)
    answers = answers_in(done.stdout)
    if done.returncode or answers.pop() != ['ok'] or len(answers) != len(commands):
        at = min(len(answers), len(commands) - 1)
        raise Difference(f'the program ends with {done.returncode} at: {commands[at][:200]}\n{done.stdout[-300:]}{done.stderr[-2000:]}')
    return answers


def hex_of(word: str) -> bytes:
    return b'' if word == '-' else bytes.fromhex(word)


def kept_in(answer: list[str]) -> tuple[int, tuple[int, ...]]:
    """Returns how many steps were executed, and the kept ones."""
    executed, *kept = (int(word) for word in answer[-2].split()[1:])
    if answer[-1] != 'left out 0':
        raise Difference('an allocation failed')
    return executed, tuple(kept)


def report_in(answer: list[str]) -> Outcome:
    """Returns the report at the beginning of an answer."""
    stop, steps, registers, text, *files = answer[:-2]
    words = [line.split() for line in files]
    changed = tuple((words[1], hex_of(words[2]) if words[0] == 'file' else None) for words in words)
    named = {name: int(value, 16) for name, _, value in (word.partition('=') for word in registers.split()[1:])}
    return Outcome(stop[5:], int(steps[6:]), tuple(named.items()), hex_of(text[5:]), changed)


def due_steps(session: Setup, kept: tuple[int, ...], steps: int) -> tuple[int, ...]:
    """Returns the kept steps after a run: those before, and above them each multiple of the spacing and the last step. Of these the last."""
    newest = kept[-1] if kept else 0
    multiples = range(newest - newest % session.spacing + session.spacing, steps + 1, session.spacing)
    made = sorted({*multiples, *([steps] if steps > newest else [])})
    return (*kept, *made)[-session.slots:]


class Play(CasePlay):
    """One case: the commands that were sent, what each should be answered, and the session as it then is."""

    run_form, edit_form = RUN, EDIT

    def __init__(self, case: Case) -> None:
        super().__init__(case)
        self.kept: tuple[int, ...] = ()

    @property
    def name(self) -> str:
        return name_of(self.case)

    def run(self) -> None:
        """Sends all commands and checks the answers."""
        for check, answer in zip(self.checks, answers_to(self.sent)):
            check(answer)

    def begin(self, session: Setup, wanted: list[str]) -> None:
        def check(answer: list[str]) -> None:
            self.session, self.kept = session, ()
            if answer != wanted:
                raise self.differs('begin', answer)
        self.send(command_of(session), check)

    def commands(self) -> None:
        """Sends the commands of the case."""
        for command in self.case.commands:
            word = command.line.split(' ')[0]
            if command.line == 'run':
                self.run_command(command)
            elif word == 'replay':
                self.replay(command)
            elif word in ('session', 'dependencies'):
                self.raw(command, f'ask {command.line}')
            else:
                self.edit(command)

    def replay(self, command: Command) -> None:
        """Replays edit lines, read in pieces of each length, each time over a new session."""
        for longest in PIECES:
            self.begin(self.case.session, ['ok'])
            self.raw(command, f'replay {longest} {digits(parse_bytes(command.line[7:]))}')

    def raw(self, command: Command, line: str) -> None:
        def check(answer: list[str]) -> None:
            if answer != command.wanted:
                raise self.differs(command.line, answer)
        self.send(line, check)

    def expect_edit(self, command: Command, wanted: re.Match[str] | None) -> None:
        """An edit: its reply, and the kept steps after it."""
        def check(answer: list[str]) -> None:
            kept = parse_kept(wanted[2]) if wanted else None
            before = self.kept if kept is None else kept
            _, self.kept = kept_in(answer)
            if not wanted or answer[0] != wanted[1] or self.kept != before:
                raise self.differs(command, [f'{answer[0]}, kept {spell_kept(self.kept)}'])
            if command.line.startswith('limit ') and answer[0] == 'ok':
                self.session = replace(self.session, limit=int(command.line[6:]))
        self.send(line_of(command.line), check)

    def run_command(self, command: Command) -> None:
        """A run: its first line, its report, and questions about cells and files."""
        asked, others = lines_of_run(command)
        super().run_command(Command(command.line, [*command.wanted[:1], *others]))
        self.ask(self.last, asked)

    def expect_outcome(self, command: Command, wanted: Outcome | None) -> None:
        """A run, as its first line says it."""
        first = self.run_form.fullmatch(command.wanted[0]) if command.wanted else None
        if not first or not wanted:
            raise CaseError(f'{self.name}: no first line of a run')
        self.expect_run(wanted, int(first[3]) if first[3] else None, parse_kept(first[4]))

    def expect_run(self, wanted: Outcome, ran: int | None, kept: tuple[int, ...] | None) -> None:
        def check(answer: list[str]) -> None:
            start = max((step for step in self.kept if step <= self.session.limit), default=0)
            after = due_steps(self.session, self.kept, wanted.steps) if kept is None else kept
            executed, self.kept = kept_in(answer)
            report = report_in(answer)
            if not report.is_as(wanted) or executed != (wanted.steps - start if ran is None else ran) or self.kept != after:
                first = f'{report.stop} after {report.steps} steps, ran {executed}, kept {spell_kept(self.kept)}'
                raise self.differs('run', [first, *report.lines(), f'# wanted: {wanted.stop} after {wanted.steps} steps, kept {spell_kept(after)}',
                                           *(f'# {line}' for line in wanted.lines())])
        self.send('run', check)

    def ask(self, wanted: Outcome, lines: list[str]) -> None:
        """Asks for cells, for files, and for the changed names, which must be those of the report."""
        for line in lines:
            self.ask_line(wanted, line)
        if wanted.files is None:
            return
        named = [word for name, data in wanted.files for word in answer_of_file(name, data)]

        def check(answer: list[str]) -> None:
            if self.without_steps(wanted, answer) != named:
                raise self.differs('run', ['the changed names differ:', *answer])
        self.send('ask changed', check)

    def without_steps(self, wanted: Outcome, answer: list[str]) -> list[str]:
        """Returns an answer without its line about executed steps: the run was made again from the last checkpoint within the limit."""
        steps = wanted.steps - max((step for step in self.kept if step <= self.session.limit), default=0)
        if (answer[:1] == [f'executed {steps}']) != (steps > 0):
            raise self.differs('run', [f'a question: {steps} steps', *answer])
        return answer[1:] if steps else answer

    def ask_line(self, wanted: Outcome, line: str) -> None:
        word, name, rest = line.split(' ', 2)
        data = parse_bytes(rest) if word == 'cells' else b''

        def check(answer: list[str]) -> None:
            answer = self.without_steps(wanted, answer)
            if word == 'cells' and answer != [f'cells {data.hex()}']:
                raise self.differs('run', [f'cells {name} {spell(hex_of(answer[-1][6:]))}'])
            if word == 'records' and answer[:1] != [f'there true Some({rest})' if rest != 'none' else 'there false None']:
                raise self.differs('run', [line, *answer])
        self.send(f'ask cells {name} {len(data)}' if word == 'cells' else f'ask file {name}', check)

    def replayed(self) -> None:
        """Sends all edit lines of the case at once, to a new session."""
        lines = [command for command in self.case.commands if command.line.split(' ')[0] not in ('session', 'dependencies', 'replay')]
        text = ''.join(f'{line_of(command.line)}\n' for command in lines).encode()
        if not lines or len(lines) != len(self.case.commands) or max(len(line_of(command.line)) for command in lines) > 65_536:
            return
        replies: list[str] = []
        for command in lines:
            first = RUN.fullmatch(command.wanted[0])
            replies += ['stop', 'end'] if first else [command.wanted[0].split(',')[0]]

        def check(answer: list[str]) -> None:
            heads = [line.split(' ')[0] if line.startswith('stop') else line for line in answer[:-3] if line.startswith(('ok', 'refused', 'stop', 'end'))]
            if heads != replies or answer[-3] != f'{len(lines)} lines':
                raise self.differs(f'replay {text.decode()}', answer)
        for longest in PIECES:
            self.begin(self.case.session, ['ok'])
            self.send(f'replay {longest} {digits(text)}', check)

    def with_spacings(self, wanted: Outcome) -> None:
        """Runs the session twice with each spacing."""
        for spacing in SPACINGS:
            self.begin(replace(self.case.session, spacing=spacing, slots=64), ['ok'])
            self.expect_run(wanted, wanted.steps, None)
            self.expect_run(wanted, 0, None)

    def broken_off(self, wanted: Outcome, asked: list[str]) -> None:
        """Runs the session up to each of its steps, and then to its end from there."""
        for limit in range(wanted.steps):
            self.begin(replace(self.case.session, limit=limit), ['ok'])
            self.send('run', lambda answer, limit=limit: self.stops_at(answer, limit))
            self.edit(Command(f'limit {self.case.session.limit}', ['ok']))
            self.expect_run(wanted, wanted.steps - limit, None)
            self.ask(wanted, asked)

    def stops_at(self, answer: list[str], limit: int) -> None:
        _, self.kept = kept_in(answer)
        if (report_in(answer).stop, report_in(answer).steps) != ('Limit', limit):
            raise self.differs(f'limit {limit}; run', answer)


def lines_of_run(command: Command) -> tuple[list[str], list[str]]:
    """Returns the lines of a run that are questions about cells and files, and the others after the first."""
    asked = [line for line in command.wanted[1:] if line.startswith(('cells ', 'records '))]
    return asked, [line for line in command.wanted[1:] if line not in asked]


def answer_of_file(name: str, data: bytes | None) -> list[str]:
    """Returns the answer about a changed file: whether it is there, how many records it has, and the last one."""
    if data is None:
        return [f'changed {name}', 'there false None']
    count = len(data) // 128
    return [f'changed {name}', f'there true Some({count})'] + ([f'last {data[-128:].hex()}'] if count else [])


class CallPlay(Play):
    """A case whose program is made of acts: bytes that are put into cells, and calls. Each call finds other registers and flags than it leaves."""

    def __init__(self, case: Case) -> None:
        super().__init__(case)
        self.code = START
        self.steps = 3
        self.registers = dict(AT_START)
        self.text = b''
        if case.start != 0x100:
            self.steps += 1

    def program(self, code: bytes) -> bytes:
        start = self.case.start
        return code if start == 0x100 else (b'\xc3' + start.to_bytes(2, 'little')).ljust(start - 0x100, b'\0') + code

    def instructions(self, text: str, steps: int) -> None:
        self.code += assemble(text.split('\n'))
        self.steps += steps

    def call(self, number: int, address: str) -> None:
        found = {**AT_CALL, 'C': number, 'D': int(address[:2], 16), 'E': int(address[2:], 16)}
        words = [f'LXI {high},{found[high] * 256 + found[low]}' for high, low in ('BC', 'DE', 'HL')]
        self.instructions('; '.join([f'MVI A,{found["A"]}', *words, 'CALL 0FE06H']), 6)
        self.registers.update(found)

    def act(self, verb: str, rest: str) -> None:
        words = rest.split()
        if verb == 'put':
            at, _, data = rest.partition(' ')
            for offset, byte in enumerate(parse_bytes(data)):
                self.instructions(f'MVI A,{byte}; STA {(int(at, 16) + offset) % 65536}', 2)
                self.registers['A'] = byte
        elif verb == 'stack':
            self.registers['SP'] = (int(rest, 16) + 2) % 65536
            self.instructions(f'LXI SP,{self.registers["SP"]}', 1)
        else:
            number, address, _, value = words
            self.call(int(number), address)
            self.registers.update(A=int(value, 16), B=0, H=0, L=int(value, 16))

    def report(self, stop: str) -> Outcome:
        pc = self.case.start + len(self.code)
        return Outcome(stop, self.steps, tuple({**self.registers, 'PC': pc}.items()), self.text)

    def limited(self) -> Setup:
        return replace(self.case.session, program=self.program(self.code + b'\x76'), spacing=1000)

    def stop(self, rest: str, wanted: list[tuple[str, str]]) -> None:
        """A call that stops, at the end of a program of its own."""
        number, address, cause = rest.split(' ', 2)
        kept = self.code, self.steps, dict(self.registers)
        self.call(int(number), address)
        stack = (self.registers['SP'] - 2) % 65536
        report = Outcome(cause, self.steps - 1, tuple({**self.registers, 'SP': stack, 'PC': 0xFE06}.items()), self.text)
        self.begin(self.limited(), ['ok'])
        self.finish(report, wanted)
        self.code, self.steps, self.registers = kept

    def finish(self, report: Outcome, wanted: list[tuple[str, str]]) -> None:
        """Runs to this end. The changed files are compared only if the case names some, or says that there are none."""
        files = [(word, rest) for word, rest in wanted if word in ('file', 'gone', 'changed')]
        named = parse_outcome('Halt', 0, [f'{word} {rest}' for word, rest in files if word != 'changed']).files

        def check(answer: list[str]) -> None:
            _, self.kept = kept_in(answer)
            got = report_in(answer)
            if replace(got, files=()) != report or files and got.files != named:
                raise self.differs('run', [f'{got.stop} after {got.steps} steps', *got.lines(), f'# wanted: {report.stop} after {report.steps} steps',
                                           *(f'# {line}' for line in replace(report, files=named).lines())])
        self.send('run', check)
        for word, rest in wanted:
            if word in ('cells', 'records'):
                self.ask_line(report, f'{word} {rest}')

    def play(self) -> None:
        """Runs the program of all acts up to each call, and to its end."""
        points: list[tuple[Outcome, list[tuple[str, str]]]] = []
        calls = self.case.calls
        for number, call in enumerate(calls):
            stops = itertools.takewhile(lambda later: later.verb == 'stops', calls[number:])
            after = next((later.wanted for later in stops if later.wanted), [])
            self.text = next((parse_bytes(rest) for word, rest in call.wanted if word == 'text'), self.text)
            if call.verb == 'stops':
                self.stop(call.rest, after)
            else:
                self.act(call.verb, call.rest)
                if call.verb == 'call' or call.wanted or call is calls[-1]:
                    points.append((self.report('Limit'), call.wanted))
        last = self.report('Halt')
        self.begin(replace(self.limited(), limit=0), ['ok'])
        for report, wanted in points:
            self.set_limit(report.steps)
            self.finish(report, wanted)
        self.set_limit(LIMIT)
        self.finish(last, points[-1][1])
        if last.steps <= SHORT:
            self.each_step(last, points[-1][1])

    def set_limit(self, limit: int) -> None:
        def check(_: list[str]) -> None:
            self.session = replace(self.session, limit=limit)
        self.send(f'limit {limit}', check)

    def each_step(self, last: Outcome, wanted: list[tuple[str, str]]) -> None:
        """Runs the program up to each of its steps, and then to its end from there."""
        for limit in range(last.steps):
            self.begin(replace(self.limited(), limit=limit), ['ok'])
            self.send('run', lambda answer, limit=limit: self.stops_at(answer, limit))
            self.set_limit(LIMIT)
            self.finish(last, wanted)


def plays_of(case: Case) -> Iterator[Play]:
    """Returns what is to be played for a case."""
    if case.calls:
        calls = CallPlay(case)
        calls.play()
        yield calls
        return
    play = Play(case)
    first = case.commands[0]
    if first.line == 'begin':
        play.begin(case.session, first.wanted)
        yield play
        return
    play.begin(case.session, ['ok'])
    play.commands()
    play.replayed()
    if first.line == 'run':
        head = RUN.fullmatch(first.wanted[0])
        asked, others = lines_of_run(first)
        report = parse_outcome(head[1], int(head[2]), others)
        if report.steps <= SHORT:
            play.with_spacings(report)
        if report.steps <= SHORT and len(case.commands) == 1:
            play.broken_off(report, asked)
    yield play


def play_case(case: Case) -> None:
    """Plays a case. Raises `Difference` with what differs."""
    for play in plays_of(case):
        play.run()
