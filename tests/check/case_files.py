"""The cases of tests/cases: sessions as text, which the package `vembrusk` reads. Only these cases name checkpoints and executed steps, and have
programs that are made of calls. tests/cases/README.md says how they are written."""
import re
from collections.abc import Mapping
from dataclasses import dataclass, field
from functools import cache
from pathlib import Path

from helpers import TOP
from vembrusk.cases import CAUSES, Case, Line, Reader, Setup, digits, line_of, programs_in, sections_of

FOLDER = TOP / 'tests/cases'
KEPT = r'(?:, kept ([0-9 ]+|none))?'
RUN = re.compile(rf'(?:({CAUSES}) after ([0-9]+) steps|same)(?:, ran ([0-9]+))?{KEPT}')
EDIT = re.compile(rf'(ok|refused [0-9]){KEPT}')


def command_of(setup: Setup) -> str:
    """Returns the command that begins a session."""
    files = ''.join(f' {name} {digits(data)}' for name, data in setup.files)
    return (f'session {setup.limit} {setup.spacing} {setup.slots} {digits(setup.tail)} {digits(setup.script)} '
            f'{digits(setup.program)}{files}')


def parse_kept(text: str | None) -> tuple[int, ...] | None:
    return None if text is None else () if text == 'none' else tuple(int(step) for step in text.split())


def spell_kept(kept: tuple[int, ...]) -> str:
    return ' '.join(str(step) for step in kept) or 'none'


@dataclass
class Call:
    """An act of a program of calls: bytes that are put into cells, or a call; and what is expected after it."""

    verb: str
    rest: str
    wanted: list[tuple[str, str]] = field(default_factory=list)


@dataclass
class CallCase(Case):
    """A case whose program may be made of calls."""

    start: int = 0x100
    """The address at which the program of calls begins."""
    calls: list[Call] = field(default_factory=list)

    @property
    def is_empty(self) -> bool:
        return super().is_empty and not self.calls


class CallReader(Reader):
    """Reads cases with programs of calls."""

    def check_command(self, command: str) -> None:
        """Takes all commands: some are only of these cases, and some are wrong on purpose."""
        line_of(command)

    def part(self, case: Case, line: Line, programs: Mapping[str, list[str]], program: list[str]) -> None:
        """Reads a line about the session of a case."""
        word, _, rest = line.partition(' ')
        if word in ('cells', 'records', 'text', 'file', 'gone', 'changed') and case.calls:
            case.calls[-1].wanted.append((word, rest))
        elif word == 'calls':
            case.start = int(rest or '0100', 16)
        elif word in ('put', 'call', 'stops', 'stack'):
            case.calls.append(Call(word, rest))
        else:
            super().part(case, line, programs, program)


def name_of(case: Case) -> str:
    """Returns the name of a case in messages."""
    return f'{case.path.relative_to(FOLDER)}: {case.title}'


@cache
def common_programs() -> dict[str, list[str]]:
    return programs_in(sections_of(FOLDER / 'programs.txt')[0])


def read_cases(path: Path) -> list[Case]:
    """Returns the cases of a file."""
    return CallReader(common_programs(), CallCase).read(path)


def session_files() -> list[Path]:
    """Returns the files of cases that are sessions; those of `command`, `listing` and `trace` are words of a command line."""
    return [path for path in sorted(FOLDER.glob('*/*.txt')) if path.parent.name not in ('command', 'listing', 'trace')]
