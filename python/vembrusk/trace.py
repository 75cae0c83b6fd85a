"""A client of cpmtrace: the steps of a run, as data.

    tracer = Tracer("path/of/cpmtrace", "name.com", "note.txt", folders={"A": "disk"})
    for step in tracer.steps("--writes=0140"):
        print(step.number, step.cells)

`docs/MANUAL.md` of the repository has the form of a trace, and the options that choose steps.
"""

from __future__ import annotations

import os
import re
import subprocess
from collections.abc import Generator, Iterable, Mapping, Sequence
from contextlib import ExitStack, closing
from dataclasses import dataclass
from enum import Enum

from .session import PathName, ProgramEnded, UnknownReply, session_words

_LINE = re.compile(r"step (\d+) (call|regs) ")
_CELL = re.compile(r" cell ([0-9A-F]{4}) ([0-9A-F]{2}) to ([0-9A-F]{2})")


@dataclass(frozen=True)
class Written:
    """What an instruction wrote to a cell."""

    old: int
    new: int


@dataclass(frozen=True)
class Step:
    """A step of a run."""

    number: int
    """The number of steps before it."""
    line: str
    """Its line in the trace."""
    is_call: bool
    """Whether it is a system call and no instruction."""
    cells: dict[int, Written]
    """The cells that an instruction wrote, by address. The line of a call does not have them."""


class Direction(Enum):
    """Which of several steps is returned: the first, or the last."""

    FORWARD = 1
    BACKWARD = 2


class Tracer:
    """Asks cpmtrace for steps of one session. Each question is a run of its own."""

    def __init__(
        self,
        command: PathName,
        program: PathName,
        tail: str | None = None,
        *,
        folders: Mapping[str, PathName] | None = None,
        script: PathName | None = None,
        typed: str | None = None,
    ) -> None:
        """Names the cpmtrace at this path, and a session as `Session` does."""
        self._command = [os.fspath(command), "--steps"]
        self._session = session_words(program, tail, folders=folders, script=script, typed=typed)

    def steps(self, *options: str) -> Generator[Step, None, None]:
        """Yields the steps that these options choose, in order. If the caller closes the iterator early, the program is ended.

        Raises OSError if the command cannot be started, and ProgramEnded with its message if it ends with an error.
        """
        with closing(self.start(*options)) as running:
            for line in running.steps():
                yield parse_step(_text(line))

    def search(self, choices: Sequence[Sequence[str]], direction: Direction) -> Step | None:
        """Returns a step of the first of these choices of options that choose any: the first of them, or the last. The commands run at once."""
        with ExitStack() as stack:
            for running in [stack.enter_context(closing(self.start(*options))) for options in choices]:
                line = next(running.steps(), None) if direction is Direction.FORWARD else _last(running.steps())
                if line is not None:
                    return parse_step(_text(line))
        return None

    def first(self, *options: str) -> Step | None:
        """Returns the first step that these options choose, or None if they choose none. Does not wait for the rest of the run."""
        with closing(self.steps(*options)) as steps:
            return next(steps, None)

    def start(self, *options: str) -> Running:
        """Returns the running command with these options."""
        return Running([*self._command, *options, *self._session])


class Running:
    """A running command, whose lines can be read once. `close` ends it."""

    def __init__(self, words: list[str]) -> None:
        """Starts the command. Raises OSError if it cannot be started."""
        # in a process group of its own, so that an interrupt from the keyboard reaches the caller alone
        self._process = subprocess.Popen(words, stdin=subprocess.DEVNULL, stdout=subprocess.PIPE, stderr=subprocess.PIPE, process_group=0)

    def lines(self) -> Generator[bytes, None, None]:
        """Yields the lines that it prints. Raises ProgramEnded with its message if it ends with an error."""
        assert self._process.stdout is not None and self._process.stderr is not None
        yield from self._process.stdout
        errors = self._process.stderr.read().decode("utf-8", "replace")
        if self._process.wait() != 0:
            raise ProgramEnded(self._process.returncode, errors)

    def steps(self) -> Generator[bytes, None, None]:
        """Yields the lines of steps, without the line of the stop."""
        yield from (line for line in self.lines() if not line.startswith(b"stop "))

    def close(self) -> None:
        """Ends the command, if it has not ended."""
        with self._process:
            self._process.kill()


def trace_lines(words: list[str]) -> Generator[bytes, None, None]:
    """Yields the lines that a command prints. If the caller closes the generator early, the command is ended.

    Raises OSError if the command cannot be started, and ProgramEnded with its message if it ends with an error.
    """
    with closing(Running(words)) as running:
        yield from running.lines()


def _last(lines: Iterable[bytes]) -> bytes | None:
    last = None
    for line in lines:
        last = line
    return last


def _text(line: bytes) -> str:
    return line.decode("latin-1").removesuffix("\n")


def parse_step(line: str) -> Step:
    """Returns the step of a line. Raises UnknownReply if it is no line of a trace."""
    words = _LINE.match(line)
    if words is None:
        raise UnknownReply(f"no line of a trace: {line!r}")
    is_call = words[2] == "call"
    cells = {} if is_call else {int(cell, 16): Written(int(old, 16), int(new, 16)) for cell, old, new in _CELL.findall(line)}
    return Step(int(words[1]), line, is_call, cells)
