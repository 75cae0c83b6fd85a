"""Finds the first step and the first call at which two runs differ: of two programs, or of two sessions of one.

--with has the words in which the second session differs from the first, as on a command line. cpmdeps shows what each step of the first run asks
its session for. All steps before the first one that the second session answers differently are the same, so only the steps from there on are
compared.
"""

from __future__ import annotations

import argparse
import re
import shlex
from collections import deque
from collections.abc import Callable, Generator, Iterator
from contextlib import closing
from dataclasses import dataclass
from itertools import zip_longest
from pathlib import Path

from .failing import file_after, padded
from .files import host_files, upper
from .inputs import common
from .listing import FileReads, Listing
from .memory import loaded_memory
from .progress import Progress
from .session import PathName
from .symbols import Symbols, read_symbols, warn_of_other_program
from .trace import trace_lines
from .words import Arguments, SessionWords, UsageError, number, session_of

RECORD = 128
DEFAULT_LIMIT = 1_000_000

EXCLUDED = {"console": "typed", "typed": "console"}
EXCLUDED |= {f"{one}{end}": f"{other}{end}" for one, other in (("files", "disk"), ("disk", "files")) for end in ("", "_b", "_c", "_d")}
"""The options that a word of the second session replaces."""

_STEP = re.compile(r"step \d+ ")
_ADDRESS = re.compile(r"(call (?:9|10|26) [a-z ]+) [0-9A-F]{4}|( record \d+ (?:to|from)) [0-9A-F]{4}(?= |$)")


@dataclass
class Side:
    """One of the two sessions."""

    words: SessionWords
    symbols: Symbols

    def memory(self) -> bytes:
        """Returns the memory before the first step."""
        return loaded_memory(Path(self.words.program).read_bytes(), self.words.tail or "")

    def files(self, drive: str) -> dict[bytes, Path]:
        """Returns the paths of a drive's host files, by their names in capitals."""
        folder = self.words.folders.get(drive)
        return {} if folder is None else {upper(path.name).removesuffix(b"."): path for path in host_files(Path(folder))}

    def file(self, name: str) -> bytes | None:
        """Returns the records of a host file, or None if it is not there."""
        drive, _, plain = name.rpartition(":")
        path = self.files(drive or "A").get(upper(plain).removesuffix(b"."))
        return None if path is None else padded(path.read_bytes())


def first_answer(listing: Listing, one: Side, other: Side) -> int | None:
    """Returns the first step of the first run that asks its session for something that the second session answers differently, or None."""
    memory, script = (one.memory(), other.memory()), (one.words.script(), other.words.script())
    steps = [step for address, step in listing.cells.items() if memory[0][address] != memory[1][address]]
    steps += [step for offset, step in listing.script.items() if script[0][offset:offset + 1] != script[1][offset:offset + 1]]
    if listing.script_end is not None and len(script[1]) > len(script[0]):
        steps.append(listing.script_end)
    for name, reads in listing.files.items():
        steps += file_answers(reads, one.file(name), other.file(name))
    for drive, step in listing.directories.items():
        names = [{name: -(-path.stat().st_size // RECORD) for name, path in side.files(drive).items()} for side in (one, other)]
        steps += [step] if names[0] != names[1] else []
    return min(steps, default=None)


def file_answers(reads: FileReads, one: bytes | None, other: bytes | None) -> Iterator[int]:
    """Yields the first steps of the questions about a file that the second session answers differently."""
    if reads.presence is not None and (one is None) != (other is None):
        yield reads.presence
    if reads.length is not None and len(one or b"") != len(other or b""):
        yield reads.length
    for record, step in reads.records.items():
        place = slice(record * RECORD, (record + 1) * RECORD)
        if (one or b"")[place] != (other or b"")[place]:
            yield step


def bare(line: str) -> str:
    """Returns the line of a call without its step and without addresses of memory, which an inserted instruction changes."""
    return _ADDRESS.sub(r"\1\2", _STEP.sub("", line, count=1))


@dataclass
class Found:
    """Where two traces begin to differ: the lines before, and the two that differ, None past an end."""

    before: list[str]
    one: str | None
    other: str | None
    count: int
    """How many lines are the same before."""

    def lines(self, one: Side, other: Side) -> Iterator[str]:
        """Yields the lines before, and the two lines."""
        yield from (f"  {one.symbols.line(line)}" for line in self.before)
        for mark, side, line in ("<", one, self.one), (">", other, self.other):
            yield f"{mark} {'the run has ended' if line is None else side.symbols.line(line)}"


@dataclass
class Comparison:
    """Two sessions, and what compares their traces."""

    one: Side
    other: Side
    runner: PathName
    tracer: PathName
    context: int
    """The most lines that are shown before a difference."""

    def trace(self, side: Side, *options: str) -> Generator[bytes, None, None]:
        """Yields the lines of a trace."""
        return trace_lines([str(self.tracer), *options, *side.words.words()])

    def first(self, is_same: Callable[[str, str], bool], *options: str) -> Found | None:
        """Returns where the traces of the two sessions with these options begin to differ, or None if they are the same."""
        before: deque[bytes] = deque(maxlen=self.context)
        with closing(self.trace(self.one, *options)) as lines, closing(self.trace(self.other, *options)) as others:
            for count, (line, other) in enumerate(zip_longest(lines, others)):
                if line != other and (line is None or other is None or not is_same(text_of(line), text_of(other))):
                    return Found([text_of(each) for each in before], line and text_of(line), other and text_of(other), count)
                before.append(line)
        return None

    def first_step(self, begin: int) -> Found | None:
        """Returns the first step from `begin` on that differs."""
        with Progress("comparing steps"):
            return self.first(str.__eq__, "--steps", f"--from={begin}")

    def ends(self) -> Iterator[str]:
        """Yields how the files differ that the runs leave. The trace of a call does not show what is in a record."""
        with Progress("running"), self.one.words.start(self.runner) as session, self.other.words.start(self.runner) as other:
            reports = session.run(), other.run()
        for name in dict.fromkeys([*reports[0].files, *reports[1].files]):
            left, right = (file_after(report, name, side.words.host_data) for report, side in zip(reports, (self.one, self.other)))
            if left != right:
                yield file_line(name, left, right)

    def first_call(self) -> Found | None:
        """Returns the first call that differs in more than its step and addresses of memory."""
        with Progress("comparing calls"):
            return self.first(lambda line, other: bare(line) == bare(other))


def file_line(name: str, one: bytes | None, other: bytes | None) -> str:
    """Returns how the records differ that two runs leave of a file."""
    if one is None or other is None:
        return f"File {name} is there after the {'second' if one is None else 'first'} run only."
    return f"File {name} differs after the runs, from byte {common(one, other):,} on, in record {common(one, other) // RECORD:,}."


def text_of(line: bytes) -> str:
    """Returns a line of a trace as text."""
    return line.decode("latin-1").removesuffix("\n")


def differences(comparison: Comparison, deps: PathName) -> Iterator[str]:
    """Yields what differs, or nothing."""
    one, other = comparison.one, comparison.other
    with Progress("running"):
        words = one.words
        listing = words.listing(deps)
    asked = first_answer(listing, one, other)
    limits = [DEFAULT_LIMIT if side.words.limit is None else side.words.limit for side in (one, other)]
    if asked is None and limits[0] == limits[1]:
        return
    begin = max(min([*limits, *([] if asked is None else [asked])]) - comparison.context, 0)
    step = comparison.first_step(begin)
    if step is None:
        return
    yield heading(begin + step.count, "step")
    yield from step.lines(one, other)
    call = comparison.first_call()
    if call is None:
        yield "All calls are the same."
    else:
        yield heading(call.count, "call")
        yield from call.lines(one, other)
    yield from comparison.ends()


def heading(count: int, unit: str) -> str:
    """Returns the line above a difference: how many of these are the same."""
    if count == 0:
        return f"The first {unit} differs:"
    return f"{f'The first {count:,} {unit}s are' if count > 1 else f'The first {unit} is'} the same. The next differs:"


def second_words(values: argparse.Namespace, text: str) -> SessionWords:
    """Returns the session that has the words of the first, except these."""
    parser = Arguments(prog="vembrusk compare: --with", allow_abbrev=False)
    parser.set_operands("[PROGRAM] [TAIL]", "")
    parser.add_session()
    try:
        given = parser.read(shlex.split(text))
    except ValueError as fault:
        raise UsageError(f"--with: {fault}") from None
    new = {name: value for name, value in vars(given).items() if value is not None and name != "operands"}
    replaced = {EXCLUDED[name]: None for name in new if name in EXCLUDED}
    return session_of(argparse.Namespace(**vars(values) | replaced | new))


def add_arguments(parser: Arguments) -> None:
    """Adds the arguments of the subcommand."""
    parser.set_operands("PROGRAM [TAIL]", "the .COM file, and its command tail, one word")
    parser.add_session()
    for name in "cpmrun", "cpmdeps", "cpmtrace":
        parser.add_program(name)
    add = parser.add_argument
    add("--with", dest="other", metavar="WORDS", help="the words in which the second session differs, as 'new.com --files-b disk'")
    parser.add_symbols()
    add("--with-symbols", metavar="FILE", action="append", default=[], help="the same for the second program [default: those of the first]")
    add("--context", type=number(0, 1000), default=3, metavar="N", help="the most lines before a difference [default: 3]")


def run(values: argparse.Namespace) -> int:
    """Runs the subcommand."""
    if values.other is None:
        raise UsageError("the following arguments are required: --with")
    symbols = read_symbols(values.symbols)
    one = Side(session_of(values), symbols)
    other = Side(second_words(values, values.other), read_symbols(values.with_symbols) if values.with_symbols else symbols)
    for side, paths in (one, values.symbols), (other, values.with_symbols):
        if paths:
            warn_of_other_program(paths, {side.words.program: Path(side.words.program).read_bytes()})
    status = 0
    for line in differences(Comparison(one, other, values.cpmrun, values.cpmtrace, values.context), values.cpmdeps):
        print(line)
        status = 1
    if status == 0:
        print("The runs are the same.")
    return status
