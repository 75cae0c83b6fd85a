"""Shows what the run of a session executed, or all runs of cases: the per cent of a program, and with a listing each line with its count and the
first step. Without a listing the bytes of executed instructions are counted, and with one its instructions.
"""

from __future__ import annotations

import argparse
import os
import signal
from collections.abc import Iterable, Iterator
from concurrent.futures import ProcessPoolExecutor
from pathlib import Path

from .cases import Case, Setup
from .check import read_cases
from .counts import LOAD_ADDRESS, count_run, count_setup, merged
from .cover_page import page
from .covered import Covered
from .files import write_whole
from .listing import rows_of
from .page import write_page
from .player import sessions_of
from .progress import Progress
from .session import PathName
from .source import read_source
from .symbols import Symbols, read_symbols, warn_of_other_program
from .words import Arguments, UsageError, check_output, number, session_of

NOT_EXECUTED = "#####"
"""What a line shows in place of its count if it was not executed."""


def annotated(covered: Covered) -> Iterator[str]:
    """Yields the lines of the listing with their counts and first steps."""
    assert covered.source is not None
    found = {line.number: (count, first) for line, count, first in covered.code_lines()}
    yield f"{'count':>10} {'first step':>10}  {covered.source.path.name}"
    for line in covered.source.lines:
        count, first = found.get(line.number, (None, None))
        shown = "" if count is None else NOT_EXECUTED if count == 0 else str(count)
        yield f"{shown:>10} {'' if first is None else first:>10}  {line.text}".rstrip()


def ranges(covered: Covered, symbols: Symbols) -> Iterator[str]:
    """Yields the ranges of the program that were executed, and the ones that were not, with labels."""
    executed = covered.counts.executed(covered.program)
    for first, last, is_executed in stretches(covered.program, executed):
        name = symbols.place(first)
        yield f"  {first:04X}-{last:04X} {'executed' if is_executed else 'not executed'}" + (f"  {name}" if name else "")


def stretches(program: bytes, executed: set[int]) -> Iterator[tuple[int, int, bool]]:
    """Yields the first and the last address of neighbours that are alike in whether they were executed."""
    every = range(LOAD_ADDRESS, LOAD_ADDRESS + len(program))
    parts = [(first, last, True) for first, last in rows_of(sorted(executed))]
    parts += [(first, last, False) for first, last in rows_of([each for each in every if each not in executed])]
    yield from sorted(parts)


def lcov(programs: list[Covered]) -> str:
    """Returns the counts of the lines of listings as lcov has them."""
    lines = ["TN:"]
    for covered in programs:
        if covered.source is not None:
            found = covered.code_lines()
            lines += [f"SF:{covered.source.path.resolve()}", *(f"DA:{line.number},{count}" for line, count, _ in found)]
            lines += [f"LF:{len(found)}", f"LH:{sum(count > 0 for _, count, _ in found)}", "end_of_record"]
    return "\n".join([*lines, ""])


def covered_by_cases(cases: list[Case], tracer: PathName, jobs: int) -> list[Covered]:
    """Returns the programs of cases, and what all their runs executed. A case with instructions has no path, so it does not count."""
    setups: dict[Path, list[Setup]] = {}
    for case in cases:
        if case.program_path is not None:
            setups.setdefault(case.program_path.resolve(), []).extend(sessions_of(case))
    if not setups:
        raise ValueError("no case names a program by its path")
    # an interrupt ends the workers at once, and with their pipes the programs that they run
    with ProcessPoolExecutor(jobs, initializer=signal.signal, initargs=(signal.SIGINT, signal.SIG_DFL)) as pool:
        parts = {path: pool.map(count_setup, [tracer] * len(sessions), sessions, chunksize=4) for path, sessions in setups.items()}
        with Progress("running the cases"):
            return [Covered(os.path.relpath(path), path.read_bytes(), merged(counts)) for path, counts in parts.items()]


def add_listings(programs: list[Covered], paths: list[str]) -> None:
    """Sets the listing of each program that has one. Raises ValueError for a listing of another program."""
    for path in paths:
        source = read_source(Path(path))
        faults = []
        for covered in programs:
            try:
                source.check(covered.program)
                covered.source = source
                break
            except ValueError as fault:
                faults.append(fault)
        else:
            raise faults[0]


def add_arguments(parser: Arguments) -> None:
    """Adds the arguments of the subcommand."""
    parser.set_operands("[PROGRAM] [TAIL]", "the .COM file, and its command tail, one word; none with --cases")
    parser.add_session()
    parser.add_program("cpmtrace")
    add = parser.add_argument
    add("--cases", metavar="FILE", action="append", default=[], help="a file of cases, or a folder with such files; may be repeated")
    add("--jobs", type=number(1, 1024), default=os.cpu_count() or 1, metavar="N", help="runs of cases at once [default: the processors]")
    add("--listing", metavar="FILE", action="append", default=[],
        help="a listing of ASM, MAC, M80, z80asm or pasmo; with several programs, one for each")
    parser.add_symbols()
    add("--html", metavar="FILE", help="file for a page")
    add("--lcov", metavar="FILE", help="file for the counts of the listings' lines, as genhtml reads them")
    add("--summary", action="store_true", help="print only the lines about the programs")


def check_outputs(values: argparse.Namespace, reads: Iterable[PathName]) -> None:
    """Raises UsageError if an output is one of these paths, or of the files of the other options."""
    paths = [*reads, *values.listing, *values.symbols]
    check_output("--html", values.html, paths)
    check_output("--lcov", values.lcov, paths)


def read_programs(values: argparse.Namespace) -> list[Covered]:
    """Returns the programs that the arguments name, and what their runs executed."""
    if bool(values.cases) == (values.program is not None):
        raise UsageError("either PROGRAM or --cases is needed")
    if values.cases:
        cases = read_cases(values.cases)
        check_outputs(values, (path for case in cases for path in case.paths()))
        return covered_by_cases(cases, values.cpmtrace, values.jobs)
    words = session_of(values)
    check_outputs(values, words.paths())
    program = Path(words.program).read_bytes()
    for path in values.listing:
        read_source(Path(path)).check(program)
    with Progress("running"):
        return [Covered(words.program, program, count_run(values.cpmtrace, words))]


def run(values: argparse.Namespace) -> int:
    """Runs the subcommand."""
    if values.lcov is not None and not values.listing:
        raise UsageError("--lcov needs --listing")
    symbols = read_symbols(values.symbols)
    programs = read_programs(values)
    warn_of_other_program(values.symbols, {covered.path: covered.program for covered in programs})
    add_listings(programs, values.listing)
    for covered in programs:
        print(covered.summary())
        if not values.summary:
            for line in ranges(covered, symbols) if covered.source is None else annotated(covered):
                print(line)
    if values.html is not None:
        write_page(page(programs), values.html)
    if values.lcov is not None:
        write_whole(values.lcov, lcov(programs))
    return 0
