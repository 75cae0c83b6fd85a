"""Shrinks the script, or a host file, to the least that still fails.

This is delta debugging: smaller and smaller pieces are removed, and stay removed if the run still fails. If several options say what fails, a
run fails if all of them do.
"""

from __future__ import annotations

import argparse
import os
import sys
import time
from collections.abc import Callable
from contextlib import ExitStack
from dataclasses import dataclass

from .failing import Expected, Test, add_failure, check_cause, expected_paths, read_expected, test_of
from .files import write_whole
from .inputs import Inputs
from .session import Report
from .words import Arguments, SessionWords, UsageError, check_output, session_of

MOST_SLOTS = 4096


@dataclass
class Shrunk:
    """The result of shrinking."""

    data: bytes
    length: int
    """The length of the input before."""
    runs: int = 0
    steps: int = 0
    """The steps of all tried inputs, each run from the start."""
    seconds: float = 0.0


@dataclass
class Failure:
    """What a failing run has."""

    words: SessionWords
    cause: str | None
    text: bytes | None
    files: list[Expected]
    test: Test | None

    def has(self, report: Report, data: bytes) -> bool:
        """Returns whether a run over this input fails."""
        if self.cause not in (None, report.cause.name, str(report.cause)) or self.text is not None and self.text not in report.text:
            return False
        if not all(file.differs(report, self.words.host_data) for file in self.files):
            return False
        return self.test is None or self.test.status({"{}": data}) != 0


def least(data: bytes, fails: Callable[[bytes], bool]) -> bytes:
    """Returns what is left of failing bytes when no single one can be removed.

    Pieces are removed from the last to the first, so that the checkpoints before each of them stay.
    """
    size = len(data)
    while size > 0:
        end, shrunk = len(data), False
        while end > 0:
            begin = max(0, end - size)
            if fails(data[:begin] + data[end:]):
                data, shrunk = data[:begin] + data[end:], True
            end = begin
        if size > 1 or not shrunk:
            size //= 2
    return data


def shrink(values: argparse.Namespace, failure: Failure, cold: bool = False) -> Shrunk:
    """Returns the shrunk input that the arguments name, with checkpoints or in cold runs."""
    options = {"spacing": 1_000_000_000, "slots": 1} if cold else {}
    with Inputs(failure.words, values.cpmrun, [values.file], **options) as inputs:
        whole = inputs.data[0]
        came = Shrunk(whole, len(whole))

        def fails(data: bytes) -> bool:
            if cold:
                inputs.session.drop(MOST_SLOTS)
            report = inputs.run([data])
            came.runs += 1
            came.steps += report.steps
            failed = failure.has(report, data)
            if came.runs == 1 and not failed:
                raise ValueError(f"the whole input does not fail: its run stops by {report.cause}")
            return failed

        begun = time.perf_counter()
        fails(whole)
        came.data = least(whole, fails)
        came.seconds = time.perf_counter() - begun
    return came


def add_arguments(parser: Arguments) -> None:
    """Adds the arguments of the subcommand."""
    parser.set_operands("PROGRAM [TAIL]", "the .COM file, and its command tail, one word")
    parser.add_session()
    parser.add_checkpoints()
    parser.add_program("cpmrun")
    add = parser.add_argument
    add("--cause", help="the stop cause of a failing run, such as Halt or 'Undefined ED'")
    add("--text", help="a part of the console text of a failing run")
    add_failure(parser)
    add("--file", metavar="NAME", help="the host file to shrink [default: the script]")
    add("-o", "--output", metavar="FILE", help="the file for the shrunk input [default: standard output]")
    add("--cold", action="store_true", help="shrink in cold runs too, and print both times")


def run(values: argparse.Namespace) -> int:
    """Runs the subcommand."""
    if values.cause is None and values.text is None and values.test is None and not values.file_differs:
        raise UsageError("--cause, --text, --test or --file-differs must say what fails")
    check_cause(values.cause)
    words = session_of(values)
    check_output("-o", values.output, [*words.paths(), *expected_paths(values.file_differs)])
    with ExitStack() as stack:
        test = test_of(values)
        if test is not None:
            stack.enter_context(test)
        text = None if values.text is None else os.fsencode(values.text)
        failure = Failure(words, values.cause, text, read_expected(values.file_differs), test)
        came = shrink(values, failure)
        if values.output is None:
            sys.stdout.buffer.write(came.data)
            sys.stdout.buffer.flush()
        else:
            write_whole(values.output, came.data)
        cost = f"{came.runs} runs ({came.steps:,} steps if each began at the start)"
        print(f"{len(came.data)} of {came.length} bytes left after {cost}", file=sys.stderr)
        if values.cold:
            cold = shrink(values, failure, cold=True)
            print(f"{came.seconds:.3f} seconds with checkpoints, {cold.seconds:.3f} in cold runs", file=sys.stderr)
    return 0
