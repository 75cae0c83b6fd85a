"""Writes the labels of a source in place of addresses into a trace, which is read from standard input. With --join, consecutive calls 2 are one
line.
"""

from __future__ import annotations

import argparse
import sys
from collections.abc import Iterator

from .symbols import joined, read_symbols
from .words import Arguments


def add_arguments(parser: Arguments) -> None:
    """Adds the arguments of the subcommand."""
    parser.set_operands("[FILE..]", "symbol files or listings")
    parser.add_argument("--trace", metavar="FILE", help="the trace [default: standard input]")
    parser.add_argument("--join", action="store_true", help="print consecutive calls 2 as one line")


def trace_lines(path: str | None) -> Iterator[str]:
    """Yields the lines of a trace without their ends."""
    if path is None:
        sys.stdin.reconfigure(encoding="latin-1", newline="\n")  # type: ignore[union-attr]
        yield from (line.removesuffix("\n") for line in sys.stdin)
    else:
        with open(path, encoding="latin-1", newline="\n") as trace:
            yield from (line.removesuffix("\n") for line in trace)


def run(values: argparse.Namespace) -> int:
    """Runs the subcommand."""
    symbols = read_symbols(values.file)
    lines = trace_lines(values.trace)
    sys.stdout.reconfigure(encoding="latin-1", newline="\n")  # type: ignore[union-attr]
    for line in joined(lines) if values.join else lines:
        sys.stdout.write(f"{symbols.line(line)}\n")
    return 0
