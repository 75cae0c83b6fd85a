"""A program, and what runs executed of it."""

from __future__ import annotations

from dataclasses import dataclass
from pathlib import Path

from .counts import Counts
from .source import Source, SourceLine


@dataclass
class Covered:
    """A program, and what runs executed of it."""

    path: str
    program: bytes
    counts: Counts
    source: Source | None = None

    @property
    def name(self) -> str:
        """The name of the program's file."""
        return Path(self.path).name

    def code_lines(self) -> list[tuple[SourceLine, int, int | None]]:
        """Returns the lines of the listing with instructions, each with its count and its first step."""
        lines = self.source.lines if self.source is not None else []
        return [(line, *self.counts.of_line(line.address or 0, line.code)) for line in lines if line.is_code]

    def part(self) -> tuple[int, int, str]:
        """Returns how many were executed, of how many, and of what."""
        if self.source is None:
            return len(self.counts.executed(self.program)), len(self.program), "bytes"
        lines = self.code_lines()
        return sum(count > 0 for _, count, _ in lines), len(lines), "instructions"

    def summary(self) -> str:
        """Returns the line about the program."""
        some, total, unit = self.part()
        runs = f"{self.counts.runs:,} run{'s' * (self.counts.runs != 1)}"
        limited = f"; {self.counts.limited:,} stopped by Limit" if self.counts.limited else ""
        return f"{self.name}: {some:,} of {total:,} {unit} executed ({percent(some, total)} %), {runs}, {self.counts.steps:,} steps{limited}"


def percent(some: int, total: int) -> str:
    """Returns a part in per cent. It is 100 only if nothing is missing."""
    if some == total:
        return "100"
    return f"{min(1000 * some // max(total, 1), 999) / 10:.1f}"
