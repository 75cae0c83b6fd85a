"""How often runs executed each address of a program."""

from __future__ import annotations

import re
import subprocess
import tempfile
from collections import Counter
from collections.abc import Iterable, Iterator
from dataclasses import dataclass, field
from pathlib import Path

from .cases import Setup
from .player import put_session
from .session import PathName, ProgramEnded
from .words import SessionWords

LOAD_ADDRESS = 0x100
BLOCK = 1 << 20
"""The bytes of a trace that are read at once."""

# The number of a step and its address, which comes 51 characters after `regs `.
_ADDRESS = re.compile(rb"\nstep \d+ regs .{51}(....)")
_STEP = re.compile(rb"\nstep (\d+) regs .{51}(....)")

TWO_BYTES = {*range(0x06, 0x40, 8), *range(0xC6, 0x100, 8), 0xD3, 0xDB}
"""The opcodes of instructions with a byte after the opcode."""

THREE_BYTES = {*range(0x01, 0x40, 16), 0x22, 0x2A, 0x32, 0x3A, 0xC3, 0xCD, *range(0xC2, 0x100, 8), *range(0xC4, 0x100, 8)}
"""The opcodes of instructions with two bytes after the opcode."""


@dataclass
class Counts:
    """How often each address was executed, over one or more runs."""

    counts: Counter[int] = field(default_factory=Counter)
    first: dict[int, int] = field(default_factory=dict)
    """The first step at each address, over all runs."""
    runs: int = 0
    steps: int = 0
    """The steps of all runs, calls too."""
    limited: int = 0
    """The runs that stopped by Limit, so that a longer one may execute more."""

    def add(self, other: Counts) -> None:
        """Adds the counts of other runs."""
        self.counts.update(other.counts)
        for address, step in other.first.items():
            self.first[address] = min(step, self.first.get(address, step))
        self.runs += other.runs
        self.steps += other.steps
        self.limited += other.limited

    def executed(self, program: bytes) -> set[int]:
        """Returns the addresses of the program's bytes that belong to executed instructions."""
        end = LOAD_ADDRESS + len(program)
        starts = (address for address in self.counts if LOAD_ADDRESS <= address < end)
        return {each for start in starts for each in range(start, min(start + length_of(program[start - LOAD_ADDRESS]), end))}

    def of_line(self, address: int, code: bytes) -> tuple[int, int | None]:
        """Returns how often the instructions of a line were executed, and the first step; a line may have several."""
        places = [each for each in range(address, address + max(len(code), 1)) if each in self.counts]
        return max((self.counts[each] for each in places), default=0), min((self.first[each] for each in places), default=None)


def length_of(opcode: int) -> int:
    """Returns the number of bytes of an instruction."""
    return 2 if opcode in TWO_BYTES else 3 if opcode in THREE_BYTES else 1


def add_block(counts: Counts, block: bytes) -> None:
    """Adds whole lines of a trace, with a line end before the first."""
    counts.steps += block.count(b"\nstep ")
    found = Counter(_ADDRESS.findall(block))
    addresses = {digits: int(digits, 16) for digits in found}
    counts.counts.update({addresses[digits]: count for digits, count in found.items()})
    new = {digits for digits, address in addresses.items() if address not in counts.first}
    if new:
        for step in _STEP.finditer(block):
            if step[2] in new:
                counts.first[addresses[step[2]]] = int(step[1])
                new.remove(step[2])


def blocks_of(command: list[str]) -> Iterator[bytes]:
    """Yields the whole lines that a command prints, many at once, with a line end before the first. Raises ProgramEnded if it ends with an
    error."""
    with subprocess.Popen(command, stdin=subprocess.DEVNULL, stdout=subprocess.PIPE, stderr=subprocess.PIPE, process_group=0) as process:
        assert process.stdout is not None and process.stderr is not None
        try:
            rest = b"\n"
            while data := process.stdout.read(BLOCK):
                end = data.rfind(b"\n")
                if end < 0:
                    rest += data
                    continue
                yield rest + data[:end]
                rest = data[end:]
            errors = process.stderr.read().decode("utf-8", "replace")
            process.wait()
        finally:
            process.kill()
    if process.returncode != 0:
        raise ProgramEnded(process.returncode, errors)


def count_run(tracer: PathName, words: SessionWords) -> Counts:
    """Returns how often the run of a session executed each address."""
    counts, block = Counts(runs=1), b""
    for block in blocks_of([str(tracer), "--steps", *words.words()]):
        add_block(counts, block)
    counts.limited = int(block.rstrip().endswith(b"\nstop Limit"))
    return counts


def count_setup(tracer: PathName, setup: Setup) -> Counts:
    """Returns the same for a session of a case."""
    with tempfile.TemporaryDirectory() as room:
        return count_run(tracer, put_session(setup, Path(room)))


def merged(parts: Iterable[Counts]) -> Counts:
    """Returns the counts of all parts."""
    counts = Counts()
    for part in parts:
        counts.add(part)
    return counts
