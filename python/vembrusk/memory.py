"""The memory of a run after any of its steps.

Edit lines and traces show no memory. But a trace shows what each instruction wrote, and the memory that was loaded is known. For what calls
wrote, a report has the files and the console text.
"""

from __future__ import annotations

import re
from collections.abc import Callable, Iterator
from typing import Protocol

from .session import Report
from .trace import Step

LOAD_ADDRESS = 0x100
LAST_ADDRESS = 0xFFFF
RECORD = 128
PADDING = b"\x1a"

# The call number, the file, the record number and the address of the buffer.
_RECORD_CALL = re.compile(r"step \d+ call (20|21|33|34|40) .*?(\S+) record (\d+) (?:to|from) ([0-9A-F]{4}) = 00$")
# Open and make.
_OPENING_CALL = re.compile(r"step \d+ call (15|22) .* = 00$")
_LINE_CALL = re.compile(r"step \d+ call 10 ")

Cells = dict[int, int | None]
"""The byte of each address, or None for a byte that is not known."""


class Run(Protocol):
    """What is asked about a run."""

    def report(self, steps: int) -> Report:
        """Returns the report after this number of steps."""

    def last_write(self, first: int, last: int, steps: int) -> Step | None:
        """Returns the last of the first `steps` steps that wrote any of these cells."""

    def next_write(self, address: int, steps: int) -> Step | None:
        """Returns the first step after the first `steps` steps that writes this cell."""


def loaded_memory(program: bytes, tail: str) -> bytes:
    """Returns the 65,536 cells before the first step: page zero with the command tail, the program at 0100H, and zeros."""
    memory = bytearray(LAST_ADDRESS + 1)
    memory[0:3] = b"\xc3\x03\xff"
    memory[5:8] = b"\xc3\x06\xfe"
    text = tail.upper().encode("ascii")
    words = [*text.split(), b"", b""]
    for address, word in (0x5C, words[0]), (0x6C, words[1]):
        memory[address:address + 12] = control_block(word)
    if text:
        memory[0x80:0x82 + len(text)] = bytes([len(text) + 1]) + b" " + text
    memory[LOAD_ADDRESS:LOAD_ADDRESS + len(program)] = program
    return bytes(memory)


def control_block(word: bytes) -> bytes:
    """Returns the drive byte, the eight bytes of the name and the three of the type for a word of the command tail in upper case."""
    drive = 0
    if word[:1].isalpha() and word[1:2] == b":":
        drive, word = word[0] - ord("A") + 1, word[2:]
    name, kind = [*word.split(b"."), b""][:2]
    return bytes([drive]) + _field(name, 8) + _field(kind, 3)


def _field(text: bytes, length: int) -> bytes:
    """Returns a part of a name, padded with blanks. A `*` in it fills the rest with `?`."""
    text = text[:length]
    stem, star, _ = text.partition(b"*")
    return stem.ljust(length, b"?") if star else text.ljust(length)


class Memory:
    """The memory of a run after any of its steps, where it is known.

    A byte that a call wrote is known if the call read a record or a plain line of the console, if it is in a control block except its count
    of records and random record number, or if the next step that writes the cell is an instruction, since a trace shows the byte before it.
    """

    def __init__(self, run: Run, loaded: bytes, host_file: Callable[[str], bytes], has_plain_script: bool) -> None:
        """`host_file` returns the bytes of a host file. A plain script has no control characters except CR, LF and backspace: only then do
        the bytes of a line follow from what the call printed."""
        self._run, self._loaded = run, loaded
        self._host_file, self._has_plain_script = host_file, has_plain_script

    def cells(self, first: int, last: int, steps: int) -> Cells:
        """Returns the bytes from address `first` to `last` after this number of steps."""
        cells: Cells = {}
        ranges = [(first, last)] if first <= last else []
        while ranges:
            found, rest = self._part(*ranges.pop(), steps)
            cells |= found
            ranges += rest
        return cells

    def _part(self, first: int, last: int, steps: int) -> tuple[Cells, list[tuple[int, int]]]:
        """Returns bytes of these cells: the ones that the last write to any of them wrote, or all. Returns the ranges of the others, too."""
        step = self._run.last_write(first, last, steps)
        if step is None:
            return {address: self._loaded[address] for address in range(first, last + 1)}, []
        written = self._written_by_call(step) if step.is_call else {address: cell.new for address, cell in step.cells.items()}
        found: Cells = {address: byte for address, byte in written.items() if first <= address <= last}
        if found:
            return found, list(_gaps(first, last, sorted(found)))
        if first == last:
            return {first: self._byte_before_write(first, steps)}, []
        # a call whose cells are not known: it wrote in one half, or in both
        middle = (first + last) // 2
        return {}, [(first, middle), (middle + 1, last)]

    def _byte_before_write(self, address: int, steps: int) -> int | None:
        """Returns the byte that the next step to write a cell finds there, if it is an instruction."""
        step = self._run.next_write(address, steps)
        return step.cells[address].old if step is not None and not step.is_call else None

    def _written_by_call(self, step: Step) -> dict[int, int]:
        """Returns what a call wrote, as far as its line and the reports before and after it show that."""
        if words := _RECORD_CALL.match(step.line):
            return self._written_by_record_call(step, int(words[1]), words[2], int(words[3]), int(words[4], 16))
        if words := _OPENING_CALL.match(step.line):
            return self._written_by_opening_call(step, int(words[1]))
        if _LINE_CALL.match(step.line) and self._has_plain_script:
            return self._written_by_line_call(step)
        return {}

    def _written_by_record_call(self, step: Step, call: int, name: str, number: int, buffer: int) -> dict[int, int]:
        """Returns the record that a call read into the buffer, and the place in the control block: the next one for sequential calls."""
        report = self._run.report(step.number)
        cells = {}
        if call in (20, 33):
            data = report.files.get(name) or self._host_file(name)
            record = data[number * RECORD:(number + 1) * RECORD].ljust(RECORD, PADDING)
            cells = _cells_from(buffer, record)
        place = number + 1 if call in (20, 21) else number
        block = _block_address(report)
        for offset, byte in (12, place // 128 % 32), (14, place // 4096 % 256), (32, place % 128):
            cells[(block + offset) & LAST_ADDRESS] = byte
        return cells

    def _written_by_opening_call(self, step: Step, call: int) -> dict[int, int]:
        """Returns the zeros in a control block that was opened or made. The count of records, which is zero if it was made, is left out if it
        was opened."""
        block = _block_address(self._run.report(step.number))
        return {(block + offset) & LAST_ADDRESS: 0 for offset in range(13, 32) if offset != 15 or call == 22}

    def _written_by_line_call(self, step: Step) -> dict[int, int]:
        """Returns the count and the bytes of a line, which are the bytes that the call printed, without the removed ones and the CR."""
        before, after = self._run.report(step.number), self._run.report(step.number + 1)
        line = bytearray()
        for byte in after.text[len(before.text):].replace(b"\b \b", b"\b").replace(b"\r", b""):
            if byte == ord("\b"):
                line.pop()
            else:
                line.append(byte)
        return _cells_from(_block_address(before) + 1, bytes([len(line)]) + line)


def _block_address(report: Report) -> int:
    """Returns what DE holds."""
    return report.registers.d * 256 + report.registers.e


def _cells_from(address: int, data: bytes) -> dict[int, int]:
    """Returns bytes by their addresses; cell 0 follows the last one."""
    return {(address + offset) & LAST_ADDRESS: byte for offset, byte in enumerate(data)}


def _gaps(first: int, last: int, found: list[int]) -> Iterator[tuple[int, int]]:
    """Yields the ranges from `first` to `last` between the addresses that were found."""
    for address in [*found, last + 1]:
        if first < address:
            yield first, address - 1
        first = address + 1
