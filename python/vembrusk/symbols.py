"""The labels of a program, as assemblers and linkers write them, and the lines of a trace with labels in place of addresses.

These files are read: the symbol files of pasmo and z80asm, the `.SYM` files of MAC and LINK, and the listings of ASM, MAC and M80. An address
that has no label, or several, stays a number.
"""

from __future__ import annotations

import re
import sys
from collections.abc import Iterable, Iterator, Mapping
from dataclasses import dataclass, field
from pathlib import Path

from .source import read_lines, read_source, text_of

FIRST_ADDRESS = 0x100
"""The first address of a program. Below it only a whole address has a label, since most numbers there are no addresses."""

FARTHEST = 255
"""The most bytes after a label that are named by it."""

REFERRED_PART = 3
"""A program refers to at least one of this many of its labels."""

_PASMO = re.compile(r"(\S+)\s+EQU 0?([0-9A-F]{4,5})H")
_Z80ASM = re.compile(r"(\S+):\s+equ \$([0-9a-f]{1,4})")
_PAIRS = re.compile(r"\s*[0-9A-F]{4}[ \t]+\S+(?:\s+[0-9A-F]{4}[ \t]+\S+)*\s*")
_PAIR = re.compile(r"([0-9A-F]{4})[ \t]+(\S+)")
_M80_ENTRY = re.compile(r"([0-9A-F]{4})([I*UC'\"! ]*)\s+([A-Za-z$.?@]\S*)")
_INSTRUCTION = re.compile(r"(?P<head>.*?step \d+ regs .* PC=)(?P<pc>[0-9A-F]{4})(?P<code> [0-9A-F]{2,6} )(?P<text>.*?)"
                          r"(?P<cells>(?: cell [0-9A-F]{4} [0-9A-F]{2} to [0-9A-F]{2})*)$")
_CALL = re.compile(r"(.*?step \d+ call (?:(?:9|10|26) [a-z ]+ |(?:20|21|33|34|40) [a-z ]+ \S+ record \d+ (?:to|from) ))([0-9A-F]{4})(.*)$")
_OPERAND = re.compile(r"(?P<name>[A-Z]+) (?P<pair>[A-Z]+,)?0?(?P<value>[0-9A-F]{4})H")
_CELL = re.compile(r"(?<= cell )[0-9A-F]{4}")
_OUTPUT = re.compile(r'step (\d+) call 2 console output [0-9A-F]{2}(?: "(.*)")?$')
_WORD = re.compile(r"([^+]+)(?:\+([0-9]{1,5}))?")


@dataclass
class Symbols:
    """Labels with their addresses."""

    addresses: dict[str, set[int]] = field(default_factory=dict)
    """The address of each label, or several if the label is ambiguous."""
    _names: dict[int, list[str]] = field(default_factory=dict)
    _places: list[int] = field(default_factory=list)

    def add(self, labels: Iterable[tuple[str, int]]) -> None:
        """Adds labels."""
        for name, address in labels:
            self.addresses.setdefault(name, set()).add(address & 0xFFFF)
        self._names = {}
        for name, places in self.addresses.items():
            for address in places:
                self._names.setdefault(address, []).append(name)
        self._places = sorted(self._names)

    def address(self, word: str) -> int | None:
        """Returns the address of a label, to which `+N` may add, or None if there is no such label. Letters of either case are the same,
        unless labels differ in that alone. Raises ValueError if the label has several addresses."""
        parts = _WORD.fullmatch(word)
        if parts is None:
            return None
        name = parts[1]
        same = [name] if name in self.addresses else [each for each in self.addresses if each.lower() == name.lower()]
        places = set().union(*(self.addresses[each] for each in same))
        if len(places) > 1:
            raise ValueError(f"the label {name} has several addresses")
        return (places.pop() + int(parts[2] or 0)) & 0xFFFF if places else None

    def label(self, address: int) -> str | None:
        """Returns the label of this address, or None if it has none, or several."""
        names = self._names.get(address, [])
        return names[0] if len(names) == 1 and len(self.addresses[names[0]]) == 1 else None

    def place(self, address: int) -> str | None:
        """Returns the label of this address, or the last label before it with `+N`."""
        if address < FIRST_ADDRESS or address in self._names:
            return self.label(address)
        low, high = 0, len(self._places)
        while low < high:
            middle = (low + high) // 2
            low, high = (middle + 1, high) if self._places[middle] <= address else (low, middle)
        before = self._places[low - 1] if low else 0
        name = self.label(before) if before >= FIRST_ADDRESS and address - before <= FARTHEST else None
        return None if name is None else f"{name}+{address - before}"

    def line(self, line: str) -> str:
        """Returns a line of a trace with labels in place of addresses. Other lines stay as they are."""
        if call := _CALL.match(line):
            return call[1] + self._number(call[2]) + call[3]
        parts = _INSTRUCTION.match(line)
        if parts is None:
            return line
        cells = _CELL.sub(lambda found: self._number(found[0]), parts["cells"])
        return parts["head"] + self._number(parts["pc"]) + parts["code"] + self.instruction(parts["text"]) + cells

    def instruction(self, text: str) -> str:
        """Returns the text of an instruction with a label in place of its address. A number that is loaded into a register pair is taken for
        an address only if a label of the program has it."""
        parts = _OPERAND.fullmatch(text)
        if parts is None:
            return text
        value = int(parts["value"], 16)
        if parts["name"] == "LXI":
            name = self.label(value) if value >= FIRST_ADDRESS else None
        else:
            name = self.place(value)
        return text if name is None else f"{parts['name']} {parts['pair'] or ''}{name}"

    def _number(self, digits: str) -> str:
        return self.place(int(digits, 16)) or digits


def read_symbols(paths: Iterable[str | Path]) -> Symbols:
    """Returns the labels of files. Raises ValueError for a file that has none in a known form."""
    symbols = Symbols()
    for path in paths:
        labels = list(labels_of(Path(path)))
        if not labels:
            raise ValueError(f"{path} is no symbol file of pasmo, z80asm, MAC or LINK, and no listing of ASM, MAC or M80")
        symbols.add(labels)
    return symbols


def labels_of(path: Path) -> Iterator[tuple[str, int]]:
    """Yields the labels of a file with their addresses, or none if the file has none in a known form."""
    lines = [line for line in read_lines(path) if line.strip()]
    for form in _PASMO, _Z80ASM:
        found = [form.fullmatch(line.strip()) for line in lines]
        if found and all(found):
            yield from ((each[1], int(each[2], 16)) for each in found if each)
            return
    text = text_of(path)
    if _PAIRS.fullmatch(text):
        yield from ((name, int(digits, 16)) for digits, name in _PAIR.findall(text))
    elif "Symbols:" in lines:
        yield from _m80_labels(lines[lines.index("Symbols:") + 1:])
    else:
        yield from read_source(path).labels()


def warn_of_other_program(paths: Iterable[str], programs: Mapping[str, bytes]) -> None:
    """Prints a line on standard error for each file of labels that fits none of these programs: each refers to few of its labels.

    A program that refers to a label has its address as a word, in an instruction or a table. The label at 0100 fits any program.
    """
    for path in paths:
        labels = {address & 0xFFFF for _, address in labels_of(Path(path)) if address & 0xFFFF > FIRST_ADDRESS}
        counts = {name: sum(address.to_bytes(2, "little") in program for address in labels) for name, program in programs.items()}
        best = max(counts, key=lambda name: counts[name])
        if counts[best] * REFERRED_PART < len(labels):
            some = f"{counts[best]} of its {len(labels)} label{'s' * (len(labels) != 1)}"
            print(f"warning: {path} may be of another program: {best} refers to {some}", file=sys.stderr)


def _m80_labels(lines: list[str]) -> Iterator[tuple[str, int]]:
    """Yields the labels of the table at the end of a listing of M80. Relocatable and external ones, which get their addresses from a linker,
    are left out."""
    for line in lines:
        for digits, mark, name in _M80_ENTRY.findall(line):
            if not set(mark) - set("I "):
                yield name, int(digits, 16)


def joined(lines: Iterable[str]) -> Iterator[str]:
    """Yields lines of a trace with one line in place of consecutive calls 2."""
    calls: list[re.Match[str]] = []
    for line in lines:
        found = _OUTPUT.match(line)
        if found:
            calls.append(found)
            continue
        yield from _joined_line(calls)
        calls = []
        yield line
    yield from _joined_line(calls)


def _joined_line(calls: list[re.Match[str]]) -> Iterator[str]:
    """Yields the line of consecutive calls 2, if there are any."""
    if len(calls) == 1:
        yield calls[0][0]
    elif calls:
        text = "".join(call[2] or "" for call in calls)
        yield f'steps {calls[0][1]}-{calls[-1][1]} call 2 console output "{text}"'
