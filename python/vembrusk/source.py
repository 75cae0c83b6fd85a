"""Listings of assemblers: the lines of a source with the addresses and bytes that they made.

Listings of ASM, MAC and M80 (`.PRN`), of z80asm (`--list`), and of pasmo (what `pasmo -d` prints, or `--listing` of later versions) are read.
"""

from __future__ import annotations

import re
from collections.abc import Iterator
from dataclasses import dataclass
from functools import cache
from pathlib import Path

DATA = {"DB", "DW", "DS", "DEFB", "DEFW", "DEFS", "DEFM", "BYTE", "WORD", "BLOCK", "ASCII", "ASCIZ", "DC"}
"""The directives whose bytes are data."""

OPERATIONS = {
    *"ACI ADC ADD ADI ANA ANI CALL CC CM CMA CMC CMP CNC CNZ CP CPE CPI CPO CZ DAA DAD DCR DCX DI EI HLT IN INR INX JC JM JMP JNC JNZ".split(),
    *"JP JPE JPO JZ LDA LDAX LHLD LXI MOV MVI NOP ORA ORI OUT PCHL POP PUSH RAL RAR RC RET RLC RM RNC RNZ RP RPE RPO RRC RST RZ SBB".split(),
    *"SBI SHLD SPHL STA STAX STC SUB SUI XCHG XRA XRI XTHL AND CCF CPL DEC EX HALT INC JR LD OR RLA RRA SBC SCF XOR".split(),
    *"ORG END IF ELSE ENDIF TITLE PAGE INCLUDE ASEG CSEG DSEG PUBLIC EXTRN".split(), *DATA,
}
"""The words that are no labels."""

NO_LABEL = {"EQU", "SET", "DEFL", "MACRO", "ASET", "="}
"""The directives whose label is no address."""

PAGE_ZERO_END = 0x100

# The columns of ASM and MAC: a mark of an error, the address, a mark, at most ten digits, and the source from column 16 on.
_COLUMNS = re.compile(r"[ A-Z](?P<address>[0-9A-F]{4})[ +](?P<bytes>[0-9A-F]{0,10}) *$")
_VALUE = re.compile(r"[ A-Z](?P<value>[0-9A-F]{4}) = ")
_M80 = re.compile(r"[ A-Z] (?P<address>[0-9A-F]{4})['\"!]?   (?P<bytes>(?: ?[0-9A-F]{2}(?:[0-9A-F]{2}['\"!*]?)?)*)(?:\s+(?P<source>.*))?")
_OTHER = re.compile(r"(?P<address>[0-9A-Fa-f]{4})(?::\s*|\s)(?P<bytes>(?:[0-9A-Fa-f]{2} ?|\.\. ?)*)(?:\t+|\s{2,}|$)(?P<source>.*)")
_PASMO_LABEL = re.compile(r"(?P<address>[0-9A-F]{4}):\s*label (?P<name>\S+)")
_LABEL = re.compile(r"\s*(?P<name>[A-Za-z_.?@$][\w.?@$]*):|(?P<plain>[A-Za-z_.?@$][\w.?@$]*)(?=\s)")


@dataclass(frozen=True)
class SourceLine:
    """A line of a listing."""

    number: int
    """Its number, from 1 on."""
    text: str
    address: int | None = None
    code: bytes = b""
    """Its bytes, as far as the listing shows them."""
    source: str = ""
    label: str | None = None

    @property
    def is_code(self) -> bool:
        """Whether it has an instruction. A line that has bytes alone continues the data of the line before it."""
        return bool(self.code) and bool(self.source) and operation_of(self.source) not in DATA


@dataclass(frozen=True)
class Source:
    """A listing."""

    path: Path
    lines: list[SourceLine]

    def labels(self) -> Iterator[tuple[str, int]]:
        """Yields the labels of its lines with their addresses."""
        yield from ((line.label, line.address) for line in self.lines if line.label is not None and line.address is not None)

    def check(self, program: bytes, load_address: int = 0x100) -> None:
        """Raises ValueError if the listing has other instructions than the program."""
        if not any(line.is_code for line in self.lines):
            raise ValueError(f"{self.path} is no listing of ASM, MAC, M80, z80asm or pasmo")
        for line in self.lines:
            at = (line.address or 0) - load_address
            if line.is_code and program[max(at, 0):max(at + 1, 0)] != line.code[:1]:
                raise ValueError(f"{self.path}:{line.number} is a listing of another program: {line.text.strip()}")


def text_of(path: Path) -> str:
    """Returns a text without what comes after its first 1AH."""
    return path.read_bytes().partition(b"\x1a")[0].decode("latin-1")


def read_lines(path: Path) -> list[str]:
    """Returns the lines of a text."""
    return re.split(r"\r?\n|\f", text_of(path))


@cache
def read_source(path: Path) -> Source:
    """Returns a listing. Lines without code have only their text."""
    lines: list[SourceLine] = []
    for number, text in enumerate(read_lines(path), 1):
        lines.append(parse_line(number, text.rstrip()))
    return Source(path, lines)


def parse_line(number: int, text: str) -> SourceLine:
    """Returns a line of a listing in any of the forms."""
    if label := _PASMO_LABEL.fullmatch(text):
        return SourceLine(number, text, int(label["address"], 16), label=label["name"])
    expanded = text.expandtabs(8)
    if value := _VALUE.match(expanded):
        return _value_line(number, text, int(value["value"], 16), expanded[16:])
    if found := _COLUMNS.match(expanded[:16]):
        return _line_of(number, text, found, expanded[16:])
    found = _M80.fullmatch(text) or _OTHER.fullmatch(text)
    return SourceLine(number, text) if found is None else _line_of(number, text, found, found["source"] or "")


def _line_of(number: int, text: str, found: re.Match[str], source: str) -> SourceLine:
    """Returns the line whose address and bytes were found."""
    address = int(found["address"], 16)
    return SourceLine(number, text, address, _code(found["bytes"]), source, _label(source))


def _value_line(number: int, text: str, value: int, source: str) -> SourceLine:
    """Returns the line that defines a value. In page zero the value is taken for an address, as of the entry of the BDOS."""
    return SourceLine(number, text, value, label=_split(source)[0]) if value < PAGE_ZERO_END else SourceLine(number, text)


def _code(text: str) -> bytes:
    """Returns the bytes of a listing, up to the first that it does not show. Words of M80 have their high byte first."""
    code = b""
    for part in text.split():
        digits = part.rstrip("'\"!*")
        if not re.fullmatch("([0-9A-Fa-f]{2})+", digits):
            break
        data = bytes.fromhex(digits)
        code += data[::-1] if len(digits) == 4 and " " in text.strip() else data
    return code


def _split(source: str) -> tuple[str | None, list[str]]:
    """Returns the label of a line of a source, or None, and the words after it."""
    found = _LABEL.match(source)
    name = None if found is None else found["name"] or found["plain"]
    if found is None or found["name"] is None and found["plain"].upper() in OPERATIONS:
        return None, source.split()
    return name, source[found.end():].split()


def operation_of(source: str) -> str:
    """Returns the name of the instruction or directive of a line in capitals."""
    return next(iter(_split(source)[1]), "").upper()


def _label(source: str) -> str | None:
    """Returns the label at the beginning of a line of a source, or None if it has none, or one that is no address."""
    name, rest = _split(source)
    return None if rest and rest[0].upper() in NO_LABEL else name
