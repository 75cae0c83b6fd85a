"""Cases: sessions with commands and expected results, as text.

A file of cases has lines, each of which is a word with what it means; docs/TOOLS.md describes them. `Reader` makes cases of them.
"""

from __future__ import annotations

import os
import re
from collections.abc import Callable, Iterable, Iterator, Mapping
from dataclasses import dataclass, field, replace
from pathlib import Path

from .assembler import assemble
from .failing import padded
from .files import host_files
from .words import DRIVES, LARGEST_LIMIT, typed_bytes

LIMIT = 1_000_000
TOKEN = re.compile(r'\s*(?:("[^"]*"|[0-9A-F]{2}|\((?:[^()"]|"[^"]*")*\))(?:\*(\d+))?|(-))')
CAUSES = "WarmBoot|Halt|Limit|Undefined [0-9A-F]{2}|SystemArea [0-9A-F]{4}|ConsoleExhausted|NoDollar|Unsupported [0-9]+|BadDrive [0-9]+"
NAME = re.compile(r"(?:[A-Da-d]:)?[A-Za-z0-9$#@_-]{1,8}(?:\.[A-Za-z0-9$#@_-]{0,3})?")
ESCAPE = re.compile(r"\\(?:x([0-9A-Fa-f]{2})|(\\))|(\\)")
REGISTERS = {"A": 0, "F": 2, "B": 0, "C": 0, "D": 0, "E": 0, "H": 0, "L": 0}
SHOWN = bytes(byte for byte in range(0x20, 0x7F) if byte != 0x5C)
"""The bytes that are themselves in a line of text."""

COMMANDS = {form.split()[0]: form for form in (
    "run", "insert AT BYTES", "replace AT BYTES", "remove AT COUNT", "poke ADDR BYTES", "file NAME BYTES", "gone NAME", "limit N", "drop N")}
"""The form of each command, by its word."""

WORDS = {"AT": "[0-9]{1,10}", "COUNT": "[0-9]{1,10}", "N": "[0-9]{1,10}", "ADDR": "[0-9A-Fa-f]{4}", "NAME": r"\S+", "BYTES": ".+"}
"""What can be in the place of each word of a form."""

WITH_BYTES = ("insert", "replace", "poke", "file")
"""The edit lines that end with bytes."""

TITLE = 'a case begins with "== TITLE"'


class CaseError(ValueError):
    """A line of a case that is not as it must be."""

    def __init__(self, reason: str, line: str = "") -> None:
        self.line = line
        """The wrong line, if it is not part of the reason."""
        super().__init__(reason)


class Line(str):
    """A line of a file of cases, with its number."""

    number: int

    def __new__(cls, text: str, number: int) -> Line:
        """Returns the line of this number."""
        line = super().__new__(cls, text)
        line.number = number
        return line


def parse_bytes(text: str) -> bytes:
    """Returns bytes that are written as texts in quotes, pairs of hexadecimal digits and groups, each with `*COUNT` if it is repeated."""
    parts, at = [], 0
    text = text.strip()
    while at < len(text):
        token = TOKEN.match(text, at)
        if not token:
            raise CaseError(wrong_bytes(text[at:].strip()))
        word, count, nothing = token.groups()
        if not nothing:
            part = word[1:-1].encode("latin-1") if word[0] == '"' else parse_bytes(word[1:-1]) if word[0] == "(" else bytes.fromhex(word)
            parts.append(part * int(count or 1))
        at = token.end()
    return b"".join(parts)


def wrong_bytes(text: str) -> str:
    """Returns what is wrong with a text that is no bytes, and what to write."""
    if re.fullmatch("(?:[0-9A-Fa-f]{2})+", text) is not None:
        return f"write pairs of capital hexadecimal digits: {bytes.fromhex(text).hex(' ').upper()}"
    return f"no bytes: {text}" if '"' in text else f'put a text in double quotes: "{text}"'


def spell(data: bytes) -> str:
    """Returns bytes as `parse_bytes` reads them."""
    words = []
    for run in re.findall(rb"(?s)((.)\2{7,}|[ !#-~]{2,}|.)", data):
        part = run[0]
        one = part[:1]
        shown = re.fullmatch(rb"[ !#-~]+", part) is not None
        if len(part) > 7 and part == one * len(part):
            words.append((f'"{one.decode()}"' if shown else one.hex().upper()) + f"*{len(part)}")
        else:
            words.append(f'"{part.decode()}"' if shown else part.hex().upper())
    return " ".join(words) or "-"


def digits(data: bytes) -> str:
    """Returns bytes as an edit line has them."""
    return data.hex().upper() or "-"


def text_line(text: str) -> bytes:
    """Returns the bytes of a line of text, which begins with `|`. `\\xHH` is a byte, and `\\\\` a backslash."""
    def byte_of(found: re.Match[str]) -> str:
        if found[3]:
            raise CaseError(f"no escape: {text}")
        return "\\" if found[2] else chr(int(found[1], 16))

    return ESCAPE.sub(byte_of, text[2:]).encode("latin-1")


def spell_line(data: bytes) -> str:
    """Returns a line of text as `text_line` reads it."""
    shown = "".join(chr(byte) if byte in SHOWN else f"\\x{byte:02x}" for byte in data)
    shown = f"{shown[:-1]}\\x20" if shown.endswith(" ") else shown
    return f"| {shown}".rstrip()


def spell_text(data: bytes) -> list[str]:
    """Returns the lines of a console text: `| LINE` for each line that CR LF ends, and `text BYTES` for the rest."""
    *lines, rest = data.split(b"\r\n")
    return [spell_line(line) for line in lines] + ([f"text {spell(rest)}"] if rest else [])


def spell_file(name: str, data: bytes) -> list[str]:
    """Returns the lines of a changed file: a text as lines, and other bytes as bytes."""
    text = data.partition(b"\x1a")[0]
    *lines, rest = text.split(b"\r\n")
    if lines and not rest and padded(text) == data and all(byte in SHOWN + b"\\\t\f" for line in lines for byte in line):
        return [f"file {name}", *(spell_line(line) for line in lines)]
    return [f"file {name} {spell(data)}"]


@dataclass(frozen=True)
class Setup:
    """The parts of a session, and the options for its checkpoints."""

    program: bytes = b""
    tail: bytes = b""
    script: bytes = b""
    files: tuple[tuple[str, bytes], ...] = ()
    limit: int = LIMIT
    spacing: int = 4
    slots: int = 64
    folders: tuple[tuple[str, Path], ...] = ()
    """The folders of drives that have host files besides these."""
    gone: tuple[str, ...] = ()
    """The host files that are removed, of these and of the folders."""

    def edited(self, line: str) -> Setup:
        """Returns the session after an edit line, or the same one if it is refused."""
        word, _, rest = line.partition(" ")
        first, _, more = rest.partition(" ")
        script = self.script
        match word:
            case "insert" if int(first) <= len(script):
                return replace(self, script=script[:int(first)] + parse_bytes(more) + script[int(first):])
            case "replace" if int(first) + len(data := parse_bytes(more)) <= len(script):
                return replace(self, script=script[:int(first)] + data + script[int(first) + len(data):])
            case "remove" if int(first) + int(more) <= len(script):
                return replace(self, script=script[:int(first)] + script[int(first) + int(more):])
            case "poke" if 0 <= (at := int(first, 16) - 0x100) <= len(self.program) - len(data := parse_bytes(more)):
                return replace(self, program=self.program[:at] + data + self.program[at + len(data):])
            case "file":
                return replace(self, files=(*self.files, (first, parse_bytes(more))), gone=tuple(each for each in self.gone if each != first))
            case "gone":
                return replace(self, gone=(*self.gone, first))
            case "limit" if int(first) <= LARGEST_LIMIT:
                return replace(self, limit=int(first))
        return self


@dataclass(frozen=True)
class Outcome:
    """The end of a run, and what it leaves."""

    stop: str
    steps: int | None
    """The number of steps, or `None` if the steps and registers are not compared."""
    registers: tuple[tuple[str, int], ...] = ()
    text: bytes = b""
    files: tuple[tuple[str, bytes | None], ...] | None = ()
    """The changed files, with `None` for one that is gone; or `None` if they are not compared."""

    def is_as(self, wanted: Outcome) -> bool:
        """Returns whether this is what is wanted."""
        found = replace(self, files=None) if wanted.files is None else self
        if wanted.steps is None:
            found = replace(found, steps=None, registers=wanted.registers and found.registers)
        return wanted == found

    def head(self) -> str:
        """Returns the first line of the outcome as a case has it."""
        return self.stop if self.steps is None else f"{self.stop} after {self.steps} steps"

    def lines(self) -> list[str]:
        """Returns the outcome as a case has it, without its first line."""
        usual = usual_registers(self.stop)
        words = [f'{name}={value:0{4 if name in ("SP", "PC") else 2}X}' for name, value in self.registers if usual.get(name) != value]
        lines = [" ".join(words)] if words else []
        lines += spell_text(self.text)
        for name, data in self.files or ():
            lines += [f"gone {name}"] if data is None else spell_file(name, data)
        return lines if self.files is not None else [*lines, "file *"]


def usual_registers(stop: str) -> dict[str, int]:
    """Returns the registers that a report need not name: what a program finds that changes none but SP and PC. It returns to the warm
    start, stops at a call, or stops elsewhere with nothing on its stack."""
    if stop == "WarmBoot":
        return {**REGISTERS, "SP": 0xFE00, "PC": 0xFF03}
    if stop.split()[0] in ("ConsoleExhausted", "NoDollar", "Unsupported", "BadDrive"):
        return {**REGISTERS, "SP": 0xFDFC, "PC": 0xFE06}
    return {**REGISTERS, "SP": 0xFDFE, "PC": 0x0100}


def parse_registers(line: str, stop: str) -> tuple[tuple[str, int], ...]:
    """Returns the registers of a line, and the usual ones that it does not name."""
    named = dict(word.split("=", 1) for word in line.split() if "=" in word)
    usual = usual_registers(stop)
    are_numbers = all(re.fullmatch("[0-9A-F]{2,4}", word) for word in named.values())
    if not set(named) <= set(usual) or len(named) != len(line.split()) or not are_numbers:
        raise CaseError(f"no registers: {line}")
    return tuple((name, int(named[name], 16) if name in named else value) for name, value in usual.items())


@dataclass
class Pieces:
    """What the lines after the first of an outcome say."""

    registers: tuple[tuple[str, int], ...] | None = None
    text: bytes = b""
    files: dict[str, bytes | None] = field(default_factory=dict)
    texts: list[str] = field(default_factory=list)
    """The names of files that are texts. A line of text belongs to the last file."""
    is_compared: bool = True
    """Whether the changed files are compared."""

    def add(self, line: str, stop: str) -> None:
        """Adds what a line says."""
        word, _, rest = line.partition(" ")
        if word == "|" and self.texts and self.texts[-1] == next(reversed(self.files)):
            self.files[self.texts[-1]] = (self.files[self.texts[-1]] or b"") + text_line(line) + b"\r\n"
        elif word == "|" and not self.files:
            self.text += text_line(line) + b"\r\n"
        elif word == "text":
            self.text += parse_bytes(rest)
        elif word == "gone":
            self.files[rest] = None
        elif line == "file *":
            self.is_compared = False
        elif word == "file":
            name, _, data = rest.partition(" ")
            self.files[name] = parse_bytes(data)
            self.texts += [] if data else [name]
        elif "=" in word:
            self.registers = parse_registers(line, stop)
        else:
            raise CaseError("no line of a result")


def parse_outcome(stop: str, steps: int | None, lines: Iterable[str]) -> Outcome:
    """Returns the outcome of the lines that follow its first. Without steps, the registers are compared only if a line names some. Raises
    CaseError with the wrong line."""
    pieces = Pieces()
    for line in lines:
        try:
            pieces.add(line, stop)
        except ValueError as fault:
            raise CaseError(str(fault), line) from None
    files = {name: padded(data or b"") if name in pieces.texts else data for name, data in pieces.files.items()}
    registers = parse_registers("", stop) if pieces.registers is None and steps is not None else pieces.registers or ()
    return Outcome(stop, steps, registers, pieces.text, tuple(files.items()) if pieces.is_compared else None)


@dataclass
class Command:
    """A command of a case, and the lines that are expected."""

    line: str
    wanted: list[str]


@dataclass
class Case:
    """A case of a file."""

    path: Path
    title: str
    session: Setup
    commands: list[Command]
    row: Row | None = None
    """The row of a table that it is made of."""
    program_path: Path | None = None
    """The path of its program, unless it has instructions."""
    script_path: Path | None = None
    """The path of its script, if that is a file."""

    @property
    def number(self) -> int:
        """The number of its first line."""
        return number_of(self.title)

    @property
    def is_empty(self) -> bool:
        """Whether it has no command."""
        return not self.commands

    def paths(self) -> Iterator[Path]:
        """Yields the paths of what it reads: its file, its program, its script and its host files."""
        yield from (path for path in (self.path, self.program_path, self.script_path) if path is not None)
        for _, folder in self.session.folders:
            yield from host_files(folder)


def check_command(command: str) -> None:
    """Raises CaseError for a line that is no command."""
    form = COMMANDS.get(command.partition(" ")[0])
    if form is None:
        raise CaseError(f"no command: {command}")
    word, *places = form.split()
    if re.fullmatch(" ".join([word, *(WORDS[place] for place in places)]), command) is None:
        raise CaseError(f'the command is "{form}": {command}')


def line_of(command: str) -> str:
    """Returns the edit line of a command."""
    words = command.split(" ", 2)
    return f"{words[0]} {words[1]} {digits(parse_bytes(words[2]))}" if words[0] in WITH_BYTES and len(words) == 3 else command


def read_text(path: Path) -> str:
    """Returns the text of a file. Bytes that are not UTF-8 stay."""
    return path.read_bytes().decode("utf-8", "surrogateescape")


def sections_of(path: Path) -> list[list[Line]]:
    """Returns the lines of each case, and of what is before the first."""
    sections: list[list[Line]] = [[]]
    for number, line in enumerate(read_text(path).split("\n"), 1):
        if line.startswith("== "):
            sections.append([])
        elif line.startswith("=="):
            raise CaseError(f"{path}:{number}: {TITLE}: {line.rstrip()}")
        if line.strip() and not line.startswith("#"):
            sections[-1].append(Line(line.rstrip(), number))
    return sections


def programs_in(lines: Iterable[str]) -> dict[str, list[str]]:
    """Returns the programs that lines define: `program NAME`, and its instructions in the lines after it."""
    programs: dict[str, list[str]] = {}
    name = None
    for line in lines:
        if line.startswith("program "):
            name = line.split()[1]
            programs[name] = []
        elif name is None:
            raise CaseError(f"{number_of(line)}: {TITLE}: {line}")
        else:
            programs[name].append(line)
    return programs


@dataclass(frozen=True)
class Row:
    """A row of a table at the end of a case."""

    names: list[str]
    values: list[str]
    body: list[Line]
    """The lines of the case before the table."""
    line: Line

    def lines(self) -> list[Line]:
        """Returns the lines of the case with the values in the place of their names."""
        lines = self.body
        for name, value in zip(self.names, self.values):
            lines = [Line(line.replace(f"{{{name}}}", value), line.number) for line in lines]
        return lines


def rows_in(lines: list[Line]) -> list[Row]:
    """Returns the rows of the table at the end of a case, if there is one."""
    heads = [index for index, line in enumerate(lines) if line.startswith("with ")]
    if not heads:
        return []
    names = [name.strip() for name in lines[heads[0]][5:].split(" | ")]
    rows = []
    for line in lines[heads[0] + 1:]:
        values = [value.strip() for value in line.split(" | ")]
        if len(values) != len(names):
            raise CaseError(f"{number_of(line)}: a row of {len(values)} values for {len(names)} names: {line}")
        rows.append(Row(names, values, lines[:heads[0]], line))
    if not rows:
        raise CaseError(f"{number_of(lines[heads[0]])}: a table without a row")
    return rows


def rows_of(lines: list[Line]) -> list[list[Line]]:
    """Returns the lines once, or, if they end with a table, once for each row, with its values in the place of their names."""
    return [row.lines() for row in rows_in(lines)] or [lines]


def number_of(line: str) -> int:
    """Returns the number of a line, or 0 if it is none of a file."""
    return line.number if isinstance(line, Line) else 0


@dataclass
class Reader:
    """Reads files of cases."""

    programs: Mapping[str, list[str]] = field(default_factory=dict)
    """Programs that all files may use, by name."""
    case_type: Callable[..., Case] = Case

    def read(self, path: Path) -> list[Case]:
        """Returns the cases of a file. Raises CaseError with the path and the number of a wrong line."""
        head, *sections = sections_of(path)
        try:
            programs = {**self.programs, **programs_in(head)}
            return [case for section in sections for case in self.section(path, section, programs)]
        except CaseError as fault:
            text = str(fault)
            raise CaseError(text if text.startswith(str(path)) else f"{path}:{text}") from None

    def section(self, path: Path, lines: list[Line], programs: Mapping[str, list[str]]) -> Iterator[Case]:
        """Yields the case of these lines, or one for each row of their table."""
        rows = rows_in(lines)
        if rows:
            yield from (self.case(path, row.lines(), programs, row) for row in rows)
        else:
            yield self.case(path, lines, programs)

    def case(self, path: Path, lines: list[Line], programs: Mapping[str, list[str]], row: Row | None = None) -> Case:
        """Returns the case of these lines."""
        case = self.case_type(path, Line(lines[0][3:], lines[0].number), Setup(), [], row)
        program: list[str] = []
        is_text: list[str] = []
        for line in lines[1:]:
            try:
                if line.startswith("> "):
                    case.commands.append(Command(Line(line[2:], line.number), []))
                    self.check_command(line[2:])
                elif case.commands:
                    case.commands[-1].wanted.append(line)
                elif line.startswith("|"):
                    self.text_part(case, line, is_text)
                else:
                    is_text = [line.partition(" ")[0]] if " " not in line.partition(" ")[2] else []
                    self.part(case, line, programs, program)
            except (ValueError, OSError) as fault:
                raise CaseError(f"{path}:{line.number}: {message_of(fault)}") from None
        if program:
            case.session = replace(case.session, program=self.assembled(path, lines[0].number, program))
        if case.is_empty:
            raise CaseError(f"{path}:{case.number}: the case has no command")
        return case

    def check_command(self, command: str) -> None:
        """Raises CaseError for a line that is no command."""
        check_command(command)
        line_of(command)

    @staticmethod
    def assembled(path: Path, number: int, program: list[str]) -> bytes:
        """Returns the bytes of a program. Raises CaseError with the line of its first wrong instruction."""
        try:
            return assemble(program)
        except (ValueError, KeyError, IndexError) as fault:
            wrong = next((line for line in program if line.partition(";")[0].strip() in str(fault)), None)
            raise CaseError(f'{path}:{(number_of(wrong or "") or number)}: {fault}') from None

    def text_part(self, case: Case, line: str, of: list[str]) -> None:
        """Reads a line of text of the script, which CR ends, or of a host file, which CR LF ends."""
        session = case.session
        if of == ["script"]:
            case.session = replace(session, script=session.script + text_line(line) + b"\r")
        elif of == ["file"]:
            *files, (name, data) = session.files
            case.session = replace(session, files=(*files, (name, data + text_line(line) + b"\r\n")))
        else:
            raise CaseError(f"no text can be here: {line}")

    def part(self, case: Case, line: Line, programs: Mapping[str, list[str]], program: list[str]) -> None:
        """Reads a line about the session of a case."""
        word, _, rest = line.partition(" ")
        session = case.session
        if word in ("tail", "script"):
            case.session = replace(session, **{word: parse_bytes(rest)})
        elif word == "typed":
            case.session = replace(session, script=typed_bytes(rest))
        elif word == "console":
            case.script_path = case.path.parent / rest
            case.session = replace(session, script=case.script_path.read_bytes())
        elif word in ("limit", "spacing", "slots"):
            case.session = replace(session, **{word: int(rest)})
        elif word == "file":
            name, _, data = rest.partition(" ")
            if NAME.fullmatch(name) is None:
                raise CaseError(f"no name of a file: {name}")
            case.session = replace(session, files=(*session.files, (name, parse_bytes(data))))
        elif word.startswith("files") and word[5:] in DRIVES.values():
            case.session = replace(session, folders=(*session.folders, self.folder(case.path, word[5:], rest)))
        elif word == "program":
            self.use_program(case, rest, programs, program)
        else:
            program.append(line)

    @staticmethod
    def folder(path: Path, end: str, name: str) -> tuple[str, Path]:
        """Returns the drive and the folder of a line such as `files-b disk`."""
        folder = path.parent / name
        if not folder.is_dir():
            raise CaseError(f"there is no folder {name}")
        return next(drive for drive, each in DRIVES.items() if each == end), folder

    @staticmethod
    def use_program(case: Case, name: str, programs: Mapping[str, list[str]], program: list[str]) -> None:
        """Takes the instructions of this name, or else the program of this path, from the folder of the case."""
        if name in programs:
            program += programs[name]
        else:
            case.program_path = case.path.parent / name
            case.session = replace(case.session, program=case.program_path.read_bytes())


def message_of(fault: Exception) -> str:
    """Returns an error in words."""
    if isinstance(fault, OSError) and fault.filename is not None:
        return f"cannot read {os.fspath(fault.filename)}"
    return str(fault)
