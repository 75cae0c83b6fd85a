"""Shows what a file of edit lines gives, in a form for people, and compares it with what was kept.

Each line is shown with its reply. A report shows the console text and changed text files as text, and other files as a hex dump.
With --kept FILE nothing is printed if FILE has the same; else the differences are printed, with status 1. --accept writes FILE, and with --force
also over a file that --accept did not write.
"""

from __future__ import annotations

import argparse
import difflib
import re
import sys
from collections.abc import Iterator
from pathlib import Path

from .files import write_whole
from .session import WRONG_LINE, PathName, ProgramEnded, Refused, Registers, Report, Session
from .words import Arguments, UsageError, check_output, session_of

LONGEST_SHOWN = 100
"""The characters of an edit line that are shown."""

TEXT = bytes(range(0x20, 0x7F)) + b"\r\n\t\f"

KEPT = re.compile(r"(?:> .*\n(?:ok|refused \d.*|stop .+ after .+ steps\nA=.*(?:\n(?:  .*|gone .*|file .*records?))*)\n)*")
"""The text of a file that --accept wrote: edit lines with their replies."""


def escaped(line: bytes) -> str:
    """Returns a line with escapes for what cannot be seen."""
    return "".join(chr(byte) if 0x20 <= byte < 0x7F and byte != 0x5C else f"\\x{byte:02x}" for byte in line)


def text_lines(text: bytes) -> Iterator[str]:
    """Yields the lines of a text that ends its lines with CR LF."""
    lines = text.split(b"\r\n")
    for number, line in enumerate(lines):
        if number + 1 < len(lines) or line:
            yield f"  | {escaped(line)}"


def file_lines(data: bytes) -> Iterator[str]:
    """Yields the lines of a text file up to its first 1AH, or a hex dump of any other file."""
    text = data.partition(b"\x1a")[0]
    if not text.strip(TEXT) and not data[len(text):].strip(b"\x1a"):
        yield from text_lines(text)
        return
    for offset in range(0, len(data), 16):
        row = data[offset:offset + 16]
        yield f"  {offset:06x}  {row.hex(' ')}  {escaped(row) if not row.strip(TEXT[:95]) else ''}".rstrip()


def registers_line(registers: Registers) -> str:
    """Returns the registers in the form of a report."""
    return " ".join(f"{name.upper()}={value:0{4 if name in ('sp', 'pc') else 2}X}" for name, value in vars(registers).items())


def report_lines(report: Report) -> Iterator[str]:
    """Yields a report in a form for people."""
    yield f"stop {report.cause} after {report.steps:,} steps"
    yield registers_line(report.registers)
    yield from text_lines(report.text)
    for name, data in report.files.items():
        if data is None:
            yield f"gone {name}"
        else:
            yield f"file {name}, {len(data) // 128} record{'s' * (len(data) != 128)}"
            yield from file_lines(data)


def shown(session: Session, edits: list[str], path: str) -> Iterator[str]:
    """Yields each edit line of a file and its reply. Raises ValueError with the path and the number of a wrong line."""
    for number, line in enumerate(edits, 1):
        yield f"> {short(line)}"
        try:
            report = session.send(line)
            yield from ["ok"] if report is None else report_lines(report)
        except Refused as refusal:
            yield str(refusal)
        except ProgramEnded as ended:
            if ended.status != WRONG_LINE:
                raise
            raise ValueError(f"{path}:{number}: no edit line: {short(line)!r}") from None
        except ValueError as fault:
            raise ValueError(f"{path}:{number}: {fault}") from None


def short(line: str) -> str:
    """Returns an edit line, or the beginning of a long one and its length."""
    return line if len(line) <= LONGEST_SHOWN else f"{line[:LONGEST_SHOWN]}..., {len(line)} bytes"


def add_arguments(parser: Arguments) -> None:
    """Adds the arguments of the subcommand."""
    parser.set_operands("PROGRAM [TAIL]", "the .COM file, and its command tail, one word")
    parser.add_session()
    parser.add_checkpoints()
    parser.add_program("cpmrun")
    parser.add_argument("--edits", metavar="FILE", help="the edit lines; this option is required")
    parser.add_argument("--kept", metavar="FILE", help="the file to compare with; the exit status is 1 if it differs")
    parser.add_argument("--accept", action="store_true", help="write the kept file, unless it is one that --accept did not write")
    parser.add_argument("--force", action="store_true", help="with --accept, write any file")


def check_kept(path: str, is_forced: bool, reads: list[PathName]) -> None:
    """Raises UsageError if --accept may not write this file."""
    check_output("--kept", path, reads)
    if Path(path).is_file() and not is_forced and KEPT.fullmatch(Path(path).read_bytes().decode("latin-1")) is None:
        raise UsageError(f"--kept {path}: --accept did not write this file; --force overwrites it")


def run(values: argparse.Namespace) -> int:
    """Runs the subcommand."""
    if values.edits is None:
        raise UsageError("the following arguments are required: --edits")
    if values.accept and values.kept is None:
        raise UsageError("--accept needs --kept")
    if values.force and not values.accept:
        raise UsageError("--force needs --accept")
    words = session_of(values)
    if values.accept:
        check_kept(values.kept, values.force, [*words.paths(), values.edits])
    text = Path(values.edits).read_bytes().decode("latin-1")
    edits = text.removesuffix("\n").split("\n") if text else []
    with words.start(values.cpmrun) as session:
        new = [f"{line}\n" for line in shown(session, edits, values.edits)]
    if values.kept is None:
        sys.stdout.writelines(new)
        return 0
    if values.accept:
        write_whole(values.kept, "".join(new))
        return 0
    kept = Path(values.kept).read_text().splitlines(keepends=True) if Path(values.kept).exists() else []
    differences = list(difflib.unified_diff(kept, new, values.kept, "now"))
    sys.stdout.writelines(differences)
    return 1 if differences else 0
