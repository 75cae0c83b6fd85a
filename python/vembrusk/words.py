"""The words of the command line that name a session, which are the same in each subcommand, and the programs that a subcommand runs."""

from __future__ import annotations

import argparse
import os
import re
import shutil
from collections.abc import Callable, Iterable, Iterator, Sequence
from dataclasses import dataclass, field, replace
from pathlib import Path
from typing import NoReturn

from .files import host_file, host_files
from .listing import Listing, read_listing
from .session import PathName, Session, session_words
from .trace import Tracer

DRIVES = {"A": "", "B": "-b", "C": "-c", "D": "-d"}
"""The end of the options for the folder of each drive."""

LARGEST_LIMIT = 4_000_000_000

_ESCAPE = re.compile(rb"\\(?:([rnt\\])|x([0-9A-Fa-f]{2}))|(\\)")
_PLAIN = {b"r": b"\r", b"n": b"\n", b"t": b"\t", b"\\": b"\\"}


class UsageError(Exception):
    """Words that cannot be meant, in one line for the user."""


@dataclass(frozen=True)
class SessionWords:
    """The words that name a session."""

    program: str
    tail: str | None = None
    folders: dict[str, str] = field(default_factory=dict)
    """The folder of the host files of each drive that has one. Disks are only read."""
    console: str | None = None
    typed: str | None = None
    limit: int | None = None
    spacing: int | None = None
    slots: int | None = None

    def words(self) -> list[str]:
        """Returns the words for cpmrun, cpmdeps and cpmtrace, as they come last on a command line."""
        return session_words(self.program, self.tail, folders=self.folders, script=self.console, typed=self.typed, limit=self.limit)

    def start(self, runner: PathName, spacing: int | None = None, slots: int | None = None) -> Session:
        """Returns a running session. The numbers replace the ones of the words."""
        return Session(runner, self.program, self.tail, folders=self.folders, script=self.console, typed=self.typed, limit=self.limit,
                       spacing=spacing or self.spacing, slots=slots or self.slots)

    def tracer(self, command: PathName) -> Tracer:
        """Returns a tracer of the session, without its limit."""
        return Tracer(command, self.program, self.tail, folders=self.folders, script=self.console, typed=self.typed)

    def listing(self, command: PathName) -> Listing:
        """Returns what the run of the session asks for."""
        return read_listing(command, self.program, self.tail, folders=self.folders, script=self.console, typed=self.typed, limit=self.limit)

    def paths(self) -> Iterator[PathName]:
        """Yields the paths of what the session reads: its program, its script and its host files."""
        yield from (self.program, *([] if self.console is None else [self.console]))
        for folder in filter(os.path.isdir, self.folders.values()):
            yield from host_files(Path(folder))

    def script(self) -> bytes:
        """Returns the console input."""
        if self.typed is not None:
            return typed_bytes(self.typed)
        return b"" if self.console is None else Path(self.console).read_bytes()

    def place_of(self, name: str) -> tuple[str, Path]:
        """Returns the drive and the path of the host file of this name."""
        drive, _, rest = name.rpartition(":")
        drive = drive.upper() or "A"
        folder = self.folders.get(drive)
        path = None if folder is None else host_file(Path(folder), rest)
        if path is None:
            raise ValueError(f"the session has no host file {name}")
        return drive, path

    def host_data(self, name: str) -> bytes:
        """Returns the bytes of the host file of this name."""
        return self.place_of(name)[1].read_bytes()

    def with_script(self, path: str) -> SessionWords:
        """Returns the session with the script of this file."""
        return replace(self, console=path, typed=None)


def typed_bytes(text: str) -> bytes:
    """Returns the bytes of a text with escapes; a carriage return is added if none ends them. Raises ValueError for another escape."""
    def byte_of(found: re.Match[bytes]) -> bytes:
        if found[3]:
            raise ValueError(f"the text {text} has an escape other than \\r, \\n, \\t, \\\\ and \\xHH")
        return _PLAIN[found[1]] if found[1] else bytes.fromhex(found[2].decode())

    data = _ESCAPE.sub(byte_of, os.fsencode(text))
    return data if data.endswith(b"\r") else data + b"\r"


def check_output(option: str, path: PathName | None, reads: Iterable[PathName]) -> None:
    """Raises UsageError if the file of an option, which a subcommand writes, is one that it reads, by whatever name."""
    if path is not None and os.path.isfile(path) and any(os.path.exists(each) and os.path.samefile(path, each) for each in reads):
        raise UsageError(f"{option} {os.fspath(path)}: an input cannot be the output")


def number(least: int, most: int) -> Callable[[str], int]:
    """Returns a reader of decimal numbers in this range, for argparse."""
    def read(text: str) -> int:
        value = int(text)
        if not least <= value <= most:
            raise argparse.ArgumentTypeError(f"{text} is not in {least:,} to {most:,}")
        return value

    read.__name__ = "int"
    return read


class Arguments(argparse.ArgumentParser):
    """Reads options and operands in any order, and prints a usage error in one line. All words after `--` are operands."""

    operands: str = ""
    owners_of: Callable[[str], list[str]] | None = None
    """Returns the commands that have an option, for the message about one that this command has not."""

    def set_operands(self, operands: str, meaning: str) -> None:
        """Sets the names of the operands, as `PROGRAM [TAIL]` or `FILE..`, and what they are."""
        self.operands = operands
        self.usage = f"%(prog)s {operands} [OPTIONS]"
        self.add_argument("operands", metavar=operands, nargs="*", help=meaning)

    def read(self, words: Sequence[str]) -> argparse.Namespace:
        """Returns the values of the words, with an attribute for each operand."""
        before, after = list(words), []
        if "--" in before:
            at = before.index("--")
            before, after = before[:at], before[at + 1:]
        values, unknown = self.parse_known_intermixed_args(before)
        if unknown:
            self.error(self._about_unknown(unknown))
        if self.operands:
            self._set_operands(values, [*values.operands, *after])
        elif after:
            self.error(f"unrecognized arguments: {' '.join(after)}")
        return values

    def has_option(self, option: str) -> bool:
        """Returns whether this is one of the options."""
        return option in self._option_string_actions

    def _about_unknown(self, words: list[str]) -> str:
        """Returns the message about words that are no arguments, of which the first may be an option of other commands."""
        option = words[0].partition("=")[0]
        owners = [] if self.owners_of is None else self.owners_of(option)
        return f"{option} is an option of {listed(owners)}" if owners else f"unrecognized arguments: {' '.join(words)}"

    def _set_operands(self, values: argparse.Namespace, given: list[str]) -> None:
        """Sets the attribute of each operand."""
        names = self.operands.split()
        for name in names:
            word = name.strip("[].")
            if ".." in name:
                value: str | list[str] | None = given
                given = []
            else:
                value = given.pop(0) if given else None
            if not value and not name.startswith("["):
                self.error(f"the following arguments are required: {word}")
            setattr(values, word.lower(), value)
        if given:
            self.error(f"unrecognized arguments: {' '.join(given)}")

    def add_session(self) -> None:
        """Adds the options that name a session, as those of cpmrun."""
        add = self.add_argument
        for drive, end in DRIVES.items():
            add(f"--files{end}", metavar="DIR", help=f"directory with the host files of drive {drive}")
        for drive, end in DRIVES.items():
            add(f"--disk{end}", metavar="DIR", help=f"directory that is drive {drive}, which is only read here")
        add("--console", metavar="FILE", help="the console input, which is called the script")
        add("--typed", metavar="TEXT", help="the script as text with \\r, \\n, \\t, \\\\ and \\xHH; a carriage return is added if none ends it")
        add("--limit", type=number(0, LARGEST_LIMIT), metavar="N",
            help="the steps after which a run stops [default: 1000000; with a disk 4000000000]")

    def add_checkpoints(self) -> None:
        """Adds the options about checkpoints."""
        self.add_argument("--spacing", type=number(1, 1_000_000_000), metavar="N", help="the steps between checkpoints [default: 10000]")
        self.add_argument("--slots", type=number(1, 4096), metavar="N", help="the most checkpoints [default: 64]")

    def add_program(self, name: str) -> None:
        """Adds the option that names the built program of this name."""
        self.add_argument(f"--{name}", metavar="PATH", default=default_program(name),
                          help=f"the {name} to run [default: the one that the variable {name.upper()} names, ./{name}, or {name} on the PATH]")

    def add_symbols(self) -> None:
        """Adds the option that names files with labels."""
        self.add_argument("--symbols", metavar="FILE", action="append", default=[],
                          help="a symbol file of pasmo, z80asm, MAC or LINK, or a listing of ASM, MAC or M80; may be repeated")

    def error(self, message: str) -> NoReturn:
        """Prints a usage error in one line, and ends with status 2."""
        self.exit(2, f"{self.prog}: {' '.join(message.split())}\n")


def listed(names: list[str]) -> str:
    """Returns names as a sentence has them, such as `snap, check and shrink`."""
    return " and ".join(filter(None, [", ".join(names[:-1]), names[-1]]))


def default_program(name: str) -> str:
    """Returns the path of a built program: the one that its variable names, or in this folder, on the PATH, or beside the package."""
    here, top = f"./{name}", Path(__file__).resolve().parents[2] / name
    named = os.environ.get(name.upper()) or (here if Path(here).is_file() else None) or shutil.which(name)
    return named or (str(top) if top.is_file() else here)


def session_of(values: argparse.Namespace) -> SessionWords:
    """Returns the session that the words name. Raises UsageError for options that exclude each other."""
    folders: dict[str, str] = {}
    limit = values.limit
    for drive, end in DRIVES.items():
        files, disk = (getattr(values, f"{name}{end}".replace("-", "_")) for name in ("files", "disk"))
        if files is not None and disk is not None:
            raise UsageError(f"--files{end} and --disk{end} exclude each other")
        if files is not None or disk is not None:
            folders[drive] = files if disk is None else disk
        if disk is not None and limit is None:
            limit = LARGEST_LIMIT
    if values.typed is not None and values.console is not None:
        raise UsageError("--typed and --console exclude each other")
    return SessionWords(values.program, values.tail, folders, values.console, values.typed, limit,
                        getattr(values, "spacing", None), getattr(values, "slots", None))
