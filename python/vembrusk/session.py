"""A client of cpmrun, the runner of CP/M 2.2 programs.

A session is a program with its command tail, host files, script (the console input) and step limit. Each method of `Session` except `close`
sends one or more edit lines and reads the replies before it returns:

    with Session("path/of/cpmrun", "name.com") as session:
        session.insert(0, b"Ada\\r")
        print(session.run().text)

`docs/MANUAL.md` of the repository has the edit lines, the stop causes, the refusals and the exit statuses.
"""

from __future__ import annotations

import os
import subprocess
import tempfile
from collections.abc import Mapping
from contextlib import suppress
from dataclasses import dataclass
from types import TracebackType
from typing import IO

__all__ = ["Cause", "LONGEST_DATA", "LONGEST_LINE", "ProgramEnded", "Refused", "Registers", "Report", "Session", "SessionError",
           "UnknownReply", "parse_report", "session_words"]

PathName = str | os.PathLike[str]

LONGEST_LINE = 65_536
"""The most bytes of an edit line, without its end."""

LONGEST_DATA = (LONGEST_LINE - len("replace 0123456789 ")) // 2
"""The most bytes of data that every edit line can hold, at two digits a byte."""

WRONG_LINE = 2
"""The status of a runner that ends because an edit line is malformed or too long."""

GRACE_SECONDS = 10.0
"""The seconds that a closed runner may take before it is killed."""

FOLDER_OPTIONS = {"A": "--files", "B": "--files-b", "C": "--files-c", "D": "--files-d"}
"""The option for the folder of the host files of each drive."""

_HEXADECIMAL = {"Undefined": "02X", "SystemArea": "04X"}

_MEANINGS = {
    1: "the offset, or the end of the bytes from there on, is past the end of the script",
    2: "the script would have more than 1,048,576 bytes",
    3: "there is no host file of this name",
    4: "the file would have more than 8,388,608 bytes",
    5: "there are 512 host files, and none has this name",
    6: "the bytes are not all within the program",
    7: "the limit is more than 4,000,000,000",
}


class SessionError(Exception):
    """An error of a session."""


class Refused(SessionError):
    """An edit was refused and changed nothing. The session can be used further."""

    def __init__(self, number: int) -> None:
        super().__init__(number)
        self.number = number
        """The number after `refused`."""
        self.meaning = _MEANINGS.get(number, "a refusal that this module does not know")
        """Why it was refused, in words."""

    def __str__(self) -> str:
        return f"refused {self.number}: {self.meaning}"


class ProgramEnded(SessionError):
    """The runner ended before `close`, or with a status other than 0."""

    def __init__(self, status: int, errors: str) -> None:
        super().__init__(status, errors)
        self.status = status
        """Its exit status, or the negative number of the signal that ended it."""
        self.errors = errors
        """Its standard error."""

    def __str__(self) -> str:
        return f"the runner ended with status {self.status}: {self.errors.strip() or 'it wrote no message'}"


class UnknownReply(SessionError):
    """The reply is not one of the runner's, so another program is running. The session is over."""


@dataclass(frozen=True)
class Cause:
    """Why a run stopped. `str` returns it in the form of a report."""

    name: str
    """One of `WarmBoot`, `Halt`, `Limit`, `Undefined`, `SystemArea`, `NoDollar`, `ConsoleExhausted`, `Unsupported`, `BadDrive`."""
    number: int | None = None
    """The opcode of `Undefined`, the address of `SystemArea`, the call of `Unsupported`, the drive of `BadDrive`: call 14 counts drives from 0, a
    file control block from 1."""

    def __str__(self) -> str:
        if self.number is None:
            return self.name
        return f"{self.name} {self.number:{_HEXADECIMAL.get(self.name, 'd')}}"


@dataclass(frozen=True)
class Registers:
    """The registers of the 8080; `f` is the flag byte."""

    a: int
    f: int
    b: int
    c: int
    d: int
    e: int
    h: int
    l: int
    sp: int
    pc: int


@dataclass(frozen=True)
class Report:
    """The result of a run. Reports are equal if all their fields are."""

    cause: Cause
    """Why the run stopped."""
    steps: int
    """The steps of the run from its start. A rerun executes only those after its checkpoint."""
    registers: Registers
    """The registers at the end."""
    text: bytes
    """The console text."""
    files: dict[str, bytes | None]
    """The changed files by name, in the order of the report: all records of a file, or None for one that was deleted."""


def session_words(
    program: PathName,
    tail: str | None = None,
    *,
    folders: Mapping[str, PathName] | None = None,
    script: PathName | None = None,
    typed: str | None = None,
    limit: int | None = None,
) -> list[str]:
    """Returns the words that name a session to cpmrun, cpmdeps and cpmtrace, as they come last on a command line. Raises KeyError for a drive
    other than `A` to `D`."""
    words = [f"{FOLDER_OPTIONS[drive]}={os.fspath(folder)}" for drive, folder in (folders or {}).items()]
    values = ("--console", None if script is None else os.fspath(script)), ("--typed", typed), ("--limit", limit)
    words += [f"{option}={value}" for option, value in values if value is not None]
    return [*words, "--", os.fspath(program), *([] if tail is None else [tail])]


class Session:
    """A running cpmrun that is sent edit lines.

    `close` ends it, or the end of a `with` block. The first method that is called raises an error of the arguments, such as a program
    that cannot be read. The runner checks numbers and names: -1, or a name of ten bytes, makes a line malformed, which ends the session with
    `ProgramEnded`, and so does the 1,000,001st line.
    """

    def __init__(
        self,
        runner: PathName,
        program: PathName,
        tail: str | None = None,
        *,
        folders: Mapping[str, PathName] | None = None,
        script: PathName | None = None,
        typed: str | None = None,
        limit: int | None = None,
        spacing: int | None = None,
        slots: int | None = None,
    ) -> None:
        """Starts the runner at this path on a `.COM` file with its command tail.

        `folders` has the folder of host files for each drive `A` to `D` that has files; `script` is the path of the console input, or
        `typed` has it as text with escapes such as `\\r`.
        `limit` is the step limit, `spacing` the steps between checkpoints, and `slots` the most checkpoints; None means the default.
        Raises OSError if the runner cannot be started, and KeyError for another drive.
        """
        words = [os.fspath(runner), "--edits=/dev/stdin"]
        words += [f"{option}={number}" for option, number in (("--spacing", spacing), ("--slots", slots)) if number is not None]
        words += session_words(program, tail, folders=folders, script=script, typed=typed, limit=limit)
        # a file, so that standard error can be of any length while nobody reads it
        self._errors: IO[bytes] = tempfile.TemporaryFile()
        self._ended: ProgramEnded | None = None
        try:
            # in a process group of its own, so that an interrupt from the keyboard reaches the caller alone
            self._process = subprocess.Popen(words, stdin=subprocess.PIPE, stdout=subprocess.PIPE, stderr=self._errors, process_group=0)
        except BaseException:
            self._errors.close()
            raise

    def __enter__(self) -> Session:
        return self

    def __exit__(self, kind: type[BaseException] | None, error: BaseException | None, trace: TracebackType | None) -> None:
        if kind is None:
            self.close()
        else:
            self._kill()

    def insert(self, at: int, data: bytes) -> None:
        """Inserts bytes into the script before this offset. If they need several lines and one is refused, all are removed again."""
        for start in range(0, max(len(data), 1), LONGEST_DATA):
            try:
                self._edit(f"insert {at + start}", data[start:start + LONGEST_DATA])
            except Refused:
                if start > 0:
                    self.remove(at, start)
                raise

    def replace(self, at: int, data: bytes) -> None:
        """Replaces bytes of the script from this offset on; its length stays."""
        # from the end: if the last line is not refused, none is
        for start in reversed(range(0, max(len(data), 1), LONGEST_DATA)):
            self._edit(f"replace {at + start}", data[start:start + LONGEST_DATA])

    def remove(self, at: int, count: int) -> None:
        """Removes `count` bytes of the script from this offset on."""
        self._edit(f"remove {at} {count}")

    def poke(self, address: int, data: bytes) -> None:
        """Replaces bytes of the loaded program from this address on. Raises ValueError if one line cannot hold them."""
        self._edit(f"poke {address:04X}", data)

    def file(self, name: str, data: bytes) -> None:
        """Sets a host file, whose last record is padded with 1AH. Raises ValueError if one line cannot hold it: put such a file into a folder
        of the session."""
        self._edit(f"file {name}", data)

    def gone(self, name: str) -> None:
        """Removes a host file."""
        self._edit(f"gone {name}")

    def limit(self, steps: int) -> None:
        """Sets the step limit."""
        self._edit(f"limit {steps}")

    def drop(self, count: int) -> None:
        """Drops the `count` oldest checkpoints; no later report depends on it."""
        self._edit(f"drop {count}")

    def run(self) -> Report:
        """Runs the session and returns its report. Waits as long as the run takes."""
        reply = self._answer("run")
        try:
            return parse_report(reply)
        except (TypeError, ValueError):
            self._kill()
            raise UnknownReply(f"no report: {reply[0]!r}") from None

    def send(self, line: str) -> Report | None:
        """Sends an edit line. Returns the report of `run`, and None for every other line."""
        if line == "run":
            return self.run()
        self._edit(line)
        return None

    def close(self) -> None:
        """Ends the session and waits for the runner. Raises ProgramEnded if its status is not 0."""
        if self._ended is None:
            ended = self._finish()
            if ended.status != 0:
                raise ended

    def _edit(self, words: str, data: bytes | None = None) -> None:
        """Sends an edit line, which may end with data, and expects `ok`."""
        reply = self._answer(words if data is None else f"{words} {data.hex() or '-'}")[0]
        kind, _, number = reply.partition(" ")
        if kind == "refused" and number.isdecimal():
            raise Refused(int(number))
        if reply != "ok":
            self._kill()
            raise UnknownReply(f"neither `ok` nor a refusal: {reply!r}")

    def _answer(self, line: str) -> list[str]:
        """Sends a line and reads its whole reply. If an exception cuts that off, the session is over."""
        if not line.isascii():
            raise ValueError(f"the line {line!r} has a character that is not ASCII")
        sent = line.encode()
        if len(sent) > LONGEST_LINE:
            raise ValueError(f"the line `{line[:30]}...` would have {len(sent):,} bytes; a line can have {LONGEST_LINE:,}, "
                             f"with {LONGEST_DATA:,} bytes of data")
        if b"\n" in sent:
            raise ValueError(f"there is a line end within the line {line!r}")
        if self._ended is not None:
            raise self._ended if self._ended.status != 0 else ValueError("the session is closed")
        lines, replies = self._pipes()
        try:
            lines.write(sent + b"\n")
            lines.flush()
            reply = [_read_line(replies)]
            while reply[0].startswith("stop ") and reply[-1] != "end":
                reply.append(_read_line(replies))
            return reply
        except (BrokenPipeError, EOFError):
            raise self._finish() from None
        except BaseException:
            self._kill()
            raise

    def _pipes(self) -> tuple[IO[bytes], IO[bytes]]:
        """Returns the pipe for lines and the pipe for replies."""
        assert self._process.stdin is not None and self._process.stdout is not None
        return self._process.stdin, self._process.stdout

    def _finish(self) -> ProgramEnded:
        """Closes the pipes, waits for the runner, and kills it if that takes too long."""
        lines, replies = self._pipes()
        try:
            with suppress(BrokenPipeError):
                lines.close()
            replies.close()
            with suppress(subprocess.TimeoutExpired):
                self._process.wait(GRACE_SECONDS)
        finally:
            self._process.kill()
            status = self._process.wait()
            if self._ended is None:
                self._errors.seek(0)
                self._ended = ProgramEnded(status, self._errors.read().decode("utf-8", "replace"))
                self._errors.close()
        return self._ended

    def _kill(self) -> None:
        """Kills the runner."""
        if self._ended is None:
            self._process.kill()
            self._finish()


def _read_line(replies: IO[bytes]) -> str:
    """Returns a line of a reply without its end. Raises EOFError if there is no whole line."""
    line = replies.readline()
    if not line.endswith(b"\n"):
        raise EOFError
    return line[:-1].decode("latin-1")


def parse_report(lines: list[str]) -> Report:
    """Returns the report of these lines, the last of which is `end`. Raises TypeError or ValueError if they are not a report."""
    stop, steps, registers, text, *changed, end = [line.split(" ") for line in lines]
    if [stop[0], steps[0], registers[0], text[0], *end] != ["stop", "steps", "regs", "text", "end"]:
        raise ValueError
    values = dict(word.split("=") for word in registers[1:])
    files: dict[str, bytes | None] = {}
    for kind, name, *digits in changed:
        if (kind, len(digits)) not in (("file", 1), ("gone", 0)):
            raise ValueError
        files[name] = _data(digits[0]) if digits else None
    return Report(
        cause=_cause(*stop[1:]),
        steps=int(*steps[1:]),
        registers=Registers(**{name.lower(): int(digits, 16) for name, digits in values.items()}),
        text=_data(*text[1:]),
        files=files,
    )


def _cause(name: str, number: str | None = None) -> Cause:
    """Returns the cause of the words after `stop`."""
    if number is None:
        return Cause(name)
    return Cause(name, int(number, 16 if name in _HEXADECIMAL else 10))


def _data(digits: str) -> bytes:
    """Returns the bytes of hexadecimal digits, or none for `-`."""
    return b"" if digits == "-" else bytes.fromhex(digits)
