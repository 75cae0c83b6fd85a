"""What makes a run a failing one, for the tools that try inputs: its stop, its text, a changed file, or a command that tests the input."""

from __future__ import annotations

import argparse
import os
import re
import shlex
import subprocess
import tempfile
from collections.abc import Callable, Mapping
from dataclasses import dataclass
from pathlib import Path
from types import TracebackType

from .session import Report
from .words import Arguments, UsageError

RECORD = 128
CAUSES = re.compile(r"WarmBoot|Halt|Limit|NoDollar|ConsoleExhausted|Undefined( [0-9A-F]{2})?|SystemArea( [0-9A-F]{4})?|"
                    r"(Unsupported|BadDrive)( [0-9]{1,3})?")
CAUSE_NAMES = "WarmBoot, Halt, Limit, Undefined [XX], SystemArea [XXXX], NoDollar, ConsoleExhausted, Unsupported [N] and BadDrive [N]"
HIGHEST_STATUS = 125
"""The highest status of a command that has tested its input."""


def padded(data: bytes) -> bytes:
    """Returns the records of a file: its bytes, padded with 1AH."""
    return data + b"\x1a" * (-len(data) % RECORD)


def file_after(report: Report, name: str, host_data: Callable[[str], bytes]) -> bytes | None:
    """Returns the records that a file has after a run, or None if it is not there."""
    plain = name.upper().removeprefix("A:")
    if plain in report.files:
        return report.files[plain]
    try:
        return padded(host_data(plain))
    except ValueError:
        return None


@dataclass(frozen=True)
class Expected:
    """A file as it is to be after a run."""

    name: str
    data: bytes

    def differs(self, report: Report, host_data: Callable[[str], bytes]) -> bool:
        """Returns whether the file is another one, or not there."""
        return file_after(report, self.name, host_data) != padded(self.data)


def read_expected(words: list[str]) -> list[Expected]:
    """Returns the files of words of the form NAME=PATH."""
    files = []
    for word in words:
        name, equals, path = word.partition("=")
        if not (name and equals and path):
            raise UsageError(f"--file-differs needs NAME=EXPECTED, not {word}")
        files.append(Expected(name, Path(path).read_bytes()))
    return files


def expected_paths(words: list[str]) -> list[str]:
    """Returns the paths of the expected files of words of the form NAME=PATH."""
    return [word.partition("=")[2] for word in words]


def check_cause(cause: str | None) -> None:
    """Raises UsageError for a cause that no run has."""
    if cause is not None and CAUSES.fullmatch(cause) is None:
        raise UsageError(f"there is no stop cause {cause}; the causes are {CAUSE_NAMES}")


class Test:
    """A command that tests inputs, which are passed to it as files."""

    def __init__(self, command: str) -> None:
        """Splits the command into words, as a shell does. `{}` in a word is the path of the input, and `{NAME}` that of a host file."""
        try:
            self._words = shlex.split(command)
        except ValueError as fault:
            raise UsageError(f"--test: {fault}") from None
        if not any("{" in word for word in self._words):
            raise UsageError("--test needs {} in place of the file with the input")
        self._room = tempfile.TemporaryDirectory()

    def __enter__(self) -> Test:
        return self

    def __exit__(self, kind: type[BaseException] | None, error: BaseException | None, trace: TracebackType | None) -> None:
        self._room.cleanup()

    def status(self, inputs: Mapping[str, bytes]) -> int:
        """Returns the status of the command for these inputs, by their marks, such as `{}`. Raises ValueError if it did not test them."""
        words = self._words
        for number, (mark, data) in enumerate(inputs.items()):
            path = Path(self._room.name, f"input{number}")
            path.write_bytes(data)
            words = [word.replace(mark, os.fspath(path)) for word in words]
        done = subprocess.run(words, stdin=subprocess.DEVNULL, stdout=subprocess.DEVNULL)
        if not 0 <= done.returncode <= HIGHEST_STATUS:
            raise ValueError(f"the command {words[0]} of --test ended with status {done.returncode}")
        return done.returncode


def add_failure(parser: Arguments) -> None:
    """Adds the options that say what fails, other than the stop and the text."""
    parser.add_argument("--test", metavar="CMD", help="a command that fails for a failing input: words as in a shell, with {} in place of the "
                        "file that has the input; a status of 1 to 125 is a failure, a higher one an error")
    parser.add_argument("--file-differs", metavar="NAME=EXPECTED", action="append", default=[],
                        help="a failing run leaves the file NAME other than the file EXPECTED; may be repeated")


def test_of(values: argparse.Namespace) -> Test | None:
    """Returns the command of --test, or None."""
    return None if values.test is None else Test(values.test)
