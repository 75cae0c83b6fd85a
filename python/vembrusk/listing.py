"""A client of cpmdeps: what the run of a session asked for, as data.

    listing = read_listing("path/of/cpmdeps", "name.com", "note.txt", folders={"A": "disk"})
    print(listing.stop, listing.files["NOTE.TXT"].records)

`docs/MANUAL.md` of the repository has the form of a listing.
"""

from __future__ import annotations

import os
import subprocess
from collections.abc import Iterator, Mapping
from dataclasses import dataclass, field

from .session import PathName, ProgramEnded, UnknownReply, session_words

Steps = dict[int, int]
"""For each place that was asked for the first step that asked for it. A place is the address of a cell, an offset of the script, or the
number of a record."""


@dataclass
class FileReads:
    """What a run asked about one host file, with the first step of each question; None if it did not ask."""

    is_there: bool | None = None
    """Whether the file is there, if the run asked that."""
    presence: int | None = None
    """The step that asked whether the file is there."""
    count: int | None = None
    """The number of its records, if the run asked for it."""
    length: int | None = None
    """The step that asked for the number of records."""
    records: Steps = field(default_factory=dict)


@dataclass
class Listing:
    """What a run asked its session for."""

    stop: str = ""
    """Why the run stopped, as in a report."""
    cells: Steps = field(default_factory=dict)
    script: Steps = field(default_factory=dict)
    script_end: int | None = None
    """The step that asked for a byte after the last one of the script."""
    files: dict[str, FileReads] = field(default_factory=dict)
    """The files that the run asked about, by name, in the order of drive, name and type."""
    directories: dict[str, int] = field(default_factory=dict)
    """The drives whose directory was asked for."""


def read_listing(
    command: PathName,
    program: PathName,
    tail: str | None = None,
    *,
    folders: Mapping[str, PathName] | None = None,
    script: PathName | None = None,
    typed: str | None = None,
    limit: int | None = None,
) -> Listing:
    """Runs the cpmdeps at this path on a `.COM` file with its command tail, and returns what it prints.

    The other arguments are those of `Session`. Raises OSError if the command cannot be started, and ProgramEnded with its message
    if it ends with an error.
    """
    words = [os.fspath(command), "--by-step", *session_words(program, tail, folders=folders, script=script, typed=typed, limit=limit)]
    done = subprocess.run(words, stdin=subprocess.DEVNULL, capture_output=True)
    if done.returncode != 0:
        raise ProgramEnded(done.returncode, done.stderr.decode("utf-8", "replace"))
    return parse_listing(done.stdout.decode("latin-1"))


def parse_listing(text: str) -> Listing:
    """Returns a listing of this text. Raises UnknownReply if it is none."""
    listing = Listing()
    for line in text.splitlines():
        try:
            _add_line(listing, line.split(" "))
        except ValueError:
            raise UnknownReply(f"no line of a listing: {line!r}") from None
    names = sorted(listing.files, key=_key)
    listing.files = {name: listing.files[name] for name in names}
    return listing


def _add_line(listing: Listing, words: list[str]) -> None:
    """Adds what a line says. Raises ValueError if it is no line of a listing."""
    kind, *places = words
    if kind == "stop":
        listing.stop = " ".join(places)
        return
    *places, word, number = places
    step = int(number)
    if word != "step" or not places:
        raise ValueError
    name = places[0]
    match kind:
        case "page" | "program":
            listing.cells.update(_steps(places, 16, step))
        case "script" if places == ["end"]:
            listing.script_end = step
        case "script":
            listing.script.update(_steps(places, 10, step))
        case "directory":
            listing.directories[name] = step
        case "file" | "none" | "length" | "record":
            _add_to_file(listing.files.setdefault(name, FileReads()), kind, places[1:], step)
        case _:
            raise ValueError


def _add_to_file(reads: FileReads, kind: str, places: list[str], step: int) -> None:
    """Adds what a line of this kind says about a file."""
    if kind == "length":
        (count,) = places
        reads.count, reads.length = int(count), step
    elif kind == "record":
        reads.records.update(_steps(places, 10, step))
    else:
        reads.is_there, reads.presence = kind == "file", step


def _steps(rows: list[str], base: int, step: int) -> Iterator[tuple[int, int]]:
    """Yields each place of these rows with the step."""
    for row in rows:
        first, _, last = row.partition("-")
        yield from ((place, step) for place in range(int(first, base), int(last or first, base) + 1))


def _key(name: str) -> tuple[str, str, str]:
    """Returns the drive, the name and the type of a file, in whose order files are listed."""
    if name.startswith("="):
        data = bytes.fromhex(name[1:]).decode("latin-1")
        return chr(ord("A") + ord(data[0])), data[1:9], data[9:]
    drive, _, rest = name.rpartition(":")
    stem, _, suffix = rest.partition(".")
    return drive or "A", stem.ljust(8), suffix.ljust(3)


def rows_of(places: list[int]) -> Iterator[tuple[int, int]]:
    """Yields the first and the last of each range of neighbours among sorted places."""
    start = 0
    for at in range(1, len(places) + 1):
        if at == len(places) or places[at] != places[at - 1] + 1:
            yield places[start], places[at - 1]
            start = at
