"""The inputs of a session that change from run to run, as the tools that try inputs need them."""

from __future__ import annotations

import tempfile
from dataclasses import replace
from pathlib import Path
from types import TracebackType

from .files import copy_host_files
from .session import LONGEST_DATA, PathName, Report
from .words import SessionWords


class Inputs:
    """A session, and the inputs of it that change from run to run: the script, whose name is None, and host files by their names.

    A host file that is too long for an edit line is written into a copy of its folder, and the session starts again over the copy; such a
    run is a cold run.
    """

    def __init__(self, words: SessionWords, runner: PathName, names: list[str | None], **options: int) -> None:
        """Starts the session of these words; `options` override its checkpoints."""
        self._words, self._runner, self._options = words, runner, options
        self.names = names
        self._places = [None if name is None else words.place_of(name) for name in names]
        self.data = [words.script() if place is None else place[1].read_bytes() for place in self._places]
        self.session = words.start(runner, **options)
        self._room = tempfile.TemporaryDirectory()

    def __enter__(self) -> Inputs:
        return self

    def __exit__(self, kind: type[BaseException] | None, error: BaseException | None, trace: TracebackType | None) -> None:
        try:
            self.session.__exit__(kind, error, trace)
        finally:
            self._room.cleanup()

    def run(self, data: list[bytes]) -> Report:
        """Runs the session on these bytes, an item for each input."""
        changes = [each for each in zip(self.names, self.data, data) if each[1] != each[2]]
        if any(name is not None and len(new) > LONGEST_DATA for name, _, new in changes):
            self._start_again(data)
        else:
            for name, old, new in changes:
                if name is None:
                    self._edit_script(old, new)
                else:
                    self.session.file(name, new)
        self.data = data
        return self.session.run()

    def _edit_script(self, old: bytes, new: bytes) -> None:
        """Edits only the part between the unchanged ends of the script, so that no edit affects a step before the first changed byte is
        read."""
        first = common(old, new)
        last = common(old[first:][::-1], new[first:][::-1])
        removed, added = len(old) - last - first, new[first:len(new) - last]
        if removed == len(added):
            self.session.replace(first, added)
        else:
            if removed > 0:
                self.session.remove(first, removed)
            if added:
                self.session.insert(first, added)

    def _start_again(self, data: list[bytes]) -> None:
        """Starts the session again over files that have these bytes."""
        self.session.close()
        words, room = self._words, Path(self._room.name)
        for place, content in zip(self._places, data):
            if place is None:
                (room / "script").write_bytes(content)
                words = words.with_script(str(room / "script"))
                continue
            drive, path = place
            copy = room / drive
            if not copy.exists():
                copy_host_files(path.parent, copy)
            (copy / path.name).write_bytes(content)
            words = replace(words, folders=words.folders | {drive: str(copy)})
        self.session = words.start(self._runner, **self._options)


def common(one: bytes, other: bytes) -> int:
    """Returns the length of the common prefix, found by binary search."""
    low, high = 0, min(len(one), len(other))
    while low < high:
        middle = (low + high + 1) // 2
        same = one[low:middle] == other[low:middle]
        low, high = (middle, high) if same else (low, middle - 1)
    return low
