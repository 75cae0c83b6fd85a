"""Writes what failed cases would need into their files."""

from __future__ import annotations

import re
from collections.abc import Iterable, Mapping
from pathlib import Path

from .cases import Case, Command, Row, number_of, read_text
from .files import write_whole
from .player import Difference

Change = tuple[int, list[int], list[str]]
"""A number of a line, the numbers of lines that are removed, and the lines that come after the first."""


def accepted(text: str, changes: Iterable[Change]) -> str:
    """Returns the text of a file after changes. Comments and empty lines between removed lines stay, after the new lines."""
    lines = text.split("\n")
    for at, old, new in sorted(changes, key=lambda change: change[0], reverse=True):
        for number in sorted(old, reverse=True):
            del lines[number - 1]
        lines[at:at] = new
    return "\n".join(lines)


def change_of(command: Command, lines: list[str]) -> Change:
    """Returns the change that puts these lines after a command in place of the expected ones."""
    return number_of(command.line), [number_of(line) for line in command.wanted], lines


def pattern_of(template: str, names: list[str], values: Mapping[str, str]) -> str:
    """Returns a regular expression for what a text with `{NAME}` may become: a known value for its name, and a group for another one."""
    parts = re.split(rf"\{{({'|'.join(map(re.escape, names))})\}}", template)
    pattern, seen = "", set[str]()
    for index, part in enumerate(parts):
        if index % 2 == 0:
            pattern += re.escape(part)
        elif part in values:
            pattern += re.escape(values[part])
        else:
            pattern += f"(?P=value{names.index(part)})" if part in seen else f"(?P<value{names.index(part)}>.*)"
            seen.add(part)
    return pattern


def values_for(row: Row, differences: list[tuple[Command, list[str]]]) -> list[str] | None:
    """Returns the values that give these lines after commands, or None if no values do. A value that is part of the session, or of a command or
    its lines that are as expected, stays."""
    texts = {line.number: line for line in row.body}
    changed = {number_of(line) for command, _ in differences for line in command.wanted}
    values = {name: value for name, value in zip(row.names, row.values)
              if any(f"{{{name}}}" in text for number, text in texts.items() if number not in changed)}
    for command, lines in differences:
        template = "\n".join(texts[number_of(line)] for line in command.wanted)
        found = re.fullmatch(pattern_of(template, row.names, values), "\n".join(lines))
        if found is None:
            return None
        values |= {row.names[int(group.removeprefix("value"))]: value for group, value in found.groupdict().items()}
    return [values.get(name, value) for name, value in zip(row.names, row.values)]


def row_change(case: Case, differences: list[tuple[Command, list[str]]]) -> Change | None:
    """Returns the change of a row, or None if no values give these lines."""
    assert case.row is not None
    values = values_for(case.row, differences)
    text = "" if values is None else " | ".join(values)
    if values is None or [value.strip() for value in text.split(" | ")] != values or not text.strip():
        return None
    return case.row.line.number - 1, [case.row.line.number], [text]


def accept(results: list[tuple[Case, list[Difference]]]) -> set[int]:
    """Writes what the failed cases would need into their files. Returns the indices of the results that were written."""
    written: set[int] = set()
    changes: dict[Path, list[Change]] = {}
    for index, (case, differences) in enumerate(results):
        pairs = [(each.command, each.lines) for each in differences if each.command is not None and each.lines is not None]
        if not pairs:
            continue
        new = [row_change(case, pairs)] if case.row is not None else [change_of(*pair) for pair in pairs]
        if None not in new:
            changes.setdefault(case.path, []).extend(each for each in new if each is not None)
            written.add(index)
    for path, of_path in changes.items():
        write_whole(path, accepted(read_text(path), of_path))
    return written
