"""Tries random edits of the script, and of host files, and keeps each input whose run has a new stop cause, a new text, or a new failure.
Each try edits an input that was kept. Try 0 is the unchanged input. The same seed gives the same tries.
"""

from __future__ import annotations

import argparse
import os
import random
import sys
from collections.abc import Iterator
from contextlib import ExitStack
from dataclasses import dataclass
from pathlib import Path

from .failing import Expected, Test, add_failure, expected_paths, read_expected, test_of
from .files import write_whole
from .inputs import Inputs
from .session import PathName, Report
from .words import Arguments, SessionWords, UsageError, check_output, session_of

CHARACTERS = bytes(range(0x20, 0x7F)) + b"\r\x03\x1a"
"""The default alphabet: characters, and the bytes that end a line, a run and a text."""

MOST_EDITS = 4
LONGEST_PIECE = 8


class Chance(random.Random):
    """Random numbers that depend only on the seed, in every version of Python."""

    def below(self, bound: int) -> int:
        """Returns a number below the bound."""
        return int(self.random() * bound)

    def edited(self, data: bytes, alphabet: bytes) -> bytes:
        """Returns the bytes after some edits: a piece is replaced, inserted, removed or doubled."""
        for _ in range(1 + self.below(MOST_EDITS)):
            begin = self.below(len(data) + 1)
            piece = data[begin:begin + 1 + self.below(LONGEST_PIECE)]
            count = len(piece) or 1
            fresh = bytes(alphabet[self.below(len(alphabet))] for _ in range(count))
            change = (fresh, fresh + piece, b"", piece * 2)[self.below(4)]
            data = data[:begin] + change + data[begin + len(piece):]
        return data


@dataclass
class Facts:
    """What is said about a run."""

    words: SessionWords
    files: list[Expected]
    test: Test | None

    def of(self, report: Report, inputs: dict[str, bytes]) -> list[str]:
        """Returns the facts of a run over these inputs, the text last. A file or a test that does not fail has none."""
        facts = [f"cause {report.cause}"]
        facts += [f"file {file.name} differs" for file in self.files if file.differs(report, self.words.host_data)]
        status = 0 if self.test is None else self.test.status(inputs)
        facts += [f"status {status} of the test"] if status else []
        return [*facts, f"text {report.text!r}"]


def explore(inputs: Inputs, facts: Facts, values: argparse.Namespace, alphabet: bytes) -> Iterator[tuple[int, list[bytes], list[str]]]:
    """Runs the unchanged inputs, which is try 0, and those of each further try. Yields the number, the inputs and the news of each try
    that is kept."""
    chance = Chance(values.seed)
    seen: set[str] = set()
    kept = [inputs.data]
    for number in range(values.tries + 1):
        data = list(kept[chance.below(len(kept))])
        if number > 0:
            index = chance.below(len(data))
            data[index] = chance.edited(data[index], alphabet)
        report = inputs.run(data)
        marks = ["{}" if name is None else f"{{{name}}}" for name in inputs.names]
        news = [each for each in facts.of(report, dict(zip(marks, data))) if each not in seen]
        seen.update(news)
        if news:
            if number > 0:
                kept.append(data)
            yield number, data, news


def add_arguments(parser: Arguments) -> None:
    """Adds the arguments of the subcommand."""
    parser.set_operands("PROGRAM [TAIL]", "the .COM file, and its command tail, one word")
    parser.add_session()
    parser.add_checkpoints()
    parser.add_program("cpmrun")
    add = parser.add_argument
    add("--tries", type=int, default=1000, metavar="N", help="the number of tries [default: 1000]")
    add("--seed", type=int, default=1, metavar="N", help="the seed of the random numbers [default: 1]")
    add("--file", action="append", metavar="NAME", default=[], help="a host file to edit as well; may be repeated")
    add("--alphabet", metavar="BYTES", help="the bytes to insert [default: characters, CR, 03H and 1AH]")
    add("--any-byte", action="store_true", help="insert any of the 256 bytes")
    add("--causes", action="store_true", help="print only inputs with a new cause or failure")
    add_failure(parser)
    add("-o", "--output", metavar="DIR", help="the folder for the printed inputs, a file for each; it is made if it is not there")


def run(values: argparse.Namespace) -> int:
    """Runs the subcommand."""
    if values.alphabet == "" or values.tries < 0:
        raise UsageError("--alphabet must have a byte, and --tries be 0 or more")
    alphabet = CHARACTERS if values.alphabet is None else os.fsencode(values.alphabet)
    words = session_of(values)
    check_folder(values.output, [*words.paths(), *expected_paths(values.file_differs)])
    with ExitStack() as stack:
        test = test_of(values)
        if test is not None:
            stack.enter_context(test)
        facts = Facts(words, read_expected(values.file_differs), test)
        inputs = stack.enter_context(Inputs(words, values.cpmrun, [None, *values.file]))
        if values.output is not None:
            Path(values.output).mkdir(parents=True, exist_ok=True)
        for number, data, news in explore(inputs, facts, values, bytes(range(256)) if values.any_byte else alphabet):
            if not values.causes or not news[0].startswith("text"):
                show(number, [name or "script" for name in inputs.names], data, news, values.output)
    return 0


def check_folder(folder: str | None, reads: list[PathName]) -> None:
    """Raises UsageError if a file in the folder of -o is read here and has a name such as the ones that are written."""
    for path in [] if folder is None else sorted(Path(folder).glob("[0-9]*-*")):
        check_output("-o", path, reads)


def show(number: int, names: list[str], data: list[bytes], news: list[str], folder: str | None) -> None:
    """Prints a try with its inputs, and writes the inputs into the folder, if there is one."""
    print(f"try {number}: new {', '.join(news)}")
    for name, content in zip(names, data):
        print(f"  {name} {content!r}")
        if folder is not None:
            write_whole(Path(folder, f"{number}-{name.replace(':', '-')}"), content)
    sys.stdout.flush()
