"""Runs cases, which are sessions with expected results as text. A failure is printed as the lines that the case would need; --accept writes them
into the file.
"""

from __future__ import annotations

import argparse
import os
import sys
import time
from collections.abc import Iterable, Iterator
from concurrent.futures import ThreadPoolExecutor
from dataclasses import dataclass, field
from pathlib import Path
from xml.etree import ElementTree

from .accepting import accept
from .cases import TITLE, Case, CaseError, Reader
from .files import write_whole
from .player import Difference, play_case
from .session import PathName
from .words import Arguments, UsageError, check_output, number


@dataclass
class Result:
    """What came of a case."""

    case: Case
    differences: list[Difference] = field(default_factory=list)
    seconds: float = 0.0

    @property
    def has_passed(self) -> bool:
        """Whether nothing differs."""
        return not self.differences

    def text(self) -> str:
        """Returns what differs, as the lines to paste."""
        return "\n".join(str(difference) for difference in self.differences)


def case_files(paths: Iterable[str]) -> Iterator[Path]:
    """Yields files, and for a folder the files below it whose names end with `.txt` and that have cases."""
    for path in map(Path, paths):
        if path.is_dir():
            yield from (each for each in sorted(path.rglob("*.txt")) if has_cases(each))
        else:
            yield path


def has_cases(path: Path) -> bool:
    """Returns whether a line of the file begins a case."""
    return any(line.startswith(b"== ") for line in path.read_bytes().splitlines())


def read_cases(paths: Iterable[str]) -> list[Case]:
    """Returns the cases of files and folders. Raises ValueError if there is none."""
    cases = [case for path in case_files(paths) for case in Reader().read(path)]
    if not cases:
        raise ValueError(f"there is no case in these files; {TITLE}")
    return cases


def run_case(case: Case, runner: PathName) -> Result:
    """Returns what comes of a case."""
    begun = time.perf_counter()
    differences = play_case(case, runner)
    return Result(case, differences, time.perf_counter() - begun)


def junit(results: list[Result]) -> bytes:
    """Returns the results as XML in the form of JUnit."""
    suites = ElementTree.Element("testsuites")
    for path in dict.fromkeys(result.case.path for result in results):
        of_path = [result for result in results if result.case.path == path]
        suite = ElementTree.SubElement(suites, "testsuite", name=str(path), tests=str(len(of_path)), errors="0",
                                       failures=str(sum(not result.has_passed for result in of_path)),
                                       time=f"{sum(result.seconds for result in of_path):.3f}")
        for result in of_path:
            case = ElementTree.SubElement(suite, "testcase", classname=str(path), name=result.case.title, time=f"{result.seconds:.3f}")
            if not result.has_passed:
                failure = ElementTree.SubElement(case, "failure", message=f"line {result.case.number}")
                failure.text = result.text()
    ElementTree.indent(suites)
    return ElementTree.tostring(suites, "utf-8", xml_declaration=True) + b"\n"


def add_arguments(parser: Arguments) -> None:
    """Adds the arguments of the subcommand."""
    parser.set_operands("FILE..", "files of cases, or folders with such files whose names end with .txt")
    parser.add_argument("--accept", action="store_true", help="write the lines that failed cases would need into their files")
    parser.add_argument("--junit", metavar="FILE", help="file for the results as XML in the form of JUnit")
    parser.add_argument("--jobs", type=number(1, 1024), default=os.cpu_count() or 1, metavar="N", help="cases at once [default: the processors]")
    parser.add_program("cpmrun")


def run(values: argparse.Namespace) -> int:
    """Runs the subcommand."""
    for path in values.file:
        if not Path(path).exists():
            raise UsageError(f"cannot read {path}")
    cases = read_cases(values.file)
    check_output("--junit", values.junit, (path for case in cases for path in case.paths()))
    with ThreadPoolExecutor(values.jobs) as pool:
        try:
            results = list(pool.map(lambda case: run_case(case, values.cpmrun), cases))
        except CaseError:
            pool.shutdown(cancel_futures=True)
            raise
    if values.junit is not None:
        write_whole(values.junit, junit(results))
    written = accept([(result.case, result.differences) for result in results]) if values.accept else set()
    for index, result in enumerate(results):
        if not result.has_passed and index not in written:
            print(result.text(), end="\n\n")
            if values.accept:
                print(f"{result.case.path}:{result.case.number}: this row of a table has no values that give these lines", file=sys.stderr)
    failed = sum(not result.has_passed for result in results) - len(written)
    print(f"{len(results) - failed - len(written)} passed, {failed} failed" + (f", {len(written)} accepted" if written else ""))
    return 1 if failed else 0
