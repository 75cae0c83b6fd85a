"""Plays cases: sends the commands of a case to a program, and compares the replies with the expected lines."""

from __future__ import annotations

import re
import subprocess
import tempfile
from collections.abc import Callable, Iterator
from dataclasses import replace
from pathlib import Path

from .cases import CAUSES, Case, CaseError, Command, Outcome, Setup, line_of, number_of, parse_outcome
from .files import copy_host_files, host_file
from .session import WRONG_LINE, PathName, Report, parse_report
from .words import SessionWords

RUN = re.compile(rf"(?:({CAUSES})(?: after ([0-9]+) steps)?|same)")
EDIT = re.compile(r"(ok|refused [0-9])")

Check = Callable[[list[str]], None]
"""Compares the lines of a reply. Raises `Difference`."""


class Difference(Exception):
    """What differs, with the lines that the case would need."""

    def __init__(self, text: str, command: Command | None = None, lines: list[str] | None = None) -> None:
        self.command, self.lines = command, lines
        super().__init__(text)


class Play:
    """One case: the lines that are sent, and what each must be answered."""

    run_form, edit_form = RUN, EDIT
    """The first lines that are expected of a run and of an edit."""

    def __init__(self, case: Case) -> None:
        self.case = case
        self.session = case.session
        self.last: Outcome | None = None
        self.sent: list[str] = []
        self.checks: list[Check] = []

    @property
    def name(self) -> str:
        """The name of the case in messages."""
        return f"{self.case.path}:{self.case.number}: {self.case.title}"

    def send(self, line: str, check: Check) -> None:
        """Adds a line, and what compares its reply."""
        self.sent.append(line)
        self.checks.append(check)

    def differs(self, command: Command | str, got: list[str], wanted: list[str] | None = None) -> Difference:
        """Returns the difference of these lines, with the wanted ones as comments."""
        line = command if isinstance(command, str) else command.line
        notes = [f"# wanted: {each}" for each in wanted or []]
        return Difference("\n".join([self.name, f"> {line}", *got, *notes]), None if isinstance(command, str) else command, got)

    def commands(self) -> None:
        """Sends the commands of the case."""
        for command in self.case.commands:
            if command.line == "run":
                self.run_command(command)
            else:
                self.edit(command)

    def wrong(self, line: str, reason: str) -> CaseError:
        """Returns the error of a line of the case."""
        return CaseError(f"{self.case.path}:{number_of(line) or self.case.number}: {reason}: {line}")

    def edit(self, command: Command) -> None:
        """Sends an edit line. Without an expected line, its reply is a difference."""
        wanted = self.edit_form.fullmatch(command.wanted[0]) if len(command.wanted) == 1 else None
        if command.wanted and not wanted:
            raise self.wrong(command.wanted[0], "no reply to an edit")
        self.expect_edit(command, wanted)

    def expect_edit(self, command: Command, wanted: re.Match[str] | None) -> None:
        """Sends an edit line and compares its reply."""
        def check(answer: list[str]) -> None:
            if wanted is None or answer[0] != wanted[1]:
                raise self.differs(command, answer, command.wanted)
        self.send(line_of(command.line), check)

    def run_command(self, command: Command) -> None:
        """Sends a run. Without expected lines, its result is a difference."""
        first = self.run_form.fullmatch(command.wanted[0]) if command.wanted else None
        if command.wanted and (not first or not (first[1] or self.last)):
            raise self.wrong(command.wanted[0], "no first line of a run")
        if first and first[1]:
            try:
                self.last = parse_outcome(first[1], int(first[2]) if first[2] else None, command.wanted[1:])
            except CaseError as fault:
                raise self.wrong(fault.line, str(fault)) from None
        self.expect_outcome(command, self.last if first else None)

    def expect_outcome(self, command: Command, wanted: Outcome | None) -> None:
        """Sends a run and compares its result."""
        def check(answer: list[str]) -> None:
            found = outcome_of(parse_report(answer))
            if wanted is None or not found.is_as(wanted):
                raise self.differs(command, lines_like(found, wanted), command.wanted)
        self.send("run", check)

    def play(self, answers: list[list[str]]) -> list[Difference]:
        """Returns the differences of the answers."""
        differences = []
        for check, answer in zip(self.checks, answers):
            try:
                check(answer)
            except Difference as difference:
                differences.append(difference)
        return differences


def lines_like(found: Outcome, wanted: Outcome | None) -> list[str]:
    """Returns what a case needs for an outcome: steps and registers, and files, only if the wanted one has them."""
    if wanted is None or wanted.steps is None:
        found = replace(found, steps=None, registers=() if wanted is None or not wanted.registers else found.registers)
    if wanted is not None and wanted.files is None:
        found = replace(found, files=None)
    return [found.head(), *found.lines()]


def outcome_of(report: Report) -> Outcome:
    """Returns a report as an outcome."""
    registers = tuple((name.upper(), value) for name, value in vars(report.registers).items())
    return Outcome(str(report.cause), report.steps, registers, report.text, tuple(report.files.items()))


def replies_in(out: str) -> list[list[str]]:
    """Returns the lines of each reply of cmprun to edit lines."""
    replies: list[list[str]] = []
    is_report = False
    for line in out.splitlines():
        if is_report:
            replies[-1].append(line)
        else:
            replies.append([line])
        is_report = line != "end" and (is_report or line.startswith("stop "))
    return replies


class Room:
    """A folder into which a session is written."""

    def __init__(self, setup: Setup, room: Path) -> None:
        """Writes the session. Folders whose files change are copied."""
        self._room = room
        self._folders = {drive: folder for drive, folder in setup.folders}
        (room / "program.com").write_bytes(setup.program)
        (room / "script").write_bytes(setup.script)
        for name, data in setup.files:
            self.path(name).write_bytes(data)
        for name in setup.gone:
            self.path(name).unlink(missing_ok=True)
        self.folders = {drive: str(folder) for drive, folder in self._folders.items()}

    def path(self, name: str) -> Path:
        """Returns the path of a host file in the folder of its drive, which is a copy."""
        drive, _, plain = name.rpartition(":")
        drive = drive.upper() or "A"
        copy = self._room / drive
        if not copy.exists():
            copy_host_files(self._folders[drive], copy) if drive in self._folders else copy.mkdir()
            self._folders[drive] = copy
        return host_file(copy, plain) or copy / plain.upper()


def put_session(setup: Setup, room: Path) -> SessionWords:
    """Writes a session into a folder, and returns the words that name it."""
    folders = Room(setup, room).folders
    tail = setup.tail.decode("latin-1") if setup.tail else None
    return SessionWords(str(room / "program.com"), tail, folders, str(room / "script"), None, setup.limit, setup.spacing, setup.slots)


def answers_of(play: Play, runner: PathName) -> list[list[str]]:
    """Returns the replies of cpmrun to the lines of a case. Raises CaseError if it ends with an error."""
    setup = play.case.session
    with tempfile.TemporaryDirectory() as room:
        (Path(room) / "edits").write_text("".join(f"{line}\n" for line in play.sent))
        words = put_session(setup, Path(room)).words()
        options = [f"--edits={room}/edits", f"--spacing={setup.spacing}", f"--slots={setup.slots}"]
        done = subprocess.run([runner, *options, *words], stdin=subprocess.DEVNULL, capture_output=True)
    replies = replies_in(done.stdout.decode("latin-1"))
    if done.returncode != 0:
        message = " ".join(done.stderr.decode("utf-8", "replace").split())
        if done.returncode == WRONG_LINE and len(replies) < len(play.case.commands):
            line = play.case.commands[len(replies)].line
            raise play.wrong(line, re.sub(r"\bline \d+ is", "this line is", message))
        raise CaseError(f"{play.case.path}:{play.case.number}: {message}")
    return replies


def play_case(case: Case, runner: PathName) -> list[Difference]:
    """Plays a case with cpmrun, and returns what differs."""
    play = Play(case)
    play.commands()
    return play.play(answers_of(play, runner))


def sessions_of(case: Case) -> Iterator[Setup]:
    """Yields the session of each run of a case."""
    setup = case.session
    for command in case.commands:
        if command.line == "run":
            yield setup
        else:
            setup = setup.edited(command.line)
