"""Goes through the run of a session step by step, forward and back.

Commands come from the terminal or from a pipe; `help` lists them. Steps are counted from 0: after N steps, step N is the next one, which is
shown. An address is a label of --symbols, or hexadecimal: if there is a label fcb, the number is 0FCB or $fcb. A mistake in a command changes
nothing.
"""

from __future__ import annotations

import argparse
import cmd
import re
import sys
from contextlib import closing
from pathlib import Path

from .memory import LAST_ADDRESS, Memory, loaded_memory
from .run import Run
from .snap import escaped, registers_line
from .symbols import Symbols, read_symbols, warn_of_other_program
from .trace import Step
from .words import Arguments, SessionWords, session_of

LISTED = 5
"""The steps before and after the next one that `list` shows by default."""

SHOWN = 16
"""The cells that `mem` shows by default, and in each row."""

DIGITS = re.compile(r"\$?([0-9A-Fa-f]{1,4}|0[0-9A-Fa-f]{4})")
"""A hexadecimal number. With a `$` or a `0` before it, it is no label."""

UNKNOWN = "??"
"""What `mem` shows for a byte that is not known."""


class Mistake(Exception):
    """A command that cannot be done, in words for the user. It changes nothing."""


class Travel(cmd.Cmd):
    """Reads commands, and keeps how many steps of the run are done."""

    identchars = cmd.Cmd.identchars + "-"

    def __init__(self, run: Run, memory: Memory, symbols: Symbols) -> None:
        super().__init__()
        self._run, self._memory, self._symbols = run, memory, symbols
        self.here = 0
        self._has_begun = False
        self.use_rawinput = sys.stdin.isatty()

    def loop(self) -> None:
        """Reads commands to the end of the input. At a terminal, an interrupt ends a command, or the line that is typed, and no more."""
        while True:
            try:
                self.cmdloop()
                return
            except KeyboardInterrupt:
                if not self.use_rawinput:
                    raise
                self._show("interrupted")

    def preloop(self) -> None:
        if not self._has_begun:
            self._has_begun = True
            self._go(0)

    def onecmd(self, line: str) -> bool:
        try:
            return super().onecmd(line)
        except Mistake as mistake:
            self._show(f"error: {mistake}")
            return False

    def parseline(self, line: str) -> tuple[str | None, str | None, str]:
        """Splits a line. The method of `back-until` is `do_back_until`."""
        word, rest, line = super().parseline(line)
        return word and word.replace("-", "_"), rest, line

    def emptyline(self) -> bool:
        return False

    def default(self, line: str) -> bool:
        """Ends at the end of the input, which is the line EOF. Other lines are no commands."""
        if line != "EOF":
            raise Mistake(f"there is no command {line.split()[0]}; `help` lists them")
        if self.use_rawinput:
            self._show("")
        return True

    def do_step(self, rest: str) -> None:
        """step [N]: goes N steps forward, by default 1, but not past the stop."""
        self._go(min(self.here + _number(_optional(rest), 1), self._run.steps))

    def do_back(self, rest: str) -> None:
        """back [N]: goes N steps back, by default 1, but not past the start."""
        self._go(max(self.here - _number(_optional(rest), 1), 0))

    def do_to(self, rest: str) -> None:
        """to N: goes to step N."""
        number = _number(_one(rest, "the number of a step"))
        if number > self._run.steps:
            raise Mistake(f"step {number} is past the stop, which comes after {self._run.steps} steps")
        self._go(number)

    def do_until(self, rest: str) -> None:
        """until ADDR: goes forward to the next step at this address, a label or hexadecimal digits; FE06 is any system call."""
        address = self._address(_one(rest, "an address"))
        self._go_to_step(self._run.next_at(address, self.here), f"no later step is at {address:04X}")

    def do_back_until(self, rest: str) -> None:
        """back-until ADDR: goes back to the last step at this address."""
        address = self._address(_one(rest, "an address"))
        self._go_to_step(self._run.last_at(address, self.here), f"no earlier step is at {address:04X}")

    def do_until_wrote(self, rest: str) -> None:
        """until-wrote ADDR: goes forward to the next step that writes this cell."""
        address = self._address(_one(rest, "an address"))
        self._go_to_step(self._run.next_write(address, self.here + 1), f"no later step writes {address:04X}")

    def do_who_wrote(self, rest: str) -> None:
        """who-wrote ADDR: shows the last step before here that wrote this cell."""
        address = self._address(_one(rest, "an address"))
        step = self._run.last_write(address, address, self.here)
        self._show(self._symbols.line(step.line) if step is not None else f"no earlier step wrote {address:04X}")

    def do_who_printed(self, rest: str) -> None:
        """who-printed OFFSET: shows the step that sent this byte of the console text of the whole run; the first one is 0."""
        offset = _number(_one(rest, "an offset"))
        length = len(self._run.text)
        if offset >= length:
            raise Mistake(f"the console text of the whole run has {length} byte{'s' * (length != 1)}")
        step = self._run.line(self._run.printer(offset))
        self._show(*[self._symbols.line(step.line)] if step is not None else [])

    def do_regs(self, rest: str) -> None:
        """regs: shows the registers here."""
        _nothing(rest)
        self._show(registers_line(self._run.report(self.here).registers))

    def do_mem(self, rest: str) -> None:
        """mem ADDR [COUNT]: shows cells here, by default 16. A byte that a call wrote may be unknown: it is shown as ??."""
        word, *more = _words(rest, 1, 2, "an address and perhaps a count")
        first, count = self._address(word), _number(more[0] if more else None, SHOWN)
        last = min(first + count - 1, LAST_ADDRESS)
        cells = self._memory.cells(first, last, self.here)
        for row in range(first, last + 1, SHOWN):
            self._show(memory_line(row, [cells[address] for address in range(row, min(row + SHOWN, last + 1))]))

    def do_list(self, rest: str) -> None:
        """list [COUNT]: shows this many steps before and after the next one, by default 5."""
        count = _number(_optional(rest), LISTED)
        first, last = max(self.here - count, 0), min(self.here + count, self._run.steps)
        for step in self._run.lines(first, last):
            self._show(f"{'>' if step.number == self.here else ' '} {self._symbols.line(step.line)}")
        if last == self._run.steps:
            self._show(f"{'>' if last == self.here else ' '} {self._stop()}")

    def do_text(self, rest: str) -> None:
        """text: shows the console text so far, each line with the offset of its first byte."""
        _nothing(rest)
        offset = 0
        for line in self._run.report(self.here).text.split(b"\r\n"):
            self._show(f"{offset:6}  {escaped(line)}" if line else f"{offset:6}")
            offset += len(line) + 2

    def do_quit(self, rest: str) -> bool:
        """quit: ends."""
        _nothing(rest)
        return True

    def do_help(self, arg: str) -> None:
        """help [COMMAND]: shows what a command does, by default each command."""
        names = [name for name in vars(Travel) if name.startswith("do_")]
        if arg:
            names = [name for name in names if name == f"do_{arg.replace('-', '_')}"]
            if not names:
                raise Mistake(f"there is no command {arg}; `help` lists them")
        self._show(*(getattr(self, name).__doc__ for name in names))

    def _show(self, *lines: str) -> None:
        """Prints lines at once, so that a program that reads them need not wait."""
        for line in lines:
            print(line, file=self.stdout)
        self.stdout.flush()

    def _address(self, word: str) -> int:
        """Returns the address of a label, or else of hexadecimal digits."""
        try:
            address = self._symbols.address(word)
        except ValueError as fault:
            raise Mistake(str(fault)) from None
        if address is not None:
            return address
        number = DIGITS.fullmatch(word)
        if number is None:
            raise Mistake(f"{word} is no address: 1 to 4 hexadecimal digits{' or a label' if self._symbols.addresses else ''}")
        return int(number[1], 16)

    def _stop(self) -> str:
        return f"stop {self._run.cause} after {self._run.steps} steps"

    def _go(self, number: int) -> None:
        self._arrive(number, self._run.line(number))

    def _go_to_step(self, step: Step | None, failure: str) -> None:
        if step is None:
            raise Mistake(failure)
        self._arrive(step.number, step)

    def _arrive(self, number: int, step: Step | None) -> None:
        """Makes this the next step, and shows it. If the run stops there, it may have no line."""
        self.here = number
        self.prompt = f"{number}> " if self.use_rawinput else ""
        if step is not None:
            self._show(self._symbols.line(step.line))
        if number == self._run.steps:
            self._show(self._stop())


def _words(rest: str, least: int, most: int, wanted: str) -> list[str]:
    """Returns the words after a command."""
    words = rest.split()
    if not least <= len(words) <= most:
        raise Mistake(f"expected {wanted}")
    return words


def _one(rest: str, wanted: str) -> str:
    return _words(rest, 1, 1, wanted)[0]


def _optional(rest: str) -> str | None:
    return next(iter(_words(rest, 0, 1, "at most one number")), None)


def _nothing(rest: str) -> None:
    _words(rest, 0, 0, "no word after the command")


def _number(word: str | None, default: int = 0) -> int:
    """Returns a decimal number, or the default if there is no word."""
    if word is None:
        return default
    if re.fullmatch("[0-9]{1,10}", word) is None:
        raise Mistake(f"{word} is no decimal number of at most 10 digits")
    return int(word)


def memory_line(address: int, cells: list[int | None]) -> str:
    """Returns a row of cells in hexadecimal, and as characters."""
    digits = " ".join(UNKNOWN if byte is None else f"{byte:02X}" for byte in cells)
    text = "".join("." if byte is None or not 0x20 <= byte < 0x7F else chr(byte) for byte in cells)
    return f"{address:04X}  {digits.ljust(3 * SHOWN - 1)}  |{text}|"


def has_plain_script(words: SessionWords) -> bool:
    """Returns whether no byte of the script is a control character, except CR, LF and backspace. An escape that may be one counts as one."""
    if words.typed is not None:
        return re.fullmatch(r"([ -\[\]-~]|\\[rn])*", words.typed) is not None
    return all(byte in b"\r\n\b" or byte >= 0x20 and byte != 0x7F for byte in words.script())


def add_arguments(parser: Arguments) -> None:
    """Adds the arguments of the subcommand."""
    parser.set_operands("PROGRAM [TAIL]", "the .COM file, and its command tail, one word")
    parser.add_session()
    parser.add_checkpoints()
    parser.add_program("cpmrun")
    parser.add_program("cpmtrace")
    parser.add_symbols()


def run(values: argparse.Namespace) -> int:
    """Runs the subcommand."""
    words = session_of(values)
    symbols = read_symbols(values.symbols)
    sys.stdin.reconfigure(errors="backslashreplace")  # type: ignore[union-attr]
    with closing(Run(words, values.cpmrun, values.cpmtrace)) as whole:
        program = Path(words.program).read_bytes()
        warn_of_other_program(values.symbols, {words.program: program})
        loaded = loaded_memory(program, words.tail or "")
        Travel(whole, Memory(whole, loaded, words.host_data, has_plain_script(words)), symbols).loop()
    return 0
