"""The command `vembrusk` with its subcommands."""

from __future__ import annotations

import os
import sys
from collections.abc import Sequence
from contextlib import suppress
from importlib import import_module
from typing import NoReturn

from . import __version__
from .session import SessionError
from .words import Arguments, UsageError

SUBCOMMANDS = {
    "snap": "shows a session in a form for people, and keeps it as a test",
    "check": "runs cases, which are sessions with expected results as text",
    "shrink": "shrinks an input to the least that still fails",
    "explore": "tries random edits of inputs",
    "travel": "goes through a run step by step, forward and back",
    "reads": "shows what a run read as a page",
    "cover": "shows what runs executed",
    "compare": "finds where two runs begin to differ",
    "label": "writes the labels of a source into a trace",
}

PROGRAM_OPTIONS = {
    "cpmrun": "--edits --out --out-b --out-c --out-d --deps --target --trace --partial --dry-run --explain".split(),
    "cpmdeps": "--by-step --make".split(),
    "cpmtrace": "--steps --from --to --at --writes --reads --file --last".split(),
}
"""The options of each program that its subcommands do not pass on."""

EPILOG = """Each subcommand has --help. Exit status: 0 if all is as wanted, 1 if something differs, fails or was not found, 2 after an error,
which is one line on standard error."""


def usage() -> str:
    """Returns the help of the whole command."""
    lines = ["Usage: vembrusk SUBCOMMAND [WORDS]", "", "Tools for programs of CP/M 2.2 and their sessions.", "", "Subcommands:"]
    lines += [f"  {name:9}{meaning}" for name, meaning in SUBCOMMANDS.items()]
    return "\n".join([*lines, "", EPILOG, ""])


def open_missing_streams() -> None:
    """Opens the null device in place of each standard stream that the caller closed, so that no other file gets its number."""
    for number, name, mode in (0, "stdin", "r"), (1, "stdout", "w"), (2, "stderr", "w"):
        if getattr(sys, name) is None:
            try:
                os.fstat(number)
            except OSError:
                os.open(os.devnull, os.O_RDWR)
            setattr(sys, name, open(number, mode, closefd=False))


def message_of(fault: Exception) -> str:
    """Returns an error in one line."""
    text = str(fault)
    if isinstance(fault, OSError) and fault.strerror is not None:
        text = fault.strerror if fault.filename is None else f"{fault.filename}: {fault.strerror}"
    return " ".join(text.split())


def end(prog: str, message: str, status: int = 2) -> int:
    """Prints a message in one line, and returns the status."""
    print(f"{prog}: {message}", file=sys.stderr)
    return status


def silence_output() -> None:
    """Writes what is left to standard output, if that is possible, and lets all else go nowhere."""
    with suppress(OSError):
        sys.stdout.flush()
    os.dup2(os.open(os.devnull, os.O_WRONLY), sys.stdout.fileno())


def parser_of(name: str) -> Arguments:
    """Returns the parser of a subcommand."""
    module = import_module(f".{name}", __package__)
    parser = Arguments(prog=f"vembrusk {name}", description=module.__doc__, allow_abbrev=False)
    module.add_arguments(parser)
    parser.owners_of = owners_of
    return parser


def owners_of(option: str) -> list[str]:
    """Returns the subcommands that have an option, or else the programs that have it."""
    owners = [name for name in SUBCOMMANDS if parser_of(name).has_option(option)]
    return owners or [name for name, options in PROGRAM_OPTIONS.items() if option in options]


def run(name: str, words: Sequence[str]) -> int:
    """Runs a subcommand, and returns its status. If the reader of its output has closed the pipe, as `head` does, it ends quietly."""
    parser = parser_of(name)
    values = parser.read(words)
    try:
        status = import_module(f".{name}", __package__).run(values)
        sys.stdout.flush()
        return status
    except BrokenPipeError:
        silence_output()
        return 0
    except KeyboardInterrupt:
        return end(parser.prog, "interrupted", 130)
    except UsageError as fault:
        parser.error(str(fault))
    except (OSError, ValueError, SessionError) as fault:
        silence_output()
        return end(parser.prog, message_of(fault))


def main(words: Sequence[str] | None = None) -> NoReturn:
    """Runs the command, and ends with its status."""
    open_missing_streams()
    name, *rest = (sys.argv[1:] if words is None else [*words]) or [""]
    if name in SUBCOMMANDS:
        sys.exit(run(name, rest))
    if name in ("-h", "--help"):
        print(usage(), end="")
    elif name in ("-V", "--version"):
        print(f"vembrusk {__version__}")
    else:
        sys.exit(end("vembrusk", f"there is no subcommand {name}; --help lists them" if name else "a subcommand is missing; --help lists them"))
    sys.exit(0)
