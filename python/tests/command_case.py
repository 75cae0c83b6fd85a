"""What the tests of the programs share: small programs, and how one is run."""

import os
import subprocess
import sys
import tempfile
import unittest
from pathlib import Path

TOP = Path(__file__).resolve().parents[2]

sys.path.insert(0, str(TOP / "python"))

EXAMPLES = TOP / "examples"

NEST = EXAMPLES / "tools/nest.com"

NEST_CODE = bytes.fromhex(
    "0600 C5 0E01 CD0500 C1 FE0D C8 FE28 C21901 04 78 FE03 C20201 76 FE29 C20201 05 F20201 ED")
"""The bytes of nest.asm."""

SLOW_CODE = bytes.fromhex(
    "210000 2B 7C B5 C20301 "
    "0600 C5 0E01 CD0500 C1 FE0D C8 FE28 C22201 04 78 FE03 C20B01 76 FE29 C20B01 05 F20B01 ED")
"""The same after LXI H,0 and a loop of DCX H, MOV A,H, ORA L and JNZ: 9 bytes, so each jump goes 9 further, and 1 + 4 * 65,536 steps."""

SCAN_CODE = bytes.fromhex(
    "115C00 0E0F CD0500 115C00 0E14 CD0500 218000 7E FE23 CA1E01 2C C21301 C9 76")
"""Opens the file of its tail, reads a record of it, and halts if that has a `#`:
LXI D,5CH; MVI C,15; CALL 5; LXI D,5CH; MVI C,20; CALL 5; LXI H,80H;
0113: MOV A,M; CPI '#'; JZ 011E; INR L; JNZ 0113; RET; 011E: HLT"""

SIZE_CODE = bytes.fromhex("115C00 0E23 CD0500 3A7D00 B7 C8 76")
"""Halts if the count of records of the file of its tail is no multiple of 256:
LXI D,5CH; MVI C,35; CALL 5; LDA 7DH; ORA A; RZ; HLT"""


def nest(typed: bytes) -> tuple[str, bytes, int]:
    """Returns the stop cause, the text and the steps of nest.com, worked out from its source.

    It begins with one step. A byte that is neither a parenthesis nor CR takes 12 steps, a parenthesis 14; the third open one ends before
    the HLT. CR takes 9 with the jump to the warm start. After the last byte there are PUSH, MVI, CALL and the JMP at 5.
    """
    steps, count = 1, 0
    for offset, byte in enumerate(typed):
        text = typed[:offset + 1]
        if byte == ord("\r"):
            return "WarmBoot", text, steps + 9
        count += (byte == ord("(")) - (byte == ord(")"))
        steps += 14 if byte in b"()" else 12
        if count == 3:
            return "Halt", text, steps
        if count < 0:
            return "Undefined ED", text, steps
    return "ConsoleExhausted", typed, steps + 4


def built(name: str) -> str:
    """Returns the path of a built program, which its variable names."""
    try:
        return os.environ[name.upper()]
    except KeyError:
        sys.exit(f"the variable {name.upper()} names no built program")


class CommandCase(unittest.TestCase):
    """A case with its own folder, which runs a subcommand."""

    command: str
    """The subcommand."""

    def setUp(self) -> None:
        folder = tempfile.TemporaryDirectory()
        self.addCleanup(folder.cleanup)
        self.room = Path(folder.name)

    def outcome(self, *words: str | Path, commands: bytes = b"") -> tuple[int, bytes, str]:
        """Returns the exit status, the standard output and the standard error of the command, with this as its standard input."""
        run = subprocess.run([sys.executable, "-B", "-W", "error", TOP / "vembrusk", self.command, *words], input=commands, capture_output=True)
        return run.returncode, run.stdout, run.stderr.decode()

    def faulty(self, message: str, *words: str | Path) -> None:
        """Expects status 2, and this message on standard error."""
        with self.subTest(message):
            self.assertEqual(self.outcome(*words), (2, b"", f"vembrusk {self.command}: {message}\n"))

    def refuses_output(self, option: str, path: Path, *words: str | Path) -> None:
        """Expects an error if this option names an input, also by another name, and that nothing is written."""
        before = {each: each.read_bytes() for each in self.room.rglob("*") if each.is_file()}
        link = self.room / "link"
        link.symlink_to(path)
        for name in path, link:
            self.faulty(f"{option} {name}: an input cannot be the output", *words, option, name)
        link.unlink()
        self.assertEqual({each: each.read_bytes() for each in self.room.rglob("*") if each.is_file()}, before)

    def put(self, name: str, data: bytes) -> Path:
        """Writes a file into the folder."""
        path = self.room / name
        path.parent.mkdir(parents=True, exist_ok=True)
        path.write_bytes(data)
        return path
