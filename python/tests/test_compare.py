"""Tests of `vembrusk compare`. The environment variables CPMDEPS and CPMTRACE name the built programs."""

import unittest
from pathlib import Path

from command_case import EXAMPLES, SCAN_CODE, CommandCase
from vembrusk.compare import bare

GREETING = EXAMPLES / "greeting/greeting.com"
TAG = EXAMPLES / "tools/tag.com"
SAME = b"The runs are the same.\n"

WAIT = bytes.fromhex("0600 0E00 1600 15 C20601 0D C20401 05 C20201")
"""Three nested loops of 256 turns each, 50 million steps."""

OUTPUT = bytes.fromhex("1E41 0E02 CD0500 C9")
"""Prints A: MVI E,'A'; MVI C,2; CALL 5; RET."""


class CompareTest(CommandCase):
    """What the command prints, and its status."""

    command = "compare"

    def compare(self, *words: str | Path) -> list[str]:
        """Returns the lines about two runs that differ."""
        status, out, errors = self.outcome(*words)
        self.assertEqual((status, errors), (1, ""), out)
        return out.decode().splitlines()

    def test_another_script(self) -> None:
        lines = self.compare(GREETING, "--typed", "Ada", "--with", "--typed Eve", "--context", "1")
        self.assertEqual(lines, [
            "The first 9 steps are the same. The next differs:",
            "  step 8 regs A=00 F=02 B=00 C=0A D=01 E=3B H=00 L=00 SP=FDFC PC=0005 C306FE JMP 0FE06H",
            '< step 9 call 10 read console buffer 013B "Ada\\r"',
            '> step 9 call 10 read console buffer 013B "Eve\\r"',
            "The first call is the same. The next differs:",
            '  step 4 call 9 print string 012B "Name? "',
            '< step 9 call 10 read console buffer 013B "Ada\\r"',
            '> step 9 call 10 read console buffer 013B "Eve\\r"',
        ])

    def test_the_same_runs(self) -> None:
        self.assertEqual(self.outcome(GREETING, "--typed", "Ada", "--with", "--typed Ada\\\\r"), (0, SAME, ""))
        typed = self.put("typed", b"Ada\rmore")
        self.assertEqual(self.outcome(GREETING, "--typed", "Ada", "--with", f"--console {typed}"), (0, SAME, ""))
        self.assertEqual(self.outcome(GREETING, "--typed", "Ada", "--with", "--limit 29"), (0, SAME, ""))

    def test_another_limit(self) -> None:
        lines = self.compare(GREETING, "--typed", "Ada", "--with", "--limit 20", "--context", "0")
        self.assertEqual((lines[0], lines[2]), ("The first 20 steps are the same. The next differs:", "> stop Limit"))
        self.assertEqual(lines[3:], ["The first 2 calls are the same. The next differs:", lines[4], "> stop Limit"])

    def test_another_program(self) -> None:
        """The second program has a NOP more, which no call shows."""
        program, other = self.put("one.com", OUTPUT), self.put("two.com", b"\0" + OUTPUT)
        lines = self.compare(program, "--with", str(other))
        self.assertEqual(lines[0], "The first step differs:")
        self.assertEqual(lines[3:], ["All calls are the same."])
        third = self.put("three.com", OUTPUT.replace(b"\x41", b"\x42"))
        lines = self.compare(program, "--with", str(third))
        self.assertEqual(lines[-2:], ['< step 4 call 2 console output 41 "A"', '> step 4 call 2 console output 42 "B"'])

    def test_files(self) -> None:
        program = self.put("scan.com", SCAN_CODE)
        for name, data in ("one/x.txt", b"a" * 130), ("two/x.txt", b"a" * 130 + b"b"), ("three/x.txt", b"a#" + b"a" * 128), \
                ("four/x.txt", b"a" * 120):
            self.put(name, data)
        words = [program, "x.txt", "--files", self.room / "one", "--with"]
        self.assertEqual(self.outcome(*words, f"--files {self.room}/two"), (0, SAME, ""))
        # the record is read by the call of step 9; step 11 is the first of the loop
        lines = self.compare(*words, f"--disk {self.room}/three", "--context", "0")
        # MOV A,M is step 11, and 16 for the second byte
        self.assertEqual(lines[0], "The first 17 steps are the same. The next differs:")
        self.assertIn(" regs A=23 ", lines[2])
        lines = self.compare(*words, f"--files {self.room}/four")
        self.assertEqual(lines[0], f"The first {12 + 5 * 120} steps are the same. The next differs:")
        self.put("none/y.txt", b"")
        lines = self.compare(*words, f"--files {self.room}/none")
        self.assertEqual(lines[-2:], ["< step 4 call 15 open file X.TXT = 00", "> step 4 call 15 open file X.TXT = FF"])

    def test_files_at_the_end(self) -> None:
        """The second version of sort.com has another jump, by which it sorts the other way."""
        data = (EXAMPLES / "sort/sort.com").read_bytes()
        other = self.put("sort.com", data[:0xC3] + b"\xda" + data[0xC4:])
        self.put("disk/in.txt", b"a\r\nb\r\n")
        lines = self.compare(EXAMPLES / "sort/sort.com", "in.txt out.txt", "--files", self.room / "disk", "--with", str(other), "--context", "0")
        self.assertEqual([line[-14:] for line in lines[1:3]], ["D2D101 JNC 01D1H"[-14:], "DAD101 JC 01D1H"[-14:]])
        self.assertEqual(lines[3:], ["All calls are the same.", "File OUT.TXT differs after the runs, from byte 0 on, in record 0."])
        (self.room / "none").mkdir()
        lines = self.compare(EXAMPLES / "sort/sort.com", "in.txt out.txt", "--files", self.room / "disk", "--with", f"--disk {self.room}/none")
        self.assertEqual(lines[-1], "File OUT.TXT is there after the first run only.")

    def test_a_difference_that_only_shows_late(self) -> None:
        """The programs differ in a byte that is read after 50 million steps."""
        code = WAIT + OUTPUT
        program, other = self.put("one.com", code), self.put("two.com", code.replace(b"\x1e\x41", b"\x1e\x42"))
        lines = self.compare(program, "--limit", "100000000", "--with", str(other), "--context", "1")
        steps = 1 + 256 * (1 + 256 * (1 + 256 * 2 + 2) + 2)
        self.assertEqual(lines[0], f"The first {steps:,} steps are the same. The next differs:")
        self.assertEqual(lines[-2:], [f'< step {steps + 4} call 2 console output 41 "A"', f'> step {steps + 4} call 2 console output 42 "B"'])

    def test_labels(self) -> None:
        symbols = EXAMPLES / "tools/tag.sym"
        lines = self.compare(TAG, "--typed", "Ada", "--with", "--typed Eve", "--symbols", symbols)
        self.assertIn('< step 4 call 10 read console buffer line "Ada\\r"', lines)
        lines = self.compare(TAG, "--typed", "Ada", "--with", "--typed Eve", "--symbols", symbols,
                             "--with-symbols", self.put("other.sym", b"buffer:\tequ $013a\n"))
        self.assertIn('> step 4 call 10 read console buffer buffer "Eve\\r"', lines)

    def test_symbols_of_another_program(self) -> None:
        words = [TAG, "--typed", "Ada", "--with", str(GREETING)]
        tag, other = EXAMPLES / "tools/tag.sym", EXAMPLES / "tools/sort.sym"
        for options, warned in (["--symbols", tag], ()), (["--symbols", other], (TAG,)), (["--with-symbols", other], (GREETING,)), \
                (["--symbols", other, "--with-symbols", other], (TAG, GREETING)):
            warnings = "".join(f"warning: {other} may be of another program: {program} refers to 0 of its 41 labels\n" for program in warned)
            status, _, errors = self.outcome(*words, *options)
            self.assertEqual((status, errors), (1, warnings))

    def test_faults(self) -> None:
        self.faulty("the following arguments are required: --with", GREETING)
        self.faulty("--with: No closing quotation", GREETING, "--with", "'x")
        self.faulty("--typed and --console exclude each other", GREETING, "--with", "--typed x --console y")
        status, out, errors = self.outcome(GREETING, "--with=--what")
        self.assertEqual((status, out, errors), (2, b"", "vembrusk compare: --with: unrecognized arguments: --what\n"))
        self.faulty("none: No such file or directory", GREETING, "--with", "none")
        self.faulty("the runner ended with status 1: cpmdeps: cannot read none", "none", "--with", "x")


class BareTest(unittest.TestCase):
    """What of a call is compared."""

    def test_lines(self) -> None:
        for line, wanted in {
            'step 4 call 9 print string 0109 "0109"': 'call 9 print string "0109"',
            "step 106 call 26 set dma address 032E": "call 26 set dma address",
            "step 1 call 20 read sequential A.B record 0 to 032E = 00": "call 20 read sequential A.B record 0 to = 00",
            "step 4 call 2 console output 41 \"A\"": "call 2 console output 41 \"A\"",
            "stop Halt": "stop Halt",
        }.items():
            self.assertEqual(bare(line), wanted)


if __name__ == "__main__":
    unittest.main()
