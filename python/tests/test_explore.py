"""Tests of `vembrusk explore`. The environment variable CPMRUN names the built program."""

import ast
import re
import unittest

from command_case import NEST, SCAN_CODE, SIZE_CODE, CommandCase, nest
from vembrusk.session import LONGEST_DATA
from vembrusk.explore import LONGEST_PIECE, MOST_EDITS, Chance

LINES = re.compile(r"try (\d+): new (?:cause ([^,\n]*))?(?:, )?(?:text (b.*))?\n  script (b.*)\n")


class Edited(unittest.TestCase):
    """What bytes are after edits by chance."""

    def test_bytes_and_lengths(self) -> None:
        chance = Chance(7)
        for data in (b"", b"a", b"abcdefghijklmnop"):
            for _ in range(500):
                edited = chance.edited(data, b"xy")
                self.assertLessEqual(set(edited), set(data + b"xy"))
                self.assertLessEqual(abs(len(edited) - len(data)), MOST_EDITS * LONGEST_PIECE)

    def test_seeds(self) -> None:
        tries = [[chance.edited(b"abcd", b"x") for _ in range(50)]
                 for chance in (Chance(1), Chance(1), Chance(2))]
        self.assertEqual(tries[0], tries[1])
        self.assertNotEqual(tries[0], tries[2])


class Explore(CommandCase):
    """What the command prints, and its status."""

    command = "explore"

    def kept(self, *words) -> list[tuple[int, str, bytes | None, bytes]]:
        """Of each try that is printed its number, the new cause, the new text, and the script."""
        status, printed, errors = self.outcome(*words)
        self.assertEqual((status, errors), (0, ""))
        self.assertEqual(LINES.sub("", printed.decode()), "")
        return [(int(number), cause, ast.literal_eval(text or "None"), ast.literal_eval(script))
                for number, cause, text, script in LINES.findall(printed.decode())]

    def test_no_input_is_written(self) -> None:
        keys, note = self.put("kept/17-script", b"(a)"), self.put("disk/note.txt", b"one")
        words = [NEST, "--console", keys, "--disk", note.parent, "--tries", "0"]
        self.faulty(f"-o {keys}: an input cannot be the output", *words, "-o", keys.parent)
        self.assertEqual((keys.read_bytes(), note.read_bytes()), (b"(a)", b"one"))
        self.assertEqual(self.outcome(*words, "-o", self.room / "new")[0], 0)

    def test_what_is_new(self) -> None:
        typed = self.put("typed", b"(a)")
        words = [NEST, "--console", typed, "--tries", "400", "--alphabet", "()a\r"]
        kept = self.kept(*words)
        self.assertEqual(kept[0], (0, "ConsoleExhausted", b"(a)", b"(a)"))
        causes: set[str] = set()
        texts: set[bytes] = set()
        for _, cause, text, script in kept:
            wanted_cause, wanted_text, _ = nest(script)
            self.assertEqual(cause, "" if wanted_cause in causes else wanted_cause)
            self.assertEqual(text, None if wanted_text in texts else wanted_text)
            self.assertTrue(cause or text is not None)
            causes.add(wanted_cause)
            texts.add(wanted_text)
        # the program has no other
        self.assertEqual(causes, {"ConsoleExhausted", "WarmBoot", "Halt", "Undefined ED"})
        numbers = [number for number, *_ in kept]
        self.assertEqual(numbers, sorted(set(numbers)))
        self.assertLessEqual(numbers[-1], 400)
        self.assertEqual(self.kept(*words, "--causes"), [each for each in kept if each[1]])
        self.assertEqual(self.kept(*words), kept)
        self.assertNotEqual(self.kept(*words, "--seed", "2"), kept)

    def test_no_try(self) -> None:
        self.assertEqual(self.kept(NEST, "--tries", "0"), [(0, "ConsoleExhausted", b"", b"")])

    def test_file(self) -> None:
        # of the script and the file, only the file is read; it has a `#` where the program halts
        program = self.put("scan.com", SCAN_CODE)
        self.put("X.TXT", b"one")
        status, printed, errors = self.outcome(
            program, "x.txt", "--files", self.room, "--file", "X.TXT", "--alphabet", "#",
            "--tries", "100", "-o", self.room)
        self.assertEqual((status, errors), (0, ""))
        first, second = re.findall(
            r"try (\d+): new (.*)\n  script (b.*)\n  X.TXT (b.*)\n", printed.decode())
        self.assertEqual(first, ("0", "cause WarmBoot, text b''", "b''", "b'one'"))
        self.assertEqual(second[1], "cause Halt")
        self.assertIn("#", second[3])
        for number, _, script, data in first, second:
            script_put, file_put = (self.room / f"{number}-{name}" for name in ("script", "X.TXT"))
            self.assertEqual(script_put.read_bytes(), ast.literal_eval(script))
            self.assertEqual(file_put.read_bytes(), ast.literal_eval(data))

    def test_files_too_long_for_a_line(self) -> None:
        # X.TXT has 256 records, and one more byte is one more record; neither the other file nor the script is read
        whole = bytes(256 * 128)
        self.assertGreater(len(whole), LONGEST_DATA)
        program = self.put("size.com", SIZE_CODE)
        self.put("X.TXT", whole)
        self.put("Y.TXT", b"one")
        status, printed, errors = self.outcome(
            program, "x.txt", "--files", self.room, "--file", "X.TXT", "--file", "Y.TXT", "--causes", "--tries", "50",
            "-o", self.room)
        self.assertEqual((status, errors), (0, ""))
        (_, first), (number, second) = re.findall(r"try (\d+): new cause (\w+)", printed.decode())
        self.assertEqual((first, second), ("WarmBoot", "Halt"))
        self.assertGreater((self.room / f"{number}-X.TXT").stat().st_size, len(whole))
        self.assertEqual((self.room / "X.TXT").read_bytes(), whole)

    def test_failures_are_news(self) -> None:
        """A script with `b` fails with status 3, and the program makes no file."""
        script = self.put("test", b'#!/bin/sh\n! grep -q b "$1" || exit 3\n')
        script.chmod(0o755)
        words = [NEST, "--tries", "200", "--alphabet", "ab", "--causes", "-o", self.room / "new/folder"]
        status, printed, errors = self.outcome(*words, "--test", f"{script} {{}}", "--file-differs", f"x={script}")
        self.assertEqual((status, errors), (0, ""))
        tries = re.findall(r"try (\d+): new (.*)\n  script b'(.*)'\n", printed.decode())
        self.assertEqual(tries[0], ("0", "cause ConsoleExhausted, file x differs, text b''", ""))
        self.assertEqual((tries[1][1].split(",")[0], "b" in tries[1][2], len(tries)), ("status 3 of the test", True, 2))
        self.assertEqual((self.room / f"new/folder/{tries[1][0]}-script").read_text(), tries[1][2])

    def test_faults(self) -> None:
        self.faulty("none: No such file or directory", NEST, "--test", "none {}")
        self.faulty("argument --seed: invalid int value: 'x'", NEST, "--seed", "x")
        self.faulty("--alphabet must have a byte, and --tries be 0 or more",
                    NEST, "--alphabet", "")
        self.faulty("the runner ended with status 1: cpmrun: cannot read none", "none")
        self.faulty("the session has no host file X.TXT", NEST, "--file", "X.TXT")


if __name__ == "__main__":
    unittest.main()
