"""Tests of `vembrusk shrink`. The environment variable CPMRUN names the built program."""

import unittest

from command_case import EXAMPLES, NEST, NEST_CODE, SCAN_CODE, SLOW_CODE, CommandCase, nest
from vembrusk.session import LONGEST_DATA
from vembrusk.inputs import common
from vembrusk.shrink import least


class Least(unittest.TestCase):
    """What is left of bytes."""

    def test_tried(self) -> None:
        tried = []

        def fails(data: bytes) -> bool:
            tried.append(data)
            return b")" in data

        self.assertEqual(least(b"a)", fails), b")")
        self.assertEqual(tried, [b"", b"a", b")", b""])

    def test_left(self) -> None:
        self.assertEqual(least(b"abc", lambda data: True), b"")
        self.assertEqual(least(b"", lambda data: True), b"")
        self.assertEqual(least(b"abc", lambda data: data == b"abc"), b"abc")
        self.assertEqual(least(b"(a(b)(c", lambda data: data.count(b"(") >= 3), b"(((")
        # a can be left out only after c was, and b only after a
        self.assertEqual(least(b"abc", {b"abc", b"ab", b"b", b""}.__contains__), b"")
        self.assertEqual(least(b"abc", {b"abc", b"bc", b"c"}.__contains__), b"c")

    def test_common(self) -> None:
        self.assertEqual(common(b"", b""), 0)
        self.assertEqual(common(b"a", b""), 0)
        self.assertEqual(common(b"ab", b"abc"), 2)
        self.assertEqual(common(b"abcd", b"abdd"), 2)
        self.assertEqual(common(b"xbcd", b"abcd"), 0)


class Shrink(CommandCase):
    """What the command prints, and its status."""

    command = "shrink"

    def typed(self, data: bytes) -> list:
        """The words for the program of the example, with this typed."""
        return [NEST, "--console", self.put("typed", data)]

    def test_program_of_the_example(self) -> None:
        self.assertEqual(NEST.read_bytes(), NEST_CODE)

    def test_steps(self) -> None:
        # of `a)`, of nothing, of `a`, of `)`, and of nothing again, by what `nest` says
        steps = (1 + 12 + 14) + (1 + 4) + (1 + 12 + 4) + (1 + 14) + (1 + 4)
        message = f"1 of 2 bytes left after 5 runs ({steps} steps if each began at the start)\n"
        words = self.typed(b"a)")
        self.assertEqual(self.outcome(*words, "--cause", "Undefined"), (0, b")", message))
        self.assertEqual(self.outcome(*words, "--cause", "Undefined ED"), (0, b")", message))

    def test_cause_and_text(self) -> None:
        # no byte but `(` raises the count
        typed = b"((a)(b(c))) and more\r"
        tried = [typed]

        def halts(data: bytes) -> bool:
            tried.append(data)
            return nest(data)[0] == "Halt"

        self.assertEqual(least(typed, halts), b"(((")
        counts = f"{len(tried)} runs ({sum(nest(data)[2] for data in tried):,}"
        message = f"3 of {len(typed)} bytes left after {counts} steps if each began at the start)\n"
        words = [*self.typed(typed), "--cause", "Halt"]
        self.assertEqual(self.outcome(*words), (0, b"(((", message))
        # what is typed is printed, and a `)` that comes first ends the run
        words = self.typed(b"(a)(b)\r")
        self.assertEqual(self.outcome(*words, "--text", ")(")[:2], (0, b"()("))
        words += ["--cause", "WarmBoot"]
        self.assertEqual(self.outcome(*words, "--text", ")(")[:2], (0, b"()(\r"))

    def test_output(self) -> None:
        output = self.room / "least"
        message = self.outcome(*self.typed(b"a)"), "--cause", "Undefined", "-o", output)
        self.assertEqual((message[:2], output.read_bytes()), ((0, b""), b")"))

    def test_no_input_is_written(self) -> None:
        program, note, keys = self.put("nest.com", NEST_CODE), self.put("disk/note.txt", b"one"), self.put("keys", b"a)")
        words = [program, "--console", keys, "--files-b", note.parent, "--file-differs", f"b:note.txt={self.put('expected', b'')}"]
        for path in program, keys, note, self.room / "expected":
            self.refuses_output("-o", path, *words)
        self.assertEqual(self.outcome(*words, "-o", self.room / "disk/new")[0], 0)

    def test_files(self) -> None:
        program = self.put("scan.com", SCAN_CODE)
        self.put("note.txt", b"one\r\ntwo # three\r\n")
        for name, option in ("NOTE.TXT", "--files"), ("b:note.txt", "--files-b"):
            words = [program, name, option, self.room, "--file", name, "--cause", "Halt"]
            self.assertEqual(self.outcome(*words)[:2], (0, b"#"))

    def test_file_too_long_for_a_line(self) -> None:
        program = self.put("scan.com", SCAN_CODE)
        data = b"one\r\ntwo # three\r\n" + bytes(2 * LONGEST_DATA)
        note = self.put("note.txt", data)
        words = [program, "note.txt", "--files", self.room, "--file", "NOTE.TXT", "--cause", "Halt"]
        for option in [], ["--cold"]:
            status, printed, errors = self.outcome(*words, *option)
            self.assertEqual((status, printed), (0, b"#"))
            self.assertTrue(errors.startswith(f"1 of {len(data)} bytes left after "))
        self.assertEqual(note.read_bytes(), data)

    def test_cold(self) -> None:
        words = [self.put("slow.com", SLOW_CODE), *self.typed(b"a)")[1:], "--cause", "Undefined"]
        status, printed, errors = self.outcome(*words, "--cold")
        self.assertEqual((status, printed), (0, b")"))
        counts, times = errors.splitlines()
        self.assertIn(f"5 runs ({69 + 5 * (1 + 4 * 65_536):,} steps if each began at the start)", counts)
        self.assertRegex(times, r"^\d+\.\d{3} seconds with checkpoints, \d+\.\d{3} in cold runs$")

    def test_a_command_that_fails(self) -> None:
        words = [*self.typed(b"((a)(b(c))) and more\r"), "--test"]
        script = self.put("test", b'#!/bin/sh\n! grep -q "b.*m" "$2"\n')
        script.chmod(0o755)
        self.assertEqual(self.outcome(*words, f"{script} x {{}}")[:2], (0, b"bm"))
        self.assertEqual(self.outcome(*words, f"{script} x {{}}", "--cause", "Halt")[:2], (0, b"(((bm"))
        self.assertEqual(self.outcome(*words, "sh -c 'exit $(wc -c < {})'", "--cause", "Undefined")[:2][1], b"")
        self.faulty("the whole input does not fail: its run stops by Halt", *words, "true {}")

    def test_a_file_that_differs(self) -> None:
        """The sorted file has another first line if a line begins with `!`."""
        self.put("in.txt", b"pear\r\napple\r\n!x\r\nfig\r\n")
        expected = self.put("expected", b"apple\r\nfig\r\npear\r\n")
        words = [EXAMPLES / "sort/sort.com", "in.txt out.txt", "--files", self.room, "--file", "in.txt"]
        status, out, errors = self.outcome(*words, "--file-differs", f"out.txt={expected}", "--test", "grep -q -v ! {}")
        self.assertEqual((status, out), (2, b""))
        script = self.put("test", b'#!/bin/sh\n! grep -q "!" "$1"\n')
        script.chmod(0o755)
        self.assertEqual(self.outcome(*words, "--file-differs", f"out.txt={expected}", "--test", f"{script} {{}}")[:2], (0, b"!"))
        self.assertEqual(self.outcome(*words, "--file-differs", f"in.txt={expected}", "--cause", "WarmBoot")[:2], (0, b""))

    def test_faults_of_what_fails(self) -> None:
        words = self.typed(b"a)")
        causes = "WarmBoot, Halt, Limit, Undefined [XX], SystemArea [XXXX], NoDollar, ConsoleExhausted, Unsupported [N] and BadDrive [N]"
        for cause in "Warm", "Halt 1":
            self.faulty(f"there is no stop cause {cause}; the causes are {causes}", *words, "--cause", cause)
        self.faulty("--test needs {} in place of the file with the input", *words, "--test", "true")
        self.faulty("--test: No closing quotation", *words, "--test", "'true {}")
        self.faulty("none: No such file or directory", *words, "--test", "none {}")
        self.faulty("the command sh of --test ended with status 126", *words, "--test", "sh -c 'exit 126' {}")
        self.faulty("the command sh of --test ended with status -9", *words, "--test", "sh -c 'kill -9 $$' {}")
        self.faulty("--file-differs needs NAME=EXPECTED, not x", *words, "--file-differs", "x")
        self.faulty("none: No such file or directory", *words, "--file-differs", "x=none")

    def test_faults(self) -> None:
        words = self.typed(b"a)")
        halt = [*words, "--cause", "Halt"]
        self.faulty("the whole input does not fail: its run stops by Undefined ED", *halt)
        self.faulty("--cause, --text, --test or --file-differs must say what fails", *words)
        self.faulty("the following arguments are required: PROGRAM", "--cause", "Halt")
        self.faulty("argument --limit: invalid int value: 'x'", *halt, "--limit", "x")
        self.faulty("the runner ended with status 1: cpmrun: cannot read none.com",
                    "none.com", "--cause", "Halt")
        self.faulty("none: No such file or directory", *halt, "--cpmrun", "none")
        self.faulty("none: No such file or directory", NEST, "--console", "none", "--text", "a")
        self.faulty("the session has no host file X.TXT", *halt, "--file", "X.TXT")
        self.faulty("the session has no host file E:X", *halt, "--file", "E:X")


if __name__ == "__main__":
    unittest.main()
