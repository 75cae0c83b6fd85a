"""Tests of `vembrusk check`, and of the reader and the player of cases. The environment variable CPMRUN names the built program."""

import unittest
from pathlib import Path
from xml.etree import ElementTree

from command_case import EXAMPLES, TOP, CommandCase
from vembrusk.accepting import accepted, change_of
from vembrusk.cases import CaseError, Command, Line, Outcome, Reader, Setup, parse_outcome, spell_file, spell_text, text_line

GREETING = EXAMPLES / "greeting/greeting.com"

GREETED = f"""\
# a comment
== Ada is greeted
program {GREETING}
typed Ada
> run
WarmBoot after 28 steps
C=09 D=01 E=3D
| Name? Ada
text "Hello, Ada"
"""

COPIER = """\
program copier
    MVI C,19; LXI D,5CH; CALL 5; MVI C,22; LXI D,5CH; CALL 5; MVI C,21; LXI D,5CH; CALL 5; RET
"""
"""Deletes the file of its tail, makes it, and writes the record at 80H, which begins with the tail."""


class ReaderTest(CommandCase):
    """What is read."""

    def read(self, text: str) -> list:
        return Reader().read(self.put("cases.txt", text.encode("latin-1")))

    def refuse(self, line: int, reason: str, text: str) -> None:
        """Expects an error with this line and reason."""
        with self.subTest(reason), self.assertRaises(CaseError) as caught:
            self.read(text)
        self.assertEqual(str(caught.exception), f"{self.room}/cases.txt:{line}: {reason}")

    def test_the_parts_of_a_session(self) -> None:
        self.put("disk/x.txt", b"1")
        self.put("keys", b"abc")
        case, other = self.read("== one\nprogram keys\ntail \"a b\"\nfile a.txt\n| one\n| \\x41\\\\\n|\nfile b.txt 00*2\nscript\n| two\n"
                                "limit 5\nfiles-b disk\n> run\n== two\nMVI A,1; RET\ntyped x\\n\n> run\n")
        self.assertEqual(case.session, Setup(b"abc", b"a b", b"two\r", (("a.txt", b"one\r\nA\\\r\n\r\n"), ("b.txt", b"\0\0")), 5,
                                             folders=(("B", self.room / "disk"),)))
        self.assertEqual((other.session.program, other.session.script, other.number), (b"\x3e\x01\xc9", b"x\n\r", 14))

    def test_blanks_at_the_end_of_a_line_of_text(self) -> None:
        """They do not count, except as an escape."""
        [case] = self.read("== one\nHLT\nscript\n|  a  \n| b \\x20\n|   \nfile x\n| c\\x20  \n> run\n")
        self.assertEqual((case.session.script, case.session.files), (b" a\rb  \r\r", (("x", b"c \r\n"),)))
        self.assertEqual(parse_outcome("Halt", None, ["| a\\x20"]).text, b"a \r\n")

    def test_rows_of_a_table(self) -> None:
        cases = self.read('== {name} of {count}\ntail "{name}"\n> limit {count}\nok\nwith name | count\nx | 1\ny z | 2\n')
        self.assertEqual([(case.title, case.session.tail, case.commands[0].line, case.row is not None) for case in cases],
                         [("x of 1", b"x", "limit 1", True), ("y z of 2", b"y z", "limit 2", True)])

    def test_wrong_lines(self) -> None:
        self.refuse(2, 'put a text in double quotes: "n.txt"', "== one\ntail n.txt\n")
        self.refuse(2, 'put a text in double quotes: "b c"', "== one\nscript \"a\" 0D b c\n")
        self.refuse(2, 'no bytes: "abc', '== one\ntail "abc\n')
        self.refuse(2, "write pairs of capital hexadecimal digits: 0D 1A", "== one\nscript 0d1a\n")
        self.refuse(3, f"cannot read {self.room}/none.com", "\n== one\nprogram none.com\n")
        self.refuse(2, "no name of a file: a/b", "== one\nfile a/b 00\n")
        self.refuse(2, "there is no folder none", "== one\nfiles none\n")
        self.refuse(1, 'a case begins with "== TITLE": x', "x\n== one\n")
        self.refuse(2, 'a case begins with "== TITLE": === one', "\n=== one\nHLT\n> run\n")
        self.refuse(5, 'a case begins with "== TITLE": ==two', "== one\nHLT\n> run\nHalt\n==two\n> run\n")
        self.refuse(3, "no instruction: MVO A", "== one\nNOP\nMVO A\n")
        self.refuse(4, "a row of 1 values for 2 names: x", "== one\n> run\nwith a | b\nx\n")
        self.refuse(2, "no text can be here: | x", "== one\n| x\n")
        self.refuse(3, "no escape: | \\n", "== one\nscript\n| \\n\n")
        self.refuse(2, 'put a text in double quotes: "x"', "== one\n> insert 0 x\n")
        self.refuse(4, "a table without a row", "== one\n> run\n\nwith a | b\n")

    def test_wrong_commands(self) -> None:
        for command in "runn", "Run", "stop 1", "insert0 00", "|":
            self.refuse(3, f"no command: {command}", f"== one\nHLT\n> {command}\n> run\n")
        for form, commands in {
            "run": ["run 5"], "limit N": ["limit", "limit x", "limit 1 2", "limit -1", "limit 12345678901"],
            "insert AT BYTES": ["insert 0", "insert 00"],
            "replace AT BYTES": ['replace "x" 0'], "remove AT COUNT": ["remove 0", "remove 0 x"], "poke ADDR BYTES": ["poke 10B 00", "poke 010BH 00"],
            "file NAME BYTES": ["file X.TXT"], "gone NAME": ["gone", "gone A B"], "drop N": ["drop all"],
        }.items():
            for command in commands:
                self.refuse(3, f'the command is "{form}": {command}', f"== one\nHLT\n> {command}\n> run\n")
        lines = ["run", "insert 0 00", "insert 4294967295 -", 'replace 1 "a b"', "remove 0 1", "poke 010b (00)*2", 'file b:x.txt "a" 0D',
                 "gone X", "limit 5", "drop 1"]
        [case] = self.read("\n> ".join(["== one", *lines]))
        self.assertEqual([command.line for command in case.commands], lines)

    def test_a_case_without_a_command_is_an_error(self) -> None:
        self.refuse(4, "the case has no command", "== one\n> run\nHalt\n== two\nHLT\n\n== three\n> run\nHalt\n")
        self.refuse(1, "the case has no command", "== one\n{a}; RET\nwith a\nNOP\n")

    def test_texts_are_read_as_they_are_written(self) -> None:
        for data in b"", b"a", b"a\r\n", b"a\r\nb", b"\r\n\r\n", b" a \\ \x1b\r\n ", bytes(range(256)), b"a\r\r\n":
            with self.subTest(data):
                self.assertEqual(parse_outcome("Halt", 1, spell_text(data)).text, data)
        lines = [b"a\r\n".ljust(128, b"\x1a"), b"a".ljust(128, b"\x1a"), b"a\r\n".ljust(256, b"\x1a"), b"\r\n" * 64, b"\x1a" * 128]
        for data in b"", bytes(128), *lines:
            with self.subTest(data):
                self.assertEqual(parse_outcome("Halt", 1, spell_file("X", data)).files, (("X", data),))
        self.assertEqual(spell_file("X", b"a \r\n".ljust(128, b"\x1a")), ["file X", "| a\\x20"])
        with self.assertRaises(CaseError):
            text_line("| \\q")

    def test_what_is_not_compared(self) -> None:
        found = Outcome("Halt", 5, (("A", 1),), b"x", (("X", b""),))
        for wanted, same in (Outcome("Halt", None, (), b"x", (("X", b""),)), True), (Outcome("Halt", None, (), b"x", None), True), \
                (Outcome("Halt", None, (("A", 1),), b"x", None), True), (Outcome("Halt", None, (("A", 2),), b"x", None), False), \
                (Outcome("Halt", 5, (("A", 1),), b"x", None), True), (Outcome("Halt", 4, (("A", 1),), b"x", None), False), \
                (Outcome("Halt", None, (), b"y", None), False), (Outcome("Limit", None, (), b"x", None), False):
            self.assertEqual(found.is_as(wanted), same, wanted)

    def test_edited_sessions(self) -> None:
        setup = Setup(b"abc", script=b"xyz")
        for line, part, value in ('insert 1 "-"', "script", b"x-yz"), ('replace 1 "-"', "script", b"x-z"), ("remove 0 2", "script", b"z"), \
                ("poke 0101 00", "program", b"a\0c"), ("limit 7", "limit", 7), ("insert 4 00", "script", b"xyz"), \
                ("poke 0103 00", "program", b"abc"):
            self.assertEqual(getattr(setup.edited(line), part), value, line)

    def test_accepted_lines(self) -> None:
        text = "== a\n> run\n# why\nHalt\n\ntext \"x\"\n> limit 5\n"
        command = Command(Line("run", 2), [Line("Halt", 4), Line('text "x"', 6)])
        self.assertEqual(accepted(text, [change_of(command, ["WarmBoot"])]), "== a\n> run\nWarmBoot\n# why\n\n> limit 5\n")
        self.assertEqual(accepted(text, [change_of(Command(Line("limit 5", 7), []), ["ok"])]), f"{text}ok\n")


class CheckTest(CommandCase):
    """What the command prints and writes, and its status."""

    command = "check"

    def cases(self, text: str, name: str = "cases.txt") -> Path:
        return self.put(name, text.encode())

    def test_cases_that_pass(self) -> None:
        self.assertEqual(self.outcome(EXAMPLES / "tools"), (0, b"4 passed, 0 failed\n", ""))
        self.assertEqual(self.outcome(self.cases(GREETED)), (0, b"1 passed, 0 failed\n", ""))

    def test_cases_of_the_programs(self) -> None:
        """Each case of tests/programs that needs no further arguments, as text."""
        texts = []
        for case in sorted((TOP / "tests/programs").glob("*/cases/*")):
            if (case / "args").exists() or (case / "expect/out.sum").exists():
                continue
            name = case.parent.parent.name
            lines = [f"== {name}: {case.name}", f"program {case.parent.parent}/{name}.com", "limit 100000000"]
            lines += [f'tail "{(case / "tail").read_text().strip()}"'] if (case / "tail").exists() else []
            lines += [f"files {case}/files"] if (case / "files").is_dir() else []
            lines += [f"console {case}/console.bin"] if (case / "console.bin").exists() else []
            lines += ["> run", (case / "expect/stderr").read_text().split("\n")[0].removeprefix("stop ")]
            lines += spell_text((case / "expect/stdout").read_bytes())
            for path in sorted((case / "expect/out").glob("[!.]*")):
                lines += spell_file(path.name, path.read_bytes())
            texts.append("\n".join([*lines, ""]))
        self.assertGreater(len(texts), 10)
        self.assertEqual(self.outcome(self.cases("".join(texts))), (0, f"{len(texts)} passed, 0 failed\n".encode(), ""))

    def test_a_failure_shows_the_lines_to_paste(self) -> None:
        path = self.cases(GREETED.replace("28", "29").replace("Hello, Ada", "Hallo, Ada"))
        status, out, errors = self.outcome(path)
        wanted = "# wanted: WarmBoot after 29 steps\n# wanted: C=09 D=01 E=3D\n# wanted: | Name? Ada\n# wanted: text \"Hallo, Ada\"\n"
        lines = GREETED.split("> run\n")[1]
        self.assertEqual((status, out.decode(), errors), (1, f"{path}:2: Ada is greeted\n> run\n{lines}{wanted}\n0 passed, 1 failed\n", ""))

    def test_what_is_pasted_passes(self) -> None:
        path = self.cases(f"{COPIER}== one\nprogram copier\ntail \"X.TXT\"\n> run\n> gone NONE\n> limit 4\n> run\n")
        self.assertEqual(self.outcome(path)[0], 1)
        self.assertEqual(self.outcome(path, "--accept"), (0, b"0 passed, 0 failed, 1 accepted\n", ""))
        text = path.read_text()
        self.assertIn('\nWarmBoot\nfile X.TXT 06 " X.TXT" 00*121\n> gone NONE\nrefused 3\n> limit 4\nok\n> run\nLimit\n', text)
        self.assertEqual(self.outcome(path), (0, b"1 passed, 0 failed\n", ""))
        self.assertEqual(self.outcome(path, "--accept")[0], 0)
        self.assertEqual(path.read_text(), text)

    def test_files_and_folders_are_read_and_not_changed(self) -> None:
        self.put("disk/x.txt", b"one")
        path = self.cases(f"{COPIER}== one\nprogram copier\ntail \"B:X.TXT\"\nfiles-b disk\nfile b:y 00\n> run\nWarmBoot\nfile *\n"
                          "> gone B:Y\nok\n> gone B:X.TXT\nok\n> gone B:X.TXT\nrefused 3\n")
        self.assertEqual(self.outcome(path), (0, b"1 passed, 0 failed\n", ""))
        self.assertEqual([each.read_bytes() for each in sorted((self.room / "disk").iterdir())], [b"one"])

    def test_a_row_of_a_table_gets_other_values(self) -> None:
        table = GREETED + "with name | steps | end | shown\n"
        for old, new in ("typed Ada", "typed {name}"), ("r 28", "r {steps}"), ("E=3D", "E={end}"), ("? Ada", "? {name}"), (", Ada", ", {shown}"):
            table = table.replace(old, new)
        path = self.cases(f"{table}Ada | 28 | 3D | Ada\nEve | 1 | 00 | x\n# more\nBob B | 1 | 01 | y\n")
        self.assertEqual(self.outcome(path, "--accept"), (0, b"1 passed, 0 failed, 2 accepted\n", ""))
        self.assertEqual(path.read_text(), f"{table}Ada | 28 | 3D | Ada\nEve | 28 | 3D | Eve\n# more\nBob B | 28 | 3D | Bob B\n")

    def test_a_row_that_no_values_fit_is_not_accepted(self) -> None:
        path = self.cases(GREETED.replace("Ada\"", "{name}\"").replace("WarmBoot", "Halt") + "with name\nAda\nEve\n")
        text = path.read_text()
        status, out, errors = self.outcome(path, "--accept")
        self.assertEqual((status, path.read_text()), (1, text))
        self.assertEqual(errors, f"{path}:2: this row of a table has no values that give these lines\n" * 2)
        self.assertIn(b"0 passed, 2 failed", out)

    def test_junit(self) -> None:
        path = self.cases(GREETED + GREETED.replace("Ada is", "<&> is").replace("Hello", "Hallo"))
        self.assertEqual(self.outcome(path, "--junit", self.room / "out.xml", "--jobs", "1")[0], 1)
        suite = ElementTree.parse(self.room / "out.xml").getroot()[0]
        self.assertEqual((suite.get("tests"), suite.get("failures")), ("2", "1"))
        self.assertEqual([case.get("name") for case in suite], ["Ada is greeted", "<&> is greeted"])
        self.assertIn('text "Hello, Ada"\n# wanted:', suite[1][0].text)

    def test_no_input_is_written(self) -> None:
        self.put("disk/x.txt", b"one")
        self.put("keys", b"Ada\r")
        path = self.cases(f"== one\nprogram program.com\nconsole keys\nfiles disk\n> run\n")
        program = self.put("program.com", b"\xc9")
        for each in path, program, self.room / "keys", self.room / "disk/x.txt":
            self.refuses_output("--junit", each, path)

    def test_faults(self) -> None:
        self.faulty("the following arguments are required: FILE")
        self.faulty("cannot read none", "none")
        self.faulty('there is no case in these files; a case begins with "== TITLE"', self.cases("# none\n"))
        self.faulty("argument --jobs: 0 is not in 1 to 1,024", self.cases(GREETED), "--jobs", "0")
        path = self.cases("== one\nHLT\n> run\nHalt after x steps\n")
        self.faulty(f"{path}:4: no first line of a run: Halt after x steps", path)
        path = self.cases("== one\nHLT\n> run\nHalt\nwhat\n")
        self.faulty(f"{path}:5: no line of a result: what", path)
        path = self.cases("== one\nHLT\n> limit 5\nok\n> stop\nok\n")
        self.faulty(f"{path}:5: no command: stop", path)
        path = self.cases("== one\nHLT\n> limit 5\nok\n> gone a/b\nok\n")
        self.faulty(f"{path}:5: cpmrun: this line is malformed: gone a/b", path)
        path = self.cases("== one\nHLT\ntail \"" + "x" * 127 + "\"\n> run\nHalt\n")
        self.faulty(f"{path}:1: cpmrun: session refused 2", path)
        self.faulty("none: No such file or directory", self.cases(GREETED), "--cpmrun", "none")


if __name__ == "__main__":
    unittest.main()
