"""Tests of `vembrusk snap`. The environment variable CPMRUN names the built program."""

from command_case import EXAMPLES, CommandCase

GREETING = EXAMPLES / "greeting/greeting.com"

SHOWN = """\
> insert 0 4164610D
ok
> run
stop WarmBoot after 28 steps
A=00 F=02 B=00 C=09 D=01 E=3D H=00 L=00 SP=FE00 PC=FF03
  | Name? Ada
  | Hello, Ada
> gone NONE.TXT
refused 3: there is no host file of this name
> file A.BIN 00FF41
ok
"""

COPIER = bytes.fromhex("0E13 115C00 CD0500 0E16 115C00 CD0500 0E15 115C00 CD0500 C9")
"""Deletes the file of its tail, makes it, and writes the record at 80H, which begins with the tail: MVI C,19; LXI D,5CH; CALL 5; the
same with 22 and 21; RET."""


class Snap(CommandCase):
    """What the command prints and writes, and its status."""

    command = "snap"

    def setUp(self) -> None:
        super().setUp()
        self.edits = self.put("edits", b"insert 0 4164610D\nrun\ngone NONE.TXT\nfile A.BIN 00FF41")

    def test_shown(self) -> None:
        self.assertEqual(self.outcome(GREETING, "--edits", self.edits), (0, SHOWN.encode(), ""))

    def test_kept(self) -> None:
        kept = self.room / "kept"
        words = [GREETING, "--edits", self.edits, "--kept", kept]
        status, printed, errors = self.outcome(*words)
        self.assertEqual((status, errors), (1, ""))
        self.assertIn(b"+stop WarmBoot after 28 steps", printed)
        self.assertEqual(self.outcome(*words, "--accept"), (0, b"", ""))
        self.assertEqual(kept.read_text(), SHOWN)
        self.assertEqual(self.outcome(*words), (0, b"", ""))
        kept.write_text(SHOWN.replace("Hello", "Hallo"))
        status, printed, errors = self.outcome(*words)
        self.assertEqual((status, errors), (1, ""))
        self.assertIn(b"-  | Hallo, Ada\n+  | Hello, Ada\n", printed)

    def test_accept_writes_only_what_it_wrote(self) -> None:
        words = [GREETING, "--edits", self.edits, "--accept", "--kept"]
        text = SHOWN.encode()
        for data in b"", text, text.replace(b"Ada", b"Eve"), b"> run\nstop Halt after 1 steps\nA=00 F=02\nfile A, 1 record\n  000000  00\ngone B\n":
            self.assertEqual(self.outcome(*words, self.put("kept", data)), (0, b"", ""), data)
        for data in b"\n", text + b"more\n", text[:-1], text + b"> run\n", b"#!/bin/sh\n", b"\x80\xff":
            kept = self.put("mine", data)
            self.faulty(f"--kept {kept}: --accept did not write this file; --force overwrites it", *words, kept)
            self.assertEqual(kept.read_bytes(), data)
            self.assertEqual(self.outcome(*words, kept, "--force"), (0, b"", ""))
            self.assertEqual(kept.read_bytes(), text)

    def test_no_input_is_written(self) -> None:
        keys, note = self.put("keys", b"Ada"), self.put("disk/note.txt", b"one")
        program = self.put("program.com", GREETING.read_bytes())
        for path in program, self.edits, keys, note:
            words = [program, "--edits", self.edits, "--console", keys, "--disk-d", note.parent, "--accept"]
            self.refuses_output("--kept", path, *words)
            self.refuses_output("--kept", path, *words, "--force")

    def test_files(self) -> None:
        program = self.put("copier.com", COPIER)
        edits = self.put("edits", b"run\n")
        status, printed, _ = self.outcome(program, "X.BIN", "--edits", edits)
        dump = "  000000  06 20 58 2e 42 49 4e" + " 00" * 9
        self.assertIn(f"file X.BIN, 1 record\n{dump}\n".encode(), printed)
        self.assertEqual(status, 0)

    def test_no_line(self) -> None:
        self.assertEqual(self.outcome(GREETING, "--edits", self.put("empty", b"")), (0, b"", ""))

    def test_faults(self) -> None:
        self.faulty("--accept needs --kept", GREETING, "--edits", self.edits, "--accept")
        self.faulty("--force needs --accept", GREETING, "--edits", self.edits, "--kept", "kept", "--force")
        for name, data, number, line in ("bad", b"stop\n", 1, "'stop'"), ("d/bad", b"run\nrun\r\n", 2, r"'run\r'"), \
                ("bad", b"run\n\n", 2, "''"), ("bad", b"x" * 101, 1, f"'{'x' * 100}..., 101 bytes'"):
            path = self.put(name, data)
            self.faulty(f"{path}:{number}: no edit line: {line}", GREETING, "--edits", path)
        path = self.put("bad", b"run\n\xe9\n")
        self.faulty(f"{path}:2: the line 'é' has a character that is not ASCII", GREETING, "--edits", path)
        path = self.put("bad", b"limit 5\ninsert 0 " + b"00" * 32_769)
        length = "would have 65,547 bytes; a line can have 65,536, with 32,758 bytes of data"
        self.faulty(f"{path}:2: the line `insert 0 {'0' * 21}...` {length}", GREETING, "--edits", path)
        self.faulty("the runner ended with status 1: cpmrun: cannot read none.com", "none.com", "--edits", self.put("run", b"run\n"))
