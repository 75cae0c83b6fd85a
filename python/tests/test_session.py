"""Tests of the client. The environment variable CPMRUN names the built program."""

import pickle
import signal
import tempfile
import unittest
from pathlib import Path

from command_case import TOP, built
from vembrusk.session import LONGEST_DATA, LONGEST_LINE, Cause, ProgramEnded, Refused, Registers, Report, Session, UnknownReply

HI = TOP / "examples" / "hi" / "hi.com"
GREETING = TOP / "examples" / "greeting" / "greeting.com"
RECORDS = TOP / "tests" / "programs" / "randrec" / "randrec.com"

RUNNER = built("cpmrun")

# What README.md tells of examples/hi/hi.com.
REPORT_OF_HI = Report(
    cause=Cause("WarmBoot"),
    steps=7,
    registers=Registers(a=0, f=2, b=0, c=9, d=1, e=9, h=0, l=0, sp=0xFE00, pc=0xFF03),
    text=b"Hi",
    files={},
)


class Answers(unittest.TestCase):
    """What edit lines are answered."""

    def refuses(self, number: int, call, *words) -> None:
        with self.assertRaises(Refused) as caught:
            call(*words)
        self.assertEqual(caught.exception.number, number)

    def test_report(self) -> None:
        with Session(RUNNER, HI) as session:
            self.assertEqual(session.run(), REPORT_OF_HI)
            session.poke(0x010A, b"o")
            self.assertEqual(session.run().text, b"Ho")
            session.limit(5)
            self.assertEqual(session.run().cause, Cause("Limit"))
            session.drop(1000)
            session.limit(7_000)
            self.assertEqual(session.run().text, b"Ho")

    def test_script(self) -> None:
        with Session(RUNNER, GREETING) as session:
            session.insert(0, b"Ada\r")
            self.assertEqual(session.run().text, b"Name? Ada\r\nHello, Ada")
            session.replace(0, b"Eve")
            self.assertEqual(session.run().text, b"Name? Eve\r\nHello, Eve")
            session.remove(0, 4)
            self.assertEqual(session.run().cause, Cause("ConsoleExhausted"))

    def test_refusals(self) -> None:
        with Session(RUNNER, HI) as session:
            self.refuses(1, session.insert, 1, b"x")
            self.refuses(1, session.replace, 0, b"x")
            self.refuses(1, session.remove, 0, 1)
            self.refuses(3, session.gone, "NONE.TXT")
            self.refuses(6, session.poke, 0, b"x")
            self.refuses(7, session.limit, 4_000_000_001)
            for number in range(512):
                session.file(f"F{number}", b"")
            self.refuses(5, session.file, "ONE.MOR", b"")
            self.assertEqual(session.run(), REPORT_OF_HI)

    def test_causes(self) -> None:
        causes = [
            (b"\x76", Cause("Halt"), "Halt"),
            (b"\xed", Cause("Undefined", 0xED), "Undefined ED"),
            (b"\xc3\x0c\xff", Cause("SystemArea", 0xFF0C), "SystemArea FF0C"),
            (b"\x0e\x25\xcd\x05\x00", Cause("Unsupported", 37), "Unsupported 37"),
            (b"\x0e\x0e\x1e\x04\xcd\x05\x00", Cause("BadDrive", 4), "BadDrive 4"),
        ]
        with Session(RUNNER, HI) as session:
            for code, cause, text in causes:
                session.poke(0x0100, code)
                self.assertEqual(session.run().cause, cause)
                self.assertEqual(str(session.run().cause), text)

    def test_long_inserts(self) -> None:
        data = bytes(range(256)) * (LONGEST_DATA // 256 + 300)
        with Session(RUNNER, GREETING) as session:
            session.insert(0, data)
            session.replace(0, data[::-1])
            self.refuses(1, session.replace, 1, data)
            self.refuses(2, session.insert, 0, bytes(1_048_576))
            session.remove(0, len(data))
            self.refuses(1, session.remove, 0, 1)
            with self.assertRaises(ValueError):
                session.file("LONG.DAT", bytes(LONGEST_LINE // 2))
            session.file("LONG.DAT", bytes(LONGEST_DATA))

    def test_files(self) -> None:
        with tempfile.TemporaryDirectory() as folder:
            script = Path(folder, "typed")
            script.write_bytes(b"a one\rq\r")
            with Session(RUNNER, RECORDS, "new.db", script=script, spacing=100, slots=8) as session:
                made = session.run().files
                self.assertEqual(list(made), ["NEW.DB"])
                record = made["NEW.DB"]
                assert record is not None
                self.assertEqual(record, b"\x03one" + bytes(124))
                session.file("NEW.DB", record)
                self.assertEqual(session.run().files["NEW.DB"], record * 2)
            Path(folder, "NEW.DB").write_bytes(record)
            script.write_bytes(b"n\rq\r")
            with Session(RUNNER, RECORDS, "new.db", folders={"A": folder}, script=script) as session:
                self.assertIn(b"1 RECORDS", session.run().text)
                session.gone("NEW.DB")
                self.assertEqual(session.run().files, {"NEW.DB": b""})


class Ends(unittest.TestCase):
    """How a session ends."""

    def test_program_that_is_not_there(self) -> None:
        session = Session(RUNNER, TOP / "none.com")
        with self.assertRaises(ProgramEnded) as caught:
            session.run()
        self.assertEqual(caught.exception.status, 1)
        self.assertIn("cannot read", caught.exception.errors)

    def test_runner_that_is_not_there(self) -> None:
        with self.assertRaises(OSError):
            Session(TOP / "no runner", HI)

    def test_malformed_line(self) -> None:
        session = Session(RUNNER, HI)
        with self.assertRaises(ProgramEnded) as caught:
            session.gone("A GREETING OF MANY WORDS")
        self.assertEqual((caught.exception.status, caught.exception.errors), (2, "cpmrun: line 1 is malformed\n"))
        with self.assertRaises(ProgramEnded):
            session.run()

    def test_killed(self) -> None:
        session = Session(RUNNER, HI)
        self.assertEqual(session.run(), REPORT_OF_HI)
        session._process.kill()
        with self.assertRaises(ProgramEnded) as caught:
            session.run()
        self.assertEqual(caught.exception.status, -signal.SIGKILL)

    def test_an_error_reaches_another_process(self) -> None:
        for error in (Refused(3), ProgramEnded(2, "cpmrun: line 1 is malformed\n")):
            copy = pickle.loads(pickle.dumps(error))
            self.assertEqual((str(copy), vars(copy)), (str(error), vars(error)))
        self.assertEqual(str(ProgramEnded(2, "")), "the runner ended with status 2: it wrote no message")

    def test_no_process_is_left(self) -> None:
        with self.assertRaises(ZeroDivisionError), Session(RUNNER, HI) as session:
            raise ZeroDivisionError
        self.assertIsNotNone(session._process.returncode)
        with Session(RUNNER, HI) as closed:
            closed.run()
        self.assertEqual(closed._process.returncode, 0)
        closed.close()
        with self.assertRaises(ValueError):
            closed.run()

    def test_another_program(self) -> None:
        with tempfile.TemporaryDirectory() as folder:
            other = Path(folder, "other")
            other.write_text("#!/bin/sh\nread line\necho what\n")
            other.chmod(0o755)
            with self.assertRaises(UnknownReply):
                Session(other, HI).limit(1)


if __name__ == "__main__":
    unittest.main()
