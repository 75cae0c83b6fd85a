"""Tests of `vembrusk travel`, `memory.py` and `steps.py`. The environment variables CPMRUN and CPMTRACE name the built programs."""

import contextlib
import fcntl
import os
import pty
import select
import subprocess
import sys
import termios
import time
import unittest
from pathlib import Path

from command_case import EXAMPLES, SCAN_CODE, TOP, CommandCase
from vembrusk.session import ProgramEnded, UnknownReply
from vembrusk.memory import control_block, loaded_memory
from vembrusk.run import stretches
from vembrusk.trace import Step, Tracer, Written, parse_step
from vembrusk.travel import memory_line

HI = EXAMPLES / "hi/hi.com"
GREETING = EXAMPLES / "greeting/greeting.com"

WRITER_CODE = bytes.fromhex("212001 3641 34 34 5E 0E02 CD0500 76")
"""Writes 41H to cell 0120, adds one twice, and prints it: LXI H,0120H; MVI M,41H; INR M; INR M; MOV E,M; MVI C,2; CALL 5; HLT."""

WRITER_STEPS = """\
step 0 regs A=00 F=02 B=00 C=00 D=00 E=00 H=00 L=00 SP=FDFE PC=0100 212001 LXI H,0120H
step 1 regs A=00 F=02 B=00 C=00 D=00 E=00 H=01 L=20 SP=FDFE PC=0103 3641 MVI M,41H cell 0120 00 to 41
step 2 regs A=00 F=02 B=00 C=00 D=00 E=00 H=01 L=20 SP=FDFE PC=0105 34 INR M cell 0120 41 to 42
step 3 regs A=00 F=06 B=00 C=00 D=00 E=00 H=01 L=20 SP=FDFE PC=0106 34 INR M cell 0120 42 to 43
step 4 regs A=00 F=02 B=00 C=00 D=00 E=00 H=01 L=20 SP=FDFE PC=0107 5E MOV E,M
step 5 regs A=00 F=02 B=00 C=00 D=00 E=43 H=01 L=20 SP=FDFE PC=0108 0E02 MVI C,02H
step 6 regs A=00 F=02 B=00 C=02 D=00 E=43 H=01 L=20 SP=FDFE PC=010A CD0500 CALL 0005H cell FDFC 00 to 0D cell FDFD 00 to 01
step 7 regs A=00 F=02 B=00 C=02 D=00 E=43 H=01 L=20 SP=FDFC PC=0005 C306FE JMP 0FE06H
step 8 call 2 console output 43 "C"
step 9 regs A=00 F=02 B=00 C=02 D=00 E=43 H=00 L=00 SP=FDFE PC=010D 76 HLT
""".splitlines()
"""Worked out by hand. 42H has an even number of bits, 43H has not; a call returns 0 in HL, A and B."""

HALTED = "stop Halt after 9 steps"

STARS_CODE = bytes.fromhex("0603 C5 1E2A 0E02 CD0500 C1 05 C20201 C9")
"""Prints three stars: MVI B,3; 0102: PUSH B; MVI E,'*'; MVI C,2; CALL 5; POP B; DCR B; 010C: JNZ 0102; RET. Each of the three turns has nine
steps with the jump at 0005: the first begins at step 1, its call is step 6, and its JNZ step 9. The RET is step 28."""


TAG = EXAMPLES / "tools/tag.com"

TAG_CODE = bytes.fromhex(
    "113A01 0E0A CD0500 213B01 46 23 112801 7E 12 23 13 05 C21001 112101 0E09 CD0500 C9"
) + b"\nName: " + b" " * 9 + b"Shelf: 7$\x14"
"""The bytes of tag.asm. Call 10 is step 4. The loop at 0110 has six steps for each byte of the name; the first is step 9, and the STAX of the
tenth byte, which is written over the S of Shelf, is step 9 + 6 * 9 + 1."""


def star(turn: int) -> str:
    """Returns the line of the call that prints the star of this turn, from 0 on."""
    return f'step {6 + 9 * turn} call 2 console output 2A "*"'


class ParseTest(unittest.TestCase):
    """What `steps.py` makes of lines."""

    def test_lines(self) -> None:
        self.assertEqual(parse_step(WRITER_STEPS[0]), Step(0, WRITER_STEPS[0], False, {}))
        self.assertEqual(parse_step(WRITER_STEPS[2]).cells, {0x120: Written(0x41, 0x42)})
        self.assertEqual(parse_step(WRITER_STEPS[6]).cells, {0xFDFC: Written(0, 0x0D), 0xFDFD: Written(0, 1)})

    def test_a_text_that_looks_like_a_cell(self) -> None:
        line = 'step 12 call 9 print string 0109 " cell 0120 00 to 41"'
        self.assertEqual(parse_step(line), Step(12, line, True, {}))

    def test_other_lines(self) -> None:
        for line in "", "step", "step x call 1", "what", "step 1 other":
            with self.subTest(line), self.assertRaises(UnknownReply):
                parse_step(line)


class TracerTest(CommandCase):
    """How a tracer ends."""

    def tracer(self, script: str) -> Tracer:
        """Returns a tracer that runs this script of the shell."""
        path = self.put("tracer", b"#!/bin/sh\n" + script.encode())
        path.chmod(0o755)
        return Tracer(path, HI)

    def test_the_first_step_does_not_wait_for_the_rest(self) -> None:
        begun = time.monotonic()
        step = self.tracer("echo 'step 3 call 0 system reset'; exec sleep 60").first()
        assert step is not None
        self.assertEqual(step.number, 3)
        self.assertLess(time.monotonic() - begun, 30)

    def test_no_step(self) -> None:
        self.assertIsNone(self.tracer("echo 'stop WarmBoot'").first())

    def test_errors(self) -> None:
        with self.assertRaises(ProgramEnded) as caught:
            self.tracer("echo 'cpmtrace: out of memory' >&2; exit 12").first()
        self.assertEqual((caught.exception.status, caught.exception.errors), (12, "cpmtrace: out of memory\n"))
        with self.assertRaises(UnknownReply):
            self.tracer("echo what").first()
        with self.assertRaises(OSError):
            Tracer(self.room / "none", HI).first()


class LoadedTest(unittest.TestCase):
    """The memory before the first step."""

    def test_control_blocks(self) -> None:
        for word, block in {
            b"": b"\0           ",
            b"A": b"\0A          ",
            b"B:NOTE.TXT": b"\2NOTE    TXT",
            b"LONGNAMES.TEXT": b"\0LONGNAMETEX",
            b"A*.C": b"\0A???????C  ",
            b"*.*": b"\0???????????",
            b"A.B.C": b"\0A       B  ",
            b"D:": b"\4           ",
        }.items():
            with self.subTest(word):
                self.assertEqual(control_block(word), block)

    def test_cells(self) -> None:
        cells = loaded_memory(b"\xc9", "b:note.txt  x")
        self.assertEqual(cells[:8], bytes.fromhex("C303FF 0000 C306FE"))
        self.assertEqual(cells[0x5C:0x68], b"\2NOTE    TXT")
        self.assertEqual(cells[0x6C:0x78], b"\0X          ")
        self.assertEqual(cells[0x80:0x90], b"\x0e B:NOTE.TXT  X\0")
        self.assertEqual((cells[0x100:0x102], len(cells)), (b"\xc9\0", 65_536))
        self.assertEqual(loaded_memory(b"", "")[0x80:], bytes(65_536 - 0x80))


class TravelCase(CommandCase):
    """A case that gives commands."""

    command = "travel"

    def answers(self, commands: str, *words: str | Path) -> list[str]:
        """Returns the lines that the commands print, separated by `;`, without the line of the first step."""
        status, printed, errors = self.outcome(*words, commands=commands.replace(";", "\n").encode())
        self.assertEqual((status, errors), (0, ""))
        return printed.decode().splitlines()[1:]

    def writer(self, commands: str, *words: str) -> list[str]:
        return self.answers(commands, self.put("writer.com", WRITER_CODE), *words)

    def stars(self, commands: str) -> list[str]:
        return self.answers(commands, self.put("stars.com", STARS_CODE))


class Moves(TravelCase):
    """Where commands go."""

    def test_begin(self) -> None:
        status, printed, errors = self.outcome(self.put("writer.com", WRITER_CODE))
        self.assertEqual((status, printed.decode(), errors), (0, f"{WRITER_STEPS[0]}\n", ""))

    def test_each_step(self) -> None:
        self.assertEqual(self.writer("step;" * 9), [*WRITER_STEPS[1:], HALTED])
        self.assertEqual(self.writer("to 9;" + "back;" * 9), [WRITER_STEPS[9], HALTED, *WRITER_STEPS[8::-1]])

    def test_steps(self) -> None:
        self.assertEqual(self.writer("step 4; back 2; to 8; step 0; to 0"), [WRITER_STEPS[at] for at in (4, 2, 8, 8, 0)])

    def test_ends(self) -> None:
        self.assertEqual(self.writer("step 100; step; back 100; back"), [WRITER_STEPS[9], HALTED] * 2 + [WRITER_STEPS[0]] * 2)
        self.assertEqual(self.answers("to 7", HI), ["stop WarmBoot after 7 steps"])

    def test_limit(self) -> None:
        self.assertEqual(self.writer("step 100; list 1", "--limit", "4"),
                         ["stop Limit after 4 steps", f"  {WRITER_STEPS[3]}", "> stop Limit after 4 steps"])
        self.assertEqual(self.writer("", "--limit", "0"), [])
        self.assertEqual(self.writer("step; back", "--limit", "0"), ["stop Limit after 0 steps"] * 2)
        self.assertEqual(self.writer("until 107; list 0", "--limit", "4"),
                         ["error: no later step is at 0107", f"> {WRITER_STEPS[0]}"])

    def test_addresses(self) -> None:
        moves = self.stars("until 10C; until 10c; until 010C; until 10C; back-until 10C; until fe06; back-until 0; back-until 100")
        numbers = [line.split()[1] for line in moves]
        self.assertEqual(numbers[:3] + numbers[4:6] + numbers[7:], ["9", "18", "27", "18", "24", "0"])
        self.assertEqual([moves[3], moves[6]], ["error: no later step is at 010C", "error: no earlier step is at 0000"])

    def test_an_address_here_does_not_count(self) -> None:
        self.assertEqual(self.writer("until 100; to 3; back-until 106"),
                         ["error: no later step is at 0100", WRITER_STEPS[3], "error: no earlier step is at 0106"])


class Shows(TravelCase):
    """What commands show."""

    def test_registers(self) -> None:
        self.assertEqual(self.writer("to 3; regs; to 8; regs")[1::2], [
            "A=00 F=06 B=00 C=00 D=00 E=00 H=01 L=20 SP=FDFE PC=0106",
            "A=00 F=02 B=00 C=02 D=00 E=43 H=01 L=20 SP=FDFC PC=FE06",
        ])

    def test_who_wrote(self) -> None:
        self.assertEqual(self.writer("who-wrote 120; to 3; who-wrote 0120; step; who-wrote 120; who-wrote 121; list 0"), [
            "no earlier step wrote 0120", WRITER_STEPS[3], WRITER_STEPS[2], WRITER_STEPS[4], WRITER_STEPS[3],
            "no earlier step wrote 0121", f"> {WRITER_STEPS[4]}",
        ])

    def test_who_printed(self) -> None:
        self.assertEqual(self.stars("who-printed 0; who-printed 1; who-printed 2; who-printed 3"),
                         [star(0), star(1), star(2), "error: the console text of the whole run has 3 bytes"])
        self.assertEqual(self.answers("who-printed 1", HI), ['step 4 call 9 print string 0109 "Hi"'])

    def test_text(self) -> None:
        self.assertEqual(self.stars("text; to 15; text; step; text")[0::2], ["     0", "     0  *", "     0  **"])
        self.assertEqual(self.answers("to 28; text", GREETING, "--typed", "Ada")[1:], ["     0  Name? Ada", "    11  Hello, Ada"])

    def test_list(self) -> None:
        self.assertEqual(self.writer("list 1"), [f"> {WRITER_STEPS[0]}", f"  {WRITER_STEPS[1]}"])
        self.assertEqual(self.writer("to 4; list 1")[1:], [f"  {WRITER_STEPS[3]}", f"> {WRITER_STEPS[4]}", f"  {WRITER_STEPS[5]}"])
        listed = [f"{'>' if at == 4 else ' '} {line}" for at, line in enumerate(WRITER_STEPS)]
        self.assertEqual(self.writer("to 4; list")[1:], [*listed, f"  {HALTED}"])
        self.assertEqual(self.writer("to 9; list 1")[2:], [f"  {WRITER_STEPS[8]}", f"> {WRITER_STEPS[9]}", f"> {HALTED}"])
        self.assertEqual(self.answers("to 7; list 0", HI)[1:], ["> stop WarmBoot after 7 steps"])

    def test_help(self) -> None:
        words = ["step", "back", "to", "until", "back-until", "until-wrote", "who-wrote", "who-printed", "regs", "mem", "list", "text", "quit",
                 "help"]
        lines = self.writer("help")
        self.assertEqual([line.split(":")[0].split()[0] for line in lines], words)
        self.assertEqual(self.writer(";".join(f"help {word}" for word in words)), lines)

    def test_quit(self) -> None:
        self.assertEqual(self.writer("step; quit; step"), [WRITER_STEPS[1]])

    def test_mistakes_change_nothing(self) -> None:
        number = "is no decimal number of at most 10 digits"
        address = "is no address: 1 to 4 hexadecimal digits"
        for command, message in {
            "step x": f"x {number}",
            "back -1": f"-1 {number}",
            "step 12345678901": f"12345678901 {number}",
            "step 1 2": "expected at most one number",
            "to": "expected the number of a step",
            "to 10": "step 10 is past the stop, which comes after 9 steps",
            "until": "expected an address",
            "until 0100H": f"0100H {address}",
            "back-until 12345": f"12345 {address}",
            "who-wrote 100-101": f"100-101 {address}",
            "who-printed": "expected an offset",
            "who-printed 1": "the console text of the whole run has 1 byte",
            "mem": "expected an address and perhaps a count",
            "mem 100 x": f"x {number}",
            "regs 1": "expected no word after the command",
            "go": "there is no command go; `help` lists them",
            "(": "there is no command (; `help` lists them",
            "!x": "there is no command !x; `help` lists them",
            "help go": "there is no command go; `help` lists them",
        }.items():
            with self.subTest(command):
                self.assertEqual(self.writer(f"to 2; {command};; list 0"), [WRITER_STEPS[2], f"error: {message}", f"> {WRITER_STEPS[2]}"])

    def test_faults(self) -> None:
        self.faulty("--typed and --console exclude each other", HI, "--typed", "a", "--console", "b")
        self.faulty("the runner ended with status 1: cpmrun: cannot read none.com", "none.com")
        self.faulty("none: No such file or directory", HI, "--cpmrun", "none")
        self.faulty("none: No such file or directory", HI, "--cpmtrace", "none")


class Labels(TravelCase):
    """Labels in place of addresses."""

    def labelled(self, commands: str) -> list[str]:
        """Returns what the commands print with labels."""
        return self.writer(commands, "--symbols", self.symbols(cell=0x120, back=0x105, two=0x105, Next=0x107))

    def symbols(self, **labels: int) -> Path:
        """Writes a symbol file with these labels."""
        return self.put("writer.sym", "".join(f"{name}\t\tEQU {address:05X}H\n" for name, address in labels.items()).encode())

    def test_labels_are_shown_and_read(self) -> None:
        lines = [line.replace("cell 0120", "cell cell").replace("0120H", "cell").replace("PC=0107", "PC=Next") for line in WRITER_STEPS]
        lines = [line.replace("PC=0108", "PC=Next+1").replace("PC=010A", "PC=Next+3").replace("PC=010D", "PC=Next+6") for line in lines]
        self.assertEqual(self.labelled("step; until next; who-wrote cell; who-wrote Cell+0; back-until next"),
                         [lines[1], lines[4], lines[3], lines[3], "error: no earlier step is at 0107"])
        self.assertEqual(self.labelled("list 9"), [f"{'>' if at == 0 else ' '} {line}" for at, line in enumerate(lines)] + [f"  {HALTED}"])
        self.assertEqual(self.labelled("to 4; mem cell 1")[1], memory_line(0x120, [0x43]))

    def test_mistakes(self) -> None:
        self.assertEqual(self.labelled("until none; who-wrote abc+x; until back+2; until abc; until fde; until 10000; until $12345"), [
            *(f"error: {word} is no address: 1 to 4 hexadecimal digits or a label" for word in ("none", "abc+x")),
            WRITER_STEPS[4].replace("0107", "Next"), "error: no later step is at 0ABC", "error: no later step is at 0FDE",
            *(f"error: {word} is no address: 1 to 4 hexadecimal digits or a label" for word in ("10000", "$12345")),
        ])

    def test_a_label_of_hexadecimal_letters(self) -> None:
        """The word is the label. With a digit 0 or a `$` before it, and if there is no such label, it is a number."""
        labels = ["--symbols", self.symbols(fcb=0x120, f2=0x107, Bad=0x105)]
        self.assertEqual(self.writer("until f2; back-until BAD; mem fcb 1; mem f2 1; mem f2+1 1", *labels)[2:],
                         [memory_line(address, [byte]) for address, byte in ((0x120, 0x41), (0x107, 0x5E), (0x108, 0x0E))])
        for words, address in (("0fcb", "0FCB", "$fcb", "$0fcb"), 0xFCB), (("0f2", "$f2", "$00F2"), 0xF2), (("0bad", "$BAD"), 0xBAD), \
                (("face", "0face", "$FACE", "$0face"), 0xFACE):
            for word in words:
                self.assertEqual(self.writer(f"mem {word} 1", *labels), [memory_line(address, [0])], word)
        self.assertEqual(self.writer("mem fcb 1; mem 0fcb 1; mem $fcb 1"), [memory_line(0xFCB, [0])] * 3)

    def test_symbols_of_another_program(self) -> None:
        program = self.put("writer.com", WRITER_CODE)
        for labels, refers in ({"a": 0x120, "b": 0x121, "c": 0x105}, None), ({"a": 0x100, "bdos": 5}, None), ({"a": 0x10D}, "0 of its 1 label"), \
                ({"a": 0x120, "b": 0x121, "c": 0x122, "d": 0x123}, "1 of its 4 labels"), ({"a": 0x105, "b": 0x105, "c": 0x107}, "0 of its 2 labels"):
            symbols = self.symbols(**labels)
            warning = "" if refers is None else f"warning: {symbols} may be of another program: {program} refers to {refers}\n"
            status, _, errors = self.outcome(program, "--symbols", symbols)
            self.assertEqual((status, errors), (0, warning), labels)


class Writes(TravelCase):
    """The next write of a cell."""

    def test_until_wrote(self) -> None:
        self.assertEqual(self.writer("until-wrote 120; until-wrote 120; until-wrote 120; until-wrote 120; until-wrote fdfc; until-wrote 121"),
                         [*WRITER_STEPS[1:4], "error: no later step writes 0120", WRITER_STEPS[6], "error: no later step writes 0121"])


LONG_CODE = bytes.fromhex("3E01 323001 0600 0E00 1600 15 C20B01 0D C20901 05 C20701 3E02 323001 C9")
"""Writes 1 to cell 0130, counts three nested loops of 256 turns, and writes 2: MVI A,1; STA 0130H; MVI B,0; 0107: MVI C,0; 0109: MVI D,0;
010B: DCR D; JNZ 010B; DCR C; JNZ 0109; DCR B; JNZ 0107; MVI A,2; STA 0130H; RET."""

LONG_STEPS = 3 + 256 * (1 + 256 * (1 + 512 + 2) + 2) + 3 + 1
"""The steps of LONG_CODE with the jump to the warm start."""


class StretchesTest(unittest.TestCase):
    """The stretches that a search goes through."""

    def test_stretches_have_each_step_once_and_in_order(self) -> None:
        for steps in 0, 1, 999_999, 1_000_000, 1_000_001, 5_000_000, 9_000_000, 9_000_001, 9_000_002, 100_000_001:
            for processors in 1, 2, 3:
                with self.subTest(steps=steps, processors=processors):
                    batches = list(stretches(steps, processors))
                    ends = [0, *(end for batch in batches for _, end in batch)]
                    self.assertEqual([first for batch in batches for first, _ in batch], ends[:-1])
                    self.assertEqual((ends[-1], sorted(set(ends))), (steps, ends))
                    self.assertLessEqual(max(map(len, batches), default=0), processors)


class Long(TravelCase):
    """A run of 34 million steps."""

    def test_a_long_run(self) -> None:
        begun = time.monotonic()
        last = LONG_STEPS - 1
        lines = self.answers(f"to {last}; who-wrote 130; to {last // 2}; regs; back; step; who-wrote 130; until-wrote 130; back-until 107",
                             self.put("long.com", LONG_CODE), "--limit", "100000000")
        self.assertEqual([line.split()[1] for line in (*lines[:3], *lines[4:9])],
                         [str(number) for number in (last, last - 2, last // 2, last // 2 - 1, last // 2, 1, last - 2)] + [lines[8].split()[1]])
        self.assertIn("PC=0107", lines[8])
        self.assertLess(time.monotonic() - begun, 60)


class Terminal(CommandCase):
    """Commands that are typed at a terminal."""

    def converse(self, *turns: tuple[bytes, bytes]) -> tuple[int, bytes]:
        """Types the first of each pair after the second is shown, and returns the status and all that is shown."""
        terminal, end = pty.openpty()
        words = [sys.executable, "-B", TOP / "vembrusk", "travel", self.put("long.com", LONG_CODE), "--limit", "100000000"]
        env = {**os.environ, "TERM": "dumb"}
        with subprocess.Popen(words, stdin=end, stdout=end, stderr=end, start_new_session=True, env=env,
                              preexec_fn=lambda: fcntl.ioctl(0, termios.TIOCSCTTY, 0)) as process:
            os.close(end)
            shown = b""
            for wanted, typed in turns:
                while wanted not in shown:
                    if not select.select([terminal], [], [], 60)[0]:
                        process.kill()
                        self.fail(f"{wanted!r} is not shown: {shown!r}")
                    shown += os.read(terminal, 4096)
                # the prompt is shown shortly before the terminal is read
                time.sleep(0.5)
                os.write(terminal, typed)
            with contextlib.suppress(OSError):
                while piece := os.read(terminal, 4096):
                    shown += piece
        os.close(terminal)
        return process.returncode, shown

    def test_an_interrupt_ends_a_command_or_a_line_and_no_more(self) -> None:
        status, shown = self.converse((b"\n0> ", b"who-wro\x03"), (b"interrupted\r\n0> ", b"who-wrote 130\r"), (b"no earlier", b"to 5\r"),
                                      (b"\n5> ", b"until 9999\r\x03"), (b"interrupted\r\n5> ", b"regs\r"), (b"A=01 F=", b"quit\r"))
        self.assertEqual(status, 0, shown)


class Example(TravelCase):
    """The program of the example."""

    def test_program(self) -> None:
        self.assertEqual(TAG.read_bytes(), TAG_CODE)

    def test_who_wrote_over_the_shelf(self) -> None:
        line = "step 64 regs A=72 F=12 B=07 C=0A D=01 E=31 H=01 L=45 SP=FDFE PC=0111 12 STAX D cell 0131 53 to 72"
        answers = self.answers("step 9999; who-wrote 131; to 64; mem 128; step; mem 128", TAG, "--typed", "Orange marmalade")
        self.assertEqual(answers[1:3], [line, line])
        self.assertEqual(answers[3::2], [memory_line(0x128, [*b"Orange maShelf: "]), memory_line(0x128, [*b"Orange marhelf: "])])


class Memory(TravelCase):
    """What `mem` shows."""

    def mem(self, place: str, step: int, *words: str | Path) -> str:
        """Returns the last line that `mem` shows for this place after these steps."""
        return self.answers(f"to {step}; mem {place}", *words)[-1]

    def test_lines(self) -> None:
        self.assertEqual(memory_line(0x1F0, [0x41, None, 0x7F, 0]), "01F0  41 ?? 7F 00" + " " * 36 + "  |A...|")
        self.assertEqual(memory_line(0, list(range(0x41, 0x51))), "0000  41 42 43 44 45 46 47 48 49 4A 4B 4C 4D 4E 4F 50  |ABCDEFGHIJKLMNOP|")

    def test_instructions(self) -> None:
        program = self.put("writer.com", WRITER_CODE)
        for step, byte in enumerate((0, 0, 0x41, 0x42, 0x43, 0x43, 0x43, 0x43, 0x43, 0x43)):
            self.assertEqual(self.mem("11f 3", step, program), memory_line(0x11F, [0, byte, 0]))
        self.assertEqual(self.mem("fdfc 2", 6, program), memory_line(0xFDFC, [0, 0]))
        self.assertEqual(self.mem("fdfc 2", 7, program), memory_line(0xFDFC, [0x0D, 0x01]))
        self.assertEqual(self.mem("100", 0, program), memory_line(0x100, [*WRITER_CODE, 0, 0]))
        self.assertEqual(self.mem("fffe 9", 0, program), memory_line(0xFFFE, [0, 0]))

    def test_rows(self) -> None:
        program = self.put("writer.com", WRITER_CODE)
        self.assertEqual(self.answers("mem 100 17; mem 100 0", program), [memory_line(0x100, [*WRITER_CODE, 0, 0]), memory_line(0x110, [0])])

    def test_record(self) -> None:
        # the open is step 4, the read step 9; the count of records of the control block is read by nothing
        self.put("x.txt", b"one" + bytes(range(0x80, 0xFD)) + b"two")
        words = [self.put("scan.com", SCAN_CODE), "x.txt", "--files", self.room]
        self.assertEqual(self.mem("80 4", 9, *words), memory_line(0x80, [6, 0x20, 0x58, 0x2E]))
        self.assertEqual(self.mem("7f 5", 10, *words), memory_line(0x7F, [0, *b"one", 0x80]))
        self.assertEqual(self.mem("fe 3", 10, *words), memory_line(0xFE, [0xFB, 0xFC, 0x11]))
        self.assertEqual(self.mem("5c 13", 10, *words), memory_line(0x5C, [0, *b"X       TXT", 0]))
        self.assertEqual(self.mem("69 4", 10, *words), memory_line(0x69, [0, 0, None, 0]))
        self.assertEqual([self.mem("7c 1", step, *words) for step in (9, 10)], [memory_line(0x7C, [place]) for place in (0, 1)])
        self.assertEqual(self.answers("to 10; who-wrote 80; who-wrote 7C; who-wrote 6B", *words)[1:], [
            *["step 9 call 20 read sequential X.TXT record 0 to 0080 = 00"] * 2, "step 4 call 15 open file X.TXT = 00",
        ])

    def test_record_that_is_padded(self) -> None:
        self.put("x.txt", b"one")
        words = [self.put("scan.com", SCAN_CODE), "x.txt", "--files", self.room]
        self.assertEqual(self.mem("82 3", 10, *words), memory_line(0x82, [0x65, 0x1A, 0x1A]))

    def test_line(self) -> None:
        # call 10 is step 9, with its buffer at 013B for at most 16 bytes
        for typed, line in (b"Ada\r", b"Ada"), (b"Adx\x08a\r", b"Ada"), (b"A\x08\x08\x08Bo\n", b"Bo"), (b"\r", b""):
            words = [GREETING, "--console", self.put("typed", typed)]
            self.assertEqual(self.mem("13b 6", 10, *words), memory_line(0x13B, [16, len(line), *line.ljust(4, b"\0")]))
        self.assertEqual(self.mem("13b 6", 9, GREETING, "--typed", "Ada"), memory_line(0x13B, [16, 0, 0, 0, 0, 0]))
        self.assertEqual(self.mem("13b 6", 10, GREETING, "--typed", r"Eve\r"), memory_line(0x13B, [16, 3, *b"Eve", 0]))

    def test_line_that_is_not_plain(self) -> None:
        # DEL prints the removed byte again, so the text `Adaa` may be four bytes or two
        typed = self.put("typed", b"Ada\x7f\r")
        self.assertEqual(self.mem("13b 6", 10, GREETING, "--console", typed), memory_line(0x13B, [16, None, None, None, 0, 0]))
        # at step 15 the program writes 24H after the line: no call wrote that cell
        self.assertEqual(self.mem("13f 1", 16, GREETING, "--console", typed), memory_line(0x13F, [0x24]))


if __name__ == "__main__":
    unittest.main()
