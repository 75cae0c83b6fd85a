"""Tests of `vembrusk label`, and of the symbol files and listings that the tools read. pasmo and z80asm make some, if they are there."""

import shutil
import subprocess
import unittest

from command_case import EXAMPLES, CommandCase, built
from vembrusk.source import read_source
from vembrusk.symbols import Symbols, joined, read_symbols

LABELS = {"bdos": 5, "start": 0x100, "count": 0x10B, "msg": 0x10D, "done": 0x111}

PASMO = "bdos\t\tEQU 00005H\ncount\t\tEQU 0010BH\ndone\t\tEQU 00111H\nmsg\t\tEQU 0010DH\nstart\t\tEQU 00100H\n"

Z80ASM = "bdos:\tequ $0005\ncount:\tequ $010b\ndone:\tequ $0111\nmsg:\tequ $010d\nstart:\tequ $0100\n"

MAC = "0005 BDOS       010B COUNT\t0111 DONE\r\n010D MSG        0100 START\r\n\x1a\x1a"
"""A `.SYM` file of MAC and LINK, which ends as CP/M texts do."""

PRN = """\
 0005 =         BDOS\tEQU\t5\r
 0100           \tORG\t100H\r
 0100 0E09      START:\tMVI\tC,9\r
 0102 110D01    \tLXI\tD,MSG\r
 0105 CD0500    \tCALL\tBDOS\r
 0108 C31101    \tJMP\tDONE\r
 010B 0001      COUNT:\tDB\t0,1\r
 010D 48690D24  MSG:\tDB\t'Hi',13,'$'\r
 0111 C9        DONE\tRET\r
 0400 =         SIZE\tEQU\t400H\r
 0112           \tEND\r
\x1a"""
"""A listing of ASM."""

M80 = """\
\tMACRO-80 3.44\t09-Dec-81\tPAGE\t1\r
\r
  0000                  \t\tASEG\r
                        \t\tORG\t100H\r
  0005                  \tBDOS\tEQU\t5\r
  0100   0E 09          \tSTART:\tMVI\tC,9\r
  0102   11 010D        \t\tLXI\tD,MSG\r
  0105   CD 0005        \t\tCALL\tBDOS\r
  0108   C3 0111        \t\tJMP\tDONE\r
  010B   00 01          \tCOUNT:\tDB\t0,1\r
  010D   48 69 0D 24    \tMSG:\tDB\t'Hi',13,'$'\r
  0111   C9             \tDONE:\tRET\r
                        \t\tEND\tSTART\r
\x0c\tMACRO-80 3.44\t09-Dec-81\tPAGE\tS\r
\r
Macros:\r
\r
Symbols:\r
0005 \tBDOS            010B \tCOUNT           0111 \tDONE            \r
010D I\tMSG             0100 \tSTART           0003'\tOTHER           \r
\r
No Fatal error(s)\r
"""
"""A listing of M80. OTHER is relocatable, so its address is not known."""

SOURCE = """\
bdos:   equ 5
        org 100h
start:  ld c,9
        ld de,msg
        call bdos
        jp done
count:  db 0,1
msg:    db "Hi",13,"$"
done:   ret
"""

CODE = bytes.fromhex("0E09 110D01 CD0500 C31101 0001 48690D24 C9")

REGISTERS = "A=00 F=02 B=00 C=09 D=01 E=0D H=00 L=00 SP=FDFE"


class SymbolsTest(CommandCase):
    """What is read of each form."""

    def labels(self, name: str, text: str) -> dict[str, int]:
        """Returns the labels of a file in small letters."""
        found = read_symbols([self.put(name, text.encode("latin-1"))]).addresses
        return {label.lower(): address for label, (address,) in found.items()}

    def test_each_form(self) -> None:
        for name, text in ("pasmo", PASMO), ("z80asm", Z80ASM), ("mac", MAC), ("asm", PRN), ("m80", M80):
            with self.subTest(name):
                self.assertEqual(self.labels(name, text), LABELS)

    def test_files_of_the_assemblers(self) -> None:
        source = self.put("x.asm", SOURCE.encode())
        for words in ["pasmo", "--w8080", "--bin", source, "x.com", "x.sym"], ["z80asm", "--label=x.sym", "--list=x.lst", "-o", "x.com", source]:
            if shutil.which(str(words[0])):
                with self.subTest(words[0]):
                    subprocess.run(words, cwd=self.room, check=True)
                    self.assertEqual((self.room / "x.com").read_bytes(), CODE)
                    self.assertEqual(self.labels("y.sym", (self.room / "x.sym").read_text()), LABELS)

    def test_listings(self) -> None:
        lines = ["0100 0e 09\t\tstart:  ld c,9", "0102 11 0d 01\t\t        ld de,msg", "0105 cd 05 00\t\t        call bdos",
                 "0108 c3 11 01\t\t        jp done", "010b 00 01\t\tcount:  db 0,1", '010d .. 0d ..\t\tmsg:    db "Hi",13,"$"',
                 "0111 c9\t\tdone:   ret"]
        debug = ["0100:\t\tlabel start", "0100:0E09\tLD C, 09", "0102:110D01\tLD DE, 010D", "0105:CD0500\tCALL 0005", "0108:C31101\tJP 0111",
                 "010B:\t\tlabel count", "010B:0001\tDEFB of 2 bytes", "010D:48690D24\tDEFB of 4 bytes", "0111:C9\t\tRET",
                 "0112:01020304\tDEFB of 9 bytes", "0116:05060708", "011A:09", "011B:00000000\tDEFS of 6 bytes with value 00", "011F:0000"]
        code = [(0x100, b"\x0e\x09"), (0x102, b"\x11\x0d\x01"), (0x105, b"\xcd\x05\x00"), (0x108, b"\xc3\x11\x01"), (0x111, b"\xc9")]
        for name, text in ("asm", PRN), ("m80", M80), ("z80asm", "\n".join(lines)), ("pasmo", "\n".join(debug)):
            with self.subTest(name):
                source = read_source(self.put(name, text.encode("latin-1")))
                self.assertEqual([(line.address, line.code) for line in source.lines if line.is_code], code)
                source.check(CODE)
                with self.assertRaisesRegex(ValueError, "is a listing of another program"):
                    source.check(CODE.replace(b"\xc3", b"\xcd"))

    def test_a_label_of_several_addresses(self) -> None:
        symbols = Symbols()
        symbols.add([("here", 0x100), ("here", 0x200), ("one", 0x300), ("two", 0x300), ("Up", 0x400), ("up", 0x500)])
        with self.assertRaisesRegex(ValueError, "the label here has several addresses"):
            symbols.address("here")
        self.assertEqual([symbols.label(address) for address in (0x100, 0x300, 0x400)], [None, None, "Up"])
        self.assertEqual([symbols.address(word) for word in ("up", "Up", "ONE+2", "none", "one+x")], [0x500, 0x400, 0x302, None, None])
        with self.assertRaises(ValueError):
            symbols.address("UP")
        self.assertEqual(symbols.place(0x301), None)


class LinesTest(unittest.TestCase):
    """Lines with labels."""

    def setUp(self) -> None:
        self.symbols = Symbols()
        self.symbols.add([*LABELS.items(), ("cr", 13)])

    def expect(self, line: str, wanted: str) -> None:
        self.assertEqual(self.symbols.line(line), wanted)

    def test_instructions(self) -> None:
        for text, wanted in {
            "CALL 0005H": "CALL bdos", "JMP 0111H": "JMP done", "JNZ 0103H": "JNZ start+3", "LXI D,010DH": "LXI D,msg",
            "LXI D,010EH": "LXI D,010EH",
            "LXI B,000DH": "LXI B,000DH", "LDA 010CH": "LDA count+1", "STA 0FE06H": "STA 0FE06H", "MVI C,09H": "MVI C,09H", "RET": "RET",
            "JMP 0210H": "JMP done+255", "JMP 0211H": "JMP 0211H",
        }.items():
            with self.subTest(text):
                self.expect(f"step 3 regs {REGISTERS} PC=0105 CD0500 {text}", f"step 3 regs {REGISTERS} PC=start+5 CD0500 {wanted}")

    def test_cells(self) -> None:
        self.expect(f"step 3 regs {REGISTERS} PC=0100 34 INR M cell 010C 00 to 01 cell FDFC 00 to 08",
                    f"step 3 regs {REGISTERS} PC=start 34 INR M cell count+1 00 to 01 cell FDFC 00 to 08")

    def test_calls(self) -> None:
        for line, wanted in {
            'step 4 call 9 print string 010D "Hi 010D"': 'step 4 call 9 print string msg "Hi 010D"',
            "step 4 call 26 set dma address 0300": "step 4 call 26 set dma address 0300",
            "step 4 call 20 read sequential X record 0 to 010C = 00": "step 4 call 20 read sequential X record 0 to count+1 = 00",
            'step 4 call 2 console output 0D "\\r"': 'step 4 call 2 console output 0D "\\r"',
            "stop WarmBoot": "stop WarmBoot",
        }.items():
            self.expect(line, wanted)

    def test_joined_calls(self) -> None:
        output = ['step 4 call 2 console output 48 "H"', 'step 9 call 2 console output 69 "i"']
        other = "step 12 call 11 console status = 00"
        self.assertEqual(list(joined([*output, other, output[0], "stop Halt"])),
                         ['steps 4-9 call 2 console output "Hi"', other, output[0], "stop Halt"])
        self.assertEqual(list(joined(output)), ['steps 4-9 call 2 console output "Hi"'])
        self.assertEqual(list(joined([])), [])


class LabelTest(CommandCase):
    """What the command prints, and its status."""

    command = "label"

    def test_a_trace_on_standard_input_or_in_a_file(self) -> None:
        trace = b'step 4 call 9 print string 010D "Hi"\nwhat\nstop WarmBoot\n'
        wanted = b'step 4 call 9 print string msg "Hi"\nwhat\nstop WarmBoot\n'
        symbols = self.put("x.sym", PASMO.encode())
        self.assertEqual(self.outcome(symbols, commands=trace), (0, wanted, ""))
        self.assertEqual(self.outcome(symbols, "--trace", self.put("trace", trace)), (0, wanted, ""))
        self.assertEqual(self.outcome("--join", commands=trace), (0, trace, ""))

    def test_a_real_trace(self) -> None:
        tag = EXAMPLES / "tools/tag.com"
        trace = subprocess.run([built("cpmtrace"), tag, "--typed", "Ada", "--steps"], capture_output=True, check=True).stdout
        status, out, errors = self.outcome(EXAMPLES / "tools/tag.sym", commands=trace)
        self.assertEqual((status, errors, out.count(b"\n")), (0, "", trace.count(b"\n")))
        for part in b"LXI D,line", b"PC=copy+1 12 STAX D cell name 20 to 41", b"JNZ copy", b"LXI D,tag":
            self.assertIn(part, out)

    def test_faults(self) -> None:
        reason = "is no symbol file of pasmo, z80asm, MAC or LINK, and no listing of ASM, MAC or M80"
        for name in "empty", "asm":
            path = self.put(name, b"" if name == "empty" else SOURCE.encode())
            self.faulty(f"{path} {reason}", path)
        path = EXAMPLES / "hi/hi.com"
        self.faulty(f"{path} {reason}", path)
        self.faulty("none: No such file or directory", "none")


if __name__ == "__main__":
    unittest.main()
