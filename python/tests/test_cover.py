"""Tests of `vembrusk cover`, and of the counts. The environment variable CPMTRACE names the built program."""

import shutil
import subprocess
import tempfile
import unittest
from pathlib import Path

from command_case import EXAMPLES, NEST, SCAN_CODE, CommandCase
from test_reads import Page, browse, pixels_of, with_browser
from vembrusk.cases import Reader
from vembrusk.counts import Counts, add_block, length_of
from vembrusk.covered import percent
from vembrusk.player import put_session, sessions_of

LISTING = EXAMPLES / "tools/nest.lst"

LOOP = bytes.fromhex("0603 05 C20201 C9 00")
"""MVI B,3; 0102: DCR B; JNZ 0102; RET; NOP: the DCR and the JNZ are executed three times."""

HELLO = bytes.fromhex("0E09 110901 CD0500 C9") + b"Hello, world$" + bytes(9)
"""MVI C,9; LXI D,0109H; CALL 5; RET, and data."""

HELLO_LISTING = b"""\
\t\tORG 0100
0100:0E09\tLD C, 09
0102:110901\tLD DE, 0109
0105:CD0500\tCALL 0005
0108:C9\t\tRET
0109:\t\tlabel text
0109:48656C6C\tDEFB of 13 bytes
010D:6F2C2077
0111:6F726C64
0115:24
0116:00000000\tDEFS of 9 bytes with value 00
011A:00000000
011E:00
011F:\t\tEND
Emiting raw binary from 0100 to 011E
"""
"""What `pasmo --w8080 -d` prints of its source."""

LINE = "step {} regs A=00 F=02 B=00 C=00 D=00 E=00 H=00 L=00 SP=FDFE PC={:04X} 00 NOP"


class CountsTest(unittest.TestCase):
    """What is counted."""

    def test_blocks(self) -> None:
        counts = Counts()
        call = 'step 12 call 9 print string 0109 "\\nstep 1 regs A=00 F=02 B=00 C=00 D=00 E=00 H=00 L=00 SP=FDFE PC=0200 00"'
        for block in [LINE.format(10, 0x100), LINE.format(11, 0x101), call], [LINE.format(13, 0x100), LINE.format(14, 0x102)], []:
            add_block(counts, "".join(f"\n{line}" for line in block).encode())
        self.assertEqual((counts.counts, counts.first, counts.steps), ({0x100: 2, 0x101: 1, 0x102: 1}, {0x100: 10, 0x101: 11, 0x102: 14}, 5))

    def test_lengths(self) -> None:
        lengths = [length_of(opcode) for opcode in range(256)]
        self.assertEqual([lengths.count(length) for length in (1, 2, 3)], [256 - 18 - 26, 18, 26])
        self.assertEqual([length_of(opcode) for opcode in (0x3E, 0xFE, 0xDB, 0x31, 0xCD, 0xFA, 0xFC, 0x22, 0xC9, 0x76)],
                         [2, 2, 2, 3, 3, 3, 3, 3, 1, 1])

    def test_percent(self) -> None:
        self.assertEqual([percent(*each) for each in ((0, 3), (1, 3), (2, 3), (3, 3), (9999, 10000), (0, 0))],
                         ["0.0", "33.3", "66.6", "100", "99.9", "100"])


class CoverTest(CommandCase):
    """What the command prints and writes, and its status."""

    command = "cover"

    def test_bytes_without_a_listing(self) -> None:
        program = self.put("loop.com", LOOP)
        symbols = self.put("loop.sym", b"again:\tequ $0102\n")
        self.assertEqual(self.outcome(program, "--symbols", symbols), (0, b"""\
loop.com: 7 of 8 bytes executed (87.5 %), 1 run, 9 steps
  0100-0106 executed
  0107-0107 not executed  again+5
""", ""))

    def test_no_input_is_written(self) -> None:
        program, keys, note = self.put("loop.com", LOOP), self.put("keys", b""), self.put("disk/note.txt", b"one")
        cases, symbols = self.put("cases.txt", b"== one\nprogram loop.com\nconsole keys\nfiles-c disk\n> run\n"), self.put("loop.sym", b"again:\tequ $0102\n")
        for option in "--html", "--lcov":
            more = ["--listing", LISTING, "--symbols", symbols]
            for path in program, keys, note, symbols:
                self.refuses_output(option, path, program, "--console", keys, "--files-c", note.parent, *more)
            for path in cases, program, keys, note, symbols:
                self.refuses_output(option, path, "--cases", cases, *more)

    def test_lines_with_a_listing(self) -> None:
        status, out, errors = self.outcome(NEST, "--typed", "(a)", "--listing", LISTING)
        self.assertEqual((status, errors), (0, ""))
        lines = out.decode().splitlines()
        # of 18 instructions only HLT is not executed; the loop is begun by each of the four bytes that are typed
        self.assertEqual(lines[0], "nest.com: 17 of 18 instructions executed (94.4 %), 1 run, 50 steps")
        found = {line[23:27]: (line[:10].strip(), line[10:21].strip()) for line in lines[2:]}
        self.assertEqual([found[address] for address in ("0100", "0102", "0111", "0118", "011e", "010b")],
                         [("1", "0"), ("4", "1"), ("1", "11"), ("#####", ""), ("1", "39"), ("4", "8")])

    def test_data_of_several_lines(self) -> None:
        """A listing of pasmo has four bytes in a line. The lines of data after the first have bytes alone."""
        listing = self.put("hello.lst", HELLO_LISTING)
        status, out, errors = self.outcome(self.put("hello.com", HELLO), "--listing", listing)
        self.assertEqual((status, errors), (0, ""))
        lines = out.decode().splitlines()
        self.assertEqual(lines[0], "hello.com: 4 of 4 instructions executed (100 %), 1 run, 7 steps")
        self.assertEqual([line.split()[0] for line in lines[3:7]], ["1"] * 4)
        self.assertEqual([line[:22].strip() for line in lines[7:]], [""] * len(lines[7:]))

    @unittest.skipUnless(shutil.which("pasmo"), "there is no pasmo")
    def test_a_listing_that_pasmo_prints(self) -> None:
        source = self.put("hello.asm", b"\torg 100h\n\tld c,9\n\tld de,text\n\tcall 5\n\tret\ntext:\tdb 'Hello, world$'\n\tds 9\n\tend\n")
        done = subprocess.run(["pasmo", "--w8080", "-d", "--bin", source, self.room / "hello.com"], capture_output=True, check=True)
        self.assertEqual(((self.room / "hello.com").read_bytes(), done.stdout), (HELLO, HELLO_LISTING))

    def test_a_run_that_the_limit_stops(self) -> None:
        self.assertEqual(self.outcome(self.put("loop.com", LOOP), "--limit", "3", "--summary"),
                         (0, b"loop.com: 6 of 8 bytes executed (75.0 %), 1 run, 3 steps; 1 stopped by Limit\n", ""))

    def test_lcov(self) -> None:
        info = self.room / "cover.info"
        self.assertEqual(self.outcome(NEST, "--typed", "(a)", "--listing", LISTING, "--lcov", info, "--summary")[0], 0)
        lines = info.read_text().splitlines()
        self.assertEqual(lines[:3] + lines[-3:], ["TN:", f"SF:{LISTING}", "DA:7,1", "LF:18", "LH:17", "end_of_record"])
        self.assertIn("DA:20,0", lines)

    def test_symbols_of_another_program(self) -> None:
        """A file of labels fits if one of the programs refers to a third of them."""
        tag, nest = EXAMPLES / "tools/tag.sym", EXAMPLES / "tools/nest.lst"
        cases = self.put("cases.txt", f"== one\nprogram {NEST}\n> run\n== two\nprogram {EXAMPLES}/tools/tag.com\n> run\n".encode())
        self.assertEqual(self.outcome("--cases", cases, "--summary", "--symbols", tag, "--symbols", nest)[2], "")
        status, out, errors = self.outcome(NEST, "--summary", "--symbols", tag, "--symbols", nest)
        self.assertEqual((status, errors), (0, f"warning: {tag} may be of another program: {NEST} refers to 0 of its 4 labels\n"))

    def test_cases_of_several_programs(self) -> None:
        status, out, errors = self.outcome("--cases", EXAMPLES / "tools", "--summary")
        self.assertEqual((status, errors), (0, ""))
        self.assertRegex(out.decode(), r"^greeting\.com: \d+ of 60 bytes executed \([\d.]+ %\), 5 runs, \d+ steps\n"
                                       r"sort\.com: \d+ of \d+ bytes executed \([\d.]+ %\), 1 run, [\d,]+ steps\n$")

    def test_an_edit_of_a_case_counts(self) -> None:
        self.put("loop.com", LOOP)
        runs = b"> run\nWarmBoot\n> poke 0101 05\nok\n> poke 0200 05\nrefused 6\n> run\nWarmBoot\n"
        cases = self.put("cases.txt", b"== one\nprogram loop.com\n" + runs)
        status, out, _ = self.outcome("--cases", cases, "--summary")
        self.assertEqual((status, out), (0, b"loop.com: 7 of 8 bytes executed (87.5 %), 2 runs, 22 steps\n"))

    def test_files_of_a_case_that_come_and_go(self) -> None:
        """The program halts if its file has a `#`, returns if not, and so it does if there is no file."""
        self.put("scan.com", SCAN_CODE)
        self.put("disk/x.txt", b"#")
        cases = self.put("cases.txt", b"""== one
program scan.com
tail "X.TXT"
files disk
> run
Halt
> gone X.TXT
ok
> run
WarmBoot
> file X.TXT "#"
ok
> run
Halt
""")
        self.assertEqual(self.outcome("--cases", cases, "--summary")[1][-50:].split(b", ")[1], b"3 runs")
        runs = [sessions_of(case) for case in Reader().read(cases)]
        present = []
        for setup in runs[0]:
            with tempfile.TemporaryDirectory() as room:
                folder = Path(put_session(setup, Path(room)).folders["A"])
                present.append([path.name for path in folder.iterdir()])
        self.assertEqual(present, [["x.txt"], [], ["x.txt"]])
        self.assertEqual((self.room / "disk/x.txt").read_bytes(), b"#")

    def page(self) -> str:
        """Returns the page about nest.com and the programs of the cases."""
        program = self.put("<&>.com", LOOP)
        cases = self.put("cases.txt", f"== one\nprogram {NEST}\ntyped (a)\n> run\n== two\nprogram {program}\n> run\n".encode())
        page = self.room / "page.html"
        self.assertEqual(self.outcome("--cases", cases, "--listing", LISTING, "--html", page, "--summary")[0], 0)
        return page.read_text()

    def test_page(self) -> None:
        text = self.page()
        self.assertNotRegex(text, r"(?i)<script|\bsrc=|@import|https?:|url\(|<link")
        self.assertIn("prefers-color-scheme: dark", text)
        page = Page(text)
        self.assertEqual(page.rows["all"][1:], [["nest.com", "17", "18", "instructions", "94.4", "1"],
                                                ["<&>.com", "7", "8", "bytes", "87.5", "1"]])
        self.assertEqual((text.count('class="miss"'), text.count('<tr class="hit"')), (2, 17))
        self.assertEqual(page.links, ["#program1", "#program2"])

    @with_browser
    def test_page_in_a_browser(self) -> None:
        self.page()
        picture = self.room / "page.png"
        for mode, back, hit in ("1", "ffffff", "d9f2df"), ("0", "16181b", "17381f"):
            _, log = browse(self.room / "page.html", self.room, f"--screenshot={picture}", f"--blink-settings=preferredColorScheme={mode}")
            self.assertNotIn("CONSOLE", log)
            colours = pixels_of(picture.read_bytes())
            self.assertEqual(colours.most_common(1)[0][0].hex(), back)
            self.assertGreater(colours[bytes.fromhex(hit)], 300)

    def test_a_long_run(self) -> None:
        """Two nested loops of 256 turns each, three times: the counts are exact beyond a block of the trace."""
        program = self.put("long.com", bytes.fromhex("0603 0E00 1600 15 C20601 0D C20401 05 C20201 C9"))
        status, out, _ = self.outcome(program, "--summary", "--limit", "1000000")
        steps = 1 + 3 * (1 + 256 * (1 + 256 * 2 + 2) + 2) + 2
        self.assertEqual((status, out.decode()), (0, f"long.com: 19 of 19 bytes executed (100 %), 1 run, {steps:,} steps\n"))

    def test_faults(self) -> None:
        self.faulty("either PROGRAM or --cases is needed")
        self.faulty("either PROGRAM or --cases is needed", NEST, "--cases", EXAMPLES)
        self.faulty("--lcov needs --listing", NEST, "--lcov", "x")
        self.faulty(f"{EXAMPLES}/tools/nest.asm is no listing of ASM, MAC, M80, z80asm or pasmo", NEST, "--listing", EXAMPLES / "tools/nest.asm")
        other = EXAMPLES / "tools/tag.com"
        self.faulty(f"{LISTING}:7 is a listing of another program: 0100 06 00 ld b,0 ; how many are open", other, "--listing", LISTING)
        self.faulty("no case names a program by its path", "--cases", self.put("x.txt", b"== one\nHLT\n> run\nHalt\n"))
        self.faulty("none: No such file or directory", "none")
        self.faulty("none: No such file or directory", NEST, "--cpmtrace", "none")


if __name__ == "__main__":
    unittest.main()
