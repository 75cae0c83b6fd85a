"""Tests of `vembrusk reads` and `listing.py`. The environment variable CPMDEPS names the built program."""

import shutil
import struct
import subprocess
import unittest
import zlib
from collections import Counter
from html.parser import HTMLParser
from pathlib import Path

from command_case import SCAN_CODE, CommandCase, built
from vembrusk.session import UnknownReply
from vembrusk.listing import FileReads, Listing, parse_listing, read_listing, rows_of
from vembrusk.reads import MOST_ROWS, SHADES, WIDTH, Scale, Section, dump
from vembrusk.words import SessionWords

COMMAND = built("cpmdeps")
BROWSER = shutil.which("chromium")

# LXI, MVI and CALL are the steps 0 to 2, the jump at 0005 is step 3 and the call step 4. The second call is step 9, and the loop of five
# instructions begins at step 11. It ends after 128 bytes, and the RET is step 11 + 5 * 128. The HLT is not read.
SCAN_STEPS = [
    *[0] * 3, *[1] * 2, *[2] * 3, *[5] * 3, *[6] * 2, *[7] * 3, *[10] * 3, 11, *[12] * 2, *[13] * 3, 14, *[15] * 3, 11 + 5 * 128, None,
]

TYPED_CODE = bytes.fromhex("0E01 CD0500 0E01 CD0500 C9")
"""Reads two bytes of the script: twice MVI C,1; CALL 5; and then RET."""

SEARCH_CODE = bytes.fromhex("0E11 115C00 CD0500 0E0F 116C00 CD0500 C9")
"""Searches the first name of its tail and opens the second: MVI C,17; LXI D,5CH; CALL 5; MVI C,15; LXI D,6CH; CALL 5; RET."""

NO_HOST_NAME = "=0041" + "20" * 7 + "3F2020"
"""A name on drive A: `A`, seven blanks, and the type `?`."""

EVERY_LINE = f"""page 0005-0007 step 3
program 0100-0101 0103 step 0
program 0102 step 1
script 0-2 7 step 4
script end step 9
file A.TXT step 5
file B:A step 8
none {NO_HOST_NAME} step 6
none B.TXT step 6
length A.TXT 2 step 5
record A.TXT 0-1 step 7
directory C step 2
stop Undefined ED
"""


class Page(HTMLParser):
    """The cells of the dumps of a page, the texts of the rows of its tables, its shades and its pictures."""

    def __init__(self, text: str) -> None:
        super().__init__()
        self.cells: dict[str, list[tuple[int, int | None]]] = {}
        self.rows: dict[str, list[list[str]]] = {}
        self.gaps: list[str] = []
        self.legend: list[str] = []
        self.pictures: list[str] = []
        self.facts: dict[str, list[str]] = {}
        self.shades: dict[int, set[str]] = {}
        self.tags: Counter[str] = Counter()
        self.links: list[str] = []
        self._section = self._text = ""
        self._of_cell: dict[str, str | None] = {}
        self.feed(text)

    def handle_starttag(self, tag: str, pairs: list[tuple[str, str | None]]) -> None:
        self.tags[tag] += 1
        values = dict(pairs)
        self._of_cell, self._text = values, ""
        if tag == "section":
            self._section = values["id"] or ""
        elif tag == "a":
            self.links.append(values["href"] or "")
        elif tag == "svg":
            self.pictures.append(values["aria-label"] or "")
        elif tag == "tr":
            self.rows.setdefault(self._section, []).append([])

    def handle_data(self, text: str) -> None:
        self._text += text

    def handle_endtag(self, tag: str) -> None:
        kind, title = self._of_cell.get("class") or "", self._of_cell.get("title")
        if tag == "td" and kind == "gap":
            self.gaps.append(self._text)
        elif tag == "td" and (kind.startswith("s") or not kind):
            self._cell(kind, title)
        elif tag == "li" and kind:
            self.legend.append(self._text)
        elif tag == "p":
            self.facts.setdefault(self._section, []).append(self._text)

    def _cell(self, kind: str, title: str | None) -> None:
        self.rows[self._section][-1].append(self._text)
        if len(self._text) == 2:
            step = None if title is None else int(title.removeprefix("step "))
            self.cells.setdefault(self._section, []).append((int(self._text, 16), step))
            if step is not None:
                self.shades.setdefault(step, set()).add(kind)
            elif kind:
                raise ValueError("a shade without a step")


class ListingTest(unittest.TestCase):
    """What `listing.py` makes of a listing."""

    def test_every_line(self) -> None:
        listing = parse_listing(EVERY_LINE)
        self.assertEqual(listing.cells, {5: 3, 6: 3, 7: 3, 0x100: 0, 0x101: 0, 0x103: 0, 0x102: 1})
        self.assertEqual((listing.script, listing.script_end), ({0: 4, 1: 4, 2: 4, 7: 4}, 9))
        self.assertEqual((listing.directories, listing.stop), ({"C": 2}, "Undefined ED"))
        self.assertEqual(list(listing.files), [NO_HOST_NAME, "A.TXT", "B.TXT", "B:A"])
        self.assertEqual(listing.files["A.TXT"], FileReads(True, 5, 2, 5, {0: 7, 1: 7}))
        self.assertEqual(listing.files["B.TXT"], FileReads(False, 6))
        self.assertEqual(parse_listing("stop Limit\n"), Listing("Limit"))

    def test_other_lines(self) -> None:
        for line in "", "page", "page 0000", "page step 1", "page 0000 step x", "script x step 1", "other 1 step 1", "length X step 1":
            with self.subTest(line), self.assertRaises(UnknownReply):
                parse_listing(f"{line}\n")

    def test_rows(self) -> None:
        self.assertEqual(list(rows_of([1, 2, 3, 5, 7, 8])), [(1, 3), (5, 5), (7, 8)])
        self.assertEqual(list(rows_of([])), [])


class ScaleTest(unittest.TestCase):
    """The shades of steps."""

    def test_shades(self) -> None:
        for count in range(1, 30):
            scale = Scale(range(0, 10 * count, 10))
            shades = [scale.shade(10 * at) for at in range(count)]
            self.assertEqual(shades, sorted(shades))
            self.assertEqual(len(set(shades)), min(count, SHADES))
            self.assertEqual((shades[0], shades[-1]), ("s0", "s7" if count > 1 else "s0"))
        self.assertIn("not read", Scale([]).legend())


class DumpTest(unittest.TestCase):
    """Which rows a dump has."""

    def rows(self, length: int, *read: int) -> tuple[int, list[str]]:
        """Returns the count of rows, and the lines for rows that are left out, of a dump of which these bytes were read."""
        page = Page(dump(Section("mark", "Title", [], bytes(length), 0, {at: 0 for at in read}), Scale([0])))
        return page.tags["tr"] - 1 - len(page.gaps), page.gaps

    def test_rows_that_were_not_read(self) -> None:
        self.assertEqual(self.rows(3 * WIDTH + 1), (0, ["49 bytes that were not read"]))
        self.assertEqual(self.rows(3 * WIDTH), (3, []))
        self.assertEqual(self.rows(9 * WIDTH, 4 * WIDTH), (1, ["64 bytes that were not read"] * 2))
        self.assertEqual(self.rows(9 * WIDTH, 3 * WIDTH, 7 * WIDTH), (9, []))

    def test_a_dump_has_an_end(self) -> None:
        length = MOST_ROWS * WIDTH
        self.assertEqual(self.rows(length, *range(length)), (MOST_ROWS, []))
        self.assertEqual(self.rows(length + 1, *range(length + 1)), (MOST_ROWS, ["1 more byte, which only the bar shows"]))


class ReadsCase(CommandCase):
    """A case that makes pages."""

    command = "reads"

    def scan(self) -> list[str | Path]:
        """Returns the arguments for a run that reads one record of three."""
        (self.room / "a & b").mkdir()
        self.put("a & b/x.txt", bytes(range(200)) + b"X" * 100)
        return [self.put("scan.com", SCAN_CODE.replace(b"\xfe\x23", b"\xfe\xff")), "x.txt", "--files", self.room / "a & b"]


class Reads(ReadsCase):
    """What the page shows."""

    def page(self, *words: str | Path) -> Page:
        status, text, errors = self.outcome(*words, "--cpmdeps", COMMAND)
        self.assertEqual((status, errors), (0, ""))
        return Page(text.decode())

    def test_program_and_file(self) -> None:
        page = self.page(*self.scan())
        code = SCAN_CODE.replace(b"\xfe\x23", b"\xfe\xff")
        self.assertEqual(page.cells["program"], list(zip(code, SCAN_STEPS, strict=True)))
        self.assertEqual(page.cells["file1"], [(byte, 9) for byte in range(128)])
        self.assertEqual(page.gaps, ["172 bytes that were not read"])
        self.assertEqual(page.facts["program"], ["30 of 31 bytes read."])
        self.assertEqual(page.facts["file1"], ["Step 4 asked whether it is there.",
                                               "Step 4 asked for the number of its records, which is 3.", "1 of 3 records read."])
        self.assertEqual(page.pictures, ["Program: 30 of 31 bytes read", "File X.TXT: 128 of 300 bytes read"])
        self.assertEqual(page.links, ["#program", "#file1", "#memory"])
        self.assertEqual(page.rows["memory"][1:], [
            ["0000 to 0002", "jump of the warm start", "652"], ["0005 to 0007", "jump for system calls", "3"],
            ["005C to 006B", "control block with the first name of the command tail", "4"],
            ["006C to 007B", "second name of the command tail, or the rest of that control block", "4"],
            ["007C", "record numbers of that control block", "4"],
            ["FDFE to FDFF", "zero: no byte of the program is there", "651"]])

    def test_shades_go_from_early_to_late(self) -> None:
        page = self.page(*self.scan())
        shades = [page.shades[step] for step in sorted(page.shades)]
        self.assertTrue(all(len(each) == 1 for each in shades))
        names = [next(iter(each)) for each in shades]
        self.assertEqual(names, sorted(names))
        self.assertEqual(set(names), {f"s{number}" for number in range(SHADES)})
        self.assertEqual((page.legend[0], page.legend[-2:]), ("0 to 1", ["651", "not read"]))

    def test_script(self) -> None:
        program, script = self.put("typed.com", TYPED_CODE), self.put("typed", b"x")
        page = self.page(program, "--console", script)
        self.assertEqual(page.cells["script"], [(ord("x"), 3)])
        self.assertEqual(page.facts["script"], ["1 of 1 byte read.", "Step 7 asked for a byte after the last one."])
        self.assertEqual(page.cells["program"][5:], [(0x0E, 4), (1, 4), (0xCD, 5), (5, 5), (0, 5), (0xC9, None)])
        page = self.page(program)
        self.assertEqual(page.facts["script"], ["It is empty.", "Step 3 asked for a byte after the last one."])
        page = self.page(program, "--console", script, "--limit", "0")
        self.assertEqual(page.cells, {"program": [(byte, None) for byte in TYPED_CODE], "script": [(ord("x"), None)]})

    def test_directories_and_missing_files(self) -> None:
        page = self.page(self.put("search.com", SEARCH_CODE), "*.txt gone.txt", "--files", self.put("note.txt", b"1").parent)
        self.assertEqual(page.rows["directories"][1:], [["A", "4"]])
        self.assertEqual(page.rows["missing"][1:], [["GONE.TXT", "9"]])
        self.assertNotIn("file1", page.facts)

    def test_links_folders_and_other_letters_are_no_host_files(self) -> None:
        words = self.scan()
        folder = self.room / "a & b"
        (folder / "x.txt").rename(folder / "X.txt")
        for name in "x.txt", "x.TXT":
            (folder / name).symlink_to("X.txt") if name == "x.txt" else (folder / name).mkdir()
        (folder / "\u017f.txt").write_bytes(b"S")
        self.assertEqual([byte for byte, _ in self.page(*words).cells["file1"]], list(range(128)))
        words = [SessionWords("x.com", folders={"A": str(folder)}), SessionWords("x.com")]
        self.assertEqual(words[0].place_of("x.txt"), ("A", folder / "X.txt"))
        for name, each in ("s.txt", words[0]), ("x.txt", words[1]), ("e:x.txt", words[0]):
            with self.subTest(name), self.assertRaises(ValueError):
                each.place_of(name)

    def test_the_page_needs_nothing_else(self) -> None:
        status, text, _ = self.outcome(*self.scan(), "--cpmdeps", COMMAND)
        self.assertNotRegex(text.decode(), r"(?i)<script|\bsrc=|@import|https?:|url\(|<link")
        self.assertIn("a &amp; b", self.outcome(self.put("a & b.com", b"\xc9"), "--cpmdeps", COMMAND)[1].decode())
        tags = Page(text.decode()).tags
        for tag in "html", "head", "title", "body", "header", "nav", "main", "h1":
            self.assertEqual(tags[tag], 1 + (tag == "title") * 2, tag)

    def test_output(self) -> None:
        words = [*self.scan(), "--cpmdeps", COMMAND]
        text = self.outcome(*words)[1]
        self.assertEqual(self.outcome(*words, "-o", self.room / "page.html"), (0, b"", ""))
        self.assertEqual((self.room / "page.html").read_bytes(), text)

    def test_no_input_is_written(self) -> None:
        program, keys, note = self.put("typed.com", TYPED_CODE), self.put("keys", b""), self.put("disk/note.txt", b"one")
        for path in program, keys, note:
            self.refuses_output("-o", path, program, "--console", keys, "--disk", note.parent)

    def test_listing_of_a_run(self) -> None:
        program, _, _, folder = self.scan()
        listing = read_listing(COMMAND, program, "x.txt", folders={"A": folder}, limit=10)
        self.assertEqual((listing.stop, listing.files["X.TXT"]), ("Limit", FileReads(True, 4, 3, 4, {0: 9})))

    def test_faults(self) -> None:
        self.faulty("the runner ended with status 1: cpmdeps: cannot read none", "none", "--cpmdeps", COMMAND)
        self.faulty("none: No such file or directory", self.put("typed.com", TYPED_CODE), "--cpmdeps", "none")
        self.faulty("argument --limit: invalid int value: 'x'", "none", "--limit", "x")


def contrast(one: str, other: str) -> float:
    """Returns the contrast of two colours as WCAG 2 defines it, from 1 to 21."""
    lights = []
    for colour in one, other:
        parts = [part / 255 for part in bytes.fromhex(colour)]
        linear = [part / 12.92 if part <= 0.03928 else ((part + 0.055) / 1.055) ** 2.4 for part in parts]
        lights.append(0.2126 * linear[0] + 0.7152 * linear[1] + 0.0722 * linear[2] + 0.05)
    return max(lights) / min(lights)


def pixels_of(png: bytes) -> Counter[bytes]:
    """Returns the colours of a picture with 8 bits for each of 3 or 4 channels, and how many pixels have each."""
    at, data = 8, b""
    while at < len(png):
        length, kind = struct.unpack(">I4s", png[at:at + 8])
        if kind == b"IHDR":
            width, _, _, colours = struct.unpack(">IIBB", png[at + 8:at + 18])
        data += png[at + 8:at + 8 + length] if kind == b"IDAT" else b""
        at += length + 12
    size = 4 if colours == 6 else 3
    raw, row = zlib.decompress(data), width * size
    before, counts = bytearray(row), Counter()
    for start in range(0, len(raw), row + 1):
        line = _unfiltered(raw[start], bytearray(raw[start + 1:start + 1 + row]), before, size)
        counts.update(bytes(line[x:x + 3]) for x in range(0, row, size))
        before = line
    return counts


def _unfiltered(kind: int, line: bytearray, above: bytearray, size: int) -> bytearray:
    """Returns a line of a PNG picture from what its filter made of it."""
    for x in range(len(line)) if kind else ():
        left, up, corner = (line[x - size] if x >= size else 0), above[x], (above[x - size] if x >= size else 0)
        if kind == 4:
            guess = left + up - corner
            value = min((left, up, corner), key=lambda each: abs(guess - each))
        else:
            value = (0, left, up, (left + up) // 2)[kind]
        line[x] = (line[x] + value) & 0xFF
    return line


def browse(page: Path, room: Path, *options: str) -> tuple[str, str]:
    """Returns what the browser prints for a page, and what it logs."""
    words = [BROWSER, "--headless", "--no-sandbox", "--disable-gpu", "--hide-scrollbars", f"--user-data-dir={room}/profile",
             "--enable-logging=stderr", "--window-size=900,1000", *options, page.as_uri()]
    done = subprocess.run(words, stdin=subprocess.DEVNULL, capture_output=True, timeout=120)
    if done.returncode != 0:
        raise ValueError(done.stderr.decode("utf-8", "replace"))
    return done.stdout.decode(), done.stderr.decode("utf-8", "replace")


with_browser = unittest.skipUnless(BROWSER, "there is no chromium")


@with_browser
class Browser(ReadsCase):
    """The page in a real browser."""

    def test_the_browser_has_the_cells_of_the_page(self) -> None:
        page = self.room / "page.html"
        self.assertEqual(self.outcome(*self.scan(), "--cpmdeps", COMMAND, "-o", page), (0, b"", ""))
        shown, log = browse(page, self.room, "--dump-dom")
        wanted, found = Page(page.read_text()), Page(shown)
        self.assertEqual((found.cells, found.shades, found.tags), (wanted.cells, wanted.shades, wanted.tags))
        self.assertNotIn("CONSOLE", log)
        _, log = browse(self.put("wrong.html", b"<script>console.error('x')</script>"), self.room, "--dump-dom")
        self.assertIn("CONSOLE", log)

    def test_the_shades_are_drawn(self) -> None:
        page, picture = self.room / "page.html", self.room / "page.png"
        self.assertEqual(self.outcome(*self.scan(), "--cpmdeps", COMMAND, "-o", page), (0, b"", ""))
        light = "440154", "46327e", "365c8d", "277f8e", "1fa187", "4ac16d", "a0da39", "fde725"
        dark = "31688e", "2a788e", "21918c", "22a884", "44bf70", "7ad151", "bddf26", "fde725"
        for mode, back, shades in ("1", "ffffff", light), ("0", "16181b", dark):
            browse(page, self.room, f"--screenshot={picture}", f"--blink-settings=preferredColorScheme={mode}")
            colours = pixels_of(picture.read_bytes())
            self.assertEqual(colours.most_common(1)[0][0].hex(), back)
            self.assertGreater(contrast(shades[0], back), 2.9)
            for shade in shades:
                self.assertGreater(colours[bytes.fromhex(shade)], 300, shade)


if __name__ == "__main__":
    unittest.main()
