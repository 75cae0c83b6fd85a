"""Shows what a run read as a page in HTML: the program, the script and each host file as a hex dump, with bytes shaded by the step that
first read them. The page needs no network and no script.
"""

from __future__ import annotations

import argparse
from collections.abc import Iterable, Iterator, Mapping
from dataclasses import dataclass
from html import escape
from pathlib import Path

from .listing import FileReads, Listing, rows_of
from .page import STYLE, document, table, write_page
from .words import Arguments, SessionWords, check_output, session_of

LOAD_ADDRESS = 0x100
RECORD = 128
WIDTH = 16
"""The bytes of a row of a dump."""

SHADES = 8
GAP = 4
"""The fewest rows without a byte that was read that become one line."""

MOST_ROWS = 4096
"""The most rows of a dump."""

REGIONS = [
    (0x0000, "jump of the warm start"), (0x0003, "I/O byte and current drive"), (0x0005, "jump for system calls"),
    (0x0008, "nothing"), (0x005C, "control block with the first name of the command tail"),
    (0x006C, "second name of the command tail, or the rest of that control block"), (0x007C, "record numbers of that control block"),
    (0x0080, "command tail, after its length"), (LOAD_ADDRESS, ""),
]
"""The first cells of the parts of page zero, and what is there."""



class Scale:
    """Shades for steps, from early to late, about as many steps of the listing in each."""

    def __init__(self, steps: Iterable[int]) -> None:
        self._steps = sorted(set(steps))
        self._shades = {step: self._shade(at) for at, step in enumerate(self._steps)}

    def _shade(self, at: int) -> int:
        count = min(SHADES, len(self._steps))
        part = at * count // len(self._steps)
        return part * (SHADES - 1) // max(count - 1, 1)

    def shade(self, step: int) -> str:
        """Returns the class of this step."""
        return f"s{self._shades[step]}"

    def legend(self, rest: str = "not read") -> str:
        """Returns a list of the shades with the first and the last step of each."""
        items = []
        for shade in range(SHADES):
            steps = [step for step in self._steps if self._shades[step] == shade]
            if steps:
                items.append(f'<li class="s{shade}">{_numbers(steps[0], steps[-1])}</li>')
        return f'<ol class="legend">{"".join(items)}<li class="plain">{rest}</li></ol>'


@dataclass(frozen=True)
class Section:
    """A part of the page about one input."""

    mark: str
    """The target of links to it."""
    title: str
    facts: list[str]
    """What was asked, as paragraphs."""
    data: bytes = b""
    start: int = 0
    """The number of its first byte."""
    steps: Mapping[int, int] | None = None
    """For each byte that was read, by its index, the first step; None without a dump."""

    def html(self, scale: Scale) -> str:
        """Returns the section with its picture and its dump."""
        parts = [f'<section id="{self.mark}">', f"<h2>{escape(self.title)}</h2>", *(f"<p>{escape(fact)}</p>" for fact in self.facts)]
        if self.steps is not None and self.data:
            parts += [bar(self, scale), f'<div class="scroll">{dump(self, scale)}</div>']
        return "\n".join([*parts, "</section>"])


def _numbers(first: int, last: int) -> str:
    return f"{first:,}" if first == last else f"{first:,} to {last:,}"


def _part(count: int, total: int, unit: str) -> str:
    """Returns how many of these were read."""
    return f"{count:,} of {total:,} {unit}{'s' * (total != 1)} read"


def bar(section: Section, scale: Scale) -> str:
    """Returns a picture of the bytes from the first to the last, with the ones that were read in their shades."""
    steps, total = section.steps or {}, len(section.data)
    shades = [scale.shade(steps[at]) if at in steps else "" for at in range(total)]
    pieces, start = [], 0
    for at in range(1, total + 1):
        if at == total or shades[at] != shades[start]:
            if shades[start]:
                pieces.append(f'<rect class="{shades[start]}" x="{start}" width="{at - start}" height="1"/>')
            start = at
    label = escape(f"{section.title}: {_part(len(steps), total, 'byte')}")
    return (f'<svg class="bar" role="img" viewBox="0 0 {total} 1" preserveAspectRatio="none" aria-label="{label}">'
            f"<title>{label}</title>{''.join(pieces)}</svg>")


def dump(section: Section, scale: Scale) -> str:
    """Returns a table with the bytes in rows of 16. Rows that were not read are left out if there are many of them."""
    head = "".join(f'<th scope="col">{column:X}</th>' for column in range(WIDTH))
    lines = [f'<table class="dump"><thead><tr><td></td>{head}<td></td></tr></thead>', "<tbody>"]
    shown, total = 0, len(section.data)
    for start, end, is_read in _stretches(section):
        if not is_read and end - start > (GAP - 1) * WIDTH:
            lines.append(_gap(f"{end - start:,} bytes that were not read"))
            continue
        rows = range(start, min(end, start + (MOST_ROWS - shown) * WIDTH), WIDTH)
        lines += [_dump_row(section, scale, row) for row in rows]
        shown += len(rows)
        if start + len(rows) * WIDTH < end:
            left = total - start - len(rows) * WIDTH
            lines.append(_gap(f"{left:,} more byte{'s' * (left != 1)}, which only the bar shows"))
            break
    return "\n".join([*lines, "</tbody></table>"])


def _stretches(section: Section) -> Iterator[tuple[int, int, bool]]:
    """Yields the first byte, the end, and whether any was read, of rows next to each other that are alike in this."""
    steps, total, start = section.steps or {}, len(section.data), 0
    is_read = [any(at in steps for at in range(row, min(row + WIDTH, total))) for row in range(0, total, WIDTH)]
    for row, was_read in enumerate(is_read):
        if row + 1 == len(is_read) or is_read[row + 1] != was_read:
            yield start, min((row + 1) * WIDTH, total), was_read
            start = (row + 1) * WIDTH


def _gap(text: str) -> str:
    return f'<tr><td class="gap" colspan="{WIDTH + 2}">{text}</td></tr>'


def _dump_row(section: Section, scale: Scale, row: int) -> str:
    """Returns the row that begins with the byte of this index."""
    data, steps = section.data[row:row + WIDTH], section.steps or {}
    cells = []
    for at, byte in enumerate(data, row):
        shade = f' class="{scale.shade(steps[at])}" title="step {steps[at]}"' if at in steps else ""
        cells.append(f"<td{shade}>{byte:02X}</td>")
    cells += ["<td></td>"] * (WIDTH - len(data))
    text = escape("".join(chr(byte) if 0x20 <= byte < 0x7F else "." for byte in data))
    return f'<tr><th scope="row">{section.start + row:04X}</th>{"".join(cells)}<td class="text">{text}</td></tr>'


def program_section(listing: Listing, data: bytes) -> Section:
    """Returns the part about the program, which is loaded at 0100."""
    steps = {at - LOAD_ADDRESS: step for at, step in listing.cells.items() if LOAD_ADDRESS <= at < LOAD_ADDRESS + len(data)}
    return Section("program", "Program", [f"{_part(len(steps), len(data), 'byte')}."], data, LOAD_ADDRESS, steps)


def script_section(listing: Listing, data: bytes) -> Section:
    """Returns the part about the script."""
    facts = [f"{_part(len(listing.script), len(data), 'byte')}." if data else "It is empty."]
    if listing.script_end is not None:
        facts.append(f"Step {listing.script_end:,} asked for a byte after the last one.")
    return Section("script", "Script", facts, data, 0, listing.script)


def file_section(number: int, name: str, reads: FileReads, data: bytes) -> Section:
    """Returns the part about a host file that is there. A record that was read is read whole."""
    facts = [f"Step {reads.presence:,} asked whether it is there."] if reads.presence is not None else []
    if reads.length is not None:
        facts.append(f"Step {reads.length:,} asked for the number of its records, which is {reads.count:,}.")
    facts.append(f"{_part(len(reads.records), -(-len(data) // RECORD), 'record')}." if data else "It is empty.")
    steps = {at: step for record, step in reads.records.items() for at in range(record * RECORD, min(record * RECORD + RECORD, len(data)))}
    return Section(f"file{number}", f"File {name}", facts, data, 0, steps)


def memory_rows(listing: Listing, length: int) -> Iterator[tuple[str, str, str]]:
    """Yields the cells that are no bytes of the program, by their part of memory, with what is there and the steps."""
    parts = [(first, after - 1, what) for (first, what), (after, _) in zip(REGIONS, REGIONS[1:])]
    for first, last, what in [*parts, (LOAD_ADDRESS + length, 0xFFFF, "zero: no byte of the program is there")]:
        cells = sorted(at for at in listing.cells if first <= at <= last)
        if cells:
            rows = ", ".join(f"{low:04X}" if low == high else f"{low:04X} to {high:04X}" for low, high in rows_of(cells))
            steps = [listing.cells[at] for at in cells]
            yield rows, what, _numbers(min(steps), max(steps))


def tables(listing: Listing, length: int) -> Iterator[tuple[str, str, str]]:
    """Yields the mark, the title and the table of each part that has no dump."""
    memory = list(memory_rows(listing, length))
    if memory:
        yield "memory", "Other memory", table(("Cells", "What is there", "First read by step"), memory)
    missing = [(name, f"{reads.presence:,}") for name, reads in listing.files.items() if reads.is_there is False]
    if missing:
        yield "missing", "Files that were asked for and are not there", table(("Name", "First asked by step"), missing)
    if listing.directories:
        rows = [(drive, f"{step:,}") for drive, step in listing.directories.items()]
        yield "directories", "Directories", table(("Drive", "First step that asked for the names and lengths of its files"), rows)


def page(listing: Listing, sections: list[Section], facts: Mapping[str, str]) -> str:
    """Returns the page about a run: these sections, the tables, and above them these facts of the session."""
    steps: set[int] = set()
    for section in sections:
        steps.update((section.steps or {}).values())
    scale = Scale(steps)
    rest = list(tables(listing, len(sections[0].data)))
    links = [(section.mark, section.title) for section in sections] + [(mark, title) for mark, title, _ in rest]
    parts = [
        '<section id="legend">', "<h2>Shades</h2>",
        "<p>A shaded byte was read; its shade is that of the first step that read it, early to late:</p>", scale.legend(), "</section>",
        *(section.html(scale) for section in sections),
        *(f'<section id="{mark}">\n<h2>{escape(name)}</h2>\n{rows}\n</section>' for mark, name, rows in rest),
    ]
    return document(f"What a run of {Path(facts['Program']).name} read", STYLE, facts, ("Inputs", links), parts)


def sections_of(listing: Listing, words: SessionWords) -> list[Section]:
    """Returns the sections with a dump: the program first, then the script, then each file that is there."""
    sections = [program_section(listing, Path(words.program).read_bytes())]
    if words.console is not None or words.typed is not None or listing.script_end is not None:
        sections.append(script_section(listing, words.script()))
    for number, (name, reads) in enumerate(listing.files.items(), 1):
        if reads.is_there is not False:
            sections.append(file_section(number, name, reads, words.host_data(name)))
    return sections


def add_arguments(parser: Arguments) -> None:
    """Adds the arguments of the subcommand."""
    parser.set_operands("PROGRAM [TAIL]", "the .COM file, and its command tail, one word")
    parser.add_session()
    parser.add_program("cpmdeps")
    parser.add_argument("-o", "--output", metavar="FILE", help="the page [default: standard output]")


def run(values: argparse.Namespace) -> int:
    """Runs the subcommand."""
    words = session_of(values)
    check_output("-o", values.output, words.paths())
    listing = words.listing(values.cpmdeps)
    facts = {"Program": words.program, "Command tail": words.tail or "none", "Stop": listing.stop}
    facts |= {} if words.limit is None else {"Limit": f"{words.limit:,} steps"}
    write_page(page(listing, sections_of(listing, words), facts), values.output)
    return 0
