"""The page about what runs executed."""

from __future__ import annotations

from collections.abc import Iterator
from html import escape
from string import Template

from .counts import LOAD_ADDRESS
from .covered import Covered, percent
from .page import STYLE, document, table
from .reads import Scale, Section

COVER_STYLE = STYLE + """
:root { --hit: #d9f2df; --miss: #fbdcdc; --hit-bar: #2f8f4e; --miss-bar: #d9534f; }
@media (prefers-color-scheme: dark) { :root { --hit: #17381f; --miss: #4a1c1c; --hit-bar: #4cc07a; --miss-bar: #ef7b73; } }
.source { font: 0.85rem/1.45 ui-monospace, "Liberation Mono", monospace; margin-top: 0.5rem; }
.source th { font-weight: normal; text-align: right; color: var(--faint); padding: 0 0.9rem 0 0; }
.source td { padding: 0 0.9rem 0 0; text-align: right; font-variant-numeric: tabular-nums; }
.source .line { white-space: pre; text-align: left; padding: 0 0.5rem; }
.hit .line { background: var(--hit); } .miss .line { background: var(--miss); } .miss td:first-of-type { font-weight: bold; }
.hit, .miss { fill: var(--hit-bar); print-color-adjust: exact; -webkit-print-color-adjust: exact; } .miss { fill: var(--miss-bar); }
"""

ROW = Template('<tr$kind><th scope="row">$number</th><td>$count</td><td>$first</td><td class="line">$text</td></tr>')


def page(programs: list[Covered]) -> str:
    """Returns the page about programs: a table of all, and a section for each."""
    marks = {f"program{number}": covered for number, covered in enumerate(programs, 1)}
    facts = {"Programs": ", ".join(covered.name for covered in programs), "Runs": f"{sum(covered.counts.runs for covered in programs):,}",
             "Steps": f"{sum(covered.counts.steps for covered in programs):,}"}
    heads = "Program", "Executed", "Of", "", "Per cent", "Runs"
    rows = [(covered.name, f"{some:,}", f"{total:,}", unit, percent(some, total), f"{covered.counts.runs:,}")
            for covered in programs for some, total, unit in [covered.part()]]
    parts = ['<section id="all">', "<h2>All programs</h2>", table(heads, rows), "</section>"]
    for mark, covered in marks.items():
        parts += section(mark, covered)
    title = f"What runs of {programs[0].name if len(programs) == 1 else f'{len(programs)} programs'} executed"
    return document(title, COVER_STYLE, facts, ("Programs", [(mark, covered.name) for mark, covered in marks.items()]), parts)


def section(mark: str, covered: Covered) -> Iterator[str]:
    """Yields the section about a program: its bar, and the lines of its listing, or a dump without one."""
    yield f'<section id="{mark}">'
    if covered.source is None:
        end = LOAD_ADDRESS + len(covered.program)
        executed = covered.counts.executed(covered.program)
        steps = {address - LOAD_ADDRESS: step_of(covered, address) for address in executed if LOAD_ADDRESS <= address < end}
        scale = Scale(steps.values())
        dump = Section(f"{mark}-dump", covered.name, [covered.summary(), "A byte of an executed instruction has the shade of the first step."],
                       covered.program, LOAD_ADDRESS, steps)
        yield from [dump.html(scale), scale.legend("not executed")]
    else:
        yield from [f"<h2>{escape(covered.name)}</h2>", f"<p>{escape(covered.summary())}</p>", bar(covered), source_table(covered)]
    yield "</section>"


def step_of(covered: Covered, address: int) -> int:
    """Returns the first step of the instruction that has this byte."""
    return next(covered.counts.first[start] for start in (address, address - 1, address - 2) if start in covered.counts.first)


def bar(covered: Covered) -> str:
    """Returns a picture of the lines with instructions, from the first to the last."""
    lines = covered.code_lines()
    pieces = "".join(f'<rect class="{"hit" if count else "miss"}" x="{at}" width="1" height="1"/>' for at, (_, count, _) in enumerate(lines))
    label = escape(covered.summary())
    return (f'<svg class="bar" role="img" viewBox="0 0 {max(len(lines), 1)} 1" preserveAspectRatio="none" aria-label="{label}">'
            f"<title>{label}</title>{pieces}</svg>")


def source_table(covered: Covered) -> str:
    """Returns the lines of the listing with their counts and first steps."""
    assert covered.source is not None
    found = {line.number: (count, first) for line, count, first in covered.code_lines()}
    rows = []
    for line in covered.source.lines:
        count, first = found.get(line.number, (None, None))
        kind = "" if count is None else ' class="hit"' if count else ' class="miss"'
        rows.append(ROW.substitute(kind=kind, number=line.number, count="" if count is None else f"{count:,}",
                                   first="" if first is None else f"{first:,}", text=escape(line.text.expandtabs(8))))
    head = '<tr><th scope="col">Line</th><th scope="col">Count</th><th scope="col">First step</th><th></th></tr>'
    return f'<div class="scroll"><table class="source"><thead>{head}</thead>\n<tbody>\n{chr(10).join(rows)}\n</tbody></table></div>'
