"""Pages in HTML, which need no network and no script, and follow the dark mode of a browser."""

from __future__ import annotations

import sys
from collections.abc import Iterable, Mapping
from html import escape

from .files import write_whole

STYLE = """
:root { color-scheme: light dark; --back: #fff; --text: #1b1b1b; --faint: #5c5c5c; --line: #d4d4d4; --bar: #e4e4e4; --link: #0a5ea8;
  --s0: #440154; --s1: #46327e; --s2: #365c8d; --s3: #277f8e; --s4: #1fa187; --s5: #4ac16d; --s6: #a0da39; --s7: #fde725; --on-s2: #fff; }
@media (prefers-color-scheme: dark) {
  :root { --back: #16181b; --text: #e6e6e6; --faint: #a3a3a3; --line: #3b3f45; --bar: #202327; --link: #7cb8f2;
    --s0: #31688e; --s1: #2a788e; --s2: #21918c; --s3: #22a884; --s4: #44bf70; --s5: #7ad151; --s6: #bddf26; --s7: #fde725; --on-s2: #000; }
}
body { margin: 0 auto; padding: 1.5rem; max-width: 62rem; background: var(--back); color: var(--text);
  font: 1rem/1.5 system-ui, "Liberation Sans", sans-serif; }
h1 { font-size: 1.6rem; line-height: 1.25; margin: 0 0 1rem; }
h2 { font-size: 1.2rem; margin: 2.5rem 0 0.25rem; padding-top: 0.5rem; border-top: 1px solid var(--line); }
a { color: var(--link); }
p { margin: 0.25rem 0; }
dl { display: grid; grid-template-columns: max-content 1fr; gap: 0.1rem 1.25rem; margin: 0; }
dt { color: var(--faint); }
dd { margin: 0; overflow-wrap: anywhere; }
nav ul, .legend { list-style: none; padding: 0; margin: 0.25rem 0; display: flex; flex-wrap: wrap; gap: 0.35rem 1rem; }
.legend { gap: 0.35rem; }
.legend li { padding: 0.1rem 0.6rem; border-radius: 0.2rem; font-size: 0.9rem; font-variant-numeric: tabular-nums; }
.legend .plain { border: 1px solid var(--line); }
.bar { display: block; width: 100%; height: 1rem; margin: 0.5rem 0; background: var(--bar); shape-rendering: crispEdges; }
.scroll { overflow-x: auto; }
table { border-collapse: collapse; }
.facts th, .facts td { text-align: left; padding: 0.15rem 1.25rem 0.15rem 0; border-bottom: 1px solid var(--line); vertical-align: top; }
.dump { font: 0.85rem/1.45 ui-monospace, "Liberation Mono", monospace; margin-top: 0.5rem; }
.dump th { font-weight: normal; color: var(--faint); padding: 0 0.9rem 0 0; }
.dump thead th { padding: 0 0.22rem; min-width: 2ch; }
.dump td { padding: 0 0.22rem; text-align: center; }
.dump td:nth-child(9) { padding-right: 0.22rem; border-right: 0.5rem solid var(--back); }
.dump .text { white-space: pre; text-align: left; padding-left: 0.9rem; color: var(--faint); }
.dump .gap { color: var(--faint); text-align: left; padding: 0.1rem 0; font-style: italic; }
.s0 { background: var(--s0); fill: var(--s0); color: #fff; } .s1 { background: var(--s1); fill: var(--s1); color: #fff; }
.s2 { background: var(--s2); fill: var(--s2); color: var(--on-s2); } .s3 { background: var(--s3); fill: var(--s3); color: var(--on-s2); }
.s4 { background: var(--s4); fill: var(--s4); color: #000; } .s5 { background: var(--s5); fill: var(--s5); color: #000; }
.s6 { background: var(--s6); fill: var(--s6); color: #000; } .s7 { background: var(--s7); fill: var(--s7); color: #000; }
[class^=s] { print-color-adjust: exact; -webkit-print-color-adjust: exact; }
"""


def table(heads: tuple[str, ...], rows: Iterable[tuple[str, ...]]) -> str:
    """Returns a table with a head for each column."""
    head = "".join(f'<th scope="col">{escape(each)}</th>' for each in heads)
    body = "\n".join(f"<tr>{''.join(f'<td>{escape(each)}</td>' for each in row)}</tr>" for row in rows)
    return f'<div class="scroll"><table class="facts"><thead><tr>{head}</tr></thead>\n<tbody>\n{body}\n</tbody></table></div>'


def document(title: str, style: str, facts: Mapping[str, str], links: tuple[str, list[tuple[str, str]]], parts: Iterable[str]) -> str:
    """Returns a page of these parts, with facts and links above them. The links have a name, and each a mark and a title."""
    name, targets = links
    return "\n".join([
        "<!DOCTYPE html>", '<html lang="en">', "<head>", '<meta charset="utf-8">',
        '<meta name="viewport" content="width=device-width, initial-scale=1">',
        f"<title>{escape(title)}</title>", f"<style>{style}</style>", "</head>", "<body>", "<header>", f"<h1>{escape(title)}</h1>",
        f"<dl>{''.join(f'<dt>{escape(name)}</dt><dd>{escape(value)}</dd>' for name, value in facts.items())}</dl>",
        "</header>", f'<nav aria-label="{escape(name)}"><ul>',
        *(f'<li><a href="#{mark}">{escape(title)}</a></li>' for mark, title in targets), "</ul></nav>", "<main>",
        *parts, "</main>", "</body>", "</html>", "",
    ])


def write_page(text: str, path: str | None) -> None:
    """Writes a page to a file, or to standard output without one."""
    if path is None:
        sys.stdout.write(text)
    else:
        write_whole(path, text)
