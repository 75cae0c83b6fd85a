"""Checks the table of the public surface in crates/test_surface: it has at least as many items as ever, each of them is public, and the crate
uses each, so that one that is missing or has another form does not compile."""
import re
from collections.abc import Iterator
from functools import cache

from helpers import TOP, RuleTest
from test_sources import called_names, code_of, product_code

COUNT = 134
"""How many items the table has. It grows with the surface, and never shrinks."""

SOURCES = TOP / 'crates/test_surface/src'
BLOCK = re.compile(r'^(?P<public>pub )?(?P<kind>impl|trait)\b(?P<head>[^{]*)\{(?P<body>.*?)^\}', re.MULTILINE | re.DOTALL)


@cache
def table() -> list[tuple[str, str]]:
    """Returns the crate and the name of each item, in order."""
    return re.findall(r'^ +"([a-z0-9]+) ([A-Za-z0-9_:]+)",$', (SOURCES / 'surface.rt').read_text(), re.MULTILINE)


@cache
def used() -> str:
    """Returns the code of the crate that uses the items."""
    return '\n'.join(code_of(path.read_text()) for path in sorted(SOURCES.glob('*.rt')) if path.name != 'surface.rt')


def types_of(head: str) -> list[str]:
    """Returns the names of the type and the trait of an `impl`, or of a `trait`, by what follows that word."""
    while (plain := re.sub(r'<[^<>]*>', '', head)) != head:
        head = plain
    parts = re.split(r'\bfor\b|:|\bwhere\b', plain)[:2]
    return [words[-1] for words in (re.sub(r'\W', ' ', part).split() for part in parts) if words]


@cache
def public_calls() -> set[str]:
    """Returns the public functions of the product, with `TYPE::` before those of a type or a trait."""
    found = set()
    for code in product_code().values():
        found.update(re.findall(r'^pub fn ([a-z_0-9]+)', code, re.MULTILINE))
        for block in BLOCK.finditer(code):
            is_open = block['kind'] == 'trait' or ' for ' in block['head']
            calls = re.findall(r'^ +(pub )?(?:const )?fn ([a-z_0-9]+)', block['body'], re.MULTILINE)
            found.update(f'{kind}::{name}' for kind in types_of(block['head']) for public, name in calls if public or is_open)
    return found


def imported() -> Iterator[tuple[str, str]]:
    """Yields the crate and the name of each item that the crate imports."""
    for crate, names in re.findall(r'^use ([a-z0-9_]+)::(\{[^}]*\}|[A-Za-z0-9_]+);', used(), re.MULTILINE):
        yield from ((crate, name) for name in re.findall(r'\w+', names))


class SurfaceTest(RuleTest):

    def test_no_item_is_removed(self) -> None:
        self.assertEqual(len(table()), COUNT)
        self.assertEqual(len(set(table())), COUNT)

    def test_each_call_is_public(self) -> None:
        self.refuse(f'{crate} {name}' for crate, name in table() if name.split('::')[-1][0].islower() and name not in public_calls())

    def test_the_crate_uses_each_item(self) -> None:
        """A type and a function are imported from their crate, and a function is called; the compiler finds the rest."""
        imports, calls = set(imported()), called_names(used())
        self.refuse(f'{crate} {name}' for crate, name in table() if (crate, name.split('::')[0]) not in imports)
        self.refuse(f'{crate} {name}' for crate, name in table() if (last := name.split('::')[-1])[0].islower() and last not in calls)
