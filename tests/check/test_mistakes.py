"""Checks the must-fail edits: each text that one replaces is once in its file, and docs/MISTAKES.md names only edits that are there."""
import re
from collections import Counter
from collections.abc import Iterator
from pathlib import Path

from helpers import TOP, RuleTest

MOST = 4
"""The most edits of a crate that the gate tries."""


def edits() -> dict[str, tuple[Path, Path]]:
    """Returns each edit and the folder of its crate, by its name in docs/MISTAKES.md."""
    found = {f'{path.parts[-3]}/{path.stem}': path for path in TOP.glob('crates/*/must-fail/*.edit')}
    found |= {f'mistakes/{path.parts[-2]}/{path.stem}': path for path in TOP.glob('tests/mistakes/*/*.edit')}
    return {name: (path, TOP / 'crates' / name.split('/')[-2]) for name, path in sorted(found.items())}


def wrong_parts(edit: Path, crate: Path) -> Iterator[str]:
    """Yields what is wrong with an edit: its lines are applied in order, and the text of each `old` must then be once in its file."""
    words, text, old = [], '', ''
    for line in edit.read_text().splitlines():
        word, _, value = line.partition(': ') if not line.endswith(':') else (line[:-1], '', '')
        words.append(word)
        if word == 'file':
            source = crate / value
            text = source.read_text() if source.is_file() else ''
        elif word == 'old':
            old = value
            if (count := text.count(old)) != 1:
                yield f'{count} times in {source.relative_to(TOP)}: {old.strip()}'
        else:
            text = text.replace(old, value)
    if not re.fullmatch(r'(file( old new)+ ?)+', ' '.join(words)):
        yield f'its lines are {" ".join(words)}'


class MistakesTest(RuleTest):

    def test_each_text_that_an_edit_replaces_is_once_in_its_file(self) -> None:
        self.refuse(f'{name}: {wrong}' for name, (path, crate) in edits().items() for wrong in wrong_parts(path, crate))

    def test_each_edit_on_the_page_is_there(self) -> None:
        page = (TOP / 'docs/MISTAKES.md').read_text()
        rows = '\n'.join(line for line in page.splitlines() if line.startswith('|'))
        named = set(re.findall(r'`((?:mistakes/)?[a-z0-9_]+/[a-z0-9_]+)`', rows)) - {f'crates/{path.name}' for path in TOP.glob('crates/*')}
        self.refuse(sorted(named - set(edits())))

    def test_a_crate_has_few_edits_that_the_gate_tries(self) -> None:
        counts = Counter(name.split('/')[0] for name in edits() if not name.startswith('mistakes/'))
        self.refuse(f'{crate} has {count} edits' for crate, count in counts.items() if count > MOST)
