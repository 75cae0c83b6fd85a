"""Checks that docs/PROVED.md lists exactly the files that a reader must believe, with their lines. `python3 test_believed.py` prints the list.

A contract says what its words say. A word that a clause cites is defined in a file of `specs/`, and that file imports others: all files that
are reached so, from the clauses of one of the groups below, are what a reader of that group must read and believe. A file counts only in the
first group that reaches it. Comments, blank lines and imports do not count as lines. An import from `declared` or `contracts` is made from
`src`, and represents the types that are declared there."""
import re
from collections.abc import Iterator
from functools import cache
from pathlib import Path

from helpers import TOP, RuleTest, read_crates
from test_sources import code_of, functions_of

SECTION = '## What you must believe, in this order'
LIMIT = 1500
"""The most lines for the first group."""

CHECKPOINT_WORDS = {
    'AllStand', 'HasEffects', 'EndsAs', 'KeepsUntouched', 'AddsEachDueTo', 'AddsDueTo', 'SameOptions',
    'TicksTo', 'session_answers', 'rerun_start', 'with_no_checkpoint',
}
"""The words of clauses that say which steps a run executes again, what becomes of the checkpoints and of the meter, and which allocations may
fail. They count only for the group of checkpoints."""

REPORT = [f'Report::{name}' for name in ('cause', 'steps', 'regs', 'text', 'cell', 'has', 'records', 'record', 'next_changed', 'files')]
CHECKPOINTS = 'Which steps are executed again, and what input a run depends on'
GROUPS = {
    'What a run gives': [('replay', 'runner', ['Runner::rerun']), ('replay', 'report', REPORT)],
    'What a session and its edits are, and what edit lines give': [
        ('machine', 'session', ['Session::new']),
        ('replay', 'runner', ['Runner::new', 'Runner::edit']),
        ('edit_lines', 'stream', ['replay']),
    ],
    CHECKPOINTS: [
        ('replay', 'runner', ['Runner::new', 'Runner::edit', 'Runner::rerun', 'prefix_dependence', 'plain_run_is_cold']),
        ('machine', 'laws', ['plain_machine_is_laid']),
        ('dependencies', 'dependencies', ['Dependencies::of_run']),
        ('dependencies', 'laws', ['dependencies_decide']),
        ('replay', 'report', ['Report::journal']),
        ('edit_lines', 'stream', ['replay']),
    ],
    'What a rule for `make` and a trace have': [('make_rules', 'rule', ['rule_of_run']), ('tracing', 'trace', ['write_trace'])],
    'What the program does': [('cpmrun', 'command_line', ['command'])],
    'What `cpmdeps` and `cpmtrace` print': [
        ('dependency_command', 'command_line', ['dependency_command']),
        ('trace_command', 'command_line', ['trace_command']),
    ],
}
"""The functions of each group, by crate, source and name. A key is the heading of a part of the page."""


@cache
def reexports(crate: str) -> dict[str, str]:
    """Returns the modules of other crates that a crate re-exports, by their names there."""
    found = re.findall(r'^pub use (Rattle\.[\w.]+)(?: as (\w+))?$', (TOP / f'crates/{crate}/specs/Lib.antt').read_text(), re.MULTILINE)
    return {name or module.split('.')[-1]: module for module, name in found}


@cache
def crate_names() -> set[str]:
    return {crate.name for crate in read_crates()}


@cache
def path_of(module: str) -> Path | None:
    """Returns the file of a module, if it is one of definitions of a crate here."""
    parts = module.split('.')
    if len(parts) < 4 or parts[2] != 'specs' or parts[1] not in crate_names():
        return None
    if parts[3] in reexports(parts[1]):
        return path_of('.'.join([reexports(parts[1])[parts[3]], *parts[4:]]))
    if parts[3] in ('declared', 'contracts'):
        return None
    path = TOP / 'crates' / parts[1] / 'specs' / ('/'.join(parts[3:]) + '.antt')
    if not path.is_file():
        raise LookupError(f'{module} has no file')
    return path


def modules_of_words(source: str) -> dict[str, str]:
    """Returns the module of each word that the `ghost use` lines of a source import."""
    found = re.findall(r'^ *ghost use (Rattle\.[\w.]+)\.\{([^}]*)\};', source, re.MULTILINE)
    return {name.split(' as ')[-1].strip(): module for module, names in found for name in names.split(',')}


def cited_files(heading: str) -> Iterator[Path]:
    """Returns the files of the words that the contracts of a group cite."""
    for crate, module, names in GROUPS[heading]:
        source = (TOP / f'crates/{crate}/src/{module}.rt').read_text()
        modules = modules_of_words(source)
        contracts = {function.name: function.contract for function in functions_of(code_of(source)) if function.is_public}
        for name in names:
            if name not in contracts:
                raise LookupError(f'crates/{crate}/src/{module}.rt has no function {name}')
        words = [word for name in names for word in re.findall(r"(?<![\w.'-])[A-Za-z_][\w'-]*", contracts[name])]
        skipped = set() if heading == CHECKPOINTS else CHECKPOINT_WORDS
        defined = [word for word in words if word in modules and word not in skipped]
        yield from filter(None, (path_of(modules[word]) for word in defined))


@cache
def imported_files(path: Path) -> list[Path]:
    """Returns the files of definitions that a file imports."""
    found = re.findall(r'^ *(?:pub )?use (Rattle\.[\w.]+?)(?:\.\{.*| as .*)?$', path.read_text(), re.MULTILINE)
    return [file for file in map(path_of, found) if file]


def reached_files(files: list[Path]) -> list[Path]:
    """Returns these files, and all that they import directly or through others."""
    reached: dict[Path, None] = {}
    left = files
    while left:
        new = [path for path in dict.fromkeys(left) if path not in reached]
        reached.update(dict.fromkeys(new))
        left = [file for path in new for file in imported_files(path)]
    return list(reached)


def line_count(path: Path) -> int:
    """Returns how many lines a file has, without comments, blank lines and imports."""
    return sum(1 for line in path.read_text().splitlines() if line.strip() and not re.match(r' *(--|use |pub use )', line))


@cache
def counted() -> dict[str, dict[str, int]]:
    """Returns the lines of each file in each group, and their sum with the name `together`."""
    groups: dict[str, dict[str, int]] = {}
    for heading in GROUPS:
        before = {name for group in groups.values() for name in group}
        names = {path.relative_to(TOP / 'crates').as_posix(): path for path in reached_files(list(cited_files(heading)))}
        counts = {name: line_count(path) for name, path in names.items() if name not in before}
        groups[heading] = {**counts, 'together': sum(counts.values())}
    return groups


def listed() -> dict[str, dict[str, int]]:
    """Returns the same of the page, as far as it has it."""
    _, found, rest = (TOP / 'docs/PROVED.md').read_text().partition(SECTION)
    if not found:
        raise LookupError(f'docs/PROVED.md has no section "{SECTION}"')
    groups = {}
    for part in rest.split('\n## ', 1)[0].split('\n### ')[1:]:
        heading, rows = part.split('\n', 1)
        counts = re.findall(r'^\| (?:`([^`]+)` \| ([\d,]+) \| \S.*\||together \| ([\d,]+) \|.*)$', rows, re.MULTILINE)
        groups[heading.strip()] = {name or 'together': int((lines or total).replace(',', '')) for name, lines, total in counts}
    return groups


def product_text() -> str:
    """Returns the sources of the product, comments too."""
    return '\n'.join(path.read_text() for crate in read_crates() if not crate.is_test for path in crate.sources())


def page_text() -> str:
    """Returns the page with one blank between words."""
    return ' '.join((TOP / 'docs/PROVED.md').read_text().split())


def wanted_list() -> str:
    """Returns what the page must have."""
    rows = {heading: [f'{count:6,} {name}' for name, count in counts.items()] for heading, counts in counted().items()}
    return '\n'.join(line for heading in rows for line in [heading, *rows[heading]])


class BelievedTest(RuleTest):

    def refuse_rows(self, found: list[str]) -> None:
        self.refuse(found, f'docs/PROVED.md must have:\n{wanted_list()}')

    def test_the_page_lists_each_file_with_its_lines_and_their_sum(self) -> None:
        page = listed()
        self.refuse_rows([
            f'"{heading}": {name} is {count}, and the page has {page.get(heading, {}).get(name, "no such row")}'
            for heading, counts in counted().items() for name, count in counts.items() if page.get(heading, {}).get(name) != count])

    def test_the_page_lists_no_other_file(self) -> None:
        groups = counted()
        self.refuse_rows([
            f'"{heading}": {name} need not be believed there'
            for heading, rows in listed().items() if heading in groups for name in rows if name not in groups[heading]])

    def test_the_page_has_no_other_part(self) -> None:
        self.refuse_rows([f'the part "{heading}" is not known' for heading in listed() if heading not in GROUPS])

    def test_the_page_counts_the_views_and_the_traits_with_contracts(self) -> None:
        code = product_text()
        views, traits = (len(re.findall(pattern, code, re.MULTILINE)) for pattern in (r'^ *ghost view =', r'^pub trait '))
        page = page_text()
        self.assertIn(f'the {views} views, by which contracts see values', page)
        self.assertIn(f'the contracts of {traits} traits, which code over any implementation relies on', page)

    def test_the_page_names_each_type_of_the_system_and_counts_the_methods_of_its_files(self) -> None:
        """The contracts of these types say of a file or a stream only where it failed."""
        code = product_text()
        types = set(re.findall(r'^impl.*? (?:FileSystem|Reader|Writer) for (\w+)', code, re.MULTILINE))
        [files] = re.findall(r'^impl[^\n]* FileSystem for SystemFiles.*?^}', code, re.MULTILINE | re.DOTALL)
        page = page_text().partition(SECTION)[0]
        self.refuse(sorted(name for name in types if f'`{name}`' not in page))
        self.assertIn(f"(`SystemFiles`, {len(re.findall(r'^ *fn ', files, re.MULTILINE))} methods of a few lines each", page)

    def test_the_page_names_each_library_that_is_trusted(self) -> None:
        crates = read_crates()
        libraries = {used for crate in crates for used in crate.uses} - {crate.name for crate in crates}
        trusted = (TOP / 'docs/PROVED.md').read_text().split('\n## What is trusted\n')[1]
        self.refuse(sorted(library for library in libraries if f'`{library}`' not in trusted))

    def test_the_first_part_has_few_lines(self) -> None:
        self.assertLessEqual(next(iter(counted().values()))['together'], LIMIT)


if __name__ == '__main__':
    print(wanted_list())
