"""Checks the rules of the sources that no contract, type, visibility or line of crates.txt expresses.

A crate names only the crates of its line of crates.txt, and only what they export, so no rule here says which crate may not name which.
Comments and ghost items do not count as code."""
import re
from collections.abc import Iterator
from dataclasses import dataclass
from functools import cache
from itertools import takewhile
from pathlib import Path

from helpers import TOP, Crate, RuleTest, read_crates

QUOTED_OR_COMMENT = re.compile(r'''("(?:\\.|[^"\\])*"|'(?:\\.|[^'\\])')|//[^\n]*|/\*.*?\*/''', re.DOTALL)
FUNCTION = re.compile(r'( *)(pub(?:\([a-z]*\))? )?(?:const )?fn ([a-z_0-9]+)')
IMPL = re.compile(r'impl(?:<[^{]*?>)? +(?:.* for +)?([A-Za-z_0-9]+)')
USE_OR_TYPE = re.compile(r'^ *(pub(\([^)]*\))? )?(use|type) [^;]*;', re.MULTILINE)


def code_of(source: str) -> str:
    """Returns the code of a source, each line at its place: without comments, ghost items and the `r#` of names."""
    text = QUOTED_OR_COMMENT.sub(lambda found: found[1] or '\n' * found[0].count('\n'), source)
    kept, depth = [], 0
    for line in re.sub(r'\br#', '', text).splitlines():
        is_ghost = depth > 0 or line.lstrip().startswith('ghost ')
        depth += line.count('{') - line.count('}') if is_ghost else 0
        kept.append('' if is_ghost else line)
    if depth != 0:
        raise ValueError('a ghost item does not end')
    return '\n'.join(kept) + '\n'


@dataclass(frozen=True)
class Function:
    """A function of a source."""

    name: str
    """Its name, with `TYPE::` before it if it is a method."""
    is_public: bool
    head: str
    """The lines from its `fn` up to its body: the signature and the contract."""
    body: str
    """The lines inside its braces, if they are on lines of their own."""

    @property
    def contract(self) -> str:
        """Its clauses."""
        start = re.search(r'^ *(requires|ensures)\b', self.head, re.MULTILINE)
        return self.head[start.start():] if start else ''

    @property
    def parameters(self) -> list[str]:
        """Its parameters, without what is in brackets in their types."""
        text = self.head.split(f'fn {self.name.rpartition("::")[2]}', 1)[1].replace('->', '')
        while (shorter := re.sub(r'<[^<>]*>|\[[^][]*\]|(?<=[ &])\([^()]*\)', '', text)) != text:
            text = shorter
        return [each.strip() for each in text.partition('(')[2].partition(')')[0].split(',') if each.strip()]

    @property
    def is_law(self) -> bool:
        """Whether its contract is a theorem: it has no parameter and an empty body, and no code needs to call it."""
        return self.head.startswith(f'pub fn {self.name}()\n') and not self.body


def ends_head(line: str, indent: str) -> bool:
    """Returns whether this line begins a body or has a whole one. The lines of a contract are indented."""
    return line.startswith(indent) and not line[len(indent):].startswith(' ') and line.endswith(('{', '}', ';'))


def functions_of(code: str) -> Iterator[Function]:
    """Returns the functions of code, in order."""
    lines, owner = code.splitlines(), ''
    for number, line in enumerate(lines):
        if re.match(r'(unsafe )?impl\b', line):
            kind = IMPL.match(line)
            owner = f'{kind[1]}::' if kind else ''
        elif line.startswith('}'):
            owner = ''
        if found := FUNCTION.match(line):
            indent = found[1]
            start = next(at for at in range(number, len(lines)) if ends_head(lines[at], indent))
            end = lines.index(f'{indent}}}', start) if lines[start].endswith('{') else start
            head, body = lines[number:start] or [line], lines[start + 1:end]
            yield Function((owner if indent else '') + found[3], found[2] == 'pub ', '\n'.join(head), '\n'.join(body))


@cache
def product_code() -> dict[str, str]:
    """Returns the code of each source of the product, by its path below crates, with each `use` and each `type` on one line."""
    paths = [path for crate in read_crates() if not crate.is_test for path in crate.sources()]
    codes = {path.relative_to(TOP / 'crates').as_posix(): code_of(path.read_text()) for path in paths}
    return {path: USE_OR_TYPE.sub(lambda found: ' '.join(found[0].split()) + '\n' * found[0].count('\n'), code) for path, code in codes.items()}


def in_code(pattern: str, *allowed: str) -> list[str]:
    """Returns the lines of the product's code that match, except in files whose paths begin with one of these."""
    return [f'crates/{path}:{number}: {line.strip()}' for path, code in product_code().items() if not path.startswith(allowed)
            for number, line in enumerate(code.splitlines(), 1) if re.search(pattern, line)]


def lines_of(path: Path) -> Iterator[tuple[str, str]]:
    """Returns the lines of a file, comments too, each with its place before it."""
    name = path.relative_to(TOP)
    return ((line, f'{name}:{number}: {line.strip()}') for number, line in enumerate(path.read_text().splitlines(), 1))


CALLS = r'\bbdos::call\b|\buse bdos\b.*(\bcall\b|\*|\bas\b)'
RUNS = r'\bmachine::Run\b|\buse machine\b.*(\bRun\b|\*|\bas\b)'
METER = r'\bMeter>?::|\bMeter as\b|\b(type|impl|for)\b.*\bMeter\b'
STEPS = r'\brun_and_note\b|\bmachine::step\b|\buse\b.*\bmachine\b.*(\bstep\b|\*|\bas\b)'
COMMAND = 'cpmrun/src/command_line.rt'
LOOP = 'replay/src/run.rt'
SYSTEM = 'folders/src/file_system.rt'
CHECKPOINT = {
    'replay/src/ring.rt': 'pub struct Checkpoint { pub step: u64, pub state: SavedState, }',
    'machine/src/saved_state.rt': 'pub struct SavedState { regs: Regs, cells: Cells, spot: Spot, text_length: usize, journal: Journal, }',
    'pagemem/src/cells.rt': 'pub struct Cells { slots: Vec<Slot>, alloc: Global, }',
    'pagemem/src/page.rt': 'pub enum Slot { Empty, Owned(Box<Page>), Shared(Rc<Page>), }',
}
"""What a checkpoint holds, by the file of each type."""

MAY_REPORT_OUT_OF_MEMORY = {
    'command_words': 'error_class read_dependency_words read_trace_words read_words',
    'cpmrun': 'fault_of plan_report replay_file write_report',
    'dependency_command': 'write_listing write_rule',
    'disks': 'disks_of lock_disks same_folders',
    'edit_lines': 'execute_edit hex_bytes',
    'faults': 'push_message status',
    'folders': 'note read_failure set without_memory write_failure',
    'hostfiles': 'number',
    'loading': 'read_fault typed_bytes',
    'make_rules': 'refusal',
    'one_run': 'run_to_end write_both',
    'plan': 'look_into put remove unprepared',
    'replay': 'number',
    'requests': 'clash_fault program_words request_of_error taken_fault',
}
"""The functions of each crate that report out of memory themselves, not by `?` or in a `From`. Most turn one error into another, or into a
number or a message."""

ALLOWED = {
    'hostfiles::HostFiles::records_with': 'how many records a file has after a run',
    'hostfiles::HostFiles::record_with': 'a record of a file after a run',
    'hostfiles::HostFiles::next_with': 'the names after a run',
    'machine::Session::tail': "part of the library's surface, as the other parts of a session are",
    'replay::Runner::kept': 'the steps of the checkpoints',
    'replay::Runner::left_out': 'the last due step that has no checkpoint',
}
"""The functions that only users call, each with what it is for."""

AMBIGUOUS = {
    **{
        f'cpmfiles::Table::{name}': f'`{name}` of a table'
        for name in ('has', 'records', 'extent', 'read', 'write', 'write_filled', 'next_entry', 'make', 'rename')
    },
    'console_calls::Desk::looked': 'whether a script offset was looked at',
    'console_calls::Desk::snapshot': 'a copy of a desk',
    'console_calls::Spot::snapshot': 'a copy of a spot',
    'filenames::Fcb::set_place': 'sets the place of a control block',
    'hostfiles::Changes::looked': 'whether the host files were asked something',
    'hostfiles::Changes::snapshot': 'a copy of what a run did to files',
    'machine::State::load': 'the loaded state of a session',
    'machine::step': 'one step',
    'pagemem::Overlay::looked': 'whether a cell was looked at',
    'pagemem::Overlay::snapshot': 'a copy of an overlay',
    'replay::Runner::session': 'the session as it is now',
}
"""The same, for names that methods of other types have too: a call of that name may be of another method. The calls of a program ask by
`cpmfiles::asking` and change the journal under the table, a run is loaded over marks that are used again, a checkpoint shares the cells and
copies the journal, and a program loads the session of its words."""


def functions_that_report_out_of_memory() -> set[str]:
    """Returns the functions of the product whose bodies name such an error or its status, except `from`."""
    words = re.compile(r'(?<![A-Za-z_])(AllocError|OutOfMemory)(?![A-Za-z_])|=> 12,')
    return {f'{path.split("/")[0]}::{function.name.split("::")[-1]}' for path, code in product_code().items()
            if not path.startswith('embedding/') for function in functions_of(code)
            if function.name.split('::')[-1] != 'from' and words.search(function.body)}


def public_functions() -> dict[str, Function]:
    """Returns the functions of the product that begin with `pub fn`, by their names after `CRATE::`, except laws."""
    functions = [(path.split('/')[0], function) for path, code in product_code().items() for function in functions_of(code)]
    return {f'{crate}::{function.name}': function for crate, function in functions if function.is_public and not function.is_law}


def called_names(code: str) -> set[str]:
    """Returns the names before `(` and after `::`, except in strings, in `use` lines and where a function is defined."""
    code = re.sub(r'"(\\.|[^"\\])*"', '""', code, flags=re.DOTALL)
    code = re.sub(r'\bfn +[a-z_0-9]+', 'fn', USE_OR_TYPE.sub('', code))
    return {before or after for before, after in re.findall(r'\b([a-z_0-9]+)(?=(?:::<[^()]*>)?\()|(?<=::)([a-z_0-9]+)\b', code)}


def unnamed(crate: Crate) -> list[str]:
    """Returns the crates that a crate uses by crates.txt, and that no source, definition or proof of it names."""
    paths = [path for kind in ('*.rt', '*.antt') for path in crate.folder.rglob(kind) if 'out' not in path.relative_to(crate.folder).parts]
    text = '\n'.join(path.read_text() for path in paths)
    return [used for used in crate.uses if not re.search(rf'\bRattle\.{used}\.|(?<![A-Za-z0-9_:.]){used}::|\buse {used}[;:{{ ]', text)]


def undescribed(root: Path) -> list[str]:
    """Returns the modules that the first lines of a root, its `//!`, do not name."""
    text = root.read_text()
    described = '\n'.join(takewhile(lambda line: line.startswith('//!'), text.splitlines()))
    modules = re.findall(r'^(?:pub |pub\(crate\) )?mod ([a-z_0-9]+);', text, re.MULTILINE)
    return [f'{root.relative_to(TOP)}: {module}' for module in modules if f'`{module}`' not in described]


DOCUMENT = re.compile(r'Interface Guide|CP/M 2\.2 Interface|8080 manual|User.s Manual|Interaction Trees|POPL')
CITATION = re.compile(r'\[(Interface Guide 1979|8080 manual 1975), [^]]+\]|\[Interaction Trees 2020\]')


class SourcesTest(RuleTest):

    def expect_count(self, count: int, pattern: str, path: str) -> None:
        self.assertEqual(len(re.findall(pattern, product_code()[path])), count, f'matches of {pattern} in crates/{path}')

    def test_only_the_command_and_the_example_make_a_meter(self) -> None:
        """A contract says what a meter counts, and not that there is no other meter; a library has to let its callers make one."""
        self.refuse(in_code(METER, COMMAND, 'machine/src/meter.rt', 'embedding/'))
        self.expect_count(1, METER, COMMAND)

    def test_only_machine_and_known_run_execute_instructions(self) -> None:
        """The crates of memory and calls list i8080 for `Bus` and `Regs`, so they could execute instructions that no meter counts."""
        crates = tuple(f'{crate.name}/' for crate in read_crates() if 'i8080' not in crate.uses)
        self.refuse(in_code(r'\b(execute|instructions)\b', 'machine/', 'known_run/', *crates))

    def test_machine_exports_no_instruction_and_no_call_and_gives_no_other_name(self) -> None:
        """Most crates above list none of these four, so an export of `machine` is all that could let them execute or call."""
        exports = in_code(r'\bpub use\b.*(\b(i8080|known_run|console_calls|bdos)\b.*\b[a-z]|\bas\b)')
        self.refuse(line for line in exports if line.startswith('crates/machine/'))

    def test_only_machine_makes_calls(self) -> None:
        """Others list bdos or console_calls for definitions and small functions, so they could execute calls that no meter counts."""
        self.refuse(in_code(CALLS, 'machine/'))
        self.refuse(in_code(r'\bconsole_call\b', 'console_calls/', 'bdos/'))

    def test_only_one_run_and_what_lists_or_traces_a_run_names_a_run(self) -> None:
        """A `Run` executes steps that no meter counts: an edit that ran the session once more by it would have the same contract."""
        self.refuse(in_code(RUNS, 'one_run/', 'dependencies/', 'tracing/', 'trace_lines/', 'trace_filters/', 'accesses/'))

    def test_only_the_loop_of_a_rerun_executes_steps_and_in_one_place(self) -> None:
        """`run_and_note` is public for this loop and `step` for tests; a contract counts the steps of the loop, and not what is executed beside it."""
        self.refuse(in_code(STEPS, LOOP, 'machine/'))
        self.expect_count(2, STEPS, LOOP)
        self.expect_count(1, r'\brun_and_note\(', LOOP)

    def test_a_file_is_only_written_where_there_is_none(self) -> None:
        """No contract says how a file is opened. One function opens what is at a path as a shell's `>` does, for what is written piece by
        piece, such as a report whose path is a device, a pipe or a link, which nothing replaces."""
        self.refuse(in_code(r'\b(create|truncate|append)\((true|false)\)|\bFile::create\b|\bfs::write\b', SYSTEM))
        self.expect_count(2, r'\b(create|truncate|append)\((true|false)\)|\bFile::create\b|\bfs::write\b', SYSTEM)
        self.expect_count(1, r'\bwrite\(true\)\.create\(true\)\.truncate\(true\)', SYSTEM)
        self.expect_count(1, r'\bcreate_new\(true\)', SYSTEM)
        through = [f'{path.split("/")[0]}::{function.name.split("::")[-1]}' for path, code in product_code().items()
                   for function in functions_of(code) if re.search(r'truncate\(true\)|\bopen_to_write\(', function.body)]
        self.assertEqual(sorted(through), ['folders::destination_at', 'folders::open_to_write'])

    def test_no_macro_is_defined(self) -> None:
        """A macro can write any name, past all these rules."""
        self.refuse(in_code(r'\bmacro_rules!'))

    def test_crates_above_replay_do_not_ask_what_was_looked_at(self) -> None:
        """The state of a run that has ended is public; a reply is about what the run did, and not about its looks. A call that is tried has
        looks of its own, and what becomes of disks depends on looks for the BIOS."""
        self.refuse(in_code(r'\blooked\(|::looked\b', 'pagemem/', 'console_calls/', 'hostfiles/', 'machine/', 'replay/', 'accesses/'))
        self.refuse(in_code(r'\bbios_look\b', 'dependencies/', 'cpmrun/src/disks_after.rt'))

    def test_a_checkpoint_holds_no_looks_and_no_text_and_shares_its_pages(self) -> None:
        """No contract says how much memory a value holds, and no other field would change a reply."""
        for path, definition in CHECKPOINT.items():
            self.assertIn(definition, ' '.join(product_code()[path].split()), path)

    def test_only_the_allowed_functions_report_out_of_memory_themselves(self) -> None:
        """A function that may fail so could claim it, and no contract refuses that everywhere."""
        may = {f'{crate}::{name}' for crate, names in MAY_REPORT_OUT_OF_MEMORY.items() for name in names.split()}
        self.assertEqual(functions_that_report_out_of_memory(), may)

    def test_the_product_calls_each_public_function_or_it_is_allowed(self) -> None:
        """A public function that nothing calls has a contract and a proof for nothing."""
        called = {name for code in product_code().values() for name in called_names(code)}
        uncalled = {name for name in public_functions() if name.split('::')[-1] not in called}
        self.refuse(sorted(uncalled - {*ALLOWED, *AMBIGUOUS}))
        self.assertLessEqual(set(ALLOWED), uncalled)
        self.assertLessEqual(set(AMBIGUOUS), set(public_functions()))

    def test_the_names_of_tests_and_no_others_begin_with_test(self) -> None:
        """For rt the heading `# tests` of crates.txt is a comment; here what is below it is no part of the product."""
        self.refuse(crate.name for crate in read_crates() if crate.is_test != crate.name.startswith('test_'))

    def test_each_crate_is_after_the_crates_that_it_uses(self) -> None:
        """rt takes the lines of crates.txt in any order; `make needs` and `scripts/build.mk` read them from the last one up."""
        at = {crate.name: number for number, crate in enumerate(read_crates())}
        self.refuse(f'{crate.name}: {used}' for crate in read_crates() for used in crate.uses if at.get(used, -1) > at[crate.name])

    def test_each_crate_names_the_crates_that_it_uses(self) -> None:
        """A build proves each of these crates first, also one that is listed for nothing."""
        self.refuse(f'{crate.name}: {used}' for crate in read_crates() for used in unnamed(crate))

    def test_few_chains_of_crates_lead_down_from_a_crate(self) -> None:
        """Before a proof rt reads each crate below once for each chain that leads to it, so one more line of crates.txt can cost minutes. The crate
        of `main` has the chains of three programs."""
        chains = {}
        for crate in read_crates():
            chains[crate.name] = 1 + sum(chains.get(used, 0) for used in crate.uses)
        self.refuse(f'{name}: {count} chains' for name, count in chains.items() if count > (3 if name == 'executable' else 1) * 4000)

    def test_the_root_of_each_crate_describes_its_modules(self) -> None:
        """A reader of a crate begins there."""
        roots = [path for crate in read_crates() for path in crate.sources() if path.name in ('lib.rt', 'main.rt')]
        self.refuse(line for root in roots for line in undescribed(root))

    def test_clauses_have_at_most_110_columns(self) -> None:
        """A clause is read as one sentence; a longer one becomes a definition."""
        may = re.compile(r' *(//|#\[|ghost use|use |pub use|"|help: ")')
        paths = [path for crate in read_crates() if not crate.is_test for path in crate.sources()]
        self.refuse(place for path in paths for line, place in lines_of(path) if len(line) > 110 and not may.match(line))

    def test_functions_have_at_most_six_parameters(self) -> None:
        functions = [(path, function) for path, code in product_code().items() for function in functions_of(code)]
        self.assertGreater(max(len(function.parameters) for _, function in functions), 5)
        self.refuse(f'crates/{path}: {function.name}' for path, function in functions if len(function.parameters) > 6)

    def test_manuals_are_cited_in_brackets_with_year_and_part(self) -> None:
        """docs/DECISIONS.md lists the forms under "Sources"."""
        paths = [path for folder in ('crates', 'tests/programs') for path in sorted((TOP / folder).rglob('*'))
                 if path.suffix in ('.rt', '.antt', '.asm') and 'out' not in path.relative_to(TOP).parts]
        self.refuse(place for path in paths for line, place in lines_of(path) if DOCUMENT.search(CITATION.sub('', line)))
