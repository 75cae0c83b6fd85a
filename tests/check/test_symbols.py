"""Checks by the symbols and the machine code of the built program that the loop over known cells is one function that calls nothing, and that
rare paths are outside of it."""
import re
from dataclasses import dataclass

from helpers import PROGRAM, ProgramTest

LOOP = ('known_run::run::run_known', 'machine::stretch::run_quietly')
"""The function with the loop: the first, unless the compiler inlines it into the second."""

JUMPS = (2, 3)
"""One in the loop, and perhaps a copy where it begins, by the table for the opcodes that programs use most, and one by the table for the
others."""

APART = [
    'machine::stretch::run_until',
    'machine::stretch::execute_learning',
    'machine::state::State::note_looks',
    'pagemem::page::Slot::own',
    'i8080::bus::fetch_word_apart',
]
"""What must be a function of its own apart from the loop: the rare and long paths, and what calls the loop."""

TRIED = 'i8080::bus::fetch_word_apart'
"""The one that a trace has too, over the memory of an instruction that is only tried."""


@dataclass(frozen=True)
class Symbol:
    """A function of the program, from its first address to the one past its end."""

    name: str
    start: int
    end: int


class SymbolTest(ProgramTest):

    def setUp(self) -> None:
        super().setUp()
        found = re.findall(r'^([0-9a-f]+) ([0-9a-f]+) [tT] (.*)$', self.output_of('nm', '-C', '-S', PROGRAM), re.MULTILINE)
        self.symbols = [
            Symbol(re.sub(r'::<#[0-9a-f]+>$', '', name), int(start, 16), int(start, 16) + int(size, 16)) for start, size, name in found]

    def output_of(self, *words: object) -> str:
        done = self.run_command(*words)
        self.assertEqual(done.returncode, 0, done.stderr)
        return done.stdout.decode()

    def named(self, name: str) -> list[Symbol]:
        """Returns the functions with this name."""
        return [symbol for symbol in self.symbols if symbol.name == name]

    def loop(self) -> Symbol:
        found = next(filter(None, map(self.named, LOOP)), [])
        self.assertEqual(len(found), 1, LOOP)
        return found[0]

    def machine_code(self, symbol: Symbol) -> list[str]:
        """Returns the machine instructions of a function, in the syntax of AT&T."""
        range_words = (f'--start-address={symbol.start:#x}', f'--stop-address={symbol.end:#x}')
        lines = self.output_of('objdump', '-d', '-M', 'att', '--no-show-raw-insn', *range_words, PROGRAM)
        return re.findall(r'^ *[0-9a-f]+:\t(.*?) *$', lines, re.MULTILINE)

    def test_each_rare_path_is_one_function(self) -> None:
        for name in APART:
            with self.subTest(name):
                self.assertEqual(len(self.named(name)), 2 if name == TRIED else 1)

    def test_the_loop_calls_nothing(self) -> None:
        loop = self.loop()
        code = self.machine_code(loop)
        self.assertGreater(len(code), 1000)
        self.assertEqual([line for line in code if re.search(r'\bl?call[a-z]?\b', line)], [])
        targets = [int(target, 16) for line in code for target in re.findall(r'\bj[a-z]+ +([0-9a-f]+)\b', line)]
        self.assertEqual([hex(target) for target in targets if not loop.start <= target < loop.end], [])

    def test_the_loop_jumps_by_a_table_for_common_and_one_for_rare_opcodes(self) -> None:
        jumps = [line for line in self.machine_code(self.loop()) if re.search(r'\bjmp[a-z]? +\*', line)]
        self.assertIn(len(jumps), JUMPS, jumps)
