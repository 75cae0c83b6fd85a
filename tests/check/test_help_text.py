"""Compares --help with the man pages, the completion and the manual, and its ranges with the ones that the programs take."""
import re
import shutil

from helpers import DEPENDENCIES_PROGRAM, HI, PROGRAM, TOP, TRACE_PROGRAM, ProgramTest
from vembrusk.assembler import assemble

PROGRAMS = {'cpmrun': PROGRAM, 'cpmdeps': DEPENDENCIES_PROGRAM, 'cpmtrace': TRACE_PROGRAM}
NUMBERS = {'cpmrun': ['--limit', '--slots', '--spacing'], 'cpmdeps': ['--limit'], 'cpmtrace': ['--from', '--last', '--limit', '--to']}
"""The options of each program whose values are numbers."""
ENTRY = re.compile(r'^ {2,6}((?:-\w, )?--[\w-]+(?: <[A-Z]+>)?|[<\[][A-Z]+[>\]]|\d+) {2,}(\S.*)$', re.MULTILINE)
"""A line of the help about an argument or a status: its words, and its sentence."""
RANGE = re.compile(r'(?P<least>[\d,]+) to (?P<most>[\d,]+)')
ROW = re.compile(r'^\| (`(?:--|PROGRAM`|TAIL`).*?) \| (.*) \| (.*) \|$', re.MULTILINE)
"""A row of the manual about options: their words, what they mean, and the default."""


def number(text: str) -> int:
    return int(text.replace(',', ''))


def words_of(text: str) -> list[str]:
    """Returns the words of a text in lower case, without marks and the targets of links."""
    return re.findall(r'\w+(?:,\d+)*', re.sub(r'\]\([^)]*\)', '', text).lower())


def has_in_order(words: list[str], wanted: list[str]) -> bool:
    left = iter(words)
    return all(word in left for word in wanted)


class HelpTextTest(ProgramTest):

    def help_of(self, name: str) -> dict[str, str]:
        """Returns the sentence of a help about each argument and status, by its words without brackets."""
        done = self.run_command(PROGRAMS[name], '--help')
        self.assertEqual((done.returncode, done.stderr), (0, b''))
        found = {re.sub(r'[<>\[\]]', '', words): text for words, text in ENTRY.findall(done.stdout.decode())}
        self.assertGreater(len(found), 8)
        return found

    def test_make_pages_changes_nothing_and_writes_what_is_lost(self) -> None:
        for folder in 'docs', 'scripts', 'python':
            shutil.copytree(TOP / folder, self.work / folder)
        for name in 'docs/cpmrun.1', 'docs/cpmdeps.1', 'docs/cpmtrace.1', 'docs/vembrusk.1', 'scripts/completion':
            text = (TOP / name).read_text()
            with_losses = re.sub(r'The same for drive|[\d.]+(?=" "Vembrusk")| --limit=N', '', text)
            self.assertNotEqual(with_losses, text)
            for before in text, with_losses:
                page = self.put(name, before)
                self.expect_command(0, '', '', self.work / 'scripts/pages', PROGRAM)
                self.expect_command(0, '', '', self.work / 'scripts/tool_pages')
                self.assertEqual(page.read_text(), text, f'run `make pages`, which writes {name}')

    def test_a_man_page_shows_each_entry_of_the_help(self) -> None:
        for name in PROGRAMS:
            page = self.run_command('groff', '-ww', '-man', '-Tascii', '-P-cbu', '-rLL=2000n', TOP / f'docs/{name}.1')
            self.assertEqual(page.stderr, b'')
            shown = ' '.join(page.stdout.decode().split())
            for words, text in self.help_of(name).items():
                self.assertIn(f' {words} {text}'.replace('`', ''), shown)

    def test_the_manual_has_each_argument_with_the_words_of_the_help(self) -> None:
        rows = [(re.findall(r'`(\S+(?: [A-Z]+)?)`', words), words_of(text), default) for words, text, default in
                ROW.findall((TOP / 'docs/MANUAL.md').read_text())]
        told = [entry for name in PROGRAMS for entry in self.help_of(name).items() if not re.match(r'\d|-\w,', entry[0])]
        self.assertEqual(sorted(words for row in rows for words in row[0]), sorted(dict(told)))
        for words, text in told:
            [(meaning, default)] = [row[1:] for row in rows if words in row[0]]
            sentence, _, stated = text.removesuffix(']').partition(' [default: ')
            self.assertTrue(has_in_order(meaning, words_of(sentence)), f'{words}: {sentence}')
            self.assertIn(stated, ('', default.replace(',', '')), words)

    def test_the_default_limit_of_the_help_is_the_one_that_is_taken(self) -> None:
        """The program takes about 1,050,000 steps."""
        program = self.put('wait.com', assemble(['MVI D,4', 'wait: LXI B,0', 'inner: DCX B; MOV A,B; ORA C; JNZ inner', 'DCR D; JNZ wait; RET']))
        for name, runner in PROGRAMS.items():
            self.assertIn('[default: 1000000; with a disk 4000000000]', self.help_of(name)['--limit N'])
            for words, cause in ([], 'Limit'), (['--files=.'], 'Limit'), (['--disk-c=.'], 'WarmBoot'), (['--disk-b=.', '--limit=1000000'], 'Limit'):
                with self.subTest(program=name, words=words):
                    done = self.run_command(runner, program, *words, cwd=self.work)
                    self.assertEqual((done.stderr if name == 'cpmrun' else done.stdout).splitlines()[-1].decode(), f'stop {cause}')

    def test_the_ranges_of_the_help_are_the_ones_that_are_taken(self) -> None:
        for name, program in PROGRAMS.items():
            ranges = {words.split()[0]: RANGE.search(text) for words, text in self.help_of(name).items() if words.endswith(' N')}
            self.assertEqual(sorted(ranges), NUMBERS[name])
            for option, told in ranges.items():
                least, most = number(told['least']), number(told['most'])
                for value, fits in (least, True), (most, True), (most + 1, False), *([(least - 1, False)] if least else []):
                    with self.subTest(program=name, option=option, value=value):
                        done = self.run_command(program, HI, option, str(value))
                        refused = f'error: invalid value \'{value}\' for \'{option} <N>\': {value} is not in {least}..={most}\n'.encode()
                        self.assertEqual(done.stderr.startswith(refused), not fits, done.stderr)
