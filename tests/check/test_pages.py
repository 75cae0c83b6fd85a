"""Runs the commands of the pages in a copy of the tree with the built programs, and compares what they print with the pages.

A block of commands is fenced by ```sh, and bash runs it at the top of the copy. The next block, if it is fenced by ```text, is what the
commands print on standard output and standard error, without carriage returns; if there is none, they may print anything. Every block must
end with status 0. The blocks of a page run one after another in a copy of their own, and those of the manual also after those of the README,
as a reader types them. A block that is fenced by ```sh needs COMMAND is skipped if this command is not installed. Blocks that are fenced by
```sh parallel are run by test_many.py."""
import os
import re
import shutil
import subprocess
from pathlib import Path

from helpers import DEPENDENCIES_PROGRAM, PROGRAM, TOP, TRACE_PROGRAM, ProgramTest

LENGTHS = {'README.md': 150, 'docs/PROVED.md': 300}
"""The most lines of the pages that are read first."""

TIDY = {'docs/WALKS.md', 'docs/MANUAL.md', 'docs/TOOLS.md', 'python/README.md'}
"""The pages whose blocks remove the files that they make."""

PARTS = ['cpmrun', 'cpmdeps', 'cpmtrace', 'vembrusk', 'crates.txt', 'scripts', 'examples', 'python', 'tests', 'docs']
"""What the commands may name, beside the built programs."""


def blocks_of(page: str, fence: str = 'sh') -> list[re.Match[str]]:
    """Returns the blocks of commands of a page, each with `commands`, `text`, and the command that it `needs` or None."""
    fenced = rf'^```{fence}(?: needs (?P<needs>\S+))?\n(?P<commands>.*?)^```\n'
    return list(re.finditer(rf'{fenced}(?:\n?```text\n(?P<text>.*?)^```$)?', page, re.MULTILINE | re.DOTALL))


def copy_tree(copy: Path) -> None:
    """Copies what the commands may name, and the programs to where `cpmrun`, `cpmdeps` and `cpmtrace` look for them."""
    for part in PARTS:
        if (TOP / part).is_dir():
            shutil.copytree(TOP / part, copy / part, ignore=shutil.ignore_patterns('__pycache__', 'built'))
        else:
            shutil.copy2(TOP / part, copy / part)
    (copy / 'crates').mkdir()
    (copy / 'out').mkdir()
    for program, name in (PROGRAM, 'cpmrun'), (DEPENDENCIES_PROGRAM, 'cpmdeps'), (TRACE_PROGRAM, 'cpmtrace'):
        shutil.copy2(program, copy / 'out' / name)


def wrong_blocks(page: Path, copy: Path, env: dict[str, str] | None = None, fence: str = 'sh') -> list[str]:
    """Returns the blocks of a page that fail or print something else, with what they print. Skips those that need a command that is not there."""
    found = []
    path = (env or os.environ)['PATH']
    for block in blocks_of(page.read_text(), fence):
        if block['needs'] is not None and shutil.which(block['needs'], path=path) is None:
            continue
        run = subprocess.run(['bash', '-c', block['commands']], cwd=copy, env=env, stdin=subprocess.DEVNULL, stdout=subprocess.PIPE,
                             stderr=subprocess.STDOUT)
        printed = run.stdout.decode(errors='replace').replace('\r', '')
        if run.returncode != 0 or block['text'] not in (None, printed):
            found.append(f'{page.name}: status {run.returncode} of\n{block["commands"]}which prints\n{printed}')
    return found


class PagesTest(ProgramTest):

    def expect_page(self, *names: str) -> None:
        """Expects of each block of a page, or of several in one folder, what the page says."""
        copy_tree(self.work)
        before = os.listdir(self.work)
        for name in names:
            self.assertTrue(blocks_of((TOP / name).read_text()))
            if found := wrong_blocks(TOP / name, self.work):
                self.fail('\n'.join(['', *found]))
        if set(names) <= TIDY:
            self.expect_names(self.work, *before)

    def test_the_pages_that_are_read_first_are_short(self) -> None:
        for name, most in LENGTHS.items():
            self.assertLessEqual(len((TOP / name).read_text().splitlines()), most, name)

    def test_a_block_is_skipped_only_if_the_command_that_it_needs_is_not_there(self) -> None:
        fences = 'sh', 'sh needs bash', 'sh needs none-such', 'sh parallel'
        blocks = [f'```{fence}\necho {number}\n```\n```text\nx\n```\n' for number, fence in enumerate(fences)]
        found = wrong_blocks(self.put('page.md', '\n'.join(blocks)), self.work)
        self.assertEqual([each.split('\n')[1] for each in found], ['echo 0', 'echo 1'])

    def test_commands_of_the_readme(self) -> None:
        self.expect_page('README.md')

    def test_commands_of_the_walks(self) -> None:
        self.expect_page('docs/WALKS.md')

    def test_commands_of_the_manual(self) -> None:
        self.expect_page('docs/MANUAL.md')

    def test_commands_of_the_manual_after_those_of_the_readme(self) -> None:
        self.expect_page('README.md', 'docs/MANUAL.md')

    def test_commands_of_the_examples(self) -> None:
        self.expect_page('examples/README.md')

    def test_commands_of_the_tools(self) -> None:
        self.expect_page('docs/TOOLS.md')

    def test_commands_of_the_client_for_python(self) -> None:
        self.expect_page('python/README.md')
