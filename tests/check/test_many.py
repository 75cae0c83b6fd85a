"""Runs the walk over several machines, the blocks of docs/MACHINES.md that are fenced by ```sh parallel, with fewer sessions. A stand-in for ssh
runs commands in a folder for each machine, and one machine goes away in the middle. Skipped without GNU parallel or rsync."""
import os
import re
import shutil
import subprocess
import unittest
from collections.abc import Mapping
from pathlib import Path

from helpers import PROGRAM, TOP, ProgramTest, files_below
from test_pages import blocks_of, copy_tree, wrong_blocks

SMALLER = {'--tries 270': '--tries 7', '{1..40}': '{1..8}', '{1..100}': '{1..20}', '-N 25': '-N 5', '4/ada,8/bob': '1/ada,1/bob'}
"""What the walk has, and what is run here: at most eight scripts in each of eight folders, and twenty kept sessions."""

SSH = r'''#!/bin/bash
# Runs a command on a machine: `ssh NAME [--] COMMAND..`. A machine is a folder, and has the programs of the folder `bin` only.
# If GOES is set, bob goes away before the second command with these words.
name=$1
shift
[ "$1" != -- ] || shift
cd "$MACHINES/$name" || exit 255
echo "$*" >> "../$name.commands"
if [ "$name" = bob ] && [ -n "$GOES" ] && [ "$(grep -c -e "$GOES" ../bob.commands)" -ge 2 ]; then
    echo 'ssh: bob does not answer' >&2
    exit 255
fi
exec env -i HOME="$PWD" SHELL=/bin/bash PATH="$MACHINES/bin" /bin/bash -c "$*"
'''

PARTS = {'files are sent': 'rsync --server -l', 'a job is started': 'perl', 'reports come back': '--sender', 'files are removed': 'rm -rf'}
"""What happens on a machine, in order, each with words of the command for it."""

LOOP = re.compile(r'^for seed in .*?^done\n', re.MULTILINE | re.DOTALL)
"""The commands that remove jobs from the log."""


def has_parallel() -> bool:
    """Returns whether GNU parallel and rsync are installed. Debian's `moreutils` has another `parallel`."""
    if not (shutil.which('parallel') and shutil.which('rsync')):
        return False
    return b'GNU parallel' in subprocess.run(['parallel', '--version'], stdin=subprocess.DEVNULL, capture_output=True).stdout


def smaller(page: str) -> str:
    """Returns the page with fewer sessions in its walk."""
    for before, after in SMALLER.items():
        if before not in page:
            raise LookupError(f'the walk has no {before}')
        page = page.replace(before, after)
    return page


def make_machines(folder: Path, env: Mapping[str, str]) -> dict[str, str]:
    """Makes the machines ada and bob in a new folder. Returns the environment with an `ssh` that runs commands on them."""
    for name in 'ada', 'bob', 'bin', 'ssh', 'parallel':
        (folder / name).mkdir(parents=True)
    for name in 'bash', 'cmp', 'mkdir', 'perl', 'rm', 'rmdir', 'rsync', 'sh':
        (folder / 'bin' / name).symlink_to(shutil.which(name))
    (folder / 'ssh/ssh').write_text(SSH)
    (folder / 'ssh/ssh').chmod(0o755)
    return {**env, 'PATH': f'{folder}/ssh:{env["PATH"]}', 'MACHINES': str(folder), 'PARALLEL_HOME': f'{folder}/parallel'}


@unittest.skipUnless(has_parallel(), 'GNU parallel or rsync is not installed')
class ManyTest(ProgramTest):

    def setUp(self) -> None:
        super().setUp()
        self.top = self.work / 'top'
        self.top.mkdir()
        copy_tree(self.top)
        self.page = self.put('MACHINES.md', smaller((TOP / 'docs/MACHINES.md').read_text()))
        self.scripts, self.one, self.several, self.again = [block['commands'] for block in blocks_of(self.page.read_text(), 'sh parallel')[:4]]

    def run_block(self, commands: str, machines: str = 'machines', goes: str = '') -> tuple[int, str]:
        """Returns the status and the standard output of commands, run with new machines, of which bob goes away."""
        env = make_machines(self.work / machines, {**os.environ, 'GOES': goes})
        done = self.run_with_children('bash', '-c', commands, cwd=self.top, env=env)
        return done.returncode, done.stdout.decode()

    def reports_of_runs(self) -> dict[str, bytes]:
        """Returns the report of each script, from runs one after another."""
        walk = self.top / 'walk'
        words = [walk / 'kit/randrec.com', 'new.db', '--edits', walk / 'kit/run', '--console']
        return {name: self.run_command(PROGRAM, *words, walk / 'scripts' / name).stdout for name in files_below(walk / 'scripts')}

    def test_the_walk_prints_what_the_page_has(self) -> None:
        machines = self.work / 'machines'
        if found := wrong_blocks(self.page, self.top, make_machines(machines, os.environ), 'sh parallel'):
            self.fail('\n'.join(['', *found]))
        for name in 'ada', 'bob':
            self.assertIn('perl', (machines / f'{name}.commands').read_text())
            self.assertEqual(files_below(machines / name), {}, 'files are left there')

    def test_a_machine_that_goes_away_changes_no_report(self) -> None:
        """Jobs must be removed from the log only if it goes away while reports come back. With `--retries`, no second command is needed."""
        self.assertEqual(self.run_block(self.scripts + self.one), (0, ''))
        wanted = self.reports_of_runs()
        self.assertGreater(len(wanted), 40)
        self.assertEqual(files_below(self.top / 'walk/one'), wanted)
        for part, words in PARTS.items():
            with self.subTest(f'bob goes away before {part}'):
                self.assertNotEqual(self.run_block(self.several, f'before {part}', words)[0], 0)
                self.assertLess(files_below(self.top / 'walk/several').items(), wanted.items())
                again = self.again if part == 'reports come back' else LOOP.sub('', self.again)
                self.assertEqual(self.run_block(again, f'after {part}'), (0, 'same\n'))
                self.assertEqual(files_below(self.top / 'walk/several'), wanted)
            shutil.rmtree(self.top / 'walk/several')
        retrying = self.several.replace('--joblog log', '--joblog log --retries 2')
        self.assertEqual(self.run_block(retrying, 'retries', 'perl'), (0, 'same\n'))
