"""Tests the targets of the Makefile that need no build: `make bench`, with stand-ins for the scripts that measure, and `make needs`."""
import shutil

from helpers import TOP, WorkTest, read_crates

SCRIPTS = ['benchmark', 'instructions', 'calls', 'edits', 'listings', 'traces']


class MakeTest(WorkTest):

    def bench(self, *failing: str) -> tuple[int, list[str]]:
        """Returns the status of `make bench` if these scripts fail, and the lines of all."""
        shutil.copy(TOP / 'Makefile', self.work)
        (self.work / 'tests/measure').mkdir(parents=True, exist_ok=True)
        (self.work / 'scripts').mkdir(exist_ok=True)
        for name in *SCRIPTS, '../../scripts/run':
            script = self.put(f'tests/measure/{name}', f'#!/bin/sh\necho {name} "$@"\nexit {int(name in failing)}\n')
            script.chmod(0o755)
        done = self.run_with_children('make', '-s', '-C', self.work, 'bench', 'PROGRAM=one', 'DEPENDENCIES_PROGRAM=two',
                                      'TRACE_PROGRAM=three')
        return done.returncode, done.stdout.decode().splitlines()

    def test_all_that_measures_runs_and_the_status_tells(self) -> None:
        lines = ['benchmark one', 'instructions one', 'calls one', 'edits one', 'listings two one', 'traces three one']
        self.assertEqual(self.bench(), (0, lines))
        for name in SCRIPTS:
            self.assertEqual(self.bench(name), (2, lines), name)

    def test_the_crates_that_a_crate_needs(self) -> None:
        uses = {crate.name: crate.uses for crate in read_crates()}
        for name in uses:
            wanted, left = set(), [name]
            while left:
                one = left.pop()
                if one in uses and one not in wanted:
                    wanted.add(one)
                    left += uses[one]
            done = self.run_command('make', '-s', 'needs', f'CRATE={name}')
            self.assertEqual(done.stdout.decode().split(), [crate for crate in uses if crate in wanted], name)
