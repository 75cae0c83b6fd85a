"""Calls the program by each of its names, and by others: it is `cpmdeps` or `cpmtrace` if the last part of the path by which it is called is
exactly that, and else `cpmrun`. The name is in what it prints, and the file that is executed is the same."""
import os
import subprocess
from pathlib import Path

from helpers import DEPENDENCIES_PROGRAM, HI, PROGRAM, TRACE_PROGRAM, ProgramTest

PROGRAMS = {'cpmrun': PROGRAM, 'cpmdeps': DEPENDENCIES_PROGRAM, 'cpmtrace': TRACE_PROGRAM}
PRINTED = {
    'cpmrun': ('Hi', 'stop WarmBoot\n'),
    'cpmdeps': ('page 0000-0002 0005-0007 step 3\nprogram 0100-010B FDFE-FDFF step 0\nstop WarmBoot\n', ''),
    'cpmtrace': ('step 4 call 9 print string 0109 "Hi"\nstop WarmBoot\n', ''),
}
"""What each prints of hi.com on standard output and standard error."""

OTHERS = ['mycpm', 'cpmdeps-1.0', 'cpmtrace2', 'xcpmdeps', 'my-cpmtrace', 'cpmdeps.exe', 'Cpmdeps', 'CPMTRACE', 'cpmdep', 'cpmtrac', 'cpm',
          'vembrusk', 'cpmdeps cpmtrace', ' cpmdeps', 'é']
"""Names that are no name of a program."""


class NamesTest(ProgramTest):

    def expect_program(self, name: str, *words: object, **how) -> None:
        """Expects that a command, its first words, is this program: what it does, its version, its help, and its usage errors."""
        usage = f"\nUsage: {name} [OPTIONS] <PROGRAM> [TAIL]\n\nFor more information, try '--help'.\n"
        self.expect_command(0, *PRINTED[name], *words, HI, **how)
        self.expect_command(0, f'{name} 1.0.0\n', '', *words, '--version', **how)
        self.expect_command(1, '', f'{name}: cannot read none.com\n', *words, 'none.com', **how)
        self.expect_command(1, '', f"error: unexpected argument 'b' found\n{usage}", *words, HI, 'a', 'b', **how)
        self.expect_command(1, '', f'error: invalid UTF-8 was detected in one or more arguments\n{usage}', *words, HI, b'\xff', **how)
        shown = self.run_command(*words, '--help', **how)
        self.assertEqual((shown.returncode, shown.stderr), (0, b''))
        self.assertIn(f'Usage: {name} [OPTIONS] <PROGRAM> [TAIL]\n', shown.stdout.decode())
        self.assertEqual(shown.stdout, self.run_command(PROGRAMS[name], '--help').stdout)

    def expect_called(self, name: str, path: str) -> None:
        """Expects that the file is this program if it is called by this path, at which there may be nothing."""
        with self.subTest(path):
            self.expect_program(name, path, executable=PROGRAM)

    def link(self, name: str) -> Path:
        """Makes a link to the program below `work`."""
        path = self.work / name
        path.parent.mkdir(exist_ok=True)
        path.symlink_to(PROGRAM)
        return path

    def test_the_built_program_is_one_file_with_three_names(self) -> None:
        for name, program in PROGRAMS.items():
            self.assertTrue(program.samefile(PROGRAM), f'{program} and {PROGRAM} are two files')
            self.expect_program(name, program)

    def test_a_path_that_ends_with_the_name_of_a_program_is_that_program(self) -> None:
        for name in PROGRAMS:
            for path in name, f'./{name}', f'../{name}', f'bin/{name}', f'/usr/local/bin/{name}', f'//{name}', f'/a folder/é/{name}':
                self.expect_called(name, path)

    def test_any_other_name_is_cpmrun(self) -> None:
        for other in OTHERS:
            self.expect_called('cpmrun', other)
            self.expect_called('cpmrun', f'/usr/local/bin/{other}')
        self.expect_called('cpmrun', '')

    def test_only_the_last_part_of_the_path_counts(self) -> None:
        for path, name in {'/opt/cpmdeps/cpmrun': 'cpmrun', 'cpmdeps/mycpm': 'cpmrun', '/opt/cpmtrace/cpmdeps': 'cpmdeps',
                           'cpmdeps/cpmtrace': 'cpmtrace', '/opt/cpmrun/cpmtrace': 'cpmtrace', 'cpmtrace/cpmdeps-1.0': 'cpmrun'}.items():
            self.expect_called(name, path)

    def test_a_link_is_what_its_own_name_says(self) -> None:
        for link, name in {'a/cpmdeps': 'cpmdeps', 'a/cpmtrace': 'cpmtrace', 'a/cpmrun': 'cpmrun', 'a/mycpm': 'cpmrun', 'a/cpmdeps-1.0': 'cpmrun',
                           'cpmtrace': 'cpmtrace'}.items():
            path = self.link(link)
            with self.subTest(link):
                self.expect_program(name, path)
                self.expect_program(name, f'./{path.name}', cwd=path.parent)
                self.expect_program(name, path.name, env={**os.environ, 'PATH': f'{path.parent}:{os.environ["PATH"]}'})

    def test_a_link_to_a_link_and_a_copy_are_what_their_names_say(self) -> None:
        self.link('cpmdeps')
        (self.work / 'mycpm').symlink_to('cpmdeps')
        (self.work / 'cpmtrace').symlink_to('cpmdeps')
        (self.work / 'copies').mkdir()
        subprocess.run(['cp', PROGRAM, self.work / 'copies/cpmdeps'], check=True)
        for path, name in {'mycpm': 'cpmrun', 'cpmtrace': 'cpmtrace', 'copies/cpmdeps': 'cpmdeps'}.items():
            self.expect_program(name, self.work / path)

    def test_the_words_are_those_of_the_program_that_the_name_says(self) -> None:
        """An option that only one of the three has is a usage error of the others."""
        options = {'cpmrun': ['--partial'], 'cpmdeps': ['--by-step'], 'cpmtrace': ['--steps']}
        for name in PROGRAMS:
            for owner, words in options.items():
                with self.subTest(name, words=words):
                    done = self.run_command(name, HI, *words, executable=PROGRAM)
                    self.assertEqual(done.returncode, 0 if owner == name else 1, done.stderr)
                    self.assertEqual(done.stderr.startswith(f"error: unexpected argument '{words[0]}' found\n".encode()), owner != name)
