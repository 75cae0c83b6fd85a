"""Runs the examples and compares all that they print and write, by `make -C examples test`; runs the commands of the table in their README;
and checks that each folder of a program is among them, and that a changed byte in each expected file is reported. Builds by the rules of
examples/rebuild, and copies files by examples/fixture."""
import os
import re
import shutil
import subprocess
from pathlib import Path
from unittest import mock

from helpers import DEPENDENCIES_PROGRAM, PROGRAM, TOP, ProgramTest
from vembrusk.assembler import assemble

EXAMPLES = TOP / 'examples'
NAMES = sorted(path.stem for path in EXAMPLES.glob('*/*.asm') if path.stem == path.parent.name)


def is_expected_file(path: Path) -> bool:
    return path.is_file() and (path.name in ('expected', 'expected-made', 'edits.out') or path.parent.name == 'expected-files')


class ExamplesTest(ProgramTest):

    def make_examples(self, folder: Path, goal: str, *words: str) -> subprocess.CompletedProcess:
        """Runs the examples in a folder, all or one."""
        env = {name: value for name, value in os.environ.items() if name not in ('MAKEFLAGS', 'MAKELEVEL', 'PROGRAM')}
        words = words or (f'PROGRAM={PROGRAM}', f'BUILT={self.work}/built')
        return self.run_with_children('make', '-s', '-C', folder, *words, goal, stderr=subprocess.STDOUT, env=env)

    def test_all_examples_print_and_write_what_is_expected(self) -> None:
        done = self.make_examples(EXAMPLES, 'test')
        self.assertEqual(done.returncode, 0, done.stdout.decode())
        lines = [line for line in done.stdout.decode().splitlines() if line.endswith(': as expected')]
        self.assertEqual(sorted(lines), [f'{name}: as expected' for name in NAMES])

    def test_they_run_in_any_folder(self) -> None:
        top = self.work / "an old disk's copy"
        shutil.copytree(EXAMPLES, top / 'examples', ignore=shutil.ignore_patterns('built'))
        (top / 'cpmrun').symlink_to(PROGRAM)
        done = self.make_examples(top / 'examples', 'test', 'EXAMPLES=hi sort')
        self.assertEqual((done.returncode, done.stdout.decode()), (0, 'hi: as expected\nsort: as expected\n'))

    def test_the_commands_of_the_table_end_with_a_warm_boot(self) -> None:
        shutil.copytree(EXAMPLES, self.work / 'examples')
        (self.work / 'made').mkdir()
        (self.work / 'cpmrun').symlink_to(PROGRAM)
        commands = re.findall(r'^\| \[.*`(\./cpmrun [^`]*)` \|$', (EXAMPLES / 'README.md').read_text(), re.MULTILINE)
        self.assertEqual(len(commands), len(NAMES))
        for command in commands:
            with self.subTest(command):
                done = self.run_with_children('bash', '-c', command, cwd=self.work)
                self.assertEqual(done.returncode, 0, done.stderr)
                self.assertIn(b'stop WarmBoot', done.stderr.splitlines())

    def test_a_changed_byte_in_each_expected_file_is_reported(self) -> None:
        shutil.copytree(EXAMPLES, self.work / 'examples')
        for path in sorted(filter(is_expected_file, EXAMPLES.rglob('*'))):
            name = path.relative_to(EXAMPLES)
            with self.subTest(file=name):
                copy = self.work / 'examples' / name
                copy.write_bytes(path.read_bytes() + b'x')
                self.assertNotEqual(self.make_examples(self.work / 'examples', f'test-{name.parts[0]}').returncode, 0)
                copy.write_bytes(path.read_bytes())


class RebuildTest(ProgramTest):
    """The Makefile whose rules cpmrun writes."""

    def build(self, status: int = 0, source: str = 'source') -> list[str]:
        """Returns the programs that make assembles, the last one in vain if the status is not 0."""
        env = {name: value for name, value in os.environ.items() if name not in ('MAKEFLAGS', 'MAKELEVEL')}
        words = ['make', '-s', '-f', EXAMPLES / 'rebuild/Makefile', f'CPMRUN={PROGRAM}', 'ASSEMBLER=assemble.com', 'PROGRAMS=HI LETTERS']
        done = self.run_command(*words, f'SOURCE={source}', cwd=self.work, env=env)
        self.assertEqual((done.returncode, bool(done.stderr)), (status, status != 0), done.stderr)
        return done.stdout.decode().replace('assembling ', '').split()

    def change(self, name: str, *words: bytes) -> None:
        """Replaces the first text by the second in a file, which is then newer than all that was made."""
        path = self.work / name
        path.write_bytes(path.read_bytes().replace(*words))
        newest = max(each.stat().st_mtime_ns for each in (self.work / 'made').iterdir())
        os.utime(path, ns=(newest + 1000,) * 2)

    def test_only_what_was_read_is_assembled_again(self) -> None:
        shutil.copytree(EXAMPLES / 'assemble/files', self.work / 'source')
        shutil.copy2(EXAMPLES / 'assemble/assemble.com', self.work)
        self.put('source/notes.txt', 'not read')
        self.assertEqual(self.build(), ['HI', 'LETTERS'])
        self.assertEqual(self.build(), [])
        self.change('source/notes.txt', b'not', b'never')
        self.assertEqual(self.build(), [])
        self.change('source/hi.hex', b'"Hi$"', b'"Ho$"')
        self.assertEqual(self.build(), ['HI'])
        self.expect(0, 'Ho', 'stop WarmBoot\n', self.work / 'made/HI.COM')
        self.change('assemble.com', b'', b'')
        self.assertEqual(self.build(), ['HI', 'LETTERS'])
        self.assertEqual(self.build(), [])
        self.change('source/hi.hex', b'"Ho$"', b'"Ho$')
        for _ in range(2):
            self.assertEqual(self.build(2), ['HI'])
        self.change('source/hi.hex', b'"Ho$', b'"Ho$"')
        self.assertEqual(self.build(), ['HI'])

    def test_the_path_of_the_sources_may_have_a_blank(self) -> None:
        shutil.copytree(EXAMPLES / 'assemble/files', self.work / 'my source')
        shutil.copy2(EXAMPLES / 'assemble/assemble.com', self.work)
        self.assertEqual(self.build(source='my source'), ['HI', 'LETTERS'])
        self.assertEqual(self.build(source='my source'), [])
        self.change('my source/hi.hex', b'"Hi$"', b'"Ho$"')
        self.assertIn('HI', self.build(source='my source'))


class FixtureTest(ProgramTest):
    """The script that copies only the files that a run asks for."""

    OPEN_TWO = assemble(['MVI C,15; LXI D,6CH; CALL 5; MVI C,15; LXI D,5CH; CALL 5; RET'])
    """Opens both names of its tail."""

    def least(self, *words: object, folder: str = 'disk', new: str = 'new') -> subprocess.CompletedProcess:
        (self.work / 'disk').mkdir(exist_ok=True)
        for name in 'One.txt', 'two.', 'three.txt', 'four':
            self.put(f'disk/{name}', name)
        env = {**os.environ, 'CPMDEPS': str(DEPENDENCIES_PROGRAM)}
        return self.run_command(EXAMPLES / 'fixture/least', folder, new, *words, cwd=self.work, env=env)

    def test_files_that_were_asked_for_are_copied(self) -> None:
        done = self.least(self.put('open.com', self.OPEN_TWO), 'one.txt two')
        self.assertEqual((done.returncode, done.stdout, done.stderr), (0, b'', b''))
        self.expect_names(self.work / 'new', 'One.txt', 'two.')
        self.assertEqual((self.work / 'new/One.txt').read_text(), 'One.txt')

    def test_a_folder_can_be_a_link_and_begin_with_a_hyphen(self) -> None:
        (self.work / '-link').symlink_to('disk')
        self.put('open.com', self.OPEN_TWO)
        for folder, new in ('-link', '-new'), ('disk/', 'new/'):
            done = self.least('open.com', 'one.txt two', folder=folder, new=new)
            self.assertEqual((done.returncode, done.stdout, done.stderr), (0, b'', b''))
            self.expect_names(self.work / new, 'One.txt', 'two.')

    def test_a_file_that_cannot_be_copied_is_an_error(self) -> None:
        self.put('open.com', self.OPEN_TWO)
        self.put('cp', '#!/bin/sh\nexit 1\n').chmod(0o755)
        with mock.patch.dict(os.environ, PATH=f'{self.work}:{os.environ["PATH"]}'):
            done = self.least('open.com', 'one.txt two')
        self.assertEqual((done.returncode, done.stderr), (1, b'least: cannot copy ONE.TXT\n'))

    def test_other_drives_and_missing_files_are_not_copied(self) -> None:
        self.least(self.put('open.com', self.OPEN_TWO), 'b:one.txt none', '--files-b', 'disk')
        self.expect_names(self.work / 'new')

    def test_a_directory_is_an_error(self) -> None:
        done = self.least(self.put('search.com', assemble(['MVI C,17; LXI D,5CH; CALL 5; RET'])), '*.txt')
        self.assertEqual((done.returncode, done.stdout), (1, b''))
        self.assertEqual(done.stderr.decode(), 'least: the run asked for the directory of drive A, so it depends on each name there\n')
        self.expect_names(self.work, 'disk', 'search.com')
        self.assertEqual(self.least('none.com').stderr, b'cpmdeps: cannot read none.com\n')

    def test_a_run_that_was_cut_is_an_error(self) -> None:
        done = self.least(self.put('open.com', self.OPEN_TWO), 'one.txt two', '--limit', '3')
        self.assertEqual((done.returncode, done.stderr), (1, b'least: the run ended by stop Limit, so a longer one may ask for more\n'))
        self.assertFalse((self.work / 'new').exists())
