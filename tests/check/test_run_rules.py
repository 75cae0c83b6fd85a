"""Runs the built program with `--deps`: the rule that it writes, which make reads, and each allocation and each system call failing in turn."""
import os
import subprocess
from pathlib import Path

from failures import FailureTest, Wanted
from helpers import DEPENDENCIES_PROGRAM, HI, PROGRAM
from test_listing import DependenciesTest
from vembrusk.assembler import assemble

WARM = b'stop WarmBoot\n'

MAKE_TWO = assemble(['MVI C,22; LXI D,6CH; CALL 5; MVI C,22; LXI D,5CH; CALL 5; RET'])
"""Makes the file of the second word of its tail, and then that of the first."""

MAKE_AND_OPEN = assemble(['MVI C,22; LXI D,6CH; CALL 5; MVI C,15; LXI D,5CH; CALL 5; RET'])
"""Makes the file of the second word of its tail, and opens that of the first."""

WRITE_AND_SEARCH = assemble(['MVI C,19; LXI D,5CH; CALL 5; MVI C,22; LXI D,5CH; CALL 5; MVI C,21; LXI D,5CH; CALL 5; MVI C,17; LXI D,5CH; CALL 5; RET'])
"""Deletes the file of its tail, makes it, writes the record at 80H, which has the tail, and searches it."""


class Failures(FailureTest):
    """A session that renames a host file, and writes it and a rule."""

    def words_and_files(self) -> tuple[list[object], dict[str, bytes]]:
        words, files = self.rename_words()
        work = self.work
        rule = (f'{work}/written/a/Y: {work}/rename.com {work}/host/x $(wildcard {work}/host/Y {work}/host/y)\n'
                f'{work}/host/x:\n# not there: {work}/host/Y\n')
        return [*words, '--deps', work / 'written/d/rule'], {**files, 'd/rule': rule.encode()}


class Refusals(Failures):
    library = 'refuse'

    def test_each_allocation_fails(self) -> None:
        words, files = self.words_and_files()
        for before in {}, dict.fromkeys(files, b'o' * 1000):
            self.each_in_turn(Wanted(b'', WARM + b'gone X\n', may_be_cut=False, files=files, outside=1, before=before), *words)
        for words in [HI, '--deps', 'a:'], [HI, '--edits', 'none', '--deps', 'none']:
            self.each_in_turn(Wanted(b'', self.run_command(PROGRAM, *words).stderr, status=1, may_be_cut=False), *words)


class Devices(Failures):
    library = 'fail'

    def each_call_fails(self) -> None:
        words, files = self.words_and_files()
        written = self.work / 'written'
        unread = words[0], self.work / 'host', self.work / 'host/x', written / 'a', written / 'a/Y', written / 'd', written / 'd/rule'
        messages = (*(f'cannot read {path}' for path in unread), *(f'cannot write {written}/{name}' for name in (*files, 'a/.Y.new', 'd/.rule.new')))
        for before in {}, dict.fromkeys(files, b'o' * 1000):
            wanted = Wanted(b'', WARM + b'gone X\n', fault_status=1, messages=messages, may_pass=False, files=files, outside=1, before=before)
            self.each_in_turn(wanted, *words)

    def test_each_call_fails(self) -> None:
        self.environment = {'FAIL_CALLS': 'orwdsyn'}
        self.each_call_fails()

    def test_each_read_or_write_of_one_byte_fails(self) -> None:
        self.environment = {'FAIL_CALLS': 'rw', 'FAIL_PIECES': '1'}
        self.each_call_fails()


class DepsTest(DependenciesTest):
    """Rules that are written with a product."""

    def run_with_rule(self, *words: object) -> str:
        done = self.run_command(PROGRAM, *words, '--deps', 'rule.d', cwd=self.work)
        self.assertEqual((done.returncode, done.stdout, done.stderr), (0, b'', WARM))
        return (self.work / 'rule.d').read_text()

    def is_made(self, *targets: str) -> bool:
        """Returns whether make has to make one of these targets of the rule, which get a recipe."""
        head, _, rest = (self.work / 'rule.d').read_text().partition('\n')
        (self.work / 'rule.mk').write_text(f'{head}\n\t@echo made\n{rest}')
        env = {name: value for name, value in os.environ.items() if name not in ('MAKEFLAGS', 'MAKELEVEL', 'MFLAGS')}
        done = subprocess.run(['make', '-q', '-f', 'rule.mk', *targets], cwd=self.work, env=env, capture_output=True)
        self.assertEqual((done.stdout, done.stderr), (b'', b''))
        self.assertLess(done.returncode, 2)
        return done.returncode == 1

    def touch(self, seconds: int, *paths: str) -> None:
        for path in paths:
            os.utime(self.work / path, (1_000_000_000 + seconds,) * 2)

    def disk(self, **files: str) -> Path:
        (self.work / 'disk').mkdir()
        (self.work / 'made').mkdir()
        for name, text in files.items():
            (self.work / 'disk' / name).write_text(text)
        return self.work / 'disk'

    def test_what_changes_makes_again(self) -> None:
        self.disk(one='1', two='2')
        self.put('two.com', MAKE_AND_OPEN)
        rule = self.run_with_rule('two.com', 'one out', '--files', 'disk', '--out', 'made')
        self.assertEqual(rule, 'made/OUT: two.com disk/one $(wildcard disk/OUT disk/out)\ndisk/one:\n# not there: disk/OUT\n')
        self.touch(1, 'two.com', 'disk/one', 'disk/two', 'made/OUT')
        self.assertFalse(self.is_made('made/OUT'))
        for path, is_needed in ('two.com', True), ('disk/one', True), ('disk/two', False):
            self.touch(2, path)
            self.assertEqual(self.is_made('made/OUT'), is_needed, path)
            self.touch(1, path)
        (self.work / 'disk/out').write_text('')
        self.assertTrue(self.is_made('made/OUT'))

    def test_what_changes_on_a_disk_makes_again(self) -> None:
        self.disk(one='1', two='2')
        self.put('two.com', MAKE_AND_OPEN)
        rule = self.run_with_rule('two.com', 'one out', '--disk', 'disk')
        self.assertEqual(rule, 'disk/out: two.com disk/one $(wildcard disk/OUT)\ndisk/one:\n# not there: disk/OUT\n')
        self.touch(1, 'two.com', 'disk/one', 'disk/two', 'disk/out')
        self.assertFalse(self.is_made('disk/out'))
        for path, is_needed in ('two.com', True), ('disk/one', True), ('disk/two', False), ('disk', False):
            self.touch(2, path)
            self.assertEqual(self.is_made('disk/out'), is_needed, path)
            self.touch(1, path)

    def test_each_target_is_made_again(self) -> None:
        self.disk()
        self.put('two.com', MAKE_TWO)
        rule = self.run_with_rule('two.com', 'z a', '--out', 'made')
        self.assertEqual(rule, 'made/A made/Z: two.com\n# not there: A\n# not there: Z\n')
        self.touch(1, 'two.com', 'made/A', 'made/Z')
        self.assertFalse(self.is_made('made/A', 'made/Z'))
        self.touch(2, 'two.com', 'made/A')
        self.assertFalse(self.is_made('made/A'))
        self.assertTrue(self.is_made('made/Z'))

    def test_no_target_depends_on_itself(self) -> None:
        self.disk(ONE='1')
        self.put('write.com', WRITE_AND_SEARCH)
        for tail, found in ('new first', {'ONE'}), ('new second', {'ONE', 'NEW'}):
            self.assertEqual({path.name for path in (self.work / 'disk').iterdir()}, found)
            rule = self.run_with_rule('write.com', tail, '--disk', 'disk')
            self.assertEqual(rule.partition('\n')[0].split(' $')[0], 'disk/NEW: write.com disk/ONE disk/')
        self.touch(1, 'write.com', 'disk/ONE', 'disk', 'disk/NEW')
        self.assertFalse(self.is_made('disk/NEW'))

    def test_the_rule_is_the_one_of_cpmdeps(self) -> None:
        self.disk(one='1', two='2')
        self.put('two.com', MAKE_AND_OPEN)
        self.put('typed', 'x')
        for tail, limit, target in ('one out', 1000, 'made/OUT'), ('two gone', 1000, 'made/GONE'), ('one out', 3, 'rule.d'), ('', 1000, 'rule.d'):
            words = ['two.com', tail, '--files', 'disk', '--console', 'typed', '--limit', str(limit)]
            wanted = self.run_command(DEPENDENCIES_PROGRAM, *words, '--make', target, cwd=self.work)
            done = self.run_command(PROGRAM, *words, '--out', 'made', '--deps', 'rule.d', cwd=self.work)
            with self.subTest(tail=tail, limit=limit):
                self.assertEqual((done.stdout, done.stderr), (b'', wanted.stderr))
                self.assertEqual((self.work / 'rule.d').read_bytes(), wanted.stdout)
