"""Tests `make install`, `make uninstall` and `make dist`, and the completion for bash."""
import os
import re
import shutil
import subprocess
import tempfile
import unittest
from pathlib import Path

from helpers import DEPENDENCIES_PROGRAM, PROGRAM, TOP, TRACE_PROGRAM, files_below
from test_many import has_parallel, make_machines, smaller
from test_pages import wrong_blocks

PROGRAMS = {'cpmrun': PROGRAM, 'cpmdeps': DEPENDENCIES_PROGRAM, 'cpmtrace': TRACE_PROGRAM}
LINKS = {'bin/cpmdeps': 'cpmrun', 'bin/cpmtrace': 'cpmrun'}
"""The links that are installed, with what they have."""


def run(*words, **how):
    return subprocess.run(words, stdout=subprocess.PIPE, stderr=subprocess.STDOUT, text=True, **how)


def links_below(folder):
    """Returns the links below a folder, by their paths from there, with what they have, be it there or not."""
    return {path.relative_to(folder).as_posix(): os.readlink(path) for path in folder.rglob('*') if path.is_symlink()}


class Install(unittest.TestCase):
    def setUp(self):
        work = tempfile.TemporaryDirectory()
        self.addCleanup(work.cleanup)
        self.work = Path(work.name)

    def make(self, *words, **how):
        made = run('make', '-C', TOP, *words, cwd=TOP, **how)
        self.assertEqual(made.returncode, 0, made.stdout)
        return made.stdout

    def test_what_is_installed_works_and_is_removed(self):
        prefix = self.work / 'prefix'
        (prefix / 'bin').mkdir(parents=True)
        (prefix / 'bin/other').write_text('not ours')
        self.make('install', f'PREFIX={prefix}')
        doc = prefix / 'share/doc/cpmrun'
        for name, program in PROGRAMS.items():
            self.assertEqual((prefix / 'bin' / name).read_bytes(), program.read_bytes())
            self.assertEqual(run(prefix / 'bin' / name, '--version').stdout, f'{name} 1.0.0\n')
        self.assertEqual(links_below(prefix), LINKS)
        for page in doc.rglob('*.md'):
            self.assertNotRegex(page.read_text(), r'\./(cpmrun|cpmdeps|cpmtrace|vembrusk)\b|tests/programs', page)
        env = {**os.environ, 'PATH': f'{prefix}/bin:{os.environ["PATH"]}'}
        found = []
        for page in 'WALKS.md', 'MANUAL.md', 'TOOLS.md', 'examples/README.md':
            copy = self.work / 'copies' / page
            shutil.copytree(doc, copy)
            found += wrong_blocks(doc / page, copy, env)
        if has_parallel():
            page = self.work / 'MACHINES.md'
            page.write_text(smaller((doc / 'MACHINES.md').read_text()))
            found += wrong_blocks(page, self.work / 'copies/WALKS.md', make_machines(self.work / 'machines', env), 'sh parallel')
        if found:
            self.fail('\n'.join(['', *found]))
        examples = run('make', '-s', '-C', doc / 'examples', f'BUILT={self.work}/built', 'test-hi', env=env)
        self.assertIn('hi: as expected', examples.stdout)
        (self.work / 'typed').write_bytes(b'((a)(b(c))) and more\r')
        tools, nest = prefix / 'bin/vembrusk', doc / 'examples/tools/nest.com'
        shrunk = run(tools, 'shrink', nest, '--console', 'typed', '--cause', 'Halt', '-o', 'least', cwd=self.work, env=env)
        self.assertIn('3 of 21 bytes left', shrunk.stdout)
        explored = run('bash', '-o', 'pipefail', '-c', '"$0" explore "$1" --tries 3000 2>&1 > >(head -n 1 > /dev/null)', tools, nest, env=env)
        self.assertEqual(explored.stdout, '', 'explore complains of a closed pipe')
        (doc / 'mine').write_text('mine')
        self.make('uninstall', f'PREFIX={prefix}')
        self.assertEqual(files_below(prefix), {'bin/other': b'not ours', 'share/doc/cpmrun/mine': b'mine'})
        self.assertEqual(links_below(prefix), {})

    def test_what_is_installed_replaces_files_and_links_and_writes_through_none(self):
        """An older installation has a file for each name; a link may lead to a file or a folder of somebody else, or to nothing."""
        for number, others in enumerate([
                {}, {'cpmdeps': '../other', 'cpmtrace': '../other'}, {'cpmrun': '../other', 'cpmdeps': 'cpmrun', 'cpmtrace': '../folder'},
                {'cpmrun': 'cpmtrace', 'cpmdeps': '../none', 'cpmtrace': '../other'}]):
            with self.subTest(others):
                prefix = self.work / f'prefix{number}'
                (prefix / 'bin').mkdir(parents=True)
                (prefix / 'folder').mkdir()
                (prefix / 'other').write_text('not ours')
                for name in PROGRAMS:
                    if name in others:
                        (prefix / 'bin' / name).symlink_to(others[name])
                    else:
                        (prefix / 'bin' / name).write_text('older')
                        os.link(prefix / 'bin' / name, prefix / f'same as {name}')
                before = {name: (prefix / name).read_text() for name in os.listdir(prefix) if (prefix / name).is_file()}
                for _ in range(2):
                    self.make('install', f'PREFIX={prefix}')
                    self.assertEqual(links_below(prefix), LINKS)
                    self.assertEqual((prefix / 'bin/cpmrun').read_bytes(), PROGRAM.read_bytes())
                    for name in PROGRAMS:
                        self.assertEqual(run(prefix / 'bin' / name, '--version').stdout, f'{name} 1.0.0\n')
                self.make('uninstall', f'PREFIX={prefix}')
                self.assertEqual(files_below(prefix), {name: text.encode() for name, text in before.items()})
                self.assertEqual((links_below(prefix), os.listdir(prefix / 'bin'), os.listdir(prefix / 'folder')), ({}, [], []))

    def test_a_package_and_a_staged_install_have_the_same_files(self):
        self.make('install', f'DESTDIR={self.work}/a root', 'PREFIX=/usr')
        name = self.make('-s', 'dist').splitlines()[-1]
        self.addCleanup((TOP / name).unlink)
        self.assertEqual(run('tar', '-C', self.work, '-xzf', TOP / name).returncode, 0)
        package = self.work / name.removesuffix('.tar.gz')
        self.assertEqual(files_below(package), files_below(self.work / 'a root/usr'))
        for folder in package, self.work / 'a root/usr':
            self.assertEqual(links_below(folder), LINKS)
            for name in PROGRAMS:
                self.assertEqual(run(folder / 'bin' / name, '--version').stdout, f'{name} 1.0.0\n')

    def test_others_can_run_what_is_installed_under_any_umask(self):
        for umask in 0o077, 0o027:
            self.make('install', f'PREFIX={self.work}/prefix', umask=umask)
            for path in (self.work / 'prefix').rglob('*'):
                wanted = 0o755 if path.is_dir() or path.stat().st_mode & 0o100 else 0o644
                self.assertEqual(path.stat().st_mode & 0o777, wanted, path)
        self.assertTrue(os.access(self.work / 'prefix/bin/cpmrun', os.X_OK))

    def completions(self, name, *words):
        script = 'source "$0"; COMP_WORDS=("$@"); COMP_CWORD=$(($# - 1)); "_$1" 2> /dev/null; echo "${COMPREPLY[*]}"'
        return subprocess.check_output(['bash', '-c', script, TOP / 'scripts/completion', name, *words], cwd=self.work, text=True).split()

    def test_bash_completes_options_folders_and_files(self):
        (self.work / 'disk').mkdir()
        (self.work / 'digits.com').touch()
        for words, wanted in [('--s',), '--spacing --slots'], [('--files', 'di'), 'disk'], [('--files', '=', 'di'), 'disk'], \
                [('dig',), 'digits.com'], [('--edits', 'dig'), 'digits.com'], [('--limit', 'd'), ''], [('--typed', 'd'), '']:
            self.assertEqual(self.completions('cpmrun', *words), wanted.split(), words)
        for name, program in PROGRAMS.items():
            self.assertEqual(self.completions(name, '--'), re.findall(r'(?m)^ +(?:-., )?(--[a-z-]+)', run(program, '--help').stdout))
            shown = run('bash', '-c', f'source "$0" && complete -p {name}', TOP / 'scripts/completion').stdout
            self.assertEqual(shown, f'complete -F _{name} {name}\n')
        for option in '--make', '--by-step':
            self.assertEqual(self.completions('cpmdeps', option, 'dig'), ['digits.com'])
        for option, wanted in ('--file', ['digits.com']), ('--at', []), ('--writes', []):
            self.assertEqual(self.completions('cpmtrace', option, 'dig'), wanted)
