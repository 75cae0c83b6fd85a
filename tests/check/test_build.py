"""Has `cpmrun`, `cpmdeps` and `make` build a tree of small crates, with a stand-in for rt that sleeps in place of a proof: the order, parallel
proofs, failures, interrupted builds, the program that is kept meanwhile, its names, copies, and what a terminal shows."""
import contextlib
import os
import pty
import re
import shutil
import signal
import subprocess
import tempfile
import time
import unittest
from pathlib import Path

from helpers import TOP

CRATES = '''# a comment
ground: std_library
left: ground
right: ground thiserror
far:
top: left right far
executable: top
list: right
test_top: top
'''
ALL = ['executable', 'far', 'ground', 'left', 'right', 'top']
NAMES = ['cpmrun', 'cpmdeps', 'cpmtrace']
SECONDS = '# a comment\nground 100\nleft 200\nright 250\ntop 500\nexecutable 1000\n'
OTHER_SECONDS = 'ground 100\nlist 300\nright 350\ntop 450\nexecutable 650\n'
"""Those of a crate that the program does not need are among them."""
FIRST = 'cpmrun: first run: proving the program and building it (README.md, "The first build")'
AGAIN = 'cpmrun: the sources have changed: proving what changed and building the program again'
BUILT = 'cpmrun: built out/cpmrun, out/cpmdeps and out/cpmtrace'
CLEAR = '\r\x1b[K'
# As rt does, it locks the folders of its crate and of the crates below, and proves only what was not proved of the same text. The program prints
# the name by which it is called, its words, and the sum of its sources.
RT = r'''#!/usr/bin/env bash
crate=$(basename "$PWD")
for folder in ../*; do exec {lock}< "$folder"; flock "$lock"; [ "$folder" -ef . ] || [ -e "$folder/out/rlib/sum" ] || [ "$1" = run ] || exit 9; done
sum=$(cat ../*/src/lib.rt | cksum)
[ "$(cat out/rlib/sum 2> /dev/null)" != "$sum" ] || exit 0
echo "begins $crate" >> "$NOTES/log"
mkdir -p out/incremental out/rlib
sleep 0.6 & echo "$$ $!" >> "$NOTES/processes"
wait "$!"
while [ -e "$NOTES/waits-$crate" ]; do sleep 0.05; done
echo worked >> out/incremental/worked
[ ! -e "$NOTES/fails-$crate" ] || { echo "no proof of $crate"; exit 1; }
[ "$1" = lib ] || { printf '#!/bin/sh\necho "${0##*/} $* of %s"\n' "$sum" > "out/$crate"; chmod +x "out/$crate"; }
echo "$sum" > out/rlib/sum
echo "ends $crate" >> "$NOTES/log"
'''


class Build(unittest.TestCase):
    def setUp(self):
        self.work = Path(tempfile.mkdtemp())
        self.addCleanup(shutil.rmtree, self.work)
        self.tree, self.notes, self.crates = self.work / 'tree', self.work / 'notes', self.work / 'tree/crates'
        for crate in *ALL, 'list', 'test_top':
            (self.crates / crate / 'src').mkdir(parents=True)
            (self.crates / crate / 'src/lib.rt').write_text(f'// {crate}\n')
        for folder in self.notes, self.work / 'bin', self.tree / 'examples':
            folder.mkdir()
        (self.tree / 'crates.txt').write_text(CRATES)
        (self.work / 'bin/rt').write_text(RT)
        (self.work / 'bin/rt').chmod(0o755)
        for name in *NAMES, 'Makefile':
            shutil.copy(TOP / name, self.tree)
        shutil.copytree(TOP / 'scripts', self.tree / 'scripts')
        (self.tree / 'scripts/seconds').write_text(SECONDS)
        self.path = f'{self.work}/bin:{os.environ["PATH"]}'

    def start(self, mode='w', name='cpmrun', terminal=None, **env):
        """Starts a build by `./NAME --build`, or by `make`."""
        for notes in 'log', 'processes':
            open(self.notes / notes, mode).close()
        # what runs in the background or by nohup ignores some signals, and so would the build
        words = ['env', '--default-signal', *['setsid', '--ctty'] * (terminal is not None)]
        words += ['make', '-s', '-C', self.tree] if name == 'make' else [self.tree / name, '--build']
        env = {'PATH': self.path, 'NOTES': str(self.notes), 'PROGRESS_SECONDS': '0.1', **env}
        with open(self.work / 'err', 'w') as err:
            return subprocess.Popen(words, env=env, stdin=terminal, stderr=err if terminal is None else terminal, stdout=subprocess.PIPE, text=True)

    def start_until(self, crate, name='cpmrun'):
        build = self.start(name=name)
        while f'begins {crate}' not in (self.notes / 'log').read_text():
            self.assertIsNone(build.poll(), f'the build ends before {crate}')
            time.sleep(0.02)
        return build

    def build_on_terminal(self, status, interrupt_at='', term='xterm', name='cpmrun'):
        """Builds with standard error on a terminal, until a text appears there, if one is given. Returns what appeared after each clear."""
        reads, writes = pty.openpty()
        build = self.start(name=name, terminal=writes, TERM=term)
        os.close(writes)
        text = ''
        with open(reads, 'r+b', buffering=0) as terminal, contextlib.suppress(OSError):  # at its end, when no process has it any more
            while more := terminal.read(4096).decode():
                text += more
                if interrupt_at and interrupt_at in text:
                    terminal.write(b'\x03')
                    interrupt_at = ''
        self.proved = self.end(build, status, name)
        return text.replace('\r\n', '\n').split(CLEAR)

    def show(self):
        """Returns what a build shows on a terminal that has come this far."""
        reads, writes = pty.openpty()
        env = {'PATH': self.path, 'TERM': 'xterm', 'NAME': 'cpmrun'}
        subprocess.run([self.tree / 'scripts/progress'], env=env, stderr=writes, check=True)
        os.close(writes)
        with open(reads, 'rb', buffering=0) as terminal:
            return terminal.read(4096).decode().removeprefix(CLEAR)

    def end(self, build, status, name='cpmrun'):
        """Waits for a build, which leaves no process and no room, and returns what it printed and the crates that it proved."""
        printed = build.communicate()[0]
        self.errors = (self.work / 'err').read_text()
        self.assertEqual(build.returncode, status, self.errors)
        self.assertFalse((self.tree / 'out/rooms').exists())
        for process in (self.notes / 'processes').read_text().split():
            with self.subTest(process), self.assertRaises(ProcessLookupError, msg='a process is left'):
                if Path('/proc', process, 'stat').exists() and ') Z ' in Path('/proc', process, 'stat').read_text():
                    raise ProcessLookupError  # it has ended, and the first process has not taken note of it yet
                os.kill(int(process), 0)
        self.log = (self.notes / 'log').read_text().splitlines()
        if status == 0:
            self.assertEqual(printed, '' if name == 'make' else f'{self.tree}/out/{name}\n')
        return sorted(line[5:] for line in self.log if line.startswith('ends '))

    def run_program(self, name='cpmrun', path=None):
        """Returns what the program prints if it is called by `./NAME`, or by this path."""
        run = subprocess.run([path or self.tree / name, 'a', 'word'], env={'PATH': self.path}, cwd=self.work, capture_output=True, text=True)
        self.assertEqual(run.returncode, 0, run.stderr)
        return run.stdout

    def printed(self, name='cpmrun'):
        """Returns what the program of the current sources prints if it has this name."""
        text = b''.join((self.crates / crate / 'src/lib.rt').read_bytes() for crate in sorted(ALL))
        return f'{name} a word of {subprocess.check_output(["cksum"], input=text, text=False).decode()}'

    def expect_program(self, printed=None):
        """Expects that the program, by each of its names, is the one of the current sources, or one that prints this as `cpmrun`."""
        for name in NAMES:
            wanted = printed and printed.replace('cpmrun', name)
            self.assertEqual(self.run_program(name, self.tree / 'out' / name), wanted or self.printed(name))
        for name in NAMES[1:]:
            self.assertEqual(os.readlink(self.tree / 'out' / name), 'cpmrun')

    def change(self, crate):
        """Changes a crate, to a text that it did not have before."""
        time.sleep(0.02)
        with open(self.crates / crate / 'src/lib.rt', 'a') as source:
            source.write(f'// changed at {time.monotonic_ns()}\n')

    def test_each_crate_is_proved_after_those_that_it_uses_and_beside_the_others(self):
        self.assertEqual(self.end(self.start(), 0), ALL)
        available = int(Path('/proc/meminfo').read_text().split('MemAvailable:')[1].split()[0]) // 1024
        if min(len(os.sched_getaffinity(0)), available // 5000) > 1:
            both = [self.log.index(f'{word} {crate}') for word in ('begins', 'ends') for crate in ('left', 'right')]
            self.assertLess(max(both[:2]), min(both[2:]))
        self.expect_a_line_for_each(self.errors)
        self.assertEqual(self.run_program(), self.printed())
        self.assertEqual(self.end(self.start(), 0), [])
        self.change('left')
        self.assertEqual(self.end(self.start(), 0), ['executable', 'left', 'top'])
        self.assertEqual((self.crates / 'left/out/incremental/worked').read_text(), 'worked\n' * 2)

    def expect_a_line_for_each(self, errors):
        first, *lines, last = errors.splitlines()
        self.assertEqual((first, last), (FIRST, BUILT))
        self.assertEqual(sorted(line.partition('cpmrun: proved ')[2].partition(',')[0] for line in lines), ALL[1:])
        self.assertEqual([line.rsplit(', ')[-1] for line in lines], [f'{left} crate{"s" * (left != 1)} left' for left in range(5, 0, -1)])

    def test_a_terminal_has_one_line_which_is_written_again(self):
        (self.tree / 'scripts/seconds').write_text('ground 1\ntop 2\nexecutable 1000\n')
        first, *lines, last = self.build_on_terminal(0)
        self.assertEqual((first, last, self.proved), (f'{FIRST}\n', f'{BUILT}\n', ALL))
        self.assertGreater(len(lines), 12)
        form = re.compile(r'cpmrun: ([0-6]) of 6 crates proved(, about \d+ minutes left)?')
        shown = [form.fullmatch(line) for line in lines]
        self.assertTrue(all(shown), lines)
        self.assertEqual(list(dict.fromkeys(match[1] for match in shown)), list('0123456'))
        self.assertEqual([bool(match[2]) for match in shown if match[1] in '0356'],
                         [match[1] in '35' for match in shown if match[1] in '0356'])

    def test_a_plain_terminal_has_a_line_for_each_crate(self):
        self.expect_a_line_for_each(''.join(self.build_on_terminal(0, term='dumb')))

    def test_a_failure_replaces_the_line_of_a_terminal(self):
        (self.notes / 'fails-right').touch()
        shown = self.build_on_terminal(1)
        self.assertEqual(len([text for text in shown if text.startswith('cpmrun: the proof of right failed:\nno proof of right\n')]), 1, shown)
        self.assertEqual(shown[-1], '')

    def test_no_line_is_in_the_message_of_a_failure_or_after_it(self):
        (self.tree / 'out/rooms').mkdir(parents=True)
        reads, writes = pty.openpty()
        started = []

        def progress(*words):
            env = {'PATH': self.path, 'TERM': 'xterm', 'NAME': 'cpmrun'}
            process = subprocess.Popen([self.tree / 'scripts/progress', *words], env=env, stdin=subprocess.PIPE, stderr=writes)
            self.addCleanup(process.communicate)
            started.append(process)
            return process.stdin

        message = progress('--failure')
        message.write(b'cpmrun: the proof of right')
        message.flush()
        shown = os.read(reads, 4096)
        progress('left')
        progress()
        time.sleep(0.5)
        message.write(b' failed:\n')
        message.close()
        self.assertEqual([process.wait() for process in started], [0, 0, 0])
        os.close(writes)
        with contextlib.suppress(OSError):
            while more := os.read(reads, 4096):
                shown += more
        os.close(reads)
        self.assertEqual(shown.decode().replace('\r\n', '\n'), f'{CLEAR}cpmrun: the proof of right failed:\n')

    def test_the_key_for_an_interrupt_leaves_nothing(self):
        for count in 0, 1, 4:
            shown = self.build_on_terminal(-signal.SIGINT, f'cpmrun: {count} of 6 crates')
            messages = [line for text in shown for line in text.splitlines() if not line.startswith((FIRST, 'make: *** '))]
            self.assertEqual((shown[-1], [line for line in messages if not re.match(r'cpmrun: \d of 6 crates proved', line)]), ('', []))
        self.assertEqual(self.end(self.start(), 0)[0], 'executable')

    def test_the_minutes_that_are_left(self):
        rooms = self.tree / 'out/rooms'
        rooms.mkdir(parents=True)
        now = time.time()
        for seconds, before, proved, shown in (
                (SECONDS, '*', {}, ''), (SECONDS, '*', {'far': 100}, ''),
                (SECONDS, '*', {'ground': 150}, ', about 20 minutes left'),
                (SECONDS, '*', {'ground': 150, 'far': 200, 'right': 250}, ', about 12 minutes left'),
                (SECONDS, '*', {'ground': 31}, ', about 1 minute left'), (SECONDS, '*', {'ground': 10}, ', about 1 minute left'),
                (SECONDS, 'ground', {'ground': 10, 'far': 20}, ''),
                (SECONDS, 'ground', {'ground': 10, 'left': 200}, ', about 25 minutes left'),
                (SECONDS, 'ground right', {'left': 200, 'right': 210}, ', about 23 minutes left'),
                (SECONDS, 'ground left right top executable', {'ground': 150}, ''), (SECONDS, '*', {'top': 150, 'executable': 200}, ''),
                (OTHER_SECONDS, '*', {'ground': 150}, ', about 6 minutes left'),
                (OTHER_SECONDS, 'ground right', {'ground': 10, 'right': 20}, ''),
                (OTHER_SECONDS, 'ground right', {'ground': 10, 'right': 20, 'top': 255}, ', about 8 minutes left')):
            with self.subTest(seconds=seconds, before=before, proved=proved):
                (self.tree / 'scripts/seconds').write_text(seconds)
                (rooms / 'before').write_text(''.join(f'{name}/out/rlib\n' for name in before.split()))
                os.utime(rooms / 'before', (now - 300, now - 300))
                for crate, second in proved.items():
                    (rooms / f'{crate}.proved').touch()
                    os.utime(rooms / f'{crate}.proved', (now - 300 + second, now - 300 + second))
                self.assertEqual(self.show(), f'cpmrun: {len(proved)} of 6 crates proved{shown}')
                for crate in proved:
                    (rooms / f'{crate}.proved').unlink()
        (rooms / 'ground.proved').touch()
        (rooms / 'before').unlink()
        self.assertEqual(self.show(), 'cpmrun: 1 of 6 crates proved')

    def test_the_times_of_crates_are_in_order(self):
        """Each is of a crate that the program needs, and the last one of the program itself."""
        lines = [line.split() for line in (TOP / 'scripts/seconds').read_text().splitlines() if not line.startswith('#')]
        self.assertEqual(lines, sorted(lines, key=lambda line: int(line[1])))
        crates = [crate for crate, _ in lines]
        needed = subprocess.check_output(['make', '-s', 'needs', 'CRATE=executable'], cwd=TOP, text=True).split()
        self.assertEqual([crate for crate in crates if crate not in needed], [])
        self.assertEqual(crates[-1], 'executable')

    def test_a_failure_is_reported_and_the_next_build_resumes(self):
        kept = ''
        for crate, proved, left in ('left', ['far', 'ground', 'right'], ['executable', 'left', 'top']), \
                ('executable', [], ['executable']), ('top', [], ['executable', 'top']):
            self.change(crate)
            (self.notes / f'fails-{crate}').touch()
            self.assertEqual(self.end(self.start(), 1), proved)
            self.assertEqual(self.errors.splitlines()[0], AGAIN if kept else FIRST)
            self.assertIn(f'no proof of {crate}\n', self.errors)
            self.assertNotIn(BUILT, self.errors)
            if kept:
                self.expect_program(kept)
            else:
                self.assertEqual([(self.tree / 'out' / name).exists() for name in NAMES], [False] * 3)
            (self.notes / f'fails-{crate}').unlink()
            self.assertEqual(self.end(self.start(), 0), left)
            self.expect_program()
            kept = self.printed()

    def test_an_interrupted_build_leaves_nothing_and_the_next_resumes(self):
        for number, when in (signal.SIGINT, 'ground'), (signal.SIGTERM, 'left'), (signal.SIGHUP, 'executable'):
            self.change('ground')
            self.change('far')
            build = self.start_until(when)
            build.send_signal(number)
            self.assertEqual(sorted(self.end(build, -number) + self.end(self.start(), 0)), ALL)
            self.expect_program()

    def test_a_build_goes_on_without_cpmrun_and_the_next_waits_for_it(self):
        build = self.start_until('left')
        build.kill()
        build.communicate()
        self.assertEqual(self.end(self.start('a'), 0), ALL)

    def test_the_program_stays_until_the_new_one_is_built(self):
        self.assertEqual(self.end(self.start(name='make'), 0, 'make'), ALL)
        old = self.printed()
        self.change('top')
        (self.notes / 'waits-executable').touch()
        build = self.start_until('executable', 'make')
        self.expect_program(old)
        self.expect_not_current()
        (self.notes / 'waits-executable').unlink()
        self.assertEqual(self.end(build, 0, 'make'), ['executable', 'top'])
        self.assertEqual(self.errors.splitlines()[0], AGAIN)
        self.expect_program()

    def expect_not_current(self):
        """Expects that the program that is there is not taken for the one of the current sources."""
        for name in NAMES:
            asked = subprocess.run([self.tree / name, '--built'], env={'PATH': self.path}, stdout=subprocess.PIPE, text=True)
            self.assertEqual((asked.returncode, asked.stdout), (1, ''))

    def fail_at(self, crate, name='cpmrun'):
        """Has a build fail at a crate."""
        (self.notes / f'fails-{crate}').touch()
        self.end(self.start(name=name), 2 if name == 'make' else 1, name)
        (self.notes / f'fails-{crate}').unlink()

    def interrupt_at(self, crate, number, name='cpmrun'):
        """Interrupts a build at a crate."""
        build = self.start_until(crate, name)
        build.send_signal(number)
        self.end(build, -number, name)

    def test_the_program_stays_if_the_build_fails_or_is_interrupted(self):
        stops = [lambda: self.fail_at('top'), lambda: self.interrupt_at('top', signal.SIGTERM, 'make'), lambda: self.fail_at('executable', 'make'),
                 lambda: self.interrupt_at('executable', signal.SIGINT)]
        for has_record in True, False:
            self.end(self.start(), 0)
            old = self.printed()
            if not has_record:
                (self.tree / 'out/cpmrun.sources').unlink()
            self.change('top')
            for stop in stops if has_record else stops[-1:]:
                stop()
                self.assertEqual(self.errors.splitlines()[0], AGAIN)
                self.assertNotIn(BUILT, self.errors)
                self.expect_program(old)
                self.expect_not_current()
            self.assertEqual(self.run_program('cpmdeps'), self.printed('cpmdeps'))
            self.expect_program()

    def test_the_program_that_stayed_is_taken_for_current_only_if_its_sources_are_back(self):
        self.end(self.start(), 0)
        source, record = self.crates / 'top/src/lib.rt', self.tree / 'out/cpmrun.sources'
        text, program = source.read_text(), self.printed()
        for has_record in True, False:
            for stop in (lambda: self.fail_at('top')), (lambda: self.interrupt_at('executable', signal.SIGTERM)):
                if not has_record:
                    record.unlink()
                self.change('top')
                stop()
                self.expect_not_current()
                time.sleep(0.02)
                source.write_text(text)
                self.end(self.start(), 0)
                self.assertEqual(BUILT in self.errors, not has_record)
                self.expect_program(program)

    def test_a_program_whose_record_was_not_written_is_built_again(self):
        """So it is if a build ends between the two."""
        self.end(self.start(), 0)
        (self.tree / 'out/cpmrun.sources').write_text('')
        self.expect_not_current()
        self.assertEqual(self.end(self.start(), 0), [])
        self.assertEqual(self.errors.splitlines()[-1], BUILT)
        self.assertEqual((self.end(self.start(), 0), self.errors), ([], ''))

    def test_make_ends_with_what_it_built_and_prints_nothing_if_all_is_built(self):
        self.assertEqual(self.end(self.start(name='make'), 0, 'make'), ALL)
        self.expect_a_line_for_each(self.errors)
        self.assertEqual((self.end(self.start(name='make'), 0, 'make'), self.errors), ([], ''))
        self.change('far')
        shown = self.build_on_terminal(0, name='make')
        self.assertEqual((shown[0], shown[-1], self.proved), (f'{AGAIN}\n', f'{BUILT}\n', ['executable', 'far', 'top']))
        self.assertEqual(self.build_on_terminal(0, name='make'), [''])

    def test_each_name_builds_the_program_for_all(self):
        for number, name in enumerate(['cpmdeps', 'cpmtrace', 'cpmrun', 'make']):
            self.change('far')
            self.assertEqual(self.end(self.start(name=name), 0, name), ['executable', 'far', 'top'] if number else ALL)
            begins = 'cpmrun' if name == 'make' else name
            self.assertEqual([line for line in self.errors.splitlines() if not line.startswith(f'{begins}: ')], [])
            self.assertEqual(self.errors.splitlines()[-1], BUILT.replace('cpmrun', begins, 1))
            self.expect_program()
            for other in NAMES:
                self.assertEqual((self.end(self.start(name=other), 0, other), self.errors), ([], ''))
                self.assertEqual(self.run_program(other), self.printed(other))

    def test_the_other_names_are_links_whatever_was_there(self):
        self.end(self.start(), 0)
        for name in NAMES[1:]:
            link = self.tree / 'out' / name
            link.unlink()
            self.assertEqual(self.run_program(name), self.printed(name))
            self.expect_program()
            link.unlink()
            link.write_text('an older program')
            link.chmod(0o755)
            self.assertEqual((self.end(self.start(name='make'), 0, 'make'), self.errors), ([], ''))
            self.expect_program()
            link.unlink()
            link.symlink_to('../examples')
            self.assertEqual(self.run_program(name), self.printed(name))
            self.expect_program()
        self.assertEqual(list((self.tree / 'examples').iterdir()), [])

    def test_a_build_continues_an_interrupted_one_by_another_name(self):
        build = self.start_until('right', 'cpmdeps')
        build.send_signal(signal.SIGTERM)
        self.assertEqual(sorted(self.end(build, -signal.SIGTERM, 'cpmdeps') + self.end(self.start(), 0)), ALL)

    def test_a_copy_and_sources_that_only_look_new_are_not_built_again(self):
        self.assertEqual(self.end(self.start(), 0), ALL)
        shutil.copytree(self.tree, self.work / 'a copy', copy_function=shutil.copy)
        self.tree, self.crates = self.work / 'a copy', self.work / 'a copy/crates'
        self.assertEqual((self.end(self.start(), 0), self.errors), ([], ''))
        time.sleep(0.02)
        (self.crates / 'left/src/lib.rt').touch()
        self.assertEqual((self.end(self.start(), 0), self.errors), ([], ''))
        self.change('left')
        self.assertEqual(self.end(self.start(), 0), ['executable', 'left', 'top'])
        shutil.copytree(self.tree, self.work / 'another')
        self.tree, self.crates = self.work / 'another', self.work / 'another/crates'
        source = self.crates / 'far/src/lib.rt'
        source.write_text('// changed before the copy\n')
        os.utime(source, (0, 0))
        self.assertEqual(self.end(self.start(), 0), ['executable', 'far', 'top'])

    def test_a_source_that_changes_during_a_build_is_proved_by_the_next(self):
        build = self.start_until('executable')
        self.change('far')
        self.assertEqual(self.end(build, 0), ALL)
        self.assertEqual(self.end(self.start(), 0), ['executable', 'far', 'top'])

    def test_a_link_to_the_command_works(self):
        self.assertEqual(self.end(self.start(), 0), ALL)
        for link, name in ('cpmrun', 'cpmrun'), ('cpmdeps', 'cpmdeps'), ('another', 'cpmtrace'):
            (self.work / 'bin' / link).symlink_to(f'../tree/{name}')
            self.assertEqual(self.run_program(path=link), self.printed(name))

    def test_rt_must_be_on_the_path(self):
        self.path = '/usr/bin:/bin'
        self.assertEqual(self.end(self.start(), 1), [])
        self.assertEqual(self.errors, 'cpmrun: the command rt of the Rattle kit is not on the PATH (README.md, "Try it")\n')

