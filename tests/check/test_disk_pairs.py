"""Runs pairs of programs on one disk at the same time: the result is that of one after the other, in either order. DISK_TRIES=all tries 40
pairs."""
import os
import shutil
import subprocess
import tempfile
from itertools import combinations_with_replacement
from pathlib import Path

from helpers import PROGRAM, TOP, ProgramTest, build_library, calls, files_below

KINDS = ['backup', 'sort', 'append', 'delete', 'rename', 'make', 'halt', 'sort other']
PAIRS = list(combinations_with_replacement(KINDS, 2))
CHOSEN = (PAIRS + PAIRS)[:40] if os.environ.get('DISK_TRIES') == 'all' else PAIRS[1::6]


class PairsTest(ProgramTest):

    def setUp(self) -> None:
        super().setUp()
        self.disk = self.work / 'disk'
        self.preload = build_library('fail', Path(self.enterContext(tempfile.TemporaryDirectory())))

    def make_disk(self) -> None:
        shutil.rmtree(self.disk, ignore_errors=True)
        shutil.copytree(TOP / 'examples/sort/files', self.disk)
        for name in 'note.txt', 'other.txt', 'kept':
            self.put(f'disk/{name}', f'the old {name}\r\nis here\r\n')

    def words(self, kind: str) -> list[object]:
        """Returns the arguments of a run over the disk."""
        sort = TOP / 'examples/sort/sort.com'
        made = {
            'backup': ['19 NOTE.BAK', '23 NOTE.TXT NOTE.BAK', '22 NOTE.TXT', '21 NOTE.TXT'],
            'delete': ['19 ????????.TXT'],
            'rename': ['23 NOTE.TXT LETTER', '23 LETTER.TXT NOTE.TXT', '21 KEPT'],
            'make': [f'{number} F{file}' for file in range(20) for number in (22, 21)] + ['23 KEPT NOTE.BAK'],
            'halt': ['21 NOTE.TXT', '22 NEW', '19 KEPT'],
        }
        if kind in made:
            return [self.put(f'{kind}.com', calls(*made[kind], end='HLT' if kind == 'halt' else 'RET')), '--disk', self.disk]
        return {
            'sort': [sort, 'names.txt names.txt'],
            'sort other': [sort, 'names.txt other.txt'],
            'append': [TOP / 'tests/programs/ed0/ed0.com', 'names.txt', '--typed', r'i\ra line more\rw\rq'],
        }[kind] + ['--disk', self.disk]

    def start_slowly(self, *words: object) -> subprocess.Popen:
        """Starts the program. Each of its reads and writes moves one byte, so that two runs meet."""
        env = {**os.environ, 'LD_PRELOAD': str(self.preload), 'FAIL_PIECES': '1'}
        return subprocess.Popen([PROGRAM, *words], stdin=subprocess.DEVNULL, stdout=subprocess.PIPE, stderr=subprocess.PIPE, cwd=TOP, env=env)

    def end(self, process: subprocess.Popen) -> tuple[int, bytes, bytes]:
        out, err = process.communicate(timeout=120)
        return process.returncode, out, err

    def ends_in_order(self, *runs: list[object]) -> list[tuple[int, bytes, bytes]]:
        self.make_disk()
        return [self.end(self.start_slowly(*words)) for words in runs]

    def test_two_runs_at_the_same_time(self) -> None:
        for pair in CHOSEN:
            one, other = (self.words(kind) for kind in pair)
            with self.subTest(pair=pair):
                wanted = [(*self.ends_in_order(one, other), files_below(self.disk))]
                second, first = self.ends_in_order(other, one)
                wanted.append((first, second, files_below(self.disk)))
                for _ in range(3):
                    self.make_disk()
                    runs = [self.start_slowly(*words) for words in (one, other)]
                    found = (*(self.end(run) for run in runs), files_below(self.disk))
                    self.assertTrue(found in wanted, found[:2])
