"""What the tests share. The environment variables PROGRAM, DEPENDENCIES_PROGRAM and TRACE_PROGRAM are the paths of the built program by its names
cpmrun, cpmdeps and cpmtrace. The last two are links, which are not followed: the program does what its name says."""
import contextlib
import os
import select
import shutil
import signal
import subprocess
import sys
import tempfile
import unittest
from collections.abc import Iterable, Iterator
from dataclasses import dataclass
from pathlib import Path

TOP = Path(__file__).resolve().parents[2]
sys.path.insert(0, str(TOP / 'python'))

from vembrusk.assembler import assemble  # noqa: E402

PROGRAM = Path(os.environ.get('PROGRAM', TOP / 'out/cpmrun')).absolute()
DEPENDENCIES_PROGRAM = Path(os.environ.get('DEPENDENCIES_PROGRAM', TOP / 'out/cpmdeps')).absolute()
TRACE_PROGRAM = Path(os.environ.get('TRACE_PROGRAM', TOP / 'out/cpmtrace')).absolute()
HI = TOP / 'examples/hi/hi.com'
OUT_OF_MEMORY = 'cpmrun: out of memory\n'

RENAME = assemble(['MVI C,23; LXI D,5CH; CALL 5; RET'])
"""Renames the first name of its tail to the second."""

DRIVES = assemble(['MVI A,1', 'drive: STA 5CH; LXI D,5CH; MVI C,19; CALL 5; MVI C,22; CALL 5; MVI C,21; CALL 5',
                   'LDA 5CH; INR A; CPI 5; JNZ drive; RET'])
"""On each drive deletes the first name of its tail, makes it, and writes one record after the place where the drive before ended."""


DOTS = 5000
"""The dots that a program of `after_dots` prints, more than a small pipe holds."""

RECORD = b'new' + bytes(125)
"""The record that programs of `calls` write."""


def calls(*acts: str, end: str = 'RET') -> bytes:
    """Returns a program that makes calls of files: a number and one name or two, as in `22 B:NEW.TXT` and `23 OLD NEW`. Acts with the same
    names share a control block. Each record that is written is RECORD. The instructions of `end` come last."""
    pairs = [act.split(' ', 1) for act in acts]
    blocks = {names: f'block_{chr(97 + at)}' for at, names in enumerate(dict.fromkeys(names for _, names in pairs))}
    code = ['MVI C,26; LXI D,record; CALL 5', *(f'MVI C,{number}; LXI D,{blocks[names]}; CALL 5' for number, names in pairs)]
    code += [end, 'record: DB "new"; DS 125']
    for names, label in blocks.items():
        code.append(f'{label}:')
        for name in [*names.split(), ''][:2]:
            drive, _, plain = name.rpartition(':')
            stem, _, kind = plain.partition('.')
            code.append(f'DB {" ABCD".index(drive or " ")},"{stem:8}{kind:3}"; DS 4')
        code.append('DS 4')
    return assemble(code)


@dataclass(frozen=True)
class Crate:
    """A line of crates.txt."""

    name: str
    uses: tuple[str, ...]
    """The crates that it uses, of this repository and of Rattle's libraries."""
    is_test: bool

    @property
    def folder(self) -> Path:
        return TOP / 'crates' / self.name

    def sources(self) -> list[Path]:
        return sorted((self.folder / 'src').rglob('*.rt'))


def read_crates() -> list[Crate]:
    """Returns the crates of crates.txt in order. The ones after the heading `# tests` are tests, the others are the product's."""
    product, heading, tests = (TOP / 'crates.txt').read_text().partition('\n# tests\n')
    if not heading:
        raise LookupError('crates.txt has no heading `# tests`')
    lines = [(line.partition(':'), is_test) for part, is_test in ((product, False), (tests, True)) for line in part.splitlines()]
    return [Crate(name.split()[0], tuple(uses.split()), is_test) for (name, colon, uses), is_test in lines if colon and not name.startswith('#')]


def file_of_drive(number: int) -> bytes:
    """Returns the file that DRIVES makes on drive 1 to 4 if its tail is `x`: records of zeros, and the tail with its length."""
    return bytes(128 * (number - 1)) + b'\x02 X' + bytes(125)


def report_of_hi(text: str) -> str:
    """Returns the report of hi.com if it prints these bytes, as hexadecimal digits."""
    return f'stop WarmBoot\nsteps 7\nregs A=00 F=02 B=00 C=09 D=01 E=09 H=00 L=00 SP=FE00 PC=FF03\ntext {text}\nend\n'


def words_of_case(case: Path) -> list[str]:
    """Returns the arguments for a case of tests/programs, which is run in its folder."""
    name = case.parent.parent.name
    words = [f'../../{name}.com']
    words += [(case / 'tail').read_text().removesuffix('\n')] if (case / 'tail').exists() else []
    words += ['--files', 'files'] if (case / 'files').is_dir() else []
    words += ['--console', 'console.bin'] if (case / 'console.bin').exists() else []
    return words + ((case / 'args').read_text().splitlines() if (case / 'args').exists() else [])


def files_below(folder: Path) -> dict[str, bytes]:
    """Returns the files below a folder, by their paths from there."""
    return {path.relative_to(folder).as_posix(): path.read_bytes() for path in folder.rglob('*') if path.is_file()}


def after_dots(program: bytes) -> bytes:
    """Returns a program that prints DOTS dots before it begins. Its first bytes are a jump to what prints them, which puts them back."""
    first, rest = program[:3], program[3:]
    code = assemble(['JMP start', f'DS {len(rest)}', f'start: LXI D,{DOTS}',
                     'dot: PUSH D; MVI E,46; MVI C,2; CALL 5; POP D; DCX D; MOV A,D; ORA E; JNZ dot',
                     f'LXI H,{int.from_bytes(first[:2], "little")}; SHLD 100H; MVI A,{first[2]}; STA 102H',
                     'LXI H,0; LXI D,0; LXI B,2; PUSH B; POP PSW; MVI C,0; JMP 100H'])
    return code[:3] + rest + code[len(program):]


def build_library(source: str, folder: Path) -> Path:
    """Compiles tests/lib/SOURCE.c to a library for LD_PRELOAD."""
    made = folder / f'{source}.so'
    subprocess.run(['gcc', '-O2', '-shared', '-fPIC', '-o', made, TOP / f'tests/lib/{source}.c'], check=True)
    return made


class RuleTest(unittest.TestCase):
    """A test with a method for each rule."""

    def refuse(self, found: Iterable[object], advice: str = '') -> None:
        """Fails with what breaks the rule, if anything does."""
        if lines := [str(each) for each in found]:
            self.fail('\n'.join(['', *lines, *advice.splitlines()]))


class WorkTest(unittest.TestCase):
    """A test with a folder of its own, `work`. Commands run at the top of the repository."""

    def setUp(self) -> None:
        self.work = Path(tempfile.mkdtemp())
        self.addCleanup(self.remove_work)
        self.work.chmod(0o755)

    def remove_work(self) -> None:
        for folder, _, _ in os.walk(self.work):
            os.chmod(folder, 0o755)
        shutil.rmtree(self.work)

    def put(self, name: str, data: bytes | str) -> Path:
        """Writes a file below `work`."""
        path = self.work / name
        path.write_bytes(data if isinstance(data, bytes) else data.encode())
        return path

    def run_command(self, *words: object, timeout: float = 120, **how) -> subprocess.CompletedProcess:
        """Runs a command with nothing on standard input."""
        how = {'stdin': subprocess.DEVNULL, 'stdout': subprocess.PIPE, 'stderr': subprocess.PIPE, 'cwd': TOP, **how}
        return subprocess.run([os.fspath(word) if isinstance(word, Path) else word for word in words], timeout=timeout, **how)

    def run_with_children(self, *words: object, timeout: float = 120, **how) -> subprocess.CompletedProcess:
        """Runs a command with nothing on standard input, and kills what it started and left running."""
        how = {'stdin': subprocess.DEVNULL, 'stdout': subprocess.PIPE, 'stderr': subprocess.PIPE, 'cwd': TOP, **how}
        with subprocess.Popen(words, start_new_session=True, **how) as process:
            try:
                out, err = process.communicate(timeout=timeout)
            finally:
                with contextlib.suppress(ProcessLookupError):
                    os.killpg(process.pid, signal.SIGKILL)
        return subprocess.CompletedProcess(words, process.returncode, out, err)

    def expect_command(self, status: int, out: bytes | str, err: bytes | str, *words: object, **how) -> None:
        done = self.run_command(*words, **how)
        wanted = tuple(text if isinstance(text, bytes) else text.encode() for text in (out, err))
        self.assertEqual((done.returncode, done.stdout, done.stderr), (status, *wanted), [str(word)[:200] for word in words])

    def expect_names(self, folder: Path, *names: str) -> None:
        """Expects exactly these names in a folder."""
        self.assertEqual(sorted(os.listdir(folder)), sorted(names), folder)


class ProgramTest(WorkTest):
    """A test that runs the built program."""

    def expect(self, status: int, out: bytes | str, err: bytes | str, *words: object, **how) -> None:
        """Expects this status, standard output and standard error of the program with these arguments."""
        self.expect_command(status, out, err, PROGRAM, *words, **how)

    def expect_long(self, status: int, out: bytes | str, err: str, *words: object, **how) -> None:
        """Expects the same as `expect`, for long output: a failure shows only where it begins to differ."""
        done = self.run_command(PROGRAM, *words, **how)
        wanted = out if isinstance(out, bytes) else out.encode()
        self.assertEqual((done.returncode, done.stderr[:1000].decode()), (status, err), [str(word)[:200] for word in words])
        if done.stdout != wanted:
            same = len(os.path.commonprefix([done.stdout, wanted]))
            self.fail(f'{len(done.stdout)} bytes of output; at {same}: {done.stdout[same:same + 100]!r} != {wanted[same:same + 100]!r}')

    @contextlib.contextmanager
    def held(self, program: Path, *words: object) -> Iterator[subprocess.Popen]:
        """Starts a program that prints dots before it begins, and holds it during the block: it has read its host files, and its dots, which are
        not seen after the block, wait for their reader."""
        dotted = Path(tempfile.mkdtemp(dir=self.work)) / program.name
        dotted.write_bytes(after_dots(program.read_bytes()))
        process = self.start(dotted, *words, bufsize=0, pipesize=4096)
        self.assertTrue(select.select([process.stdout], [], [], 20)[0], 'nothing is printed')
        yield process
        left = DOTS
        while left > 0:
            piece = process.stdout.read(left)
            self.assertTrue(piece and not piece.strip(b'.'), piece)
            left -= len(piece)

    def start(self, *words: object, **how) -> subprocess.Popen:
        """Starts the program with nothing on standard input. It is killed if it still runs at the end of the test."""
        how = {'stdin': subprocess.DEVNULL, 'stdout': subprocess.PIPE, 'stderr': subprocess.PIPE, 'cwd': TOP, **how}
        process = subprocess.Popen([PROGRAM, *words], **how)
        self.addCleanup(process.communicate)
        self.addCleanup(process.kill)
        return process

    def expect_end(self, status: int, out: str, err: str, process: subprocess.Popen) -> None:
        """Expects this status, standard output and standard error of a process."""
        found = process.communicate(timeout=60)
        self.assertEqual((process.returncode, *found), (status, out.encode(), err.encode()))
