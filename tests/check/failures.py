"""Runs of the built program in which one request fails, or ends the run: the first, then the second, and so on, until none does."""
import os
import signal
import tempfile
from dataclasses import dataclass, field
from pathlib import Path

from helpers import DRIVES, PROGRAM, RECORD, RENAME, ProgramTest, build_library, calls, file_of_drive


LEFT = 'left by an ended run: '


def error_lines(text: bytes) -> list[str]:
    """Returns the lines on standard error. What ended runs left is in the folder's order there, and in that of the alphabet here."""
    lines = text.decode().splitlines()
    left = [line for line in lines if line.startswith(LEFT)]
    at = lines.index(left[0]) if left else 0
    return [*lines[:at], *sorted(left), *lines[at + len(left):]]


@dataclass
class Wanted:
    """The end of a run: with no failure, and with one."""

    out: bytes
    err: bytes = b''
    status: int = 0
    fault_status: int = 12
    """The status after a failure."""
    messages: tuple[str, ...] = ('out of memory',)
    """The messages of which there is one after a failure."""
    may_pass: bool = True
    """Whether a run may end as without a failure."""
    may_be_cut: bool = True
    """Whether a failure may cut the output off; else all of it is written, or nothing."""
    files: dict[str, bytes | None] = field(default_factory=dict)
    """The changed files, by drive (a to d) and name, in the order in which they are changed, with `None` for one that is removed: files outside
    of disks, and then new files of disks, files that may replace others, and removals."""
    outside: int = 0
    """How many of these, the first ones, are outside of disks. Each is changed alone."""
    streamed: dict[str, bytes] = field(default_factory=dict)
    """The files that are written while the run goes on. A failure may leave a prefix of each, or none."""
    before: dict[str, bytes] = field(default_factory=dict)
    """The files that are there before the run. Each is replaced as a whole, or removed, or not touched."""
    every: int = 1
    """Each request whose number is one more than a multiple of this one fails in turn."""

    def states(self) -> list[dict[str, bytes]]:
        """Returns the files that are there after no change, after the first, and so on."""
        states = [self.before]
        for name, data in self.files.items():
            state = {**states[-1], name: data}
            states.append({other: kept for other, kept in state.items() if kept is not None})
        return states

    def temporary(self, name: str) -> str:
        """Returns the name under which a file is first written: the first one that is free."""
        folder, _, plain = name.rpartition('/')
        free = (f'{folder}/.{plain}.new{end}' for end in ('', *(f'.{number}' for number in range(1, 10))))
        return next(each for each in free if each not in self.before)

    def prepared(self, done: int) -> dict[str, bytes]:
        """Returns the files under temporary names after the first changes, if the ones that are changed with the next were prepared."""
        end = done + 1 if done < self.outside else len(self.files)
        return {self.temporary(name): data for name, data in list(self.files.items())[done:end] if data is not None}


class FailureTest(ProgramTest):
    """A test with a preloaded library that makes a request fail: REFUSE_AT counts requests, and REFUSE_MARK is a file that it then makes."""

    library: str
    environment: dict[str, str] = {}
    program = PROGRAM
    name = 'cpmrun'
    """The name of the program in its messages."""

    @classmethod
    def setUpClass(cls) -> None:
        folder = tempfile.TemporaryDirectory()
        cls.addClassCleanup(folder.cleanup)
        cls.preload = build_library(cls.library, Path(folder.name))

    def setUp(self) -> None:
        super().setUp()
        self.mark = self.work / 'mark'
        for drive in 'abcd':
            (self.work / 'written' / drive).mkdir(parents=True)

    def run_with_failure(self, at: int, *words: object, **how):
        """Runs a command with the request of this number failing."""
        self.mark.unlink(missing_ok=True)
        env = {**os.environ, **self.environment, 'LD_PRELOAD': str(self.preload), 'REFUSE_AT': str(at), 'REFUSE_MARK': str(self.mark)}
        return self.run_command(*words, env=env, **how)

    def each_in_turn(self, wanted: Wanted, *words: object, **how) -> None:
        """Runs the program with each request failing in turn."""
        for at in range(1, 100_001, wanted.every):
            self.put_files(wanted.before)
            done = self.run_with_failure(at, self.program, *words, **how)
            with self.subTest(request=at, words=[str(word) for word in words]):
                self.check_files(wanted, done, self.take_files())
                if not self.mark.exists():
                    self.assertEqual(done.returncode, wanted.status)
                    self.assertGreater(at, 6, 'fewer than six requests')
                self.assertTrue(not self.mark.exists() or wanted.may_pass or done.returncode != wanted.status, 'the failure is not reported')
            if not self.mark.exists():
                return
        self.fail('requests without end')

    def check_files(self, wanted: Wanted, done, found: dict[str, bytes]) -> None:
        """Checks what a run left, and its end."""
        streamed = {name: found.pop(name) for name in [*found] if name in wanted.streamed}
        self.assertTrue(all(wanted.streamed[name].startswith(data) for name, data in streamed.items()), 'a trace is not a prefix of the wanted one')
        self.assertTrue(done.returncode != wanted.status or streamed == wanted.streamed, 'a trace is cut off')
        temporaries = {name: found.pop(name) for name in [*found] if Path(name).name[0] == '.' and name not in wanted.before}
        self.assertTrue(found in wanted.states(), 'a file is cut off, gone, changed before its turn, or one that is not wanted')
        changed = wanted.states().index(found)
        if done.returncode == -signal.SIGKILL:
            self.check_killed(wanted, temporaries, changed)
        else:
            self.check_end(wanted, done, temporaries, changed)

    def check_killed(self, wanted: Wanted, temporaries: dict[str, bytes], changed: int) -> None:
        """Checks what a killed run that changed the first `changed` files left: the other new contents, whole if it changed a disk."""
        prepared = wanted.prepared(changed)
        self.assertTrue(changed <= wanted.outside or temporaries == prepared, [*temporaries])
        for name, data in temporaries.items():
            self.assertTrue(prepared[name].startswith(data), name)

    def check_end(self, wanted: Wanted, done, temporaries: dict[str, bytes], changed: int) -> None:
        """Checks the end of a run that changed the first `changed` files. On disks only a change that the system refuses comes after others."""
        wanted_lines = wanted.err.decode().splitlines()
        if done.returncode == wanted.status:
            self.assertEqual((done.stdout, error_lines(done.stderr), changed, [*temporaries]), (wanted.out, wanted_lines, len(wanted.files), []))
            return
        self.assertEqual(done.returncode, wanted.fault_status)
        *lines, last = error_lines(done.stderr) or ['']
        if wanted.fault_status == 1 and last.startswith('not synced: '):
            self.assertEqual((lines, changed, [*temporaries]), (wanted_lines, len(wanted.files), []))
            return
        message = done.stderr.decode().removeprefix(f'{self.name}: ').removesuffix('\n')
        refused = self.refusal(wanted, changed) if wanted.fault_status == 1 else ''
        if message == refused:
            self.assertEqual(done.stdout, wanted.out)
            self.assertTrue(temporaries == wanted.prepared(changed), [*temporaries])
            return
        self.assertIn(message, wanted.messages)
        self.assertEqual([*temporaries], [])
        self.assertIn(changed, (*range(wanted.outside + 1), len(wanted.files)))
        if changed or (done.stdout and not wanted.may_be_cut):
            self.assertEqual(done.stdout, wanted.out)
        else:
            self.assertTrue(wanted.out.startswith(done.stdout), 'the output is not a prefix of the wanted one')

    def refusal(self, wanted: Wanted, changed: int) -> str:
        """Returns the message of a change that the system refuses, after others: it names all that is left."""
        left = [f'{self.work}/written/{name}' for name in wanted.prepared(changed)]
        others = f', those of other files in {", ".join(left[1:])}' if left[1:] else ''
        for name in list(wanted.files)[changed:changed + 1]:
            return f'cannot write {self.work}/written/{name}' + (f': its contents are in {left[0]}{others}' if left else '')
        return ''

    def put_files(self, files: dict[str, bytes]) -> None:
        """Writes files below `written`."""
        for name, data in files.items():
            self.put(f'written/{name}', data)

    def take_files(self) -> dict[str, bytes]:
        """Removes the files below `written`, and returns them."""
        paths = sorted((self.work / 'written').glob('*/*'))
        files = {path.relative_to(self.work / 'written').as_posix(): path.read_bytes() for path in paths}
        for path in paths:
            path.unlink()
        return files

    def drive_words(self) -> tuple[list[object], dict[str, bytes]]:
        """Returns the arguments of a run that reads a folder for each drive and writes a file for each, and these files."""
        program, host = self.put('drives.com', DRIVES), self.host()
        words: list[object] = [program, 'x']
        for drive, option in zip('abcd', ('', '-b', '-c', '-d')):
            words += [f'--files{option}', host, f'--out{option}', self.work / 'written' / drive]
        return words, {f'{drive}/X': file_of_drive(number) for number, drive in enumerate('abcd', 1)}

    def host(self) -> Path:
        """Returns a folder with the host file `x`."""
        (self.work / 'host').mkdir(exist_ok=True)
        self.put('host/x', 'one')
        return self.work / 'host'

    def rename_words(self) -> tuple[list[object], dict[str, bytes]]:
        """Returns the arguments of a run that renames a host file, and the file that it writes."""
        words = [self.put('rename.com', RENAME), 'x y', '--files', self.host(), '--out', self.work / 'written/a']
        return words, {'a/Y': b'one' + b'\x1a' * 125}

    def disk_words(self) -> tuple[list[object], str, dict[str, bytes], dict[str, bytes | None]]:
        """Returns the arguments of a run that changes the files of two disks and writes one to another folder, its line of the stop with the
        ones after it, the files that are there before, and the changes."""
        acts = ['19 OLD', '21 NOTE.TXT', '23 ANN BEN', '22 B:NEW', '21 B:NEW', '19 D:X', '22 D:Y']
        written = self.work / 'written'
        words = [self.put('calls.com', calls(*acts)), '--disk', written / 'a', '--out-b', written / 'b', '--disk-d', written / 'd']
        before = {'a/Keep': b'kept', 'a/ann': b'one', 'a/note.txt': b'o' * 200, 'a/old': b'old', 'd/X': b''}
        files = {'b/NEW': RECORD, 'a/ben': b'one' + b'\x1a' * 125, 'd/Y': b'', 'a/note.txt': RECORD + b'o' * 72 + b'\x1a' * 56,
                 'a/ann': None, 'a/old': None, 'd/X': None}
        return words, 'stop WarmBoot\ngone ANN\ngone OLD\ngone D:X\n', before, files
