"""Runs the built program over disks with each allocation and each system call failing in turn, and killed at each system call. A disk is then
as it was, or changed as a whole; or, if the system refuses a change or the program is killed in between, changed in part, with each other
new file whole under its temporary name. DISK_TRIES=all tries every request of the runs that have thousands."""
import os

from failures import LEFT, FailureTest, Wanted, error_lines
from helpers import PROGRAM, RECORD, TOP, calls
from vembrusk.assembler import assemble

SORT = TOP / 'examples/sort'
EVERY_OF_MANY = 1 if os.environ.get('DISK_TRIES') == 'all' else 397
MINE = {'a/.note.txt.new': b'mine', 'a/.NEW.new': b'mine too', 'a/a long name.text': b'no host file'}
"""Files that no run may change: two have temporary names, as if an ended run had left them."""

MAKE_MANY = ['MVI C,26; LXI D,block; CALL 5', 'again: XRA A; STA block+32; MVI C,22; LXI D,block; CALL 5; MVI C,21; LXI D,block; CALL 5',
             'LXI H,block+4', 'more: INR M; MOV A,M; CPI 3AH; JNZ made', "MVI M,'0'; DCX H; JMP more",
             "made: LDA block+2; CPI '3'; JNZ again; RET", 'block: DB 0,"F000       "; DS 116']
"""Makes the files F000 to F299, with one record each: its control block."""


def padded(data: bytes) -> bytes:
    """Returns whole records."""
    return data + b'\x1a' * (-len(data) % 128)


class DiskRuns(FailureTest):
    """Runs of five kinds, each with its end."""

    def setUp(self) -> None:
        super().setUp()
        self.a, self.b = self.work / 'written/a', self.work / 'written/b'
        self.left = [f'{LEFT}{self.a}/{name}' for name in ('.NEW.new', '.note.txt.new')]

    def stop(self, *gone: str) -> bytes:
        """Returns the lines after a run that ends, with the names of files that are gone."""
        return ''.join(f'{line}\n' for line in ['stop WarmBoot', *(f'gone {name}' for name in gone), *self.left]).encode()

    def editor(self, **how) -> tuple[Wanted, list[object]]:
        """Keeps the old text of a file as a backup."""
        acts = ['15 NOTE.TXT', '19 NOTE.BAK', '23 NOTE.TXT NOTE.BAK', '22 NOTE.TXT', '21 NOTE.TXT']
        before = {'a/note.bak': b'older' * 40, 'a/note.txt': b'old' * 100, 'a/keep': b'kept', **MINE}
        files = {'a/note.bak': padded(before['a/note.txt']), 'a/note.txt': RECORD}
        return Wanted(b'', self.stop(), before=before, files=files, **how), [self.put('editor.com', calls(*acts)), '--disk', self.a]

    def sort(self, **how) -> tuple[Wanted, list[object]]:
        """Sorts the lines of a file in place."""
        text = (SORT / 'files/names.txt').read_bytes()
        lines = sorted(text.replace(b'\r', b'').split(b'\x1a')[0].splitlines())
        files = {'a/names.txt': padded(b''.join(line + b'\r\n' for line in lines))}
        return (Wanted(b'SORTED\r\n', self.stop(), before={'a/names.txt': text, **MINE}, files=files, **how),
                [SORT / 'sort.com', 'names.txt names.txt', '--disk', self.a])

    def delete_all(self, **how) -> tuple[Wanted, list[object]]:
        names = [f'F{number}' for number in range(8)]
        before = {f'a/{name}': name.encode() for name in names}
        return (Wanted(b'', self.stop(*names), before={**before, **MINE}, files=dict.fromkeys(before), **how),
                [self.put('delete.com', calls('19 ????????.???')), '--disk', self.a])

    def make_many(self, **how) -> tuple[Wanted, list[object]]:
        names = [f'F{number:03}' for number in range(300)]
        files = {f'a/{name}': b'\0' + name.encode() + b' ' * 7 + bytes(116) for name in names}
        return (Wanted(b'', self.stop(), before=MINE, files=files, every=EVERY_OF_MANY, **how),
                [self.put('many.com', assemble(MAKE_MANY)), '--disk', self.a])

    def two_disks(self, **how) -> tuple[Wanted, list[object]]:
        """Makes, changes, renames and deletes files of two disks."""
        acts = ['22 NEW', '21 NEW', '21 B:NOTE.TXT', '23 ANN BEN', '19 B:OLD', '21 NOTE.TXT', '22 B:CID', '19 OLD']
        before = {**{f'a/{name}': b'one' for name in ('ann', 'note.txt', 'old')}, **{f'b/{name}': b'two' for name in ('NOTE.TXT', 'OLD')}, **MINE}
        files = {'a/ben': padded(b'one'), 'a/new': RECORD, 'b/CID': b'', 'a/note.txt': RECORD, 'b/NOTE.TXT': RECORD,
                 'a/ann': None, 'a/old': None, 'b/OLD': None}
        return (Wanted(b'', self.stop('ANN', 'OLD', 'B:OLD'), before=before, files=files, **how),
                [self.put('two.com', calls(*acts)), '--disk', self.a, '--disk-b', self.b])

    def each_kind(self, **how) -> None:
        for kind in self.editor, self.sort, self.delete_all, self.make_many, self.two_disks:
            wanted, words = kind(**how)
            if how.get('fault_status') == 1:
                wanted.messages = tuple(self.messages(words, wanted))
            self.each_in_turn(wanted, *words)

    def messages(self, words: list[object], wanted: Wanted) -> list[str]:
        """Returns the messages of system calls that fail before a change, or after all."""
        names = [name for name in ('a', 'b', *wanted.before, *wanted.files) if name not in MINE]
        reads = [f'cannot read {path}' for path in (words[0], *(f'{self.work}/written/{name}' for name in names))]
        writes = [f'cannot write {self.work}/written/{name}' for name in (*names, *wanted.prepared(0), *MINE)]
        return ['cannot write standard output\ndisk unchanged', *reads, *writes]


class RefusalTest(DiskRuns):
    library = 'refuse'

    def test_each_allocation_fails(self) -> None:
        self.each_kind(may_be_cut=False)


class CallTest(DiskRuns):
    library = 'fail'

    def test_each_call_fails(self) -> None:
        self.environment = {'FAIL_CALLS': 'orwdslmynu'}
        self.each_kind(fault_status=1, may_pass=False)

    def test_the_program_is_killed_at_each_call(self) -> None:
        self.environment = {'FAIL_CALLS': 'orwdsplmynu', 'FAIL_KILLS': '1'}
        self.each_kind()

    def test_the_program_is_killed_at_each_read_or_write_of_one_byte(self) -> None:
        """A part of a file is left under its temporary name."""
        self.environment = {'FAIL_CALLS': 'w', 'FAIL_PIECES': '1', 'FAIL_KILLS': '1'}
        wanted, words = self.editor(every=29)
        self.each_in_turn(wanted, *words)


class AfterTest(DiskRuns):
    """Runs after one that was killed."""

    library = 'fail'

    def test_a_run_after_a_killed_one(self) -> None:
        """What the killed run left under temporary names stays, and the run ends as if it were not there, but reports it."""
        wanted, words = self.editor()
        for kinds, temporaries in ('y', {'a/.note.bak.new': padded(b'old' * 100)}), ('n', wanted.prepared(0)):
            self.put_files(wanted.before)
            self.environment = {'FAIL_CALLS': kinds, 'FAIL_KILLS': '1'}
            self.run_with_failure(1, PROGRAM, *words)
            done = self.run_command(PROGRAM, *words)
            first, *lines = error_lines(done.stderr)
            left = [*self.left, *(f'{LEFT}{self.work}/written/{name}' for name in temporaries)]
            self.assertEqual((done.returncode, done.stdout, first, lines[3:]), (0, b'', 'stop WarmBoot', ['and 1 more'] if len(left) > 3 else []))
            self.assertEqual((len(set(lines[:3])), {*lines[:3]} - {*left}), (3, set()))
            self.assertEqual(self.take_files(), {**wanted.states()[-1], **temporaries})

    def test_a_private_file_is_private_under_its_temporary_name(self) -> None:
        wanted, words = self.editor()
        self.environment = {'FAIL_CALLS': 'wmyn', 'FAIL_KILLS': '1'}
        modes = set()
        for at in range(1, 9):
            self.put_files(wanted.before)
            for name in wanted.files:
                (self.work / 'written' / name).chmod(0o600)
            self.run_with_failure(at, PROGRAM, *words)
            modes |= {path.stat().st_mode & 0o777 for name in wanted.prepared(0) if (path := self.work / 'written' / name).exists()}
            self.take_files()
        self.assertEqual(modes, {0o600})
