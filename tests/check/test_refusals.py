"""Runs the built program with each allocation failing in turn: over the examples, the programs of CP/M, a session of all edit lines, files on
each drive, and errors. Each run ends as it does with ample memory, or writes a prefix of its output and `cpmrun: out of memory`, with status
12. Each file that it wrote is whole."""
from pathlib import Path

from failures import FailureTest, Wanted
from helpers import HI, PROGRAM, TOP, report_of_hi, words_of_case

EXAMPLES, PROGRAMS = TOP / 'examples', TOP / 'tests/programs'
WARM = b'stop WarmBoot\n'

AFTER_FOUR_STEPS = '''stop Limit
steps 4
regs A=00 F=02 B=00 C=09 D=01 E=09 H=00 L=00 SP=FDFC PC=FE06
text -
end
'''

# Every edit line with `ok`, and with each refusal that it may have over the longest script. No line is long enough for a file that is
# refused by 4.
ALL_LINES = [
    ('run', report_of_hi('4869')), ('insert 0 41', 'refused 2\n'), ('insert 1048577 41', 'refused 1\n'), ('replace 1048575 4142', 'refused 1\n'),
    ('replace 1048574 4142', 'ok\n'), ('remove 1048575 2', 'refused 1\n'), ('remove 0 2', 'ok\n'), ('insert 1048574 4344', 'ok\n'),
    ('file B:NEW.DAT 414243', 'ok\n'), ('gone C:X', 'refused 3\n'), ('gone X', 'ok\n'), ('file X -', 'ok\n'), ('poke 010A 6F', 'ok\n'),
    ('poke 010B 0000', 'refused 6\n'), ('limit 4000000001', 'refused 7\n'), ('limit 4', 'ok\n'), ('run', AFTER_FOUR_STEPS),
    ('limit 4000000000', 'ok\n'), ('drop 1', 'ok\n'), ('run', report_of_hi('486f')),
]

# As many files as there may be, and one more.
FILES = [(f'file D:F{number} -', 'ok\n') for number in range(512)] + [
    ('file NEW -', 'refused 5\n'), ('file D:F0 41', 'ok\n'), ('gone D:F1', 'ok\n'), ('file NEW 41', 'ok\n'), ('run', report_of_hi('4869'))]


class Refusals(FailureTest):
    library = 'refuse'

    def test_examples_with_edit_lines(self) -> None:
        for name, edits, out in [('hi', 'run.txt', 'crates/executable/stdout'), ('hi', 'edits.txt', 'examples/hi/edits.out'),
                                 ('greeting', 'edits.txt', 'examples/greeting/edits.out')]:
            folder = EXAMPLES / name
            self.each_in_turn(Wanted((TOP / out).read_bytes()), folder / f'{name}.com', '--edits', folder / edits)

    def test_one_run(self) -> None:
        (self.work / 'disk').mkdir()
        self.put('disk/a.dat', bytes(1000))
        self.put('disk/note.txt', 'one')
        self.each_in_turn(Wanted(b'Name? Ada\r\nHello, Ada', WARM, may_be_cut=False), EXAMPLES / 'greeting/greeting.com', 'a tail', '--files',
                          self.work / 'disk', '--files-d', self.work / 'disk', '--console', self.put('script', 'Ada\r'))
        self.each_in_turn(Wanted(b'Hi', WARM, may_be_cut=False), HI)

    def test_changed_files(self) -> None:
        words, files = self.rename_words()
        self.each_in_turn(Wanted(b'', WARM + b'gone X\n', may_be_cut=False, files=files, outside=1), *words)
        words, files = self.drive_words()
        self.each_in_turn(Wanted(b'', WARM, may_be_cut=False, files=files, outside=4), *words)

    def test_disks(self) -> None:
        words, stop, before, files = self.disk_words()
        for more in [], ['--deps', self.work / 'rule']:
            self.each_in_turn(Wanted(b'', stop.encode(), may_be_cut=False, files=files, outside=1, before=before), *words, *more)

    def test_typed_text(self) -> None:
        words = [EXAMPLES / 'greeting/greeting.com', '--typed']
        self.each_in_turn(Wanted(b'Name? Ada\r\nHello, Ada', WARM, may_be_cut=False), *words, r'A\x64a')
        for others in [r'A\x6'], ['Ada', '--console', 'none']:
            self.each_in_turn(Wanted(b'', self.run_command(PROGRAM, *words, *others).stderr, status=1, may_be_cut=False), *words, *others)

    def replay(self, lines: list[tuple[str, str]], *words: object) -> None:
        edits = self.put('edits', ''.join(f'{line}\n' for line, _ in lines))
        self.each_in_turn(Wanted(''.join(reply for _, reply in lines).encode()), HI, '--edits', edits, *words)

    def test_every_edit_line(self) -> None:
        self.replay(ALL_LINES, '--files', self.host(), '--console', self.put('script', bytes(1_048_576)))

    def test_513_files(self) -> None:
        self.replay(FILES)

    def test_help_and_errors(self) -> None:
        drives = self.drive_words()[0][0]
        (self.work / 'twice').mkdir()
        for name in 'note.txt', 'NOTE.TXT':
            self.put(f'twice/{name}', 'one')
        use = [HI, '--slots', '0']
        self.each_in_turn(Wanted(self.run_command(PROGRAM, '--help').stdout, may_be_cut=False), '--help')
        for err, words in [
            (self.run_command(PROGRAM, *use).stderr, use),
            (b'cpmrun: cannot read none.com\n', ['none.com']),
            (b'cpmrun: cannot read none\n', [HI, '--files', 'none']),
            (b'cpmrun: two files are C:NOTE.TXT\n', [HI, '--files-c', self.work / 'twice']),
            (b'cpmrun: cannot write none/X\n', [drives, 'x', '--out', 'none']),
        ]:
            self.each_in_turn(Wanted(b'', err, status=1, may_be_cut=False), *words)

    def wanted_of(self, folder: Path, **how) -> Wanted:
        out, err, status = ((folder / name).read_bytes() for name in ('stdout', 'stderr', 'status'))
        return Wanted(out, err, int(status), **how)

    def test_programs(self) -> None:
        for name, case in ('dump', 'note'), ('ed0', 'edit'), ('randrec', 'new'):
            folder = PROGRAMS / name / 'cases' / case
            written = sorted((folder / 'expect/out').iterdir()) if (folder / 'expect/out').exists() else []
            wanted = self.wanted_of(folder / 'expect', may_be_cut=False, files={f'a/{path.name}': path.read_bytes() for path in written})
            self.each_in_turn(wanted, *words_of_case(folder), '--out', self.work / 'written/a', cwd=folder)

    def test_programs_with_edit_lines(self) -> None:
        for name in 'dump', 'ed0', 'randrec':
            folder = PROGRAMS / name / 'cases/session'
            self.each_in_turn(self.wanted_of(folder / 'expect-edits'), *words_of_case(folder), '--edits', 'edits.txt', cwd=folder)
