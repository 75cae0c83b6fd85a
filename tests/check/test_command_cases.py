"""Plays the cases of tests/cases/command, tests/cases/listing and tests/cases/trace: the built cpmrun, cpmdeps or cpmtrace with the words of a
command line, in a folder of its own; its status, its two outputs and the files that it leaves."""
import shlex
from pathlib import Path

from case_files import FOLDER, common_programs
from helpers import DEPENDENCIES_PROGRAM, PROGRAM, TRACE_PROGRAM, ProgramTest
from vembrusk.assembler import assemble
from vembrusk.cases import parse_bytes, programs_in, rows_of, sections_of


class Wanted:
    """What is expected of a command: its status, its two outputs, texts that these contain, and the names and bytes of files after it."""

    def __init__(self, words: list[str]) -> None:
        self.words = words
        self.status = 0
        self.texts = {'|': b'', '!': b''}
        self.parts: dict[str, list[bytes]] = {'|': [], '!': []}
        self.names: list[list[str]] = []
        self.bytes: dict[str, bytes] = {}

    def read(self, line: str) -> None:
        word, _, rest = line.partition(' ')
        if word == 'status':
            self.status = int(rest)
        elif word == 'out':
            self.texts['|'] += parse_bytes(rest)
        elif word in self.texts:
            self.texts[word] += rest.encode() + b'\n'
        elif word == 'names':
            self.names.append(rest.split())
        elif word == 'bytes':
            name, _, data = rest.partition(' ')
            self.bytes[name] = parse_bytes(data)
        else:
            self.parts[word.removesuffix('~')].append(rest.encode())

    def is_met(self, mark: str, text: bytes) -> bool:
        parts = self.parts[mark]
        return all(part in text for part in parts) if parts else text == self.texts[mark]


class CommandCasesTest(ProgramTest):

    def test_command(self) -> None:
        self.play_folder('command', PROGRAM)

    def test_listing(self) -> None:
        self.play_folder('listing', DEPENDENCIES_PROGRAM)

    def test_trace(self) -> None:
        self.play_folder('trace', TRACE_PROGRAM)

    def play_folder(self, folder: str, program: Path) -> None:
        paths = sorted((FOLDER / folder).glob('*.txt'))
        self.assertTrue(paths)
        for path in paths:
            head, *sections = sections_of(path)
            self.programs = {**common_programs(), **programs_in(head)}
            for section in sections:
                for lines in rows_of(section):
                    with self.subTest(case=f'{path.name}: {lines[0][3:]}'):
                        self.remove_work()
                        self.work.mkdir()
                        self.play(program, lines[1:])

    def play(self, program: Path, lines: list[str]) -> None:
        commands: list[Wanted] = []
        for line in lines:
            word, _, rest = line.partition(' ')
            if word == '$':
                commands.append(Wanted(shlex.split(rest)))
            elif commands:
                commands[-1].read(line)
            else:
                self.prepare(word, *rest.partition(' ')[::2])
        self.assertTrue(commands, 'the case has no command')
        for wanted in commands:
            done = self.run_command(program, *wanted.words, cwd=self.work)
            self.assertEqual(done.returncode, wanted.status, (wanted.words, done.stderr))
            self.assertTrue(wanted.is_met('|', done.stdout) and wanted.is_met('!', done.stderr), (wanted.words, done.stdout, done.stderr))
            for folder, *names in wanted.names:
                self.expect_names(self.work / folder, *names)
            for name, data in wanted.bytes.items():
                self.assertEqual((self.work / name).read_bytes(), data, (wanted.words, name))

    def prepare(self, verb: str, name: str, rest: str) -> None:
        """Makes a program, a file, a sparse file of zeros, or a folder."""
        path: Path = self.work / name
        if verb == 'code':
            path.write_bytes(assemble(self.programs[rest[8:]] if rest.startswith('program ') else [rest]))
        elif verb == 'put':
            path.write_bytes(parse_bytes(rest))
        elif verb == 'zeros':
            with path.open('wb') as file:
                file.truncate(int(rest))
        else:
            path.mkdir()
