"""Runs the built program cpmdeps for rules, which make reads: each byte in each place of a path, and files that change, go or come."""
import os
import subprocess
import tempfile
from concurrent.futures import ThreadPoolExecutor
from pathlib import Path

from helpers import DEPENDENCIES_PROGRAM
from test_listing import OPEN_TWO, SEARCH, DependenciesTest
from vembrusk.assembler import assemble

READ_AND_SEARCH = assemble(['MVI C,1; CALL 5; MVI C,17; LXI D,5CH; CALL 5; RET'])
"""Reads a byte of the script, and then searches the name of its tail."""

LENGTH_OF_FIRST = assemble(['MVI C,17; LXI D,5CH; CALL 5; LDA 8FH; ADI 30H; MOV E,A; MVI C,2; CALL 5; RET'])
"""Searches the name of its tail and prints byte 15 of the entry, the number of records, as a digit."""

EVERYWHERE = b'\t\n\v\f\r%*:;=?[|'
"""The bytes with a meaning to make that no escape takes from them in each place of a rule."""

AT_THE_END = b' &)\\'
"""The bytes that a file's path in a rule cannot end with."""


def refusal(path: bytes) -> bytes:
    """Returns the message for a path that a rule cannot have. It shows a control character by an escape."""
    escapes = {9: b'\\t', 10: b'\\n', 13: b'\\r'}
    shown = (escapes.get(byte, b'\\x%02X' % byte) if byte < 32 or byte == 127 else bytes([byte]) for byte in path)
    return b'cpmdeps: a rule for make cannot have the path ' + b''.join(shown) + b'\n'


def make(folder: Path | str, *words: object) -> subprocess.CompletedProcess:
    """Runs make on `rule.mk` in a folder."""
    env = {name: value for name, value in os.environ.items() if name not in ('MAKEFLAGS', 'MAKELEVEL', 'MFLAGS')}
    return subprocess.run(['make', '-f', 'rule.mk', *words], cwd=folder, env=env, capture_output=True)


def with_recipe(rule: bytes) -> bytes:
    head, _, rest = rule.partition(b'\n')
    return head + b'\n\t@echo made\n' + rest


class RulesTest(DependenciesTest):
    """Rules, their targets and their times."""

    def rule(self, *words: object, stop: str = 'WarmBoot') -> str:
        done = self.run_command(DEPENDENCIES_PROGRAM, *words, cwd=self.work)
        self.assertEqual((done.returncode, done.stderr.decode()), (0, f'stop {stop}\n'))
        return done.stdout.decode()

    def is_made(self, rule: str) -> bool:
        """Returns whether make has to make the first target of a rule with a recipe. It prints nothing."""
        (self.work / 'rule.mk').write_bytes(with_recipe(rule.encode()))
        done = make(self.work, '-q')
        self.assertLess(done.returncode, 2, done.stderr.decode())
        self.assertEqual((done.stdout, done.stderr), (b'', b''))
        return done.returncode == 1

    def touch(self, seconds: int, *paths: str) -> None:
        for path in paths:
            os.utime(self.work / path, (1_000_000_000 + seconds,) * 2)

    def expect_rule(self, wanted: str, target: str, needs: list[str], others: list[str], *words: object) -> None:
        """Expects this rule, which makes the target again exactly if one of `needs` is newer, or one of them but the first, the program, is
        gone. They and `others` are there."""
        self.assertEqual(self.rule(*words, '--make', target), wanted)
        (self.work / target).unlink(missing_ok=True)
        self.assertTrue(self.is_made(wanted))
        (self.work / target).write_text('')
        self.touch(1, *needs, *others, target)
        self.assertFalse(self.is_made(wanted))
        for path in [*needs, *others]:
            with self.subTest(path):
                self.touch(2, path)
                self.assertEqual(self.is_made(wanted), path in needs)
                self.touch(1, path)
        for path in needs[1:]:
            with self.subTest('gone', path=path):
                (self.work / path).rename(self.work / 'elsewhere')
                self.assertTrue(self.is_made(wanted))
                (self.work / 'elsewhere').rename(self.work / path)
                self.touch(1, *needs, *others, target)


class RuleTest(RulesTest):
    """What a rule has."""

    def test_files(self) -> None:
        self.put('open.com', OPEN_TWO)
        self.make_folder('disk', **{'note.txt': b'1', 'other.txt': b'2'})
        self.make_folder('more', **{'NEW': b''})
        self.put('script', 'x')
        words = ['open.com', 'note.txt gone.txt', '--files', 'disk', '--files-b', 'more', '--console', 'script']
        self.expect_rule('''made: open.com disk/note.txt $(wildcard disk/GONE.TXT disk/gone.txt)
disk/note.txt:
# not there: disk/GONE.TXT
''', 'made', ['open.com', 'disk/note.txt'], ['disk/other.txt', 'disk', 'more', 'more/NEW', 'script'], *words)
        words[1] = 'b:new a:note.txt'
        self.expect_rule('made: open.com disk/note.txt more/NEW\ndisk/note.txt:\nmore/NEW:\n', 'made', ['open.com', 'disk/note.txt', 'more/NEW'],
                         ['disk/other.txt', 'script'], *words)
        self.make_folder('mixed', **{'Note.Txt': b'', 'zed.': b''})
        self.assertEqual(self.rule('open.com', 'zed note.txt', '--files', 'mixed', '--make', 'made'),
                         'made: open.com mixed/Note.Txt mixed/zed.\nmixed/Note.Txt:\nmixed/zed.:\n', 'names as found in the folder')
        self.assertEqual(self.rule('open.com', 'b:new d:x', '--files', 'disk', '--make', 'made'),
                         'made: open.com\n# not there: B:NEW\n# not there: D:X\n', 'drives without folders')
        self.assertEqual(self.rule('open.com', '*.txt x', '--files', 'disk', '--make', 'made'),
                         'made: open.com $(wildcard disk/X disk/x)\n# not there: disk/X\n', 'a name that no folder can have')
        self.assertEqual(self.rule('open.com', '--limit', '0', '--make', 'made', stop='Limit'), 'made:\n# stop Limit\n')

    def test_a_script_and_its_end(self) -> None:
        self.put('typed.com', assemble(['MVI C,1; CALL 5; RET']))
        self.put('typed', 'x')
        self.expect_rule('made: typed.com typed\ntyped:\n', 'made', ['typed.com', 'typed'], [], 'typed.com', '--console', 'typed')
        self.put('empty', '')
        self.assertEqual(self.rule('typed.com', '--console', 'empty', '--make', 'made', stop='ConsoleExhausted'),
                         'made: typed.com empty\nempty:\n# stop ConsoleExhausted\n')
        self.assertEqual(self.rule('typed.com', '--make', 'made', stop='ConsoleExhausted'),
                         'made: typed.com\n# stop ConsoleExhausted\n', 'no script was given')
        self.assertEqual(self.rule('typed.com', '--typed', 'x', '--make', 'made'), 'made: typed.com\n', 'the script is no file')

    def test_stops(self) -> None:
        for code, stop in ('HLT', 'Halt'), ('DB 8', 'Undefined 08'), ('JMP 0FE00H', 'SystemArea FE00'), ('MVI C,255; CALL 5', 'Unsupported 255'):
            with self.subTest(stop):
                self.put('stops.com', assemble([code]))
                self.assertEqual(self.rule('stops.com', '--make', 'made', stop=stop), f'made: stops.com\n# stop {stop}\n')

    def test_a_directory_has_names_and_lengths(self) -> None:
        self.put('search.com', SEARCH)
        self.make_folder('disk', x=b'')
        self.expect_rule('made: search.com disk/x disk/\ndisk/x:\ndisk/:\n', 'made', ['search.com', 'disk/x', 'disk'], [],
                         'search.com', '*.*', '--files', 'disk')
        self.assertEqual(self.rule('search.com', 'b:*.*', '--files', 'disk', '--make', 'made'), 'made: search.com\n')
        self.put('length.com', LENGTH_OF_FIRST)
        self.make_folder('two', **{'a.txt': bytes(100), 'b.txt': b''})
        rule = 'made: length.com two/a.txt two/b.txt two/\ntwo/a.txt:\ntwo/b.txt:\ntwo/:\n'
        self.expect_rule(rule, 'made', ['length.com', 'two/a.txt', 'two/b.txt', 'two'], [], 'length.com', '*.*', '--files', 'two')
        (self.work / 'two/a.txt').write_bytes(bytes(300))
        self.touch(1, 'two')
        self.assertTrue(self.is_made(rule), 'the file has two records more')


class MissingTest(RulesTest):
    """Files that were asked for and are not there."""

    def expect_made_by(self, rule: str, *paths: str) -> None:
        """Expects that the target is made again exactly once one of these files is there."""
        (self.work / 'made').write_text('')
        self.assertFalse(self.is_made(rule))
        for path in paths:
            with self.subTest(path):
                (self.work / path).write_text('')
                self.assertTrue(self.is_made(rule))
                (self.work / path).unlink()
                self.touch(1, os.path.dirname(path))
                self.assertFalse(self.is_made(rule))

    def test_a_file_that_comes_to_be_there(self) -> None:
        self.put('it.com', OPEN_TWO)
        self.make_folder('disk')
        self.touch(1, 'disk', 'it.com')
        rule = self.rule('it.com', 'a.$$$ b.txt', '--files', 'disk', '--make', 'made')
        self.assertEqual(rule, '''made: it.com $(wildcard disk/A.$$$$$$ disk/a.$$$$$$ disk/B.TXT disk/b.txt)
# not there: disk/A.$$$
# not there: disk/B.TXT
''')
        self.expect_made_by(rule, 'disk/A.$$$', 'disk/a.$$$', 'disk/B.TXT', 'disk/b.txt')

    def test_a_folder_for_a_path_that_a_call_cannot_have(self) -> None:
        self.put('it.com', OPEN_TWO)
        for folder, escaped in ('a disk', r'a\ disk/'), ('(d)', '(d)/'), ('a,b', 'a,b/'), (r'c\d', r'c\d/'):
            with self.subTest(folder):
                self.make_folder(folder, X=b'')
                self.touch(1, folder, f'{folder}/X', 'it.com')
                rule = self.rule('it.com', 'x y', '--files', folder, '--make', 'made')
                self.assertEqual(rule, f'made: it.com {escaped}X {escaped}\n{escaped}X:\n{escaped}:\n# not there: {folder}/Y\n')
                self.expect_made_by(rule, f'{folder}/Y', f'{folder}/y')
        self.make_folder('disk')
        rule = self.rule('it.com', 'a#b x', '--files', 'disk', '--make', 'made')
        self.assertEqual(rule, '''made: it.com disk/ $(wildcard disk/X disk/x)
disk/:
# not there: disk/A#B
# not there: disk/X
''')

    def test_the_target_itself(self) -> None:
        self.put('it.com', OPEN_TWO)
        self.make_folder('a disk')
        self.touch(1, 'it.com')
        for folder, target, wildcard in [('.', 'a.txt', ' $(wildcard ./A.TXT)'), ('.', './/A.TXT', ' $(wildcard ./a.txt)'),
                                         ('./a disk', 'a disk/A.TXT', ''), ('././/a disk', './a disk/A.TXT', ''),
                                         ('./././/.', './/./a.txt', ' $(wildcard ./././/./A.TXT)')]:
            with self.subTest(folder, target=target):
                rule = self.rule('it.com', 'a.txt a.txt', '--files', folder, '--make', target)
                escaped = target.replace(' ', r'\ ')
                self.assertEqual(rule, f'{escaped}: it.com{wildcard}\n# not there: {folder}/A.TXT\n')
                (self.work / target).write_text('')
                self.assertFalse(self.is_made(rule))
                (self.work / target).unlink()


class PathTest(RulesTest):
    """Paths, which make reads as they are meant, or which are refused."""

    def test_paths_are_escaped(self) -> None:
        self.put('it.com', OPEN_TWO)
        for folder, escaped in [('a b', r'a\ b'), ('c#d', r'c\#d'), ('e$f', 'e$$f'), ('$(g)', '$$(g)'), ('  h', r'\ \ h'), (r'i\ j', r'i\\\ j'),
                                (r'k\\ l', r'k\\\\\ l'), (r'm\n', r'm\n'), ("o'p", "o'p"), (r'q\#r', r'q\\\#r'), (r's\$ #', r's\$$\ \#')]:
            with self.subTest(folder):
                self.make_folder(folder, **{'X': b'', 'Y': b''})
                words = ['it.com', 'x y', '--files', folder]
                self.expect_rule(f'{escaped}.out: it.com {escaped}/X {escaped}/Y\n{escaped}/X:\n{escaped}/Y:\n', f'{folder}.out',
                                 ['it.com', f'{folder}/X', f'{folder}/Y'], [folder], *words)

    def test_other_paths_are_escaped_too(self) -> None:
        for name in 'it #1.com', 'typed $1':
            self.put(name, assemble(['MVI C,1; CALL 5; RET']))
        self.expect_rule('made: it\\ \\#1.com typed\\ $$1\ntyped\\ $$1:\n', 'made', ['it #1.com', 'typed $1'], [],
                         'it #1.com', '--console', 'typed $1')
        self.put('search.com', SEARCH)
        self.make_folder('d $ #')
        self.expect_rule('made: search.com d\\ $$\\ \\#/\nd\\ $$\\ \\#/:\n', 'made', ['search.com', 'd $ #'], [],
                         'search.com', '*.*', '--files', 'd $ #')

    def test_a_path_is_refused_before_anything_is_read(self) -> None:
        for path in 'a\nb', 'a=b', 'q;touch x/it.com', '%.com', 'x[1]', '~', './~root', '././~root/s', './/./~':
            refused = refusal(path.encode()).decode()
            with self.subTest(path):
                self.expect(1, '', refused, 'none.com', '--make', path)
                self.expect(1, '', refused, path, '--make', 'made')
                self.expect(1, '', refused, 'none.com', '--make', 'made', '--console', path)
                self.expect(1, '', refused, 'none.com', '--make', 'made', '--files-d', path)
                self.expect(1, '', 'cpmdeps: cannot read none.com\n', 'none.com', '--console', path)
        for path in 'made ', 'lib(a)', 'made\\', '.PHONY', './.IGNORE', './/././.PHONY':
            self.expect(1, '', refusal(path.encode()).decode(), 'none.com', '--make', path)
            self.expect(1, '', 'cpmdeps: cannot read none.com\n', 'none.com', '--make', 'made', '--files', path)

    def test_each_byte_in_each_place(self) -> None:
        """A path with each byte alone, first, last and in the middle, also after `./`: the rule makes the target again exactly if the path
        changes or, unless it is the program's, is gone; or the path is refused."""
        cases = [(role, start + path, path, byte) for role in ('target', 'program', 'folder', 'script') for byte in range(1, 256)
                 for path in (bytes([byte]), bytes([byte]) + b'xy', b'xy' + bytes([byte]), b'x' + bytes([byte]) + b'y')
                 if not (path.startswith(b'/') or path.endswith(b'/') or path == b'.') for start in (b'', b'./')]
        with ThreadPoolExecutor() as pool:
            answers = list(pool.map(lambda case: self.read_by_make(*case[:2]), cases))
        for (role, path, rest, byte), answer in zip(cases, answers):
            end = rest if role != 'folder' else rest + b'/'
            refused = byte in EVERYWHERE or end[-1] in AT_THE_END or end[0] == ord('~')
            with self.subTest(role, path=path):
                self.assertEqual(answer, 'not UTF-8' if byte > 127 else 'refused' if refused else 'read')

    def read_by_make(self, role: str, path: bytes) -> str:
        """Returns whether a rule with this path is read as it is meant or is refused, or what is wrong."""
        with tempfile.TemporaryDirectory(dir=self.work) as name:
            room = name.encode()
            paths = {'target': b'made', 'program': b'it.com', 'folder': b'disk', 'script': b'typed', role: path}
            inside = paths['folder'] + b'/X'
            for file, data in (paths['target'], b''), (paths['program'], READ_AND_SEARCH), (paths['script'], b'x'), (inside, b''):
                os.makedirs(os.path.dirname(os.path.join(room, file)), exist_ok=True)
                with open(os.path.join(room, file), 'wb') as out:
                    out.write(data)
            words = [b'--make=' + paths['target'], b'--files=' + paths['folder'], b'--console=' + paths['script'], b'--', paths['program'], b'*.*']
            done = subprocess.run([DEPENDENCIES_PROGRAM, *words], cwd=name, capture_output=True)
            if done.returncode == 1 and not done.stdout:
                if done.stderr == refusal(path):
                    return 'refused'
                return 'not UTF-8' if done.stderr.startswith(b'error: invalid UTF-8') else str(done.stderr)
            if (done.returncode, done.stderr) != (0, b'stop WarmBoot\n'):
                return str((done.returncode, done.stderr))
            Path(name, 'rule.mk').write_bytes(with_recipe(done.stdout))
            return self.wrong_in(room, paths, inside) or 'read'

    def wrong_in(self, room: bytes, paths: dict[str, bytes], inside: bytes) -> str:
        """Returns what is wrong with the rule in a room, if anything is."""
        def touch(seconds: int, *names: bytes) -> None:
            for name in names:
                os.utime(os.path.join(room, name), (1_000_000_000 + seconds,) * 2)

        def is_made() -> bool:
            done = make(os.fsdecode(room), '-q', '--', paths['target'])
            if done.returncode > 1 or done.stdout or done.stderr:
                raise RuntimeError(done.stdout + done.stderr)
            return done.returncode == 1

        needs = [paths['program'], paths['script'], inside, paths['folder']]
        touch(1, paths['target'], *needs)
        names = sorted(os.listdir(room))
        try:
            if is_made():
                return 'made without need'
            for need in needs:
                touch(2, need)
                if not is_made():
                    return f'not made after a change of {need!r}'
                touch(1, need)
            for need in paths['script'], inside:
                os.rename(os.path.join(room, need), os.path.join(room, b'elsewhere'))
                touch(1, paths['folder'])
                if not is_made():
                    return f'not made without {need!r}'
                os.rename(os.path.join(room, b'elsewhere'), os.path.join(room, need))
                touch(1, paths['folder'])
        except RuntimeError as error:
            return str(error)
        return '' if sorted(os.listdir(room)) == names else 'make wrote a file'
