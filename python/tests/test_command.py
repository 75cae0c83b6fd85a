"""Tests of what all subcommands share: their words, streams and errors; and of the package: its installation, its pages, and its sources."""

import ast
import os
import re
import shutil
import signal
import subprocess
import sys
import time
import tomllib
import unittest
import venv
from pathlib import Path

from command_case import EXAMPLES, TOP, CommandCase, built
from vembrusk import __version__
from vembrusk.command import PROGRAM_OPTIONS, SUBCOMMANDS
from vembrusk.files import write_whole
from vembrusk.session import Session
from vembrusk.words import Arguments, session_of, typed_bytes

TOOLS = TOP / "vembrusk"
GREETING = EXAMPLES / "greeting/greeting.com"
SORT = EXAMPLES / "sort/sort.com"


class WordsTest(CommandCase):
    """The words that name a session."""

    command = "snap"

    def snap(self, *words: str | Path) -> bytes:
        """Returns what `snap` prints for one run."""
        status, out, errors = self.outcome("--edits", self.put("edits", b"run\n"), *words)
        self.assertEqual((status, errors), (0, ""))
        return out

    def test_words_come_in_any_order(self) -> None:
        self.put("disk/in.txt", b"b\r\na\r\n")
        folder = self.room / "disk"
        wanted = self.snap(SORT, "in.txt out.txt", "--files", folder)
        self.assertIn(b"SORTED", wanted)
        for words in [SORT, "--files", folder, "in.txt out.txt"], ["--disk", folder, SORT, "in.txt out.txt"], \
                ["--files", folder, "--", SORT, "in.txt out.txt"], [SORT, f"--disk={folder}", "--", "in.txt out.txt"]:
            self.assertEqual(self.snap(*words), wanted)
        self.assertIn(b"SORTED", self.snap(SORT, "b:in.txt out.txt", "--disk-b", folder))
        self.assertEqual(os.listdir(folder), ["in.txt"])

    def test_scripts(self) -> None:
        wanted = self.snap(GREETING, "--typed", r"A\x64a")
        self.assertIn(b"Hello, Ada", wanted)
        self.assertEqual(self.snap(GREETING, "--console", self.put("typed", b"Ada\r")), wanted)
        self.assertIn(b"stop Limit after 5 steps", self.snap(GREETING, "--limit", "5"))
        for text, data in (r"a\r\n\t\\\x1A", b"a\r\n\t\\\x1a\r"), ("", b"\r"), (r"a\r", b"a\r"), ("é", "é\r".encode()):
            self.assertEqual(typed_bytes(text), data)
        with self.assertRaises(ValueError):
            typed_bytes(r"\q")

    def test_a_disk_raises_the_default_limit(self) -> None:
        parser = Arguments()
        parser.set_operands("PROGRAM [TAIL]", "")
        parser.add_session()
        for words, limit in (["--files=x"], None), (["--disk-d=x"], 4_000_000_000), (["--disk=x", "--files-b=y", "--limit=5"], 5):
            self.assertEqual(session_of(parser.read(["x.com", *words])).limit, limit)

    def test_faults(self) -> None:
        self.faulty("--files-b and --disk-b exclude each other", GREETING, "--files-b", "x", "--disk-b", "y", "--edits", "x")
        self.faulty("--typed and --console exclude each other", GREETING, "--typed", "x", "--console", "y", "--edits", "x")
        self.faulty("argument --limit: 4000000001 is not in 0 to 4,000,000,000", GREETING, "--limit", "4000000001", "--edits", "x")
        self.faulty("unrecognized arguments: c", "a", "b", "c", "--edits", "x")
        self.faulty("unrecognized arguments: --what", GREETING, "--what")
        self.faulty("unrecognized arguments: --what=x y", GREETING, "a", "--what=x", "y")
        self.faulty("argument --files: expected one argument", GREETING, "--files")
        self.faulty("the following arguments are required: PROGRAM")
        self.faulty("none: No such file or directory", GREETING, "--edits", "none")


    def test_options_of_other_commands(self) -> None:
        for word, owners in {
            "--file": "shrink and explore", "-o": "shrink, explore and reads", "--out=x": "cpmrun", "--deps": "cpmrun", "--by-step": "cpmdeps",
            "--steps": "cpmtrace", "--cpmdeps=x": "reads and compare", "--listing": "cover",
        }.items():
            self.faulty(f"{word.partition('=')[0]} is an option of {owners}", GREETING, word)

    def test_options_of_the_programs(self) -> None:
        """The options of each program are those of a session and of checkpoints, and the ones that no subcommand passes on."""
        parser = Arguments()
        parser.add_session()
        parser.add_checkpoints()
        for name, options in PROGRAM_OPTIONS.items():
            text = subprocess.run([built(name), "--help"], capture_output=True, text=True, check=True).stdout
            found = re.findall(r"(?m)^ +(?:-\w, )?(--[a-z-]+)", text)
            self.assertEqual([option for option in found if not parser.has_option(option) and option != "--version"], options)


class StreamsTest(CommandCase):
    """Standard streams, and the command without a subcommand."""

    def shell(self, script: str) -> tuple[int, bytes, str]:
        """Runs a script of bash, in which `$0` is the command, `$1` a program and `$2` a folder."""
        done = subprocess.run(["bash", "-c", script, TOOLS, GREETING, self.room], stdin=subprocess.DEVNULL, capture_output=True)
        return done.returncode, done.stdout, done.stderr.decode()

    def test_closed_streams(self) -> None:
        edits = self.put("edits", b"run\n")
        for command in "travel $1", f"snap $1 --edits {edits}", "cover $1", f"explore {EXAMPLES}/tools/nest.com --tries 5", \
                "compare $1 --with '--typed x'":
            for closed in "<&-", ">&-", "2>&-", "<&- >&- 2>&-":
                with self.subTest(command=command, closed=closed):
                    status, _, errors = self.shell(f'"$0" {command} {closed}')
                    self.assertIn(status, (0, 1) if command.startswith("compare") else (0,))
                    self.assertEqual(errors, "")

    def test_output_that_cannot_be_written(self) -> None:
        self.assertEqual(self.shell('"$0" cover "$1" > /dev/full'), (2, b"", "vembrusk cover: No space left on device\n"))
        self.assertEqual(self.shell('set -o pipefail; "$0" explore "$1" --tries 3000 | head -n 1')[::2], (0, ""))

    def test_an_interrupt(self) -> None:
        """The program spins up to the limit, which takes a quarter of a minute."""
        program = self.put("spin.com", b"\xc3\0\1")
        cases = self.put("cases.txt", b"== one\nprogram spin.com\nlimit 4000000000\n> run\nLimit\n")
        limit = ["--limit", "4000000000"]
        for words in ["cover", "--cases", cases], ["cover", program, *limit], ["check", cases], ["travel", program, *limit], \
                ["compare", program, *limit, "--with", "--limit 5"], ["shrink", program, *limit, "--cause", "Limit"]:
            streams = {"stdin": subprocess.DEVNULL, "stdout": subprocess.PIPE, "stderr": subprocess.PIPE}
            command = ["env", "--default-signal", sys.executable, "-B", TOOLS, *words]
            with self.subTest(words), subprocess.Popen(command, **streams, start_new_session=True) as process:
                while not any(path.read_text() for path in Path(f"/proc/{process.pid}/task").glob("*/children")):
                    time.sleep(0.05)
                time.sleep(1)
                os.killpg(process.pid, signal.SIGINT)
                out, err = process.communicate(timeout=30)
                self.assertEqual((process.returncode, out, err.decode()), (130, b"", f"vembrusk {words[0]}: interrupted\n"))

    def test_the_command_itself(self) -> None:
        for words, status, out, err in ("--version", 0, f"vembrusk {__version__}\n", ""), \
                ("", 2, "", "vembrusk: a subcommand is missing; --help lists them\n"), \
                ("what", 2, "", "vembrusk: there is no subcommand what; --help lists them\n"):
            self.assertEqual(self.shell(f'"$0" {words}'), (status, out.encode(), err))
        self.assertEqual(re.findall(r"(?m)^  (\w+) ", self.shell('"$0" --help')[1].decode()), list(SUBCOMMANDS))
        for name in SUBCOMMANDS:
            status, out, err = self.shell(f'"$0" {name} --help')
            self.assertEqual((status, err), (0, ""))
            self.assertIn(f"usage: vembrusk {name} ".encode(), out)


class FilesTest(CommandCase):
    """Files that are written whole."""

    def test_a_file_is_replaced(self) -> None:
        path = self.put("x", b"old")
        path.chmod(0o640)
        write_whole(path, b"new")
        self.assertEqual((path.read_bytes(), path.stat().st_mode & 0o777, os.listdir(self.room)), (b"new", 0o640, ["x"]))
        link = self.room / "link"
        link.symlink_to("x")
        write_whole(link, "newer")
        self.assertEqual((path.read_bytes(), link.is_symlink()), (b"newer", True))
        write_whole("/dev/null", b"x")

    def test_nothing_is_left_of_a_file_that_cannot_be_written(self) -> None:
        with self.assertRaises(OSError):
            write_whole(self.room / "none/x", b"")
        (self.room / "folder").mkdir()
        with self.assertRaises(OSError):
            write_whole(self.room / "folder", b"")
        self.assertEqual(os.listdir(self.room), ["folder"])


class PackageTest(CommandCase):
    """The package and its pages."""

    def test_it_is_installed_without_a_network(self) -> None:
        venv.create(self.room / "venv", with_pip=True)
        sources = self.room / "python"
        shutil.copytree(TOP / "python", sources)
        words = [self.room / "venv/bin/python", "-m", "pip", "install", "--quiet", "--no-index", "--disable-pip-version-check", sources]
        done = subprocess.run(words, capture_output=True, env={**os.environ, "PIP_NO_CACHE_DIR": "1"})
        self.assertEqual(done.returncode, 0, done.stderr.decode())
        shutil.rmtree(sources)
        where = "import vembrusk; print(vembrusk.Session, vembrusk.__file__)"
        shown = subprocess.run([self.room / "venv/bin/python", "-c", where], capture_output=True, text=True, cwd=self.room)
        self.assertIn(f"vembrusk.session.Session'> {self.room}/venv/", shown.stdout)
        env = {**os.environ, "CPMRUN": built("cpmrun")}
        ran = subprocess.run([self.room / "venv/bin/vembrusk", "check", EXAMPLES / "tools"], capture_output=True, env=env)
        self.assertEqual((ran.returncode, ran.stdout), (0, b"4 passed, 0 failed\n"))

    def test_the_page_of_the_package_has_each_method_of_a_session(self) -> None:
        page = (TOP / "python/README.md").read_text()
        for name in vars(Session):
            if not name.startswith("_"):
                self.assertIn(f"`{name}(", page)

    def test_versions(self) -> None:
        project = tomllib.loads((TOP / "python/pyproject.toml").read_text())["project"]
        self.assertEqual((project["version"], project["dependencies"]), (__version__, []))

    def test_the_man_page_and_the_completion_have_all_options(self) -> None:
        for folder in "docs", "scripts", "python":
            shutil.copytree(TOP / folder, self.room / folder)
        subprocess.run([sys.executable, "-B", self.room / "scripts/tool_pages"], check=True)
        for name in "docs/vembrusk.1", "scripts/completion":
            self.assertEqual((self.room / name).read_text(), (TOP / name).read_text(), f"run `make pages`, which writes {name}")

    @unittest.skipUnless(shutil.which("groff"), "there is no groff")
    def test_groff_reads_the_man_page(self) -> None:
        page = subprocess.run(["groff", "-ww", "-man", "-Tascii", "-P-cbu", TOP / "docs/vembrusk.1"], capture_output=True)
        self.assertEqual((page.returncode, page.stderr), (0, b""))

    def completions(self, *words: str) -> list[str]:
        """Returns what bash offers for the last of these words."""
        script = 'source "$0"; COMP_WORDS=("$@"); COMP_CWORD=$(($# - 1)); _vembrusk 2> /dev/null; echo "${COMPREPLY[*]}"'
        command = ["bash", "-c", script, TOP / "scripts/completion", "vembrusk", *words]
        done = subprocess.run(command, capture_output=True, text=True, cwd=self.room)
        return done.stdout.split()

    def test_bash_completes(self) -> None:
        self.put("digits.com", b"")
        (self.room / "disk").mkdir()
        for words, wanted in (["s"], "snap shrink"), (["travel", "--sy"], "--symbols"), (["travel", "--files", "di"], "disk"), \
                (["shrink", "dig"], "digits.com"), (["cover", "--listing", "dig"], "digits.com"), (["check", "--jobs", "d"], ""), \
                (["what", "d"], ""):
            self.assertEqual(self.completions(*words), wanted.split(), words)

    def test_no_name_is_unused(self) -> None:
        for path in sorted([*(TOP / "python").rglob("*.py"), TOOLS]):
            if path.name != "__init__.py":
                with self.subTest(path=path.relative_to(TOP)):
                    self.assertEqual(unused_names(ast.parse(path.read_text())), set())

    def test_functions_and_files_are_short_and_described(self) -> None:
        for path in sorted((TOP / "python/vembrusk").rglob("*.py")):
            text = path.read_text()
            self.assertLess(text.count("\n"), 800, path)
            tree = ast.parse(text)
            self.assertTrue(ast.get_docstring(tree), path)
            for node in ast.walk(tree):
                if isinstance(node, ast.FunctionDef):
                    with self.subTest(path=path.name, function=node.name):
                        self.assertLessEqual(node.end_lineno - node.lineno, 40)
                        self.assertTrue(node.name.startswith(("_", "do_")) or ast.get_docstring(node) or is_inner(node, tree), "no docstring")


def unused_names(tree: ast.Module) -> set[str]:
    """Returns the names that a module imports and does not use."""
    imported: set[str] = set()
    for node in ast.walk(tree):
        if isinstance(node, ast.Import | ast.ImportFrom):
            imported |= {(alias.asname or alias.name).split(".")[0] for alias in node.names}
    used = {node.id for node in ast.walk(tree) if isinstance(node, ast.Name)}
    strings = {node.value for node in ast.walk(tree) if isinstance(node, ast.Constant) and isinstance(node.value, str)}
    return imported - used - strings - {"annotations"}


def is_inner(function: ast.FunctionDef, tree: ast.Module) -> bool:
    """Returns whether a function is within another one, or overrides one of a base class."""
    bodies = [node for node in ast.walk(tree) if isinstance(node, ast.FunctionDef) and node is not function]
    return any(function in ast.walk(body) for body in bodies) or function.name in ("preloop", "onecmd", "emptyline")


if __name__ == "__main__":
    unittest.main()
