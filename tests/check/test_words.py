"""Checks the words of pages, comments and help: each has a plainer one, which its message names."""
import re
import subprocess
import unittest

from helpers import DEPENDENCIES_PROGRAM, PROGRAM, TOP, TRACE_PROGRAM

PLAINER = {
    r'(is|are|was|were) told|tells?|told': 'prints, returns, reports, shows',
    r'stands?(?!-in)|stood': 'is in, is at, represents',
    r'want of memory|memory (is|was) refused|refused memory': 'out of memory, an allocation fails',
    r'so many': 'n, that many',
    r'anew|by halves|in turn (by|of)': 'again, by binary search, in order',
    r'(is|are) carried out': 'is executed, is applied, is made',
    r'handed (in|on|over)|at hand': 'given, passed, available',
    r'goes on from|gone on with': 'resumes, continues from',
    r'what is typed': 'the script',
    r'a?fault of use': 'usage error',
    r'can be said|sayable name': 'valid',
    r'of no effect': 'ignored',
    r'but for|those that|of its own accord': 'except, the ones that',
    r'where there is|where it is not': 'if there is, if it is not',
}
WORDS = {re.compile(rf'\b({words})\b'): better for words, better in PLAINER.items()}

FILES = ['*.md', 'docs/*.md', 'docs/*.1', 'examples/*.md', 'python/*.md', 'python/vembrusk/*.py', 'tests/*.md', 'crates/*/src/*.rt', 'crates/*/specs/**/*.antt',
         'crates/*/proofs/**/*.antt']


def comments(path: str, text: str) -> list[str]:
    """Returns the comments of a source, or all lines of a page."""
    if path.endswith('.rt'):
        return re.findall(r'(?m)^\s*//[/!]?.*| // .*$', text)
    return re.findall(r'(?m)^\s*--.*', text) if path.endswith('.antt') else text.split('\n')


class Words(unittest.TestCase):
    def check(self, name: str, lines: list[str]) -> None:
        for line in lines:
            for words, better in WORDS.items():
                found = words.search(line)
                if found:
                    with self.subTest(file=name):
                        self.fail(f'{found[0]!r} (write: {better}) in: {line.strip()}')

    def test_pages_and_comments_have_plain_words(self) -> None:
        paths = [path for files in FILES for path in TOP.glob(files)]
        self.assertGreater(len(paths), 500)
        for path in paths:
            name = path.relative_to(TOP).as_posix()
            self.check(name, comments(name, path.read_text()))

    def test_help_has_plain_words(self) -> None:
        for program in PROGRAM, DEPENDENCIES_PROGRAM, TRACE_PROGRAM:
            self.check('--help', subprocess.check_output([program, '--help'], text=True).splitlines())

