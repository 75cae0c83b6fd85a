"""Sends edit lines to the built program one by one, and expects the whole reply to each before it sends the next: on standard input, and
through a pipe with a name."""
import os
import select
import subprocess
from typing import BinaryIO

from helpers import HI, PROGRAM, TOP, ProgramTest

TALK = [('run', 'end'), ('poke 010A 6F', 'ok'), ('run', 'end'), ('limit 5', 'ok'), ('insert 1 41', 'refused 1'), ('run', 'end')]
"""Edit lines, with the last line of each reply."""


class ReplyTest(ProgramTest):

    def start(self, edits: object, stdin: int) -> subprocess.Popen:
        """Starts a session, which is killed at the end of the test."""
        words = [PROGRAM, HI, '--edits', edits]
        process = subprocess.Popen(words, stdin=stdin, stdout=subprocess.PIPE, cwd=TOP, bufsize=0)
        self.addCleanup(process.stdout.close)
        self.addCleanup(process.wait)
        self.addCleanup(process.kill)
        return process

    def expect_reply(self, replies: BinaryIO, last: str) -> None:
        """Reads lines up to this one."""
        text = b'\n'
        while not text.endswith(f'\n{last}\n'.encode()):
            self.assertTrue(select.select([replies], [], [], 20)[0], f'no reply {last} after {text!r}')
            piece = replies.read(65536)
            self.assertTrue(piece, f'the replies end without {last} after {text!r}')
            text += piece

    def expect_replies(self, lines: BinaryIO, process: subprocess.Popen) -> None:
        """Sends the lines, closes their pipe, and expects the status 0."""
        with lines:
            for line, last in TALK:
                lines.write(f'{line}\n'.encode())
                self.expect_reply(process.stdout, last)
        self.assertEqual(process.wait(timeout=120), 0)

    def test_each_reply_comes_before_the_next_line_of_standard_input(self) -> None:
        process = self.start('/dev/stdin', subprocess.PIPE)
        self.expect_replies(process.stdin, process)

    def test_each_reply_comes_before_the_next_line_of_a_pipe_with_a_name(self) -> None:
        pipe = self.work / 'lines'
        os.mkfifo(pipe)
        with open(os.open(pipe, os.O_RDWR), 'wb', buffering=0) as lines:
            self.expect_replies(lines, self.start(pipe, subprocess.DEVNULL))
