"""Runs programs that print and run on: their text is there while they run, and a terminal shows the steps of one that prints nothing for two
seconds, on an empty line. The clock of these runs goes on by a second each time that it is read."""
import os
import pty
import signal
import socket
import subprocess
import tty

from failures import FailureTest, Wanted
from helpers import PROGRAM, ProgramTest, build_library
from vembrusk.assembler import assemble

WARM_BOOT = b'stop WarmBoot\n'
SPIN = assemble(['JMP 100H'])
PRINT = 'MVI E,{0}; MVI C,2; CALL 5'
WAIT = ['MVI D,{0}', '{1}: LXI B,0', '{1}_inner: DCX B; MOV A,B; ORA C; JNZ {1}_inner', 'DCR D; JNZ {1}']
"""Takes 262,147 steps for each of at most 255 turns, and one more."""


WIPE = b'\r\x1b[K'
"""Erases a line that has the steps alone."""


def show(millions: int) -> bytes:
    """Returns what shows steps on a terminal."""
    return b'%d million steps' % millions


def printing(*waits: int, end: bytes = b'') -> bytes:
    """Returns a program that prints A, B and so on with this end, and waits for these numbers of turns, one after each letter."""
    code = []
    for number, turns in enumerate(waits):
        code += [PRINT.format(byte) for byte in (65 + number, *end)]
        for part in range(0, turns, 200):
            label = f'wait_{chr(97 + number)}_{chr(97 + part // 200)}'
            code += [line.format(min(200, turns - part), label) for line in WAIT]
    return assemble([*code, 'RET'])


class TextTest(ProgramTest):
    def setUp(self) -> None:
        super().setUp()
        self.environment = {**os.environ, 'TERM': 'xterm', 'LD_PRELOAD': str(build_library('clock', self.work))}

    def words(self, program: bytes, limit: int = 4_000_000_000, *more: str) -> list[str]:
        return [str(PROGRAM), str(self.put('program.com', program)), '--limit', str(limit), *more]

    def on_terminal(self, program: bytes, limit: int = 4_000_000_000, *more: str, **environment: str) -> bytes:
        """Returns what a run writes to a terminal that is its standard output and its standard error."""
        terminal, end = pty.openpty()
        tty.setraw(end)
        process = subprocess.Popen(self.words(program, limit, *more), stdin=subprocess.DEVNULL, stdout=end, stderr=end,
                                   env={**self.environment, **environment})
        os.close(end)
        text = b''
        try:
            while piece := os.read(terminal, 4096):
                text += piece
        except OSError:  # the other end is closed
            pass
        os.close(terminal)
        process.wait(60)
        return text


class PieceTest(TextTest):
    def test_the_text_is_written_while_the_program_runs(self) -> None:
        """The letters come 524,299 steps apart, so there are two in each million. Each write to this socket is read by itself."""
        reading, writing = socket.socketpair(socket.AF_UNIX, socket.SOCK_SEQPACKET)
        with reading, subprocess.Popen(self.words(printing(*[2] * 6)), stdin=subprocess.DEVNULL, stdout=writing, stderr=subprocess.PIPE,
                                       env=self.environment) as process:
            writing.close()
            pieces = list(iter(lambda: reading.recv(100), b''))
            self.assertEqual((pieces, process.stderr.read()), ([b'AB', b'CD', b'EF'], WARM_BOOT))

    def test_an_interrupt_comes_after_the_text(self) -> None:
        """The program spins. It may be that whoever calls the tests ignores interrupts."""
        words = ['env', '--default-signal', *self.words(assemble([PRINT.format(65), 'spin: JMP spin']))]
        with subprocess.Popen(words, stdin=subprocess.DEVNULL, stdout=subprocess.PIPE, stderr=subprocess.PIPE, env=self.environment) as process:
            self.assertEqual(process.stdout.read(1), b'A')
            process.send_signal(signal.SIGINT)
            self.assertEqual((process.stdout.read(), process.stderr.read()), (b'', b''))
        self.assertEqual(process.returncode, -signal.SIGINT)

    def test_a_rule_for_make_comes_after_the_text(self) -> None:
        self.expect(0, 'AB', WARM_BOOT.decode(), *self.words(printing(8, 1))[1:], '--deps', self.work / 'rule')
        self.assertTrue((self.work / 'rule').exists())


class TerminalTest(TextTest):
    """The clock is read when the program starts, at each million steps, and when text is written or steps are shown."""

    def test_steps_are_shown_until_there_is_text(self) -> None:
        """A is printed at once, and B after 6.3 million steps."""
        shown = show(3) + WIPE + show(5) + WIPE
        self.assertEqual(self.on_terminal(printing(24, 1, end=b'\r\n')), b'A\r\n' + shown + b'B\r\n' + WARM_BOOT)

    def test_no_steps_are_shown_in_a_line_of_the_text(self) -> None:
        for end in b'', b'\r', b' ':
            self.assertEqual(self.on_terminal(printing(24, 1, end=end)), b'A' + end + b'B' + end + WARM_BOOT)

    def test_no_steps_are_shown_on_a_screen_that_the_program_draws(self) -> None:
        end = b'\x1b[2;9H\r\n'
        self.assertEqual(self.on_terminal(printing(24, 1, end=end)), b'A' + end + b'B' + end + WARM_BOOT)

    def test_the_steps_are_wiped_before_the_stop(self) -> None:
        shown = b''.join(show(millions) + WIPE for millions in (1, 3, 5))
        self.assertEqual(self.on_terminal(SPIN, 6_000_000), shown + b'stop Limit\n')

    def test_the_steps_are_wiped_before_a_rule(self) -> None:
        for path in '-', '/dev/stderr':
            text = self.on_terminal(SPIN, 6_000_000, '--deps', path, '--target', 'out')
            self.assertTrue(text.partition(b'out: ')[0].endswith(b'steps' + WIPE), text)
            self.assertTrue(text.endswith(b'\nstop Limit\n'), text)

    def test_another_kind_of_terminal_shows_nothing(self) -> None:
        self.assertEqual(self.on_terminal(SPIN, 6_000_000, TERM='dumb'), b'stop Limit\n')
        del self.environment['TERM']
        self.assertEqual(self.on_terminal(SPIN, 6_000_000), b'stop Limit\n')

    def test_a_pipe_shows_nothing(self) -> None:
        self.expect(3, '', 'stop Limit\n', *self.words(SPIN, 6_000_000)[1:], env=self.environment)


class RefusedTest(FailureTest):
    library = 'refuse'

    def test_a_beginning_of_the_text_is_written(self) -> None:
        """The program prints A, waits for 2 million steps, and then makes a file and prints B."""
        code = [PRINT.format(65), *(line.format(8, 'wait') for line in WAIT), 'MVI C,22; LXI D,block; CALL 5', PRINT.format(66), 'RET',
                'block: DB 0,"NEW        "; DS 24']
        self.each_in_turn(Wanted(b'AB', WARM_BOOT), self.put('program.com', assemble(code)), '--limit', '100000000')
