"""Every number of a call, each with four words in DE, at which its control block, its buffer or its string is over page zero, over the program or
across the end of memory. There is no host file, no tail and no script. Each run is broken off at its call and resumed from the checkpoint
there. Expected values are worked out by hand. The environment variable SESSIONS names the program."""
import unittest

from case_files import FOLDER
from playing import Play
from vembrusk.assembler import assemble
from vembrusk.cases import Case, Command, Outcome, Setup, usual_registers
from vembrusk.player import Difference

WORDS = (0x0000, 0x00FF, 0xFFE0, 0xFFFF)
"""The first cell, the one before the program, and two from which a control block continues at 0000H."""
LIMIT = 1_000
"""The largest number of steps of a run: more than a round through page zero."""
WITH_BLOCK = {*range(15, 18), *range(19, 24), *range(33, 37), 40}
KNOWN = {2, *range(6, 9), *range(10, 27), *range(33, 37), 40}
VALUES = {12: 0x22, 24: 0x0F, **dict.fromkeys((*range(15, 24), *range(33, 36), 40), 0xFF)}
"""The values of calls that do not return 0: there is no file, and no name is valid."""
ASTRAY = {
    # a count of 0 at 0000H leaves INX B and RST 7 there, and then NOPs up to the first blank
    (10, 0xFFFF): ('Undefined 20', 46, {'C': 0x0B, 'SP': 0xFDFE, 'PC': 0x005D}),
    # the size 0 makes the jump at 0000H a jump to itself
    (35, 0xFFE0): ('Limit', LIMIT, {'SP': 0xFE00, 'PC': 0}),
    # the record number 00C3H makes it a jump to 61 NOPs before the program: 14 rounds of 68 steps, and 48 steps more
    (36, 0xFFE0): ('Limit', LIMIT, {'SP': 0xFE1C, 'PC': 0x00EC}),
}


def stop_of(number: int, word: int) -> str | None:
    """Returns why a call stops, if it does: no `$` is in memory, and the drive byte is the cell at DE, which is a jump (C3H) at 0000H and
    else 0. The capacity of a line is that cell too."""
    if number in (1, 10) and (number == 1 or word == 0):
        return 'ConsoleExhausted'
    if number in (0, 9):
        return 'WarmBoot' if number == 0 else 'NoDollar'
    if number == 14 and word % 256 > 3:
        return f'BadDrive {word % 256}'
    if number in WITH_BLOCK and word == 0:
        return f'BadDrive {0xC3}'
    return None if number in KNOWN else f'Unsupported {number}'


def end_of(number: int, word: int) -> Outcome:
    """Returns how a run ends that makes a call and returns."""
    at_call = {**usual_registers('NoDollar'), 'C': number, 'D': word // 256, 'E': word % 256}
    stop = stop_of(number, word)
    if stop:
        return Outcome(stop, 4, tuple(at_call.items()))
    value = VALUES.get(number, 0)
    stop, steps, others = ASTRAY.get((number, word), ('WarmBoot', 7, {'SP': 0xFE00, 'PC': 0xFF03}))
    prints = number == 2 or number == 6 and word % 256 != 0xFF
    return Outcome(stop, steps, tuple({**at_call, 'A': value, 'L': value, **others}.items()), bytes([word % 256]) if prints else b'')


class EveryCallTest(unittest.TestCase):

    def test_each_number_of_a_call_has_its_end(self) -> None:
        for number in range(256):
            play = Play(Case(FOLDER / 'every call', f'call {number}', Setup(), []))
            for word in WORDS:
                code = assemble([f'MVI C,{number}; LXI D,{word}; CALL 5; RET'])
                wanted = end_of(number, word)
                called = {**usual_registers('NoDollar'), 'C': number, 'D': word // 256, 'E': word % 256}
                play.begin(Setup(program=code, limit=4), ['ok'])
                play.expect_run(Outcome('Limit', 4, tuple(called.items())), 4, None)
                play.edit(Command(f'limit {LIMIT}', ['ok']))
                play.expect_run(wanted, wanted.steps - 4, None)
                play.expect_run(wanted, 0, None)
            with self.subTest(number=number):
                try:
                    play.run()
                except Difference as difference:
                    self.fail(str(difference))
