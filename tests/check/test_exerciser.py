"""Runs the instruction exerciser of the examples. Each of its 25 groups gives the CRC of real 8080 chips, and a wrong flag in a few states is
seen."""
import struct
import zlib
from pathlib import Path

from helpers import TOP, ProgramTest

EXERCISER = TOP / 'examples/exerciser/exerciser.com'

CRCS = {
    'DAD B,D,H,SP': '14474BA6',
    'arithmetic with a byte': '9E922F9E',
    'arithmetic with B,C,D,E,H,L,M,A': 'CF762C86',
    'DAA,CMA,STC,CMC': 'BB3F030C',
    'INR,DCR A': 'ADB6460E',
    'INR,DCR B': '83ED1345',
    'INX,DCX B': 'F79287CD',
    'INR,DCR C': 'E5F6721B',
    'INR,DCR D': '15B5579A',
    'INX,DCX D': '7F4E2501',
    'INR,DCR E': 'CF2AB396',
    'INR,DCR H': '12B2952C',
    'INX,DCX H': '9F2B23C0',
    'INR,DCR L': 'FF57D356',
    'INR,DCR M': '92E963BD',
    'INX,DCX SP': 'D5702FAB',
    'LHLD': 'A9C3D5CB',
    'SHLD': 'E8864F26',
    'LXI B,D,H,SP': 'FCF46E12',
    'LDAX B,D': '2B821D5F',
    'MVI': 'EAA72044',
    'MOV': '10B58CEE',
    'STA,LDA': 'ED57AF72',
    'RLC,RRC,RAL,RAR': 'E0D89235',
    'STAX B,D': '2B0471E9',
}
"""The CRC that real 8080 chips gave for each group, from the instruction exerciser in general use by F. Cringle and I. Bartholomew."""


def offset_of_crc(program: bytes, name: str) -> int:
    """Returns where a program has the CRC of a group: after its name and three lines of 16 bytes."""
    return program.index(f'{name}$'.encode()) + len(name) + 1 + 3 * 16


def crc_of_ldax(kept: int = 0xFF) -> str:
    """Returns the CRC of LDAX B and LDAX D if an instruction leaves only these flags. Both read the word at 0103H, and both are executed after
    each change: of a bit of that word, of a flag, of a bit of A, which LDAX replaces, and of nothing. The first state is the one without a change."""
    changes = [(1 << bit, 0) for bit in range(8)] + [(0, 1 << bit) for bit in (0, 1, 2, 4, 6, 7)] + [(0, 0)] * 9
    states = [change for change in changes for _ in range(2)]
    states[0] = 0, 0
    data = b''
    for changed, flags in states:
        word = 0xB3A8 ^ changed
        data += struct.pack('<6H2BH', word, 0x42AC, 0x42AC, 0x42AC, 0x103, 0x103, (0xC6 ^ flags | 2) & kept, word % 256, 0xEF8E)
    return f'{zlib.crc32(data) ^ 0xFFFFFFFF:08X}'


class ExerciserTest(ProgramTest):

    def expect_text(self, text: str, program: Path, *words: str) -> None:
        """Expects this text, with CR LF at the ends of lines."""
        self.expect(0, text.replace('\n', '\r\n'), 'stop WarmBoot\n', program, *words)

    def expect_line_of_ldax(self, line: str, program: bytes) -> None:
        """Expects this line of the group LDAX, the 20th, and that it does not agree with real chips."""
        self.expect_text(f'{line}\n0 of 1 agree\n', self.put('changed.com', program), '20')

    def test_the_program_has_the_crcs_of_real_chips(self) -> None:
        program = EXERCISER.read_bytes()
        for name, crc in CRCS.items():
            offset = offset_of_crc(program, name)
            self.assertEqual(program[offset:offset + 4].hex().upper(), crc, name)

    def test_each_group_gives_the_crc_of_real_chips(self) -> None:
        lines = [f'{name}: as real chips\n' for name in CRCS]
        self.expect_text(''.join(lines) + '25 of 25 agree\n', EXERCISER, '--limit', '1000000000')

    def test_another_crc_is_reported(self) -> None:
        program = bytearray(EXERCISER.read_bytes())
        program[offset_of_crc(program, 'LDAX B,D') + 3] ^= 1
        self.expect_line_of_ldax('LDAX B,D: CRC 2B821D5F, real chips 2B821D5E', bytes(program))

    def test_a_lost_carry_in_two_states_is_reported(self) -> None:
        self.assertEqual(crc_of_ldax(), CRCS['LDAX B,D'])
        program = EXERCISER.read_bytes()
        put_carry_back = bytes.fromhex('39 37')  # DAD SP; STC
        self.assertEqual(program.count(put_carry_back), 1)
        self.expect_line_of_ldax(f'LDAX B,D: CRC {crc_of_ldax(kept=0xFE)}, real chips 2B821D5F', program.replace(put_carry_back, b'\x39\0'))
