"""Runs the built program on large input and at the end of memory: each part that can grow grows to its limit, and the program
prints the right result and never runs out of memory."""
from helpers import ProgramTest
from vembrusk.assembler import assemble

PRINT_SCRIPT = assemble(['MVI C,1; CALL 5; JMP 100H'])
"""Prints the script."""


def report_of_sum(total: str) -> str:
    """Returns the report of the program that adds up memory, with this in E."""
    return f'stop Halt\nsteps 458754\nregs A=00 F=46 B=00 C=00 D=00 E={total} H=00 L=00 SP=FDFE PC=010E\ntext -\nend\n'


def report_of_script(last: str) -> str:
    """Returns the report of the program that prints its script, with this last byte."""
    registers = f'A={last} F=02 B=00 C=01 D=00 E=00 H=00 L={last} SP=FDFC PC=FE06'
    return f'stop ConsoleExhausted\nsteps 5242883\nregs {registers}\ntext ' + '61' * 1048575 + f'{last}\nend\n'


class LargeTest(ProgramTest):

    def expect_replies(self, out: str, program: bytes, edits: str) -> None:
        """Expects these replies to an edit text."""
        self.expect_long(0, out, '', self.put('large.com', program), '--edits', self.put('edits', edits))

    def test_a_text_of_196608_bytes(self) -> None:
        program = assemble(['LXI SP,0F000H; MVI B,3; LXI H,0', "next: PUSH B; PUSH H; MVI E,'x'; MVI C,2; CALL 5; POP H; POP B",
                            'DCX H; MOV A,H; ORA L; JNZ next; DCR B; JNZ next; HLT'])
        report = 'stop Halt\nsteps 2555913\nregs A=00 F=56 B=00 C=00 D=00 E=78 H=00 L=00 SP=F000 PC=011D\n'
        self.expect_replies(f'ok\n{report}text ' + '78' * 196608 + '\nend\n', program, 'limit 4000000\nrun\n')

    def test_a_program_of_64512_bytes_adds_up_all_of_memory(self) -> None:
        """The sum is in E; the pokes are 32,000 bytes and the last byte of the program. Page zero adds up to 4CH and the program to 31H,
        modulo 256."""
        program = assemble(['MVI E,0; LXI H,0', 'next: MOV A,E; ADD M; MOV E,A; INX H; MOV A,H; ORA L; JNZ next; HLT']).ljust(64512, b'\0')
        edits = 'run\npoke 0200 ' + '01' * 32000 + '\npoke FCFF 03\npoke FD00 00\nrun\n'
        self.expect_replies(report_of_sum('7D') + 'ok\nok\nrefused 6\n' + report_of_sum('80'), program, edits)

    def test_a_script_of_1048576_bytes(self) -> None:
        """Call 1 takes and prints each byte; then the last byte is replaced."""
        edits = 'limit 6000000\n' + ('insert 0 ' + '61' * 32000 + '\n') * 32 + 'insert 1024000 ' + '61' * 24576 + '\n'
        edits += 'insert 0 61\nrun\nreplace 1048575 62\nrun\n'
        replies = 'ok\n' * 34 + 'refused 2\n' + report_of_script('61') + 'ok\n' + report_of_script('62')
        self.expect_replies(replies, PRINT_SCRIPT, edits)

    def test_a_script_of_1048576_bytes_in_a_file(self) -> None:
        program = self.put('script.com', PRINT_SCRIPT)
        typed = self.put('typed', 'a' * 1048576)
        words = [program, '--limit', '6000000', '--console', typed]
        self.expect_long(7, 'a' * 1048576, 'stop ConsoleExhausted\n', *words)

    def test_cells_at_the_end_of_memory(self) -> None:
        """The last cell, and the last one before the area of the system. The flag byte goes to FFFF, and A to 0000."""
        program = assemble(['MVI A,5AH; STA 0FFFFH; STA 0FDFFH; LXI SP,1; PUSH PSW; LDA 0FFFFH; MOV B,A; LDA 0FDFFH; HLT'])
        report = 'stop Halt\nsteps 8\nregs A=5A F=02 B=02 C=00 D=00 E=00 H=00 L=00 SP=FFFF PC=0113\ntext -\nend\n'
        self.expect_replies(report, program, 'run\n')
