"""Programs that several scripts measure, and what a run of them took."""

import os
import subprocess
import sys
from dataclasses import dataclass, field

SCRIPT_LENGTH = 1_048_576
STEPS = "4000000000"
# MVI C,6; MVI E,0FFH; CALL 5; ORA A; JZ to the HLT; MOV E,A; MVI C,2; CALL 5; JMP 0100H; HLT
TAKES_ALL = "0e061effcd0500b7ca14015f0e02cd0500c3000176"
# Four nested loops of DCR and JNZ.
LOOPS = "1e0506000e001600 15c208010dc2080105c208011dc2080176"


@dataclass
class Program:
    """A program with its words and the status with which it ends, and its times and its memory in each round."""

    words: list[str]
    status: int = 0
    seconds: list[float] = field(default_factory=list)
    kilobytes: list[int] = field(default_factory=list)

    def run(self) -> None:
        child = subprocess.Popen(self.words, stdin=subprocess.DEVNULL, stdout=subprocess.DEVNULL, stderr=subprocess.DEVNULL)
        _, status, usage = os.wait4(child.pid, 0)
        child.returncode = os.waitstatus_to_exitcode(status)
        if child.returncode != self.status:
            sys.exit(f"status {child.returncode}: {self.words}")
        self.seconds.append(usage.ru_utime + usage.ru_stime)
        self.kilobytes.append(usage.ru_maxrss)
