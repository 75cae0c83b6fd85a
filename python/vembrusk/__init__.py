"""Clients of the programs `cpmrun`, `cpmdeps` and `cpmtrace`, which run programs of CP/M 2.2, and the tools of the command `vembrusk`.

`Session` sends edit lines to a running cpmrun, `read_listing` returns what a run asked for, and `Tracer` the steps of a run.
"""

from .listing import FileReads, Listing, read_listing
from .session import Cause, ProgramEnded, Refused, Registers, Report, Session, SessionError, UnknownReply
from .trace import Step, Tracer, Written

__version__ = "1.0.0"

__all__ = ["Cause", "FileReads", "Listing", "ProgramEnded", "Refused", "Registers", "Report", "Session", "SessionError", "Step", "Tracer",
           "UnknownReply", "Written", "read_listing"]
