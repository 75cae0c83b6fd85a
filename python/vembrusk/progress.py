"""What a terminal shows while a command takes long."""

from __future__ import annotations

import sys
import threading
import time
from types import TracebackType

FIRST_SECONDS = 2.0
"""The seconds after which something is shown."""


class Progress:
    """A line on standard error, if that is a terminal, with what is done and the seconds that it has taken. It is removed at the end of the
    `with` block."""

    def __init__(self, doing: str) -> None:
        self.doing = doing
        self._is_over = threading.Event()
        self._thread: threading.Thread | None = None

    def __enter__(self) -> Progress:
        if sys.stderr.isatty():
            self._thread = threading.Thread(target=self._show, daemon=True)
            self._thread.start()
        return self

    def __exit__(self, kind: type[BaseException] | None, error: BaseException | None, trace: TracebackType | None) -> None:
        self._is_over.set()
        if self._thread is not None:
            self._thread.join()

    def _show(self) -> None:
        begun = time.monotonic()
        pause, shown = FIRST_SECONDS, False
        while not self._is_over.wait(pause):
            print(f"\r{self.doing}, {time.monotonic() - begun:.0f} s", end="\x1b[K", file=sys.stderr, flush=True)
            pause, shown = 1.0, True
        if shown:
            print("\r", end="\x1b[K", file=sys.stderr, flush=True)
