"""The run of a session, and its state after any number of steps, for a debugger."""

from __future__ import annotations

import os
from collections.abc import Callable, Iterable, Iterator

from .progress import Progress
from .session import PathName, Report, Session
from .trace import Direction, Step, Tracer
from .words import SessionWords

DEFAULT_LIMIT = 1_000_000
SHORT_SPACING = 10_000
SLOTS = 1024
"""The checkpoints of a run: at most this many, as far apart as its limit needs."""

WINDOW = 200
"""The lines before and after a step that are read together with it."""

FIRST_STRETCH = 1_000_000
LATER_STRETCH = 4_000_000
"""The steps that a search goes through at first, and then on each processor."""


class Run:
    """The run of a session, and its state after any number of steps.

    cpmrun keeps checkpoints of the whole run, so a report of any step takes milliseconds. cpmtrace begins at the start each time, and executes
    the steps before the first one that is asked for at full speed. So steps around the last one are kept, and a search goes through stretches of
    steps from here on, several at once.
    """

    def __init__(self, words: SessionWords, runner: PathName, tracer: PathName) -> None:
        """Runs the session to its end."""
        limit = DEFAULT_LIMIT if words.limit is None else words.limit
        spacing = words.spacing or max(SHORT_SPACING, limit // SLOTS)
        self._start: Callable[[], Session] = lambda: words.start(runner, spacing=spacing, slots=words.slots or SLOTS)
        self._session: Session | None = self._start()
        self._tracer: Tracer = words.tracer(tracer)
        self._lines: dict[int, Step] = {}
        self._window = range(0)
        with Progress("running"):
            whole = self._session.run()
        self.steps, self.cause, self.text = whole.steps, whole.cause, whole.text
        # a run that the limit stops has no step after its last one
        self._limit = whole.steps if whole.cause.name == "Limit" else whole.steps + 1

    def close(self) -> None:
        """Ends the session."""
        if self._session is not None:
            self._session.close()

    def report(self, steps: int) -> Report:
        """Returns the report after this number of steps. If it is interrupted, the session starts again the next time."""
        session = self._session or self._start()
        self._session = None
        session.limit(steps)
        report = session.run()
        self._session = session
        return report

    def lines(self, first: int, last: int) -> Iterator[Step]:
        """Yields the steps from `first` to `last`."""
        if last - first <= WINDOW:
            for number in range(first, last + 1):
                step = self.line(number)
                yield from [] if step is None else [step]
        else:
            yield from self._traced(f"--from={first}", f"--to={last}", steps=last + 1)

    def line(self, number: int) -> Step | None:
        """Returns the step of this number, or None if the run stops before it."""
        if number not in self._window and number < self._limit:
            first, last = max(number - WINDOW, 0), number + WINDOW
            self._window = range(0)
            self._lines = {step.number: step for step in self._traced(f"--from={first}", f"--to={last}", steps=last + 1)}
            self._window = range(first, last + 1)
        return self._lines.get(number)

    def next_at(self, address: int, steps: int) -> Step | None:
        """Returns the first step after step number `steps` that is at this address."""
        return self._next(f"--at={address:04X}", steps + 1)

    def last_at(self, address: int, steps: int) -> Step | None:
        """Returns the last of the first `steps` steps that is at this address."""
        return self._last(f"--at={address:04X}", steps)

    def last_write(self, first: int, last: int, steps: int) -> Step | None:
        """Returns the last of the first `steps` steps that wrote any of these cells."""
        return self._last(f"--writes={first:04X}-{last:04X}", steps)

    def next_write(self, address: int, steps: int) -> Step | None:
        """Returns the first step after the first `steps` steps that writes this cell."""
        return self._next(f"--writes={address:04X}", steps)

    def printer(self, offset: int) -> int:
        """Returns the number of the step that sent this byte of the console text, found by binary search."""
        low, high = 0, self.steps
        while high - low > 1:
            middle = (low + high) // 2
            low, high = (low, middle) if len(self.report(middle).text) > offset else (middle, high)
        return low

    def _next(self, option: str, first: int) -> Step | None:
        """Returns the first step from `first` on that this option chooses."""
        batches = ([(first + begin, first + end) for begin, end in batch] for batch in stretches(self._limit - first, os.cpu_count() or 1))
        return self._search(option, batches, Direction.FORWARD)

    def _last(self, option: str, steps: int) -> Step | None:
        """Returns the last of the first `steps` steps that this option chooses."""
        batches = ([(steps - end, steps - begin) for begin, end in batch] for batch in stretches(steps, os.cpu_count() or 1))
        return self._search(option, batches, Direction.BACKWARD)

    def _search(self, option: str, batches: Iterable[list[tuple[int, int]]], direction: Direction) -> Step | None:
        """Returns the first or the last step that this option chooses, in the first stretch that has one."""
        with Progress("searching") as progress:
            for batch in batches:
                progress.doing = f"searching from step {min(batch)[0]} to {max(batch)[1]}"
                choices = [(option, f"--from={first}", f"--to={end - 1}", self._up_to(end)) for first, end in batch]
                step = self._tracer.search(choices, direction)
                if step is not None:
                    return step
        return None

    def _traced(self, *options: str, steps: int) -> Iterator[Step]:
        with Progress(f"running to step {min(steps, self._limit)}"):
            yield from self._tracer.steps(*options, self._up_to(steps))

    def _up_to(self, steps: int) -> str:
        return f"--limit={min(steps, self._limit)}"


def stretches(steps: int, processors: int) -> Iterator[list[tuple[int, int]]]:
    """Yields stretches of this many steps, in order, as first steps and ends: those of a list are searched at once. The first list has a short
    one, and the last list the rest, in as many parts as there are processors."""
    middle = FIRST_STRETCH + processors * LATER_STRETCH
    for begin, end, length in (0, FIRST_STRETCH, FIRST_STRETCH), (FIRST_STRETCH, middle, LATER_STRETCH), \
            (middle, steps, -(-(steps - middle) // processors)):
        end = min(end, steps)
        if begin < end:
            yield [(first, min(first + length, end)) for first in range(begin, end, length)]
