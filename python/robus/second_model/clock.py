"""The clock of a node."""
from __future__ import annotations

from bisect import bisect_right

from .names import Segments


class Timeline:
    """A clock: where tick 0 is, and from which tick on which length stands."""

    def __init__(self, start: int, segments: Segments) -> None:
        self.firsts = [first for first, _ in segments]
        self.lengths = [length for _, length in segments]
        self.times = [start]
        for i in range(1, len(segments)):
            ticks = self.firsts[i] - self.firsts[i - 1]
            self.times.append(self.times[-1] + ticks * self.lengths[i - 1])

    def time_of(self, tick: int) -> int:
        """The time of a tick, in reference units."""
        i = bisect_right(self.firsts, tick) - 1
        return self.times[i] + (tick - self.firsts[i]) * self.lengths[i]

    def stamp_of(self, time: int) -> int:
        """The least tick that is not before the time."""
        i = bisect_right(self.times, time) - 1
        if i < 0:
            return 0
        return self.firsts[i] - (self.times[i] - time) // self.lengths[i]
