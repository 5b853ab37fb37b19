"""The fault premise."""
from __future__ import annotations

from .bus import Bus
from .names import BIU, Node, RMU, Row, Sight, Trusted


class Judge:
    """What the good nodes have seen, in the stages of a frame, of nodes that are not good."""

    heard: list[set[int]]  # by kind those of whom something was taken
    unlike: list[set[int]]  # by kind those of whom receivers took unlike things

    def __init__(self, bus: Bus) -> None:
        self.bus = bus
        self.heard, self.unlike = [set(), set()], [set(), set()]

    def see(self, kind: int, rows: list[Row]) -> None:
        """Each good receiver's row of a stage has its sights by source: (time, nothing) in the sync
        slot, else (nothing, value)."""
        for source in range(self.bus.size(kind)):
            sights = [row.get(source) for row in rows]
            if any(sights):
                self.heard[kind].add(source)
                if not self.are_alike(sights):
                    self.unlike[kind].add(source)

    def are_alike(self, sights: list[Sight | None]) -> bool:
        """Whether sights of one source are equal, or times that lie no further apart than those of
        a good node may."""
        if None in sights:
            return False
        if sights[0][0] is None:
            return len(set(sights)) == 1
        times = [time for time, _ in sights]
        return max(times) - min(times) <= self.bus.plan.dmax - self.bus.plan.dmin

    def verdict(self, trusted: Trusted, good: set[Node]) -> str | None:
        """The cause for which the premise fails, if it does."""
        two_faced = []
        for kind in (BIU, RMU):
            bad = {number for number in trusted[kind] if (kind, number) not in good}
            if len(trusted[kind]) - len(bad) <= len(bad & self.heard[kind]):
                return ("FewGoodBiu", "FewGoodRmu")[kind]
            two_faced.append(bad & self.unlike[kind])
        return "TwoSided" if all(two_faced) else None
