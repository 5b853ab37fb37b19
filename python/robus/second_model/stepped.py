"""A run that goes on record by record, and whose BIUs say what a host hands in."""
from __future__ import annotations

from collections import deque
from dataclasses import dataclass

from .names import BIU, Node, Trusted, Row
from .scenario import Scenario
from .site import FrameStart
from .world import World

# Why a word is not handed in
NO_FRAME, NOT_GOOD, NO_TABLE = 14, 15, 16


@dataclass(frozen=True)
class Record:
    """What the host is given: the start of a frame, a slot, the end of the run or its breach
    (`frame`, `slot`, `end`, `breach`), with its lines of the report."""

    what: str
    frame: int
    slot: int
    lines: tuple[str, ...]


def why_not_handed(scenario: Scenario, frame: int, biu: int) -> int:
    """Why a BIU cannot be handed a word as a frame begins: it is not there or not good, or its
    application is not a table. 0 if it can."""
    if biu >= scenario.bus.biu or not scenario.is_good((BIU, biu), frame, 0):
        return NOT_GOOD
    return 0 if scenario.apps[biu] == "table" else NO_TABLE


class Stepped(World):
    """A run that goes on up to the next record. The host may hand in words after the record of a
    frame. After the last record that record comes again."""

    def __init__(self, scenario: Scenario) -> None:
        self.records: deque[Record] = deque()
        self.given: Record | None = None  # the last one
        super().__init__(scenario)

    def keep(self, what: str, frame: int, slot: int, before: int) -> None:
        """Makes the lines from a number on the next record."""
        self.records.append(Record(what, frame, slot, tuple(self.lines[before:])))

    def settle_frame(self, frame: int, starts: dict[Node, FrameStart]) -> None:
        """Makes a record of the start of a frame, and one of the end of the run."""
        before = len(self.lines)
        super().settle_frame(frame, starts)
        end = [self.lines.pop()] if self.ended else []
        self.keep("frame", frame, 0, before)
        self.lines += end
        if end:
            self.keep("end", frame, 0, -1)

    def settle_stage(self, frame: int, slot: int, stage: int, good: list[Node],
                     told: dict[Node, tuple[Row, Trusted]]) -> None:
        """Makes a record of a slot that is over, or of a breach."""
        before = len(self.lines)
        super().settle_stage(frame, slot, stage, good, told)
        if self.breach or stage == 3:
            self.keep("breach" if self.breach else "slot", frame, slot, before)

    def next(self) -> Record:
        """The next record."""
        while not self.records and not self.ended:
            self.step()
        if self.records:
            self.given = self.records.popleft()
        return self.given

    def why_not(self, biu: int) -> int:
        """Why a BIU cannot be handed a word now; 0 if it can."""
        if self.given is None or self.given.what != "frame":
            return NO_FRAME
        return why_not_handed(self.scenario, self.given.frame, biu)
