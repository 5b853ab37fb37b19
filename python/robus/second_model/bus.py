"""The bus: its sizes, and the windows of a frame."""
from __future__ import annotations

from dataclasses import dataclass

from .names import BIU, Node, RMU
from .plan import Plan


@dataclass(frozen=True)
class Window:
    """A window of a frame: the time of one stage of one slot, or the tail, in ticks from the
    frame's first tick on."""

    slot: int
    stage: int
    first: int  # the offset of its first tick
    length: int  # in ticks


TAIL = 4


@dataclass(frozen=True)
class Bus:
    """What all nodes of a bus know of it."""

    biu: int
    rmu: int
    slots: int  # the data slots of a frame
    plan: Plan = Plan()
    version: int = 1
    number: int = 0
    # After how many frames without new evidence an accusation lapses; 0 if none does
    probation: int = 0

    def size(self, kind: int) -> int:
        """How many nodes of a kind there are."""
        return self.rmu if kind else self.biu

    @property
    def sync(self) -> int:
        """The number of the sync slot, which is how many slots stand before it."""
        return 2 * self.biu + self.rmu + self.slots

    def nodes(self) -> list[Node]:
        """All nodes, BIUs before RMUs."""
        return [(kind, number) for kind in (BIU, RMU) for number in range(self.size(kind))]

    def windows(self) -> list[Window]:
        """The windows of a frame in their order: three for each slot, and the tail."""
        plan, rows = self.plan, []
        for slot in range(self.sync):
            for stage in (1, 2, 3):
                rows.append(Window(slot, stage, (3 * slot + stage - 1) * plan.l, plan.l))
        first = 3 * self.sync * plan.l
        for stage, length in ((1, plan.l), (2, plan.v), (3, plan.z)):
            rows.append(Window(self.sync, stage, first, length))
            first += length
        rows.append(Window(self.sync, TAIL, first, self.longest_tail()))
        return rows

    def longest_tail(self) -> int:
        """The greatest number of ticks that the tail of a frame may have."""
        return self.plan.v + self.plan.z + self.plan.c

    def length_of(self, slot: int, stage: int) -> int:
        """The length of a window in ticks; that of the tail, which is stage 4, is the longest that
        it may be."""
        plan = self.plan
        if slot < self.sync:
            return plan.l
        return (plan.l, plan.v, plan.z, self.longest_tail())[stage - 1]

    def sender_place(self, slot: int) -> tuple[str, int, int]:
        """The role of a slot below the sync slot: (role, kind of the sender, number); a data slot's
        sender is its owner."""
        if slot < self.biu:
            return "schedule", BIU, slot
        slot -= self.biu
        if slot < self.slots:
            return "data", BIU, slot
        slot -= self.slots
        if slot < self.biu:
            return "diagnosis", BIU, slot
        return "diagnosis", RMU, slot - self.biu
