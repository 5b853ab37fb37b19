"""Where a node is in its frame: the open window, and the ticks at which it speaks and closes."""
from __future__ import annotations

from .bus import Bus, TAIL, Window
from .names import BIU, Node, RMU, Trusted, Word, mask_of, other


class Seat:
    """A node between two ticks: its frame and window, whom it trusts and accuses, and what has come
    in the open window. Ticks are those of its own clock, counted from 0."""

    frame: int
    epoch: int  # the frame's first tick
    next_epoch: int | None  # that of the next frame, from when on it is known
    votes: dict[int, Word]  # by slot
    owners: list[int | None]  # of each data slot; nobody is None
    middles: list[int | None]  # by stage of the sync slot
    window: Window  # the open one, whose first and last tick are next
    first: int
    last: int
    role: str  # of the open slot, as are its sender's kind and number
    sender_kind: int | None
    sender: int | None
    send_tick: int | None
    kept: Word  # what the node itself said in stage 1 of the open slot
    took: dict[int, Word]  # by source what it took there

    def __init__(self, bus: Bus, node: Node, windows: list[Window] | None = None) -> None:
        self.bus, (self.kind, self.number) = bus, node
        self.far = other(self.kind)
        self.windows = windows or bus.windows()
        self.trusted: Trusted = [set(range(bus.biu)), set(range(bus.rmu))]
        # Source that is accused directly: frame of the newest evidence
        self.evidence: dict[int, int] = {}
        self.mismatched: set[int] = set()
        self.ticks = 0  # how many there were, which is the number of the next one
        # Source: what came of it in the open window, with stamps
        self.inbox: dict[int, list[tuple[int, bytes]]] = {}
        self.begin(0, 0)

    def begin(self, frame: int, epoch: int) -> None:
        """Begins a frame at its first tick, without votes, owners and middles."""
        self.frame, self.epoch = frame, epoch
        self.votes, self.owners = {}, [None] * self.bus.slots
        self.middles, self.next_epoch = [None] * 4, None
        self.enter(0)

    def convicted(self, kind: int) -> set[int]:
        """The numbers of the nodes of a kind that this node holds convicted."""
        return set(range(self.bus.size(kind))) - self.trusted[kind]

    def vector(self) -> int:
        """The mask of the trusted nodes of the other kind that this node accuses."""
        accused = self.evidence.keys() | self.mismatched
        return mask_of(node for node in self.trusted[self.far] if node in accused)

    # which tick comes next

    def enter(self, index: int) -> None:
        """Opens a window of the frame: its first and its last tick, who sends in its slot, and when
        this node speaks."""
        self.index, self.window = index, self.windows[index]
        self.first = self.epoch + self.window.first
        if self.window.stage == TAIL:
            self.last = self.next_epoch - 1
        else:
            self.last = self.first + self.window.length - 1
        if self.window.slot < self.bus.sync:
            self.role, self.sender_kind, self.sender = self.sender_of(self.window.slot)
            if self.window.stage == 1:
                self.kept, self.took = None, {}
        else:
            self.role, self.sender_kind, self.sender = "sync", None, None
        self.send_tick = self.when_to_say()

    def sender_of(self, slot: int) -> tuple[str, int, int | None]:
        """The role of a slot below the sync slot, and its sender's kind and number; no number if
        the slot is idle."""
        role, kind, number = self.bus.sender_place(slot)
        if role == "data":
            number = self.owners[number]
        return role, kind, number if number in self.trusted[kind] else None

    def when_to_say(self) -> int | None:
        """The tick of the open window at which this node sends its message, if it sends one."""
        stage, speaks_first = self.window.stage, self.sender_kind == self.kind
        if self.role == "sync":
            return self.when_to_call(stage)
        if self.sender is None:
            return None
        if stage == 1:
            speaks = speaks_first and self.sender == self.number
        else:
            speaks = not speaks_first if stage == 2 else speaks_first and self.role != "data"
        return self.first + self.bus.plan.h if speaks else None

    def when_to_call(self, stage: int) -> int | None:
        """The tick at which this node calls in a stage of the sync slot, if it calls there."""
        plan = self.bus.plan
        if self.kind == BIU and stage == 1:
            return self.first + plan.h
        if self.kind == RMU and stage == 2:
            return self.middles[1] + plan.l
        if self.kind == BIU and stage == 3:
            return self.middles[2] + plan.v
        return None

    def next_busy(self) -> int:
        """The next tick at which something happens."""
        ticks = [self.last, self.send_tick, self.next_epoch]
        return min(tick for tick in ticks if tick is not None and tick >= self.ticks)
