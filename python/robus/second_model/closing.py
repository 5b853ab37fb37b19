"""How a node closes a window: what it takes, whom it accuses, its vote, and the next frame."""
from __future__ import annotations

from dataclasses import dataclass

from .bus import TAIL, Window
from .messages import read_message
from .names import BIU, FAULT, RMU, SYNC_TAG, Taken, WORD_TAG, Word
from .seat import Seat
from .votes import majority_of, middle_of, owners_of


@dataclass
class Shown:
    """What a node shows at one tick."""

    turned: bool = False
    said: tuple[int, int, bytes] | None = None  # (slot, stage, bytes)
    closed: tuple[Window, Taken] | None = None  # (window, what was taken of each source)
    delivered: tuple[int, int, Word] | None = None  # (slot, owner, value)


class Closing(Seat):
    """A node that can close the open window."""

    def expected(self) -> set[int]:
        """Of whom the node expects a message in this window."""
        stage, trusted = self.window.stage, self.trusted[self.far]
        if self.role == "sync":
            listens = self.kind == (None, RMU, BIU, RMU, None)[stage]
            return trusted if listens else set()
        if self.sender is None:
            return set()
        if stage == 2:
            return trusted if self.sender_kind == self.kind else set()
        if self.sender_kind == self.kind or (stage == 3 and self.role == "data"):
            return set()
        return trusted if stage == 3 else trusted & {self.sender}

    def close(self, shown: Shown) -> None:
        """Closes the open window: takes, finds evidence, votes, and enters the next window if this
        was not the tail."""
        window, expected = self.window, self.expected()
        one = {source: self.single(source) for source in self.inbox}
        eligible = {s for s in expected if s not in self.evidence}
        taken = {s: one[s] for s in sorted(eligible) if one.get(s)}
        for source in self.trusted[self.far]:
            fits = one.get(source) is not None if source in expected else source not in self.inbox
            if not fits:
                self.evidence[source] = self.frame
        self.inbox = {}
        if self.role == "sync":
            shown.closed = window, taken
            self.close_sync({s: stamp for s, (stamp, _) in taken.items()})
        else:
            values = {s: value for s, (_, value) in taken.items()}
            shown.closed = window, values
            self.close_exact(values, shown)
        if window.stage != TAIL:
            self.enter(self.index + 1)

    def single(self, source: int) -> tuple[int, Word] | None:
        """The stamp and the value of the one message that came of a source, if it is meant for this
        window."""
        came = self.inbox[source]
        message = read_message(self.bus, came[0][1]) if len(came) == 1 else None
        if message is None:
            return None
        tag, frame, slot, stage, value = message
        if (frame, slot, stage) != (self.frame % 65536, self.window.slot, self.window.stage):
            return None
        if (tag == SYNC_TAG) != (self.role == "sync"):
            return None
        return came[0][0], value if tag == WORD_TAG else FAULT

    def close_exact(self, values: dict[int, Word], shown: Shown) -> None:
        """Closes a window below the sync slot over the values that were taken: keeps them, or
        votes, delivers and finds owners."""
        slot, stage = self.window.slot, self.window.stage
        mine = self.sender_kind == self.kind
        if stage == 1:
            self.took = values
            return
        if mine == (stage == 2) and not (stage == 3 and self.role == "data"):
            self.votes[slot] = majority_of(list(values.values()))
            if stage == 3:
                self.hold_against(values, self.votes[slot])
            elif self.sender == self.number:
                self.hold_against(values, self.kept)
        if stage == 2 and self.role == "data" and self.kind == BIU and self.sender is not None:
            shown.delivered = slot, self.sender, self.votes[slot]
        if stage == 3 and slot == self.bus.biu - 1:
            asked = [self.votes.get(i) or 0 for i in range(self.bus.biu)]
            self.owners = owners_of(self.bus, asked, self.trusted[BIU])

    def hold_against(self, values: dict[int, Word], reference: Word) -> None:
        """Accuses for mismatch each source whose value is not the one that it is held against."""
        self.mismatched |= {source for source, value in values.items() if value != reference}

    def close_sync(self, stamps: dict[int, int]) -> None:
        """Closes a window of the sync slot over the stamps that were taken: keeps their middle, and
        finds the next frame's first tick."""
        stage, plan = self.window.stage, self.bus.plan
        if stage == TAIL:
            return
        if self.kind == (None, RMU, BIU, RMU)[stage]:
            self.middles[stage] = middle_of(list(stamps.values())) if stamps else self.first
        if stage == 3:
            if self.kind == BIU:
                self.next_epoch = self.middles[2] + plan.v + plan.z + plan.c
            else:
                self.next_epoch = self.middles[3] + plan.z
