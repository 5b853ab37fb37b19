"""One node, a tick or an arrival at a time."""
from __future__ import annotations

from .closing import Closing, Shown
from .messages import spell
from .names import Ask, BIU, FAULT, FAULT_TAG, RMU, SYNC_TAG, WORD_TAG, other
from .votes import convicted_by


class Core(Closing):
    """One node as the rules have it: it has the ticks of its own clock, whose numbers count from 0,
    and what comes between them."""

    def arrive(self, source: int, text: bytes) -> None:
        """Keeps bytes that came of a node of the other kind; their stamp is the number of the next
        tick."""
        self.inbox.setdefault(source, []).append((self.ticks, text))

    def tick(self, ask: Ask) -> Shown:
        """Has the next tick, and gives what the node shows at it."""
        now, shown = self.ticks, Shown()
        if now == self.next_epoch:
            self.turn()
            shown.turned = True
        if now == self.send_tick:
            shown.said = self.window.slot, self.window.stage, self.message(ask)
        if now == self.last:
            self.close(shown)
        self.ticks += 1
        return shown

    def message(self, ask: Ask) -> bytes:
        """The bytes of the message that this node sends in the open window."""
        slot, stage = self.window.slot, self.window.stage
        if self.role == "sync":
            return spell(self.bus, SYNC_TAG, self.frame, slot, stage)
        if stage == 1:
            value = self.kept = self.vector() if self.role == "diagnosis" else ask(self.role, slot)
        elif stage == 2:
            value = self.took.get(self.sender, FAULT)
        else:
            value = self.votes[slot]
        if value is FAULT:
            return spell(self.bus, FAULT_TAG, self.frame, slot, stage)
        return spell(self.bus, WORD_TAG, self.frame, slot, stage, value)

    def turn(self) -> None:
        """Ends the frame by its votes: convicts, lets accusations lapse, and begins the next
        frame."""
        bus, convicted = self.bus, [set(), set()]
        for kind in (BIU, RMU):
            first = bus.biu + bus.slots + (bus.biu if kind else 0)
            vectors = [self.votes.get(first + number) for number in sorted(self.trusted[kind])]
            valid = [v for v in vectors if v is not FAULT and v < 1 << bus.size(other(kind))]
            convicted[other(kind)] = convicted_by(valid, self.trusted[other(kind)])
        self.trusted = [self.trusted[kind] - convicted[kind] for kind in (BIU, RMU)]
        if bus.probation:
            self.evidence = {source: frame for source, frame in self.evidence.items()
                             if self.frame - frame < bus.probation}
        self.begin(self.frame + 1, self.next_epoch)
