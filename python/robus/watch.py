"""A run of the second model that keeps what good nodes say, hear, take, vote and accuse: all of the
slot that is asked for, and of the others what is evidence against a node."""
from __future__ import annotations

from dataclasses import dataclass, field
from typing import Iterable

from robus.model import BIU, RMU, TAIL, Slot, Stage, model

Sights = dict[model.Node, "model.Sight | None"]  # by receiver what it took


@dataclass
class Closed:
    """What one good node did in one stage, the tail counting as stage 4."""

    said: bytes | None = None
    # By source the bytes that came, each with its tick
    heard: dict[int, list[tuple[int, bytes]]] = field(default_factory=dict)
    expected: set[int] = field(default_factory=set)
    # By source its value, or in the sync slot its stamp and nothing
    taken: model.Taken = field(default_factory=dict)
    vote: model.Word = None
    has_vote: bool = False
    right: model.Word = None  # what the taken values were held against
    accused: set[int] = field(default_factory=set)  # sources with direct evidence found here
    differed: set[int] = field(default_factory=set)  # whose value differed here for the first time


@dataclass(frozen=True)
class Premise:
    """The fault premise after a stage, by kind: how many trusted nodes are good, which others were
    heard in this frame, and which of these were heard differently by different receivers."""

    place: Stage
    good: tuple[int, ...]
    heard: tuple[tuple[model.Node, ...], ...]
    unlike: tuple[tuple[model.Node, ...], ...]

    def lead(self, kind: int) -> int:
        """By how many the good nodes of a kind outnumber the others that were heard."""
        return self.good[kind] - len(self.heard[kind])

    @property
    def faces(self) -> int:
        """How many kinds have nodes that were heard differently; two are a breach."""
        return sum(1 for it in self.unlike if it)


class Watched(model.World):
    """A run. `stages` has by (frame, slot, stage) and node what was done there; of frames that are
    over only what is evidence."""

    place: Stage  # that of the breach, if there is one

    def __init__(self, scenario: model.Scenario, wanted: Slot | None = None,
                 hands: Iterable[model.HandIn] = ()) -> None:
        self.wanted = wanted  # the slot of which all is kept
        self.stages: dict[Stage, dict[model.Node, Closed]] = {}
        self.busy: set[Slot] = set()  # (frame, slot) in which some good node had a sender
        self.reached: set[Slot] = set()
        # By slot and stage of the frame at hand what each good receiver saw
        self.rows: dict[tuple[int, int], dict[model.Node, model.Row]] = {}
        # By frame the votes of good nodes on its vectors, by the node that says the vector
        self.turns: dict[int, dict[model.Node, model.Word]] = {}
        # By frame and node what it tells of the start of the frame
        self.starts: dict[int, dict[model.Node, model.FrameStart]] = {}
        self.classes: dict[model.Node, str] = {}  # of all nodes, at a breach
        self.premises: dict[int, Premise] = {}  # by stage of the slot that is asked for
        self.tightest: dict[int, Premise] = {}  # by kind where its good nodes led by least
        self.two_faced: Premise | None = None  # where most kinds were heard differently
        super().__init__(scenario, hands=hands)

    def at(self, node: model.Node, frame: int, slot: int, stage: int) -> Closed:
        """What is kept of a node in a stage; empty at first."""
        return self.stages.setdefault((frame, slot, stage), {}).setdefault(node, Closed())

    def proceed(self, site: model.Site, time: int, item: int) -> None:
        """Has a tick of that number, and keeps what came in a window that it closes, whom the node
        accuses, and the vote."""
        core = site.core
        before = dict(core.evidence), set(core.mismatched)
        inbox = {s: list(it) for s, it in core.inbox.items()}
        closing = core.frame, core.window, item == core.last, core.sender, core.first
        kept, expected = core.kept, set(core.expected())
        if item == core.next_epoch:
            self.keep_turn(core)
        super().proceed(site, time, item)
        frame, window, is_last, sender, first = closing
        if is_last:
            it = self.at(site.node, frame, window.slot, window.stage)
            it.heard = {s: [(tick - first, text) for tick, text in came]
                        for s, came in inbox.items()}
            it.expected = expected
            it.accused = {s for s in core.evidence if s not in before[0]}
            it.differed = core.mismatched - before[1]
            if window.stage in (2, 3) and window.slot in core.votes and window.slot < self.bus.sync:
                it.vote, it.has_vote = core.votes[window.slot], it.taken != {} or bool(expected)
                it.right = it.vote if window.stage == 3 else kept
            self.reached.add((frame, window.slot))
            if sender is not None:
                self.busy.add((frame, window.slot))

    def keep_turn(self, core: model.Core) -> None:
        """Keeps the votes on the vectors of a frame, as the first node counts them that ends it.
        All good nodes count the same."""
        bus, votes = self.bus, {}
        for kind in (BIU, RMU):
            first = bus.biu + bus.slots + (bus.biu if kind else 0)
            for number in sorted(core.trusted[kind]):
                votes[kind, number] = core.votes.get(first + number)
        self.turns.setdefault(core.frame, votes)

    def tell_stage(self, site: model.Site, frame: int, window: model.Window,
                   taken: model.Taken) -> None:
        """Keeps what a node took in a window, too."""
        self.at(site.node, frame, window.slot, window.stage).taken = dict(taken)
        super().tell_stage(site, frame, window, taken)

    def send(self, node: model.Node, time: int, frame: int, slot: int, stage: int,
             text: bytes) -> None:
        """Keeps what a node says, too."""
        self.at(node, frame, slot, stage).said = text
        super().send(node, time, frame, slot, stage, text)

    def settle_frame(self, frame: int, starts: dict[model.Node, model.FrameStart]) -> None:
        """Keeps what is told of the start of a frame, too, and of the frame before only what is
        evidence and the slot that is asked for."""
        self.starts[frame] = starts
        self.rows = {}
        for place in [it for it in self.stages if it[0] == frame - 1 and it[:2] != self.wanted]:
            closed = self.stages.pop(place)
            kept = {node: it for node, it in closed.items() if it.accused or it.differed}
            if kept:
                self.stages[place] = kept
        super().settle_frame(frame, starts)

    def settle_stage(self, frame: int, slot: int, stage: int, good: list[model.Node],
                     told: dict[model.Node, tuple[model.Row, model.Trusted]]) -> None:
        """Keeps what good nodes saw in a stage, too, how the premise stands after it, and at a
        breach its place and the class of each node."""
        self.rows[slot, stage] = {node: told[node][0] for node in good}
        trusted = told[good[0]][1] if good else [set(), set()]
        super().settle_stage(frame, slot, stage, good, told)
        self.keep_premise((frame, slot, stage), trusted, set(good))
        if self.breach:
            self.place = frame, slot, stage
            self.classes = {it: self.class_of(it, trusted, set(good)) for it in self.bus.nodes()}

    def keep_premise(self, place: Stage, trusted: model.Trusted, good: set[model.Node]) -> Premise:
        """How the premise stands after a stage; it is kept if it is asked for or nearest to a
        breach."""
        bad = [{it for it in trusted[kind] if (kind, it) not in good} for kind in (BIU, RMU)]
        heard, unlike = ([tuple((kind, it) for it in sorted(bad[kind] & seen[kind]))
                          for kind in (BIU, RMU)] for seen in (self.judge.heard, self.judge.unlike))
        counts = tuple(len(trusted[kind]) - len(bad[kind]) for kind in (BIU, RMU))
        it = Premise(place, counts, tuple(heard), tuple(unlike))
        if place[:2] == self.wanted:
            self.premises[place[2]] = it
        for kind in (BIU, RMU):
            if kind not in self.tightest or it.lead(kind) < self.tightest[kind].lead(kind):
                self.tightest[kind] = it
        if it.faces > (self.two_faced.faces if self.two_faced else 0):
            self.two_faced = it
        return it

    def class_of(self, node: model.Node, trusted: model.Trusted, good: set[model.Node]) -> str:
        """A node's class in this frame so far: convicted, good, asymmetric, symmetric or benign."""
        kind, number = node
        if number not in trusted[kind]:
            return "convicted"
        if node in good:
            return "good"
        if number in self.judge.unlike[kind]:
            return "asymmetric"
        return "symmetric" if number in self.judge.heard[kind] else "benign"

    def sights_of(self, node: model.Node) -> list[tuple[int, int, Sights]]:
        """In the frame of the breach each stage in which some good receiver took something from a
        node, with what each took."""
        found = []
        for (slot, stage), rows in self.rows.items():
            sights = {at: row.get(node[1]) for at, row in rows.items() if at[0] != node[0]}
            if any(it is not None for it in sights.values()):
                found.append((slot, stage, sights))
        return found


def watch(scenario: model.Scenario, wanted: Slot | None = None,
          hands: Iterable[model.HandIn] = ()) -> Watched:
    """The run of a scenario with these words handed in, kept; all of the slot (frame, slot) that is
    asked for."""
    return Watched(scenario, wanted, hands).run()


__all__ = ["BIU", "RMU", "TAIL", "Closed", "Watched", "watch"]
