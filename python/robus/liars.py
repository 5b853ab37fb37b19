"""Runs in which some nodes are good but for given lies."""
from __future__ import annotations

from dataclasses import dataclass, field

from robus.model import Slot, Stage, model

# Why a node accuses others
RELAYED = "its own word comes back changed"
OUTVOTED = "their vote is not that of most"
OUT_OF_PLACE = "a due message was missing or wrong, or one came where none was due"


@dataclass
class Lie:
    """Another message than the right one: where, to whom (all, if it is empty), and what."""

    frames: model.Pair
    slots: model.Pair
    stages: model.Pair
    what: str
    targets: tuple[model.Node, ...]
    text: str
    is_used: bool = False

    def is_at(self, place: Stage) -> bool:
        """Whether somebody is lied to at this place."""
        spans = (self.frames, self.slots, self.stages)
        return all(low <= it <= high for (low, high), it in zip(spans, place))

    def is_for(self, place: Stage, target: model.Node) -> bool:
        """Whether a node is lied to at this place."""
        return self.is_at(place) and (not self.targets or target in self.targets)

    def bytes_at(self, bus: model.Bus, place: Stage) -> bytes | None:
        """The bytes of the lie; None for silence."""
        if self.what == "silent":
            return None
        if self.what == "fault":
            return model.spell(bus, model.FAULT_TAG, *place)
        return model.spell(bus, model.WORD_TAG, *place, int(self.what))


@dataclass
class Liar:
    """A node with its lies, and what it did in the run."""

    node: model.Node
    lies: list[Lie]
    is_aware: bool = True  # whether it keeps its own lies as its word
    # What came from it from its first lie on, to nodes that are good then: frame, slot, stage,
    # receiver, tick of the receiver's window, how early in units, bytes
    came: list[tuple[int, int, int, model.Node, int, int, bytes]] = field(default_factory=list)
    # The stages from which on it accuses nodes, each with a reason, and these nodes
    accused: dict[tuple[Stage, str], set[model.Node]] = field(default_factory=dict)
    is_convicted: bool = False  # nobody takes anything from it any more

    @property
    def onset(self) -> Slot:
        """The frame and slot of its first lie."""
        return min((lie.frames[0], lie.slots[0]) for lie in self.lies)

    def said_to(self, bus: model.Bus, target: model.Node, place: Stage,
                text: bytes) -> bytes | None:
        """What it says to a node in place of the right bytes; the last lie for it counts."""
        for lie in reversed(self.lies):
            if lie.is_for(place, target):
                lie.is_used = True
                return lie.bytes_at(bus, place)
        return text

    def believed(self, bus: model.Bus, place: Stage, told: list[bytes | None],
                 text: bytes) -> model.Word:
        """What it keeps as its own word: a lie that is for itself, else what all are told if they
        are told the same, else the right word."""
        said = text
        if self.is_aware and any(lie.is_for(place, self.node) for lie in self.lies):
            said = self.said_to(bus, self.node, place, text)
        elif self.is_aware and len(set(told)) == 1:
            said = told[0]
        found = None if said is None else model.read_message(bus, said)
        return found[4] if found and found[0] == model.WORD_TAG else model.FAULT


class Lying(model.World):
    """A run in which some nodes are not counted as good from their first lies on, and go on by the
    rules all the same, but for their lies."""

    def __init__(self, scenario: model.Scenario, liars: list[Liar]) -> None:
        self.liars = {liar.node: liar for liar in liars}
        super().__init__(scenario)
        for node, site in self.sites.items():
            self.listen_at(site)
            if node in self.liars:
                self.keep_running(site)
                if not scenario.is_good(node, 0, 0):
                    self.tell_frame(site)
                    self.open_window(site)
                    self.push_tick(site)

    def keep_running(self, site: model.Site) -> None:
        """Has a liar's node run to the end, though it is not good any more."""
        site.is_running = lambda: site.core.frame < self.scenario.frames

    def listen_at(self, site: model.Site) -> None:
        """Keeps all that comes from liars to a good node, until they are convicted."""
        arrive = site.arrive

        def kept(time: int, source: int, text: bytes) -> None:
            """Keeps bytes that come from a liar from its first lie on, and hands all over."""
            core, liar = site.core, self.liars.get((model.other(site.node[0]), source))
            tick, place = site.clock.stamp_of(time), (core.frame, core.window.slot)
            is_good = self.scenario.is_good
            if liar and not liar.is_convicted and is_good(site.node, *place):
                if not is_good(liar.node, *place):
                    early = site.clock.time_of(tick) - time
                    liar.came.append((*place, core.window.stage, site.node, tick - core.first,
                                      early, text))
            arrive(time, source, text)

        site.arrive = kept

    def settle_frame(self, frame: int, starts: dict[model.Node, model.FrameStart]) -> None:
        """Looks who of the liars is convicted from this frame on, too."""
        for (kind, number), liar in self.liars.items():
            liar.is_convicted = any(it.convicted[kind] >> number & 1 for it in starts.values())
        super().settle_frame(frame, starts)

    def send(self, node: model.Node, time: int, frame: int, slot: int, stage: int,
             text: bytes) -> None:
        """Sends to each node what the lies make of the bytes, from a liar's first lie on."""
        liar, place, told = self.liars.get(node), (frame, slot, stage), []
        if liar is None or self.scenario.is_good(node, frame, slot):
            super().send(node, time, frame, slot, stage, text)
            return
        for target in (it for it in self.bus.nodes() if it[0] != node[0]):
            said = liar.said_to(self.bus, target, place, text)
            told.append(said)
            if said is not None:
                delay = self.scenario.delay_of(node, target, *place)
                self.push(time + delay, target, node[1], said)
        if stage == 1 and slot < self.bus.sync:
            self.sites[node].core.kept = liar.believed(self.bus, place, told, text)

    def proceed(self, site: model.Site, time: int, item: int) -> None:
        """Has a tick of a node, and keeps whom a liar accuses from then on."""
        core, liar = site.core, self.liars.get(site.node)
        place = core.frame, core.window.slot, core.window.stage
        before = set(core.evidence), set(core.mismatched)
        super().proceed(site, time, item)
        for why, fresh in ((OUT_OF_PLACE, set(core.evidence) - before[0]),
                           (OUTVOTED if place[2] == 3 else RELAYED, core.mismatched - before[1])):
            if liar and fresh:
                liar.accused[place, why] = {(core.far, number) for number in fresh}
