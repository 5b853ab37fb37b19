"""What nodes tell of a run, and what is settled by it: the lines of the report."""
from __future__ import annotations

from typing import Any, Iterable

from .bus import TAIL, Window
from .names import (
    BIU, FAULT, HandIn, Milestone, Node, RMU, Row, Taken, Trusted, Word, mask_of, name_of, other)
from .premise import Judge
from .scenario import Scenario
from .site import FrameStart, Site


class Settled:
    """A run as far as good nodes have told of it. `lines` are those of the report."""

    # The greatest difference between the times at which good nodes began one frame, in reference
    # units
    spread: int
    deliveries: int
    breach: str | None  # its cause
    # By frame, slot and BIU: owner and value
    slot_deliveries: dict[tuple[int, int, int], tuple[int, Word]]
    milestone: Milestone  # the one that is settled next
    convicted: list[int]  # how many nodes of each kind good nodes hold convicted
    sites: dict[Node, Site]

    def __init__(self, scenario: Scenario, hands: Iterable[HandIn] = ()) -> None:
        self.scenario, self.bus = scenario, scenario.bus
        self.hands: dict[int, list[HandIn]] = {}  # by frame
        for hand in hands:
            self.hands.setdefault(hand[0], []).append(hand)
        # Time of what was taken, by receiver and source, in the open window
        self.arrivals: dict[tuple[Node, int], int] = {}
        self.lines, self.spread, self.deliveries, self.breach = [], 0, 0, None
        self.told: dict[Milestone, dict[Node, Any]] = {}  # milestone: what each node told of it
        self.judge, self.slot_deliveries = Judge(self.bus), {}
        self.milestone, self.ended = ("frame", 0), False

    # what nodes tell

    def tell_frame(self, site: Site) -> None:
        """Keeps what a node tells of the frame that it begins."""
        core, port = site.core, site.port
        convicted = tuple(mask_of(core.convicted(kind)) for kind in (BIU, RMU))
        start = FrameStart(core.epoch, site.clock.time_of(core.epoch), convicted)
        if port:
            start.state, start.losses = port.state, port.losses()
        self.told.setdefault(("frame", core.frame), {})[site.node] = start

    def tell_stage(self, site: Site, frame: int, window: Window, taken: Taken) -> None:
        """Keeps the sights of a node that has closed a window, the tail aside."""
        row: Row = {}
        for source, value in taken.items():
            is_sync = window.slot == self.bus.sync
            row[source] = (self.arrivals[site.node, source], None) if is_sync else (None, value)
        for source in range(self.bus.size(other(site.node[0]))):
            self.arrivals.pop((site.node, source), None)
        if window.stage != TAIL:
            milestone = "stage", frame, window.slot, window.stage
            self.told.setdefault(milestone, {})[site.node] = row, site.core.trusted

    # what is settled

    def good_at(self, frame: int, slot: int) -> list[Node]:
        """The nodes that are good in a slot."""
        return [node for node in self.bus.nodes() if self.scenario.is_good(node, frame, slot)]

    def settle(self) -> None:
        """Settles one milestone after the other, as long as each good node has told of it."""
        while not self.ended:
            place = self.milestone[1], self.milestone[2] if self.milestone[0] == "stage" else 0
            good, told = self.good_at(*place), self.told.get(self.milestone, {})
            if any(node not in told for node in good):
                return
            if self.milestone[0] == "frame":
                self.settle_frame(self.milestone[1], {node: told[node] for node in good})
            else:
                self.settle_stage(*self.milestone[1:], good, told)

    def hand(self, biu: int, word: int) -> None:
        """Hands a word to the table of a BIU that is good as the frame begins. The BIU offers it
        from this frame on until it is handed another one."""
        self.sites[BIU, biu].port.state = word

    def settle_frame(self, frame: int, starts: dict[Node, FrameStart]) -> None:
        """Reports the start of a frame by what its good nodes tell, or the end of the run, and
        hands in the frame's words."""
        self.told.pop(self.milestone, None)
        for node, start in starts.items():
            self.lines.append(f"e {frame} {name_of(node)} {start.tick} {start.time}")
        for node, start in starts.items():
            bius, rmus = start.convicted
            self.lines.append(f"c {frame} {name_of(node)} {bius} {rmus}")
        for node, start in starts.items():
            if node[0] == BIU:
                self.lines.append(f"p {frame} {name_of(node)} {start.state} {start.losses}")
        times = [start.time for start in starts.values()]
        self.spread = max(self.spread, max(times) - min(times)) if times else self.spread
        masks = next(iter(starts.values())).convicted if starts else (0, 0)
        self.convicted = [mask.bit_count() for mask in masks]
        self.judge = Judge(self.bus)
        if frame == self.scenario.frames:
            self.ended = True
            self.lines.append(f"end {frame}")
        for _, biu, word in self.hands.get(frame, ()):
            self.hand(biu, word)
        self.milestone = "stage", frame, 0, 1

    def settle_stage(self, frame: int, slot: int, stage: int, good: list[Node],
                     told: dict[Node, tuple[Row, Trusted]]) -> None:
        """Judges a stage by what its good nodes saw; reports a breach, or after stage 3 the
        slot."""
        self.told.pop(self.milestone, None)
        for kind in (BIU, RMU):
            self.judge.see(kind, [told[node][0] for node in good if node[0] == other(kind)])
        trusted = told[good[0]][1] if good else [set(), set()]
        cause = self.judge.verdict(trusted, set(good))
        if cause:
            self.ended, self.breach = True, cause
            self.lines.append(f"breach {frame} {slot} {stage} {cause}")
        elif stage < 3:
            self.milestone = "stage", frame, slot, stage + 1
        else:
            self.report_slot(frame, slot, good)
            is_last = slot == self.bus.sync
            self.milestone = ("frame", frame + 1) if is_last else ("stage", frame, slot + 1, 1)

    def report_slot(self, frame: int, slot: int, good: list[Node]) -> None:
        """Reports what the good BIUs delivered in a slot."""
        for kind, number in good:
            delivered = kind == BIU and self.slot_deliveries.pop((frame, slot, number), None)
            if delivered:
                owner, value = delivered
                word = "none" if value is FAULT else value
                self.lines.append(f"d {frame} {slot} B{number} B{owner} {word}")
                self.deliveries += 1
