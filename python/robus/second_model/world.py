"""A run, event by event."""
from __future__ import annotations

import heapq
from typing import Iterable, Self

from .behavior import Behavior, Span, listed
from .bus import TAIL
from .names import HandIn, Node, other
from .scenario import Scenario
from .settled import Settled
from .site import Recorder, Site

AFTER_MESSAGES = 16  # more than any number of a source


class World(Settled):
    """A run of a scenario: what is pending comes in the order of time. Faulty nodes do what the
    behavior has them do, or else what the scenario's entries say."""

    # Time, node, source, count, and bytes or the number of a tick
    heap: list[tuple[int, Node, int, int, int | bytes]]

    def __init__(self, scenario: Scenario, recorded: Node | None = None,
                 hands: Iterable[HandIn] = (), behavior: Behavior | None = None) -> None:
        super().__init__(scenario, hands)
        self.behavior = behavior or listed(scenario)
        self.windows = self.bus.windows()
        self.heap, self.count = [], 0
        self.sites = {node: Site(scenario, node, self.windows) for node in self.bus.nodes()}
        self.recorder = Recorder()
        if recorded:
            self.sites[recorded].recorder = self.recorder
        for node, site in self.sites.items():
            if site.is_running():
                self.tell_frame(site)
                self.open_window(site)
                self.push_tick(site)
        self.settle()

    def push(self, time: int, node: Node, source: int, item: int | bytes) -> None:
        """At one node messages come by their source, and before its tick."""
        self.count += 1
        heapq.heappush(self.heap, (time, node, source, self.count, item))

    def push_tick(self, site: Site) -> None:
        """Makes the node's next tick at which something happens pending."""
        tick = site.core.next_busy()
        self.push(site.clock.time_of(tick), site.node, AFTER_MESSAGES, tick)

    def open_window(self, site: Site) -> None:
        """What nodes that are not good say in a window, as it begins."""
        core = site.core
        span = Span(core.frame, core.window, core.first, core.last)
        for number in range(self.bus.size(core.far)):
            source = core.far, number
            if not self.scenario.is_good(source, span.frame, span.window.slot):
                for time, text in self.behavior(site, span, source):
                    if span.has(site.clock, time):
                        self.push(time, site.node, number, text)

    def run(self) -> Self:
        """Goes on to the end of the run or its breach, and gives the run itself."""
        while not self.ended:
            self.step()
        return self

    def step(self) -> None:
        """Has what is pending next, unless its node has stopped."""
        time, node, source, _, item = heapq.heappop(self.heap)
        site = self.sites[node]
        if not site.is_running():
            return
        if source == AFTER_MESSAGES:
            self.proceed(site, time, item)
            self.settle()
        else:
            site.arrive(time, source, item)
            self.arrivals.setdefault((node, source), time)

    def proceed(self, site: Site, time: int, tick: int) -> None:
        """Has a tick of a node, and does with what it shows what follows from it."""
        core, frame = site.core, site.core.frame
        shown = site.tick(tick)
        if shown.turned:
            self.tell_frame(site)
        if shown.said:
            self.send(site.node, time, frame, *shown.said)
        if shown.delivered:
            self.slot_deliveries[frame, shown.delivered[0], site.node[1]] = shown.delivered[1:]
        if shown.closed:
            self.tell_stage(site, frame, *shown.closed)
        if site.is_running():
            if shown.turned or (shown.closed and shown.closed[0].stage != TAIL):
                self.open_window(site)
            self.push_tick(site)

    def send(self, node: Node, time: int, frame: int, slot: int, stage: int, text: bytes) -> None:
        """Makes a message pending at each node of the other kind, after the delay of its link."""
        for number in range(self.bus.size(other(node[0]))):
            target = other(node[0]), number
            delay = self.scenario.delay_of(node, target, frame, slot, stage)
            self.push(time + delay, target, node[1], text)
