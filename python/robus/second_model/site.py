"""A good node on its bus, with its clock and its port, and the log of what it is given."""
from __future__ import annotations

from dataclasses import dataclass

from .bus import Window
from .clock import Timeline
from .core import Core, Shown
from .names import BIU, Node
from .port import Port
from .scenario import Scenario


class Recorder:
    """The log of all that one node is given."""

    parts: list[bytes]
    quiet: int  # ticks without a word that are not written yet

    def __init__(self) -> None:
        self.parts, self.quiet = [], 0

    def flush(self) -> None:
        """Writes the record of the ticks without a word that are not written yet."""
        if self.quiet:
            self.parts.append(b"\2" + self.quiet.to_bytes(4))
            self.quiet = 0

    def word(self, word: int) -> None:
        """Writes the record of a tick with a word."""
        self.flush()
        self.parts.append(b"\1" + word.to_bytes(4))

    def message(self, source: int, text: bytes) -> None:
        """Writes the record of bytes that came of a node of the other kind."""
        self.flush()
        self.parts.append(bytes([3, source, len(text)]) + text)

    def end(self) -> bytes:
        """The records, with that of the end."""
        self.flush()
        return b"".join(self.parts) + b"\4"


class Site:
    """A good node with its clock and its port."""

    def __init__(self, scenario: Scenario, node: Node, windows: list[Window]) -> None:
        self.node, self.scenario = node, scenario
        self.clock = Timeline(*scenario.clocks[node])
        self.core = Core(scenario.bus, node, windows)
        kind, number = node
        self.port = Port(scenario.apps[number], scenario.words[number]) if kind == BIU else None
        self.recorder: Recorder | None = None

    def is_running(self) -> bool:
        """Whether the node is good at its next tick, and the run has its frame."""
        core = self.core
        begins = core.ticks == core.next_epoch
        place = (core.frame + 1, 0) if begins else (core.frame, core.window.slot)
        return core.frame < self.scenario.frames and self.scenario.is_good(self.node, *place)

    def pass_to(self, tick: int) -> None:
        """Has all ticks before this one, at which nothing happens."""
        if self.recorder:
            self.recorder.quiet += tick - self.core.ticks
        self.core.ticks = tick

    def arrive(self, time: int, source: int, text: bytes) -> None:
        """Hands bytes over that come at a time from a node of the other kind."""
        self.pass_to(self.clock.stamp_of(time))
        if self.recorder:
            self.recorder.message(source, text)
        self.core.arrive(source, text)

    def tick(self, tick: int) -> Shown:
        """Has all ticks up to this one, and gives what the node shows at it."""
        self.pass_to(tick)
        asked = []

        def ask(role: str, slot: int) -> int:
            """The node's request in a schedule slot, and in a data slot the word that its port
            offers."""
            number = self.node[1]
            is_request = role == "schedule"
            asked.append(self.scenario.requests[number] if is_request else self.port.offered(slot))
            return asked[0]

        shown = self.core.tick(ask)
        if self.recorder:
            if asked:
                self.recorder.word(asked[0])
            else:
                self.recorder.quiet += 1
        if shown.delivered:
            self.port.deliver(shown.delivered[2])
        return shown


@dataclass
class FrameStart:
    """What a node reports as a frame starts."""

    tick: int
    time: int
    convicted: tuple[int, ...]  # by kind the mask of those that it holds convicted
    state: int | None = None
    losses: int | None = None
