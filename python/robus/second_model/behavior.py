"""What faulty nodes do. A behavior may be any function; the entries of a document are one."""
from __future__ import annotations

from dataclasses import dataclass
from typing import TYPE_CHECKING, Callable

from .bus import Window
from .clock import Timeline
from .names import Node
from .scenario import Scenario

if TYPE_CHECKING:
    from .site import Site


@dataclass(frozen=True)
class Span:
    """A window of a node: its frame, its place there, and its first and last tick."""

    frame: int
    window: Window
    first: int
    last: int

    def has(self, clock: Timeline, time: int) -> bool:
        """Whether the stamp of a time, by the node's clock, is a tick of the window."""
        is_after = self.first == 0 or clock.time_of(self.first - 1) < time
        return is_after and time <= clock.time_of(self.last)


Said = tuple[int, bytes]  # what comes: its time in reference units, and the bytes
# What comes to a good node, as it enters the window, from a faulty source
Behavior = Callable[["Site", Span, Node], list[Said]]


def listed(scenario: Scenario) -> Behavior:
    """The behavior that the entries of a scenario list."""

    def says(site: Site, span: Span, source: Node) -> list[Said]:
        return [
            (site.clock.time_of(span.first + say.offset) - say.early,
             say.bytes_of(scenario.bus, span.frame, span.window))
            for say in scenario.says
            if say.source == source and say.is_for(site.node, span.frame, span.window)
            and span.first + say.offset <= span.last
        ]

    return says
