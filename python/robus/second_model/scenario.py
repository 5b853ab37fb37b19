"""What a scenario says, as values."""
from __future__ import annotations

from dataclasses import dataclass, field

from .bus import Bus, Window
from .messages import spell
from .names import Node, Pair, Pattern, Segments


@dataclass(frozen=True)
class LinkRule:
    """A delay, in reference units, of the messages between some nodes in some frames, slots and
    stages."""

    source: Pattern
    target: Pattern
    delay: int
    frames: Pair
    slots: Pair
    stages: Pair

    def is_between(self, source: Node, target: Node) -> bool:
        """Whether the rule is for messages from one node to the other."""
        return stands_for(self.source, source) and stands_for(self.target, target)

    def covers(self, frame: int, slot: int, stage: int) -> bool:
        """Whether the rule is for messages with this place in their header."""
        places = ((self.frames, frame), (self.slots, slot), (self.stages, stage))
        return all(covers(pair, number) for pair, number in places)


@dataclass(frozen=True)
class Say:
    """What a node that is not good says to some nodes, in the windows of some frames, slots and
    stages."""

    source: Node
    target: Pattern
    frames: Pair
    slots: Pair
    stages: Pair
    offset: int  # the tick of the window at which it comes
    early: int  # by how many reference units it comes before that tick
    tag: int  # 0 if the bytes are raw
    value: int
    raw: bytes

    def is_for(self, target: Node, frame: int, window: Window) -> bool:
        """Whether this is said to a node in its window of the frame."""
        return (
            stands_for(self.target, target)
            and covers(self.frames, frame)
            and covers(self.slots, window.slot)
            and covers(self.stages, window.stage)
        )

    def bytes_of(self, bus: Bus, frame: int, window: Window) -> bytes:
        """The bytes that are said, with the header of the window if they are not given as they
        are."""
        if not self.tag:
            return self.raw
        return spell(bus, self.tag, frame, window.slot, min(window.stage, 3), self.value)


def stands_for(pattern: Pattern, node: Node) -> bool:
    """Whether a pattern stands for a node."""
    return pattern[0] == node[0] and pattern[1] in (None, node[1])


def covers(pair: Pair, number: int) -> bool:
    """Whether a number is in a range, both ends of which belong to it."""
    return pair[0] <= number <= pair[1]


@dataclass
class Scenario:
    """What a document says: a bus, how long it runs, and all that its nodes are given. Times and
    delays are in reference units."""

    bus: Bus
    frames: int
    requests: list[int]  # how many data slots each BIU asks for
    words: list[int]  # the state with which each BIU's port begins
    apps: list[str]
    delay: int
    clocks: dict[Node, tuple[int, Segments]]  # node: (start, segments)
    links: list[LinkRule] = field(default_factory=list)
    onsets: dict[Node, tuple[int, int]] = field(default_factory=dict)  # node: (frame, slot)
    says: list[Say] = field(default_factory=list)
    # Link rules by both ends, the last one first
    rules: dict[tuple[Node, Node], list[LinkRule]] = field(default_factory=dict)

    def is_good(self, node: Node, frame: int, slot: int) -> bool:
        """Whether a node is good in a slot, which is before its onset."""
        return node not in self.onsets or (frame, slot) < self.onsets[node]

    def delay_of(self, source: Node, target: Node, *place: int) -> int:
        """The delay in reference units of a message, whose place is its frame, its slot and its
        stage."""
        if (source, target) not in self.rules:
            found = [rule for rule in reversed(self.links) if rule.is_between(source, target)]
            self.rules[source, target] = found
        rules = self.rules[source, target]
        return next((rule.delay for rule in rules if rule.covers(*place)), self.delay)
