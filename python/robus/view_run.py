"""What the page of tools/view shows, gathered from a run of the second model beside the messages
of the program's logs."""
from __future__ import annotations

from dataclasses import dataclass, field
from typing import Any

from robus.errors import Failed
from robus.explanation import KINDS, kind_text, row_of, stages_in
from robus.model import BIU, RMU, Stage, model, name_of
from robus.texts import TAGS, value_text
from robus.trace_messages import Message, Run, check, is_faulty
from robus.units import Unit
from robus.watch import Premise, Watched

WORD, FAULT, CALL, GARBAGE, OUT_OF_TURN = range(5)  # what a message is
Way = tuple[int, "int | None"]  # the times at which a message came and was sent, if a good node did
Key = tuple[model.Node, model.Node, int, bytes]  # target, source, tick and bytes of a message


class Strings:
    """Texts, each kept once, by their numbers."""

    def __init__(self) -> None:
        self.numbers: dict[str, int] = {}

    def __getitem__(self, text: str) -> int:
        return self.numbers.setdefault(text, len(self.numbers))


class Viewed(Watched):
    """A run that keeps for the page: the table of each stage of some frames, how the premise
    stood, and when each message was sent and came."""

    def __init__(self, scenario: model.Scenario, frames: range, unit: Unit | None) -> None:
        self.kept, self.unit, self.strings = frames, unit, Strings()
        self.tables: dict[Stage, list[list[int]]] = {}  # by stage the numbers of rows of texts
        self.standings: dict[Stage, int] = {}  # by stage the number of the text of the premise
        self.ways: dict[Key, list[Way]] = {}
        self.sending: int | None = None
        super().__init__(scenario)

    def keep_tables(self, frame: int) -> None:
        """Keeps the tables of a frame."""
        for place in [it for it in self.stages if it[0] == frame and frame in self.kept]:
            closed, is_sync = self.stages[place], place[1] == self.bus.sync
            if place[2] not in stages_in(self.bus, place[1]):
                continue
            rows = [row_of(self.bus, node, closed[node], is_sync, self.unit)
                    for node in self.bus.nodes() if node in closed]
            self.tables[place] = [[self.strings[text] for text in row] for row in rows]

    def settle_frame(self, frame: int, starts: dict[model.Node, model.FrameStart]) -> None:
        """Keeps the tables of the frame before, too."""
        self.keep_tables(frame - 1)
        super().settle_frame(frame, starts)

    def keep_premise(self, place: Stage, trusted: model.Trusted, good: set[model.Node]) -> Premise:
        """Keeps how the premise stands after each stage, too, with the class of each node that is
        not good."""
        it = super().keep_premise(place, trusted, good)
        if place[0] in self.kept:
            classes = [f"{name_of(node)} {self.class_of(node, trusted, good)}"
                       for node in self.bus.nodes() if node not in good]
            counts = [f"{KINDS[kind]} {kind_text(it, kind)}" for kind in (BIU, RMU)]
            self.standings[place] = self.strings["; ".join(counts + [", ".join(classes)] *
                                                           bool(classes))]
        return it

    def send(self, node: model.Node, time: int, frame: int, slot: int, stage: int,
             text: bytes) -> None:
        """Keeps when a message is sent, too."""
        self.sending = time
        super().send(node, time, frame, slot, stage, text)
        self.sending = None

    def push(self, time: int, node: model.Node, source: int, item: int | bytes) -> None:
        """Keeps when a message comes, too."""
        if isinstance(item, bytes):
            tick = self.sites[node].clock.stamp_of(time)
            key = node, (model.other(node[0]), source), tick, item
            self.ways.setdefault(key, []).append((time, self.sending))
        super().push(time, node, source, item)


@dataclass
class Sent:
    """A message to all nodes that received it: who sent it and when (None for a faulty node), what
    it is and says, and by receiver the time at which it came."""

    source: int
    sent: int | None
    slot: int
    stage: int
    kind: int
    text: int
    is_faulty: bool
    came: list[list[int]] = field(default_factory=list)

    def packed(self) -> list[Any]:
        """As the page has it."""
        return [self.source, self.sent, self.slot, self.stage, self.kind, self.text,
                int(self.is_faulty), self.came]


def kind_of(bus: model.Bus, it: Message, place: Stage) -> tuple[int, str]:
    """What a message is, and what it says in words."""
    found = model.read_message(bus, it.data)
    if found is None:
        return GARBAGE, f"bytes {it.data.hex()}"
    tag, frame, slot, stage, value = found
    text = value_text(value) if tag == model.WORD_TAG else TAGS[tag]
    if (frame, slot, stage) != (place[0] % 65536, place[1], min(place[2], 3)):
        return OUT_OF_TURN, f"{text} for frame {frame}, slot {slot}, stage {stage}"
    return (WORD, FAULT, CALL)[tag - 1], text


def sent_messages(run: Run, world: Viewed) -> dict[int, list[Sent]]:
    """By frame its messages, each with all that received it. Failed is raised if the second model
    lacks one that a log has."""
    numbers = {node: i for i, node in enumerate(run.bus.nodes())}
    found: dict[int, dict[tuple, Sent]] = {}
    for it in run.messages:
        place = run.window_of(it.target, it.tick)
        ways = world.ways.get((it.target, it.source, it.tick, it.data))
        if not ways:
            raise Failed(("record", name_of(it.target)), run.report.status,
                         "and its log has a message that the second model has not")
        time, sent = ways.pop(0)
        if place[0] not in world.kept:
            continue
        kind, text = kind_of(run.bus, it, place)
        key = it.source, sent, place, it.data, None if sent is not None else time
        faulty = is_faulty(run.scenario, it.source, place)
        group = found.setdefault(place[0], {}).setdefault(key, Sent(
            numbers[it.source], sent, place[1], place[2], kind, world.strings[text], faulty))
        group.came.append([numbers[it.target], time - (sent or 0)])
    return {frame: list(groups.values()) for frame, groups in found.items()}


def view_of(run: Run, frames: range, unit: Unit | None) -> tuple[Viewed, dict[int, list[Sent]]]:
    """The run for the page, and its messages by frame."""
    world = Viewed(run.scenario, frames, unit)
    world.run()
    check(run, world)
    for frame in {place[0] for place in world.stages}:
        if not any(place[0] == frame for place in world.tables):
            world.keep_tables(frame)
    return world, sent_messages(run, world)
