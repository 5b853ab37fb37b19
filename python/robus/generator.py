"""Scenarios of one bus with faults that a seed draws: which nodes turn faulty, when, and in which
of four kinds."""
from __future__ import annotations

import random
import re
from dataclasses import dataclass
from typing import Iterator

from robus import toml
from robus.errors import BadArgument
from robus.model import BIU, model, name_of, read

KINDS = "silent", "symmetric", "asymmetric", "babbling"
RANGE = r"(\d+)(?:\.\.(\d+))?"
WORD = 1 << 32
Document = model.Document
What = tuple[str, int]  # what is due in a place: word, vote, vector or call, and a number for it


@dataclass(frozen=True)
class Fault:
    """A node that turns faulty: its name, the kind of fault, the frame and slot of its onset."""

    node: str
    kind: str
    frame: int
    slot: int

    def __str__(self) -> str:
        return f"{self.node}:{self.kind}:{self.frame}/{self.slot}"


def range_in(name: str, text: str, least: int, most: int) -> model.Pair:
    """A number or a range a..b within bounds; BadArgument with the argument's name otherwise."""
    found = re.fullmatch(RANGE, text, re.ASCII)
    low, high = (int(found[1]), int(found[2] or found[1])) if found else (most + 1, most)
    if not least <= low <= high <= most:
        raise BadArgument(f"{name}: {text} is no number and no range a..b from {least} to {most}")
    return low, high


@dataclass(frozen=True)
class Draw:
    """From what the faults of a scenario are drawn: how many, of which kinds, and the frames and
    slots of their onsets."""

    count: model.Pair
    kinds: tuple[str, ...]
    frames: model.Pair
    slots: model.Pair

    @classmethod
    def of(cls, scenario: model.Scenario, count: str, kinds: str, onset: str) -> Draw:
        """What the arguments --faults, --kinds and --onset say of a bus."""
        nodes = len(scenario.bus.nodes()) - len(scenario.onsets)
        wrong = [it for it in kinds.split(",") if it not in KINDS]
        if wrong:
            raise BadArgument(f"--kinds: {wrong[0] or 'nothing'} is none of {', '.join(KINDS)}")
        frames, _, slots = ("", "", "") if onset == "any" else onset.partition("/")
        return cls(range_in("--faults", count, 0, nodes), tuple(kinds.split(",")),
                   range_in("--onset, the frame", frames or f"0..{scenario.frames - 1}", 0,
                            scenario.frames - 1),
                   range_in("--onset, the slot", slots or f"0..{scenario.bus.sync}", 0,
                            scenario.bus.sync))

    def faults(self, scenario: model.Scenario, rng: random.Random) -> list[Fault]:
        """The faults of one scenario. Nodes that are faulty in the bus itself are not drawn."""
        nodes = [it for it in scenario.bus.nodes() if it not in scenario.onsets]
        chosen = sorted(rng.sample(nodes, rng.randint(*self.count)))
        return [Fault(name_of(it), rng.choice(self.kinds), rng.randint(*self.frames),
                      rng.randint(*self.slots)) for it in chosen]


def ranges_of(numbers: list[int]) -> Iterator[model.Pair]:
    """Rising numbers as ranges without gaps."""
    first = 0
    for at in range(1, len(numbers) + 1):
        if at == len(numbers) or numbers[at] != numbers[at - 1] + 1:
            yield numbers[first], numbers[at - 1]
            first = at


def places(scenario: model.Scenario, node: model.Node) -> Iterator[tuple[model.Pair, int, What]]:
    """Where a node speaks while nobody is convicted: slots, stage, and what is due there."""
    bus, (kind, number) = scenario.bus, node
    owners = model.owners_of(bus, scenario.requests, set(range(bus.biu)))
    owned = [bus.biu + at for at, owner in enumerate(owners) if owner is not None]
    by_biu, by_rmu = bus.biu + bus.slots, 2 * bus.biu + bus.slots
    vector = "vector", bus.size(model.other(kind))
    requests, biu_slots, rmu_slots = (0, bus.biu - 1), (by_biu, by_rmu - 1), (by_rmu, bus.sync - 1)
    if kind == BIU:
        yield (number, number), 1, ("request", scenario.requests[number])
        yield from ((it, 1, ("word", 0)) for it in ranges_of(
            [bus.biu + at for at, owner in enumerate(owners) if owner == number]))
        yield (by_biu + number, by_biu + number), 1, vector
        yield from ((it, 3, ("vote", 0)) for it in (requests, biu_slots))
        yield rmu_slots, 2, ("vote", 0)
        yield from (((bus.sync, bus.sync), stage, ("call", 0)) for stage in (1, 3))
    else:
        yield from ((it, 2, ("vote", 0)) for it in ranges_of(
            [*range(bus.biu), *owned, *range(by_biu, by_rmu)]))
        yield (by_rmu + number, by_rmu + number), 1, vector
        yield rmu_slots, 3, ("vote", 0)
        yield (bus.sync, bus.sync), 2, ("call", 0)


def lie(bus: model.Bus, slots: model.Pair, stage: int, what: What,
        rng: random.Random) -> Document | None:
    """What is said in a place in place of what is due; None for nothing. A request stays as it is,
    so that the schedule does; a vector names some nodes; a call comes at any tick of the window."""
    due, number = what
    if due == "request":
        return {"word": number}
    if due == "vector":
        return {"word": rng.randrange(1, 1 << number)}
    if due == "call":
        return {"offset": rng.randrange(bus.length_of(slots[0], stage)), "sync": True}
    return {"word": rng.randrange(WORD)}


def spans(fault: Fault, last: int, slots: model.Pair) -> Iterator[tuple[list[int], list[int]]]:
    """The frames and slots of a place from the onset on, up to the last frame."""
    low, high = slots
    begin = fault.frame
    if low < fault.slot:
        if fault.slot <= high:
            yield [begin, begin], [fault.slot, high]
        begin += 1
    if begin <= last:
        yield [begin, last], [low, high]


def says(scenario: model.Scenario, fault: Fault, rng: random.Random) -> Iterator[Document]:
    """The [[say]] entries of a fault.

    A silent node says nothing. A symmetric one says one wrong word to all in each place where a
    good node speaks, and does not call. An asymmetric one says each receiver another word, and
    calls each at another tick. A babbling one says one word to all in every window."""
    bus, node = scenario.bus, model.node_in(scenario.bus, fault.node)
    far, last = "RB"[node[0]], scenario.frames - 1

    def said(to: str, slots: model.Pair, stages: list[int], what: Document) -> Iterator[Document]:
        """The entries for a place, from the onset on."""
        for frames, some in spans(fault, last, slots):
            yield {"from": fault.node, "to": to, "frames": frames, "slots": some,
                   "stages": stages, **what}

    if fault.kind == "babbling":
        yield from said(far, (0, bus.sync), [1, 3], {"word": rng.randrange(WORD)})
    for slots, stage, what in places(scenario, node) if fault.kind in KINDS[1:3] else ():
        if fault.kind == "symmetric":
            if what[0] != "call":
                yield from said(far, slots, [stage, stage], lie(bus, slots, stage, what, rng))
            continue
        for number in range(bus.size(model.other(node[0]))):
            yield from said(f"{far}{number}", slots, [stage, stage],
                            lie(bus, slots, stage, what, rng))


@dataclass(frozen=True)
class Generator:
    """The scenarios of a bus with faults that are drawn by a seed."""

    document: Document
    scenario: model.Scenario
    draw: Draw

    @classmethod
    def of(cls, bus: str, faults: str, kinds: str, onset: str) -> Generator:
        """The generator of a bus's text and the arguments --faults, --kinds and --onset."""
        data = bus.encode()
        try:
            scenario = read(data)
        except model.Refused as refusal:
            raise BadArgument(f"--bus: {refusal}; tools/lint says where and why") from None
        made = cls(toml.loads(data), scenario, Draw.of(scenario, faults, kinds, onset))
        made.check_size()
        return made

    def check_size(self) -> None:
        """BadArgument if a scenario could have more [[say]] entries than it may."""
        high = self.draw.count[1]
        counts = [max(self.count_of(name_of(node), kind) for kind in self.draw.kinds)
                  for node in self.scenario.bus.nodes()]
        most = len(self.scenario.says) + sum(sorted(counts, reverse=True)[:high])
        if most > model.MOST_SAYS:
            raise BadArgument(f"--faults: with {high} faulty nodes a scenario has up to {most} "
                              f"[[say]] entries, and it may have {model.MOST_SAYS}")

    def count_of(self, node: str, kind: str) -> int:
        """The most [[say]] entries that a faulty node of a kind has."""
        return sum(1 for _ in says(self.scenario, Fault(node, kind, 0, 1), random.Random(0)))

    def faults_of(self, seed: int) -> list[Fault]:
        """The faults that a seed draws."""
        return self.draw.faults(self.scenario, random.Random(f"faults {seed}"))

    def text_of(self, seed: int) -> bytes:
        """The scenario that a seed draws."""
        rng, faults = random.Random(f"words {seed}"), self.faults_of(seed)
        document = dict(self.document)
        document["fault"] = [*document.get("fault", []), *(
            {"node": it.node, "frame": it.frame, "slot": it.slot} for it in faults)]
        document["say"] = [*document.get("say", []), *(
            entry for it in faults for entry in says(self.scenario, it, rng))]
        return toml.dumps(document).encode()
