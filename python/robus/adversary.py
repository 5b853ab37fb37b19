"""tools/adversary: the second model against adversaries that no scenario can list. It runs random
buses whose faulty nodes do anything, and looks for a run that breaks the promise of the bus."""
from __future__ import annotations

import random
from collections import Counter
from dataclasses import dataclass
from typing import Callable

from robus import arguments
from robus.model import BIU, RMU, model
from robus.tool import Parser

HELP = """Runs COUNT random buses on the second model. Their faulty nodes send anything, at any
time, to anybody. Some choose it as the run goes on, from the states of all nodes. Up to the first
breach of the fault premise a run must keep the promise of the bus (docs/PROMISES.md). The tool
prints what was tried, or the first run that breaks the promise, with status 1.

    tools/adversary 1000 7"""
MOST_RUNS = 10**6
Site, Span, Node = model.Site, model.Span, model.Node


class Broken(Exception):
    """A run that breaks the promise of the bus."""


def check(holds: bool, why: str, *place: object) -> None:
    """Raises what is wrong if the promise does not hold."""
    if not holds:
        raise Broken(f"{why} at {place}")


class Watched(model.World):
    """A run of a scenario against an adversary, which checks the promise as it goes on."""

    def __init__(self, scenario: model.Scenario, adversary: Adversary) -> None:
        adversary.world = self
        self.offered: dict[tuple[int, int], tuple[int, int]] = {}  # by frame and slot: BIU, word
        self.owners: dict[tuple[Node, tuple], list] = {}  # by node and stage
        super().__init__(scenario, behavior=adversary)

    def send(self, node: Node, time: int, frame: int, slot: int, stage: int, text: bytes) -> None:
        """Keeps the word that a good BIU offers."""
        if node[0] == BIU and stage == 1:
            self.offered[frame, slot] = node[1], int.from_bytes(text[6:10])
        super().send(node, time, frame, slot, stage, text)

    def tell_stage(self, site: Site, frame: int, window: model.Window, taken: model.Taken) -> None:
        """Keeps the owners that a node holds at the end of a window."""
        self.owners[site.node, (frame, window.slot, window.stage)] = list(site.core.owners)
        super().tell_stage(site, frame, window, taken)

    def settle_frame(self, frame: int, starts: dict[Node, model.FrameStart]) -> None:
        """Checks that good nodes begin the frame close together and hold the same convictions."""
        super().settle_frame(frame, starts)
        check(self.spread <= self.bus.plan.p, "good nodes begin too far apart", frame)
        masks = {start.convicted for start in starts.values()}
        check(len(masks) <= 1, "good nodes hold unlike convictions", frame)

    def settle_stage(self, frame: int, slot: int, stage: int, good: list[Node],
                     told: dict[Node, tuple[model.Row, model.Trusted]]) -> None:
        """Checks a stage that is no breach, and the deliveries of its slot."""
        place = frame, slot, stage
        before, trusted = len(self.lines), [[set(kind) for kind in told[node][1]] for node in good]
        super().settle_stage(frame, slot, stage, good, told)
        if self.breach:
            return
        check(all(sets == trusted[0] for sets in trusted), "good nodes trust unlike nodes", *place)
        for kind, number in good:
            check(number in trusted[0][kind], "a good node is convicted", *place)
        owners = [self.owners.pop((node, place)) for node in good]
        check(all(held == owners[0] for held in owners), "good nodes hold unlike owners", *place)
        self.check_shares(place, good, owners)
        if stage == 3:
            self.check_deliveries(place, good, self.lines[before:])

    def check_shares(self, place: tuple[int, int, int], good: list[Node], owners: list) -> None:
        """Each good BIU owns the data slots that it asks for, up to an equal share."""
        bus, asked = self.bus, self.scenario.requests
        if good and place[1] >= bus.biu:
            for kind, number in good:
                share = min(asked[number], bus.slots // bus.biu) if kind == BIU else 0
                check(owners[0].count(number) >= share, "a good BIU lacks its share", *place)

    def check_deliveries(self, place: tuple[int, int, int], good: list[Node],
                         lines: list[str]) -> None:
        """All good BIUs deliver the same word of one owner, or none of them delivers. A good
        owner's word is the one that it offered."""
        frame, slot, _ = place
        told = [line.split()[4:] for line in lines if line.startswith("d ")]
        bius = [number for kind, number in good if kind == BIU]
        check(len(told) in (0, len(bius)), "some good BIUs deliver and some do not", *place)
        check(all(it == told[0] for it in told), "good BIUs deliver unlike words", *place)
        owner = int(told[0][0][1:]) if told else None
        if owner in bius:
            word = self.offered.get((frame, slot))
            said = word and [f"B{word[0]}", str(word[1])]
            check(told[0] == said, "a good BIU's word is not delivered", *place)


# Adversaries.

Choice = Callable[["Adversary", Site, Span, Node], list[model.Said]]


class Adversary:
    """What faulty nodes do in a run. Each of them has a way to choose what it sends, which sees the
    states of all nodes."""

    world: Watched

    def __init__(self, rng: random.Random, ways: dict[Node, Choice]) -> None:
        self.rng, self.ways = rng, ways
        self.sent = 0
        # What a symmetric node sends in a window, by node, frame and window
        self.alike: dict[tuple, tuple[int, bytes] | None] = {}

    def __call__(self, site: Site, span: Span, source: Node) -> list[model.Said]:
        """What comes from a faulty source to a good node in a window."""
        said = self.ways[source](self, site, span, source)
        self.sent += len(said)
        return said

    def time_in(self, site: Site, span: Span) -> int:
        """Some time of the window by the receiver's clock, often one of its ends."""
        first = site.clock.time_of(span.first - 1) + 1 if span.first else site.clock.time_of(0)
        last = site.clock.time_of(span.last)
        return self.rng.choice([first, last, self.rng.randint(min(first, last), last)])

    def text(self, span: Span, value: int | None, shift: int = 0) -> bytes:
        """A message with the header of the window, or of one that is `shift` slots later."""
        bus, slot = self.world.bus, span.window.slot + shift
        tag = 3 if slot == bus.sync else 2 if value is None else 1
        number = value or 0 if tag == 1 else 0
        return model.spell(bus, tag, span.frame, slot, min(span.window.stage, 3), number)

    def others(self, node: Node) -> list[Site]:
        """The sites of the other nodes of a node's kind that are good now."""
        return [it for it in self.world.sites.values()
                if it.node[0] == node[0] and it.node != node and it.is_running()]

    def truth(self, span: Span, source: Node) -> int | None:
        """What a good node in the place of the source would say, as far as the others show it."""
        values = [it.core.took.get(it.core.sender) if span.window.stage == 2
                  else it.core.votes.get(span.window.slot) for it in self.others(source)]
        return Counter(values).most_common(1)[0][0] if values else self.rng.randrange(1 << 32)


def silent(own: Adversary, site: Site, span: Span, source: Node) -> list[model.Said]:
    """Sends nothing."""
    return []


def noise(own: Adversary, site: Site, span: Span, source: Node) -> list[model.Said]:
    """Sends any bytes, and messages that are right or nearly so, at any times."""
    def any_text() -> bytes:
        value = own.rng.choice([None, 0, 1, own.rng.randrange(1 << 32)])
        return own.rng.choice([own.text(span, value), own.text(span, value, 1),
                               own.rng.randbytes(own.rng.randrange(70)),
                               own.text(span, value)[:-1] + b"\0"])
    return [(own.time_in(site, span), any_text()) for _ in range(own.rng.choice([0, 1, 1, 2, 9]))]


def flood(own: Adversary, site: Site, span: Span, source: Node) -> list[model.Said]:
    """Sends more messages in one window than a scenario has entries, now and then."""
    if own.rng.random() < 0.98:
        return two_faced(own, site, span, source)
    time = own.time_in(site, span)
    return [(time, own.text(span, number)) for number in range(1100)]


def two_faced(own: Adversary, site: Site, span: Span, source: Node) -> list[model.Said]:
    """Says one thing to one half of the receivers and another to the other half. In the sync slot
    it calls one half as early and the other as late as they accept a call."""
    if span.window.slot == own.world.bus.sync:
        times = site.clock.time_of(max(span.first - 1, 0)) + 1, site.clock.time_of(span.last)
        return [(times[site.node[1] % 2], own.text(span, None))]
    right = own.truth(span, source)
    wrong = None if right is not None else 7
    return [(own.time_in(site, span), own.text(span, right if site.node[1] % 2 else wrong))]


def hunter(own: Adversary, site: Site, span: Span, source: Node) -> list[model.Said]:
    """Behaves well to nodes that still trust and do not accuse it, and otherwise lies: it accuses
    all good nodes, and sends the opposite of what the others send."""
    trusts = source[1] in site.core.trusted[source[0]]
    is_accused = source[1] in site.core.evidence or source[1] in site.core.mismatched
    if source[1] not in site.core.expected():
        return []
    if trusts and not is_accused and own.rng.random() < 0.7:
        return [(own.time_in(site, span), own.text(span, own.truth(span, source)))]
    everybody = (1 << own.world.bus.size(1 - source[0])) - 1
    wrong = everybody if site.core.role == "diagnosis" else own.rng.choice([None, 0, everybody])
    return [(own.time_in(site, span), own.text(span, wrong))]


def symmetric(own: Adversary, site: Site, span: Span, source: Node) -> list[model.Said]:
    """Sends the same to all receivers at one time, whatever it is."""
    key = source, span.frame, span.window.slot, span.window.stage
    if key not in own.alike:
        value = own.rng.choice([None, 0, own.truth(span, source), own.rng.randrange(1 << 32)])
        sent = site.clock.time_of(span.first + own.world.bus.plan.h), own.text(span, value)
        own.alike[key] = own.rng.choice([None, sent, sent])
    return [own.alike[key]] if own.alike[key] else []


ALIKE: list[Choice] = [silent, symmetric]
ANY: list[Choice] = [noise, flood, two_faced, hunter]


# Runs.

def random_plan(rng: random.Random) -> model.Plan:
    """One of two plans that hold for buses of up to 52 slots."""
    return model.Plan(c=rng.choice([1, 1, 2]))


def random_bus(rng: random.Random) -> model.Scenario:
    """A bus that breaks no rule, and in which nobody is faulty."""
    biu, rmu, slots = rng.randint(1, 5), rng.randint(1, 5), rng.randint(1, 6)
    bus = model.Bus(biu, rmu, slots, random_plan(rng), version=rng.choice([1, 2]),
                    probation=rng.choice([0, 0, 1, 2]))
    plan = bus.plan

    def clock() -> tuple[int, model.Segments]:
        length = rng.choice([plan.u - plan.r, plan.u, plan.u + plan.r])
        later = [[rng.randint(1, 900), rng.choice([plan.u - plan.r, plan.u + plan.r])]]
        return rng.choice([0, plan.p, rng.randint(0, plan.p)]), [[0, length], *later]

    delays = [model.LinkRule((BIU, None), (RMU, it), rng.choice([plan.dmin, plan.dmax]),
                             (0, 9), (0, bus.sync), (1, 3)) for it in range(rmu)]
    return model.Scenario(
        bus, frames=rng.choice([1, 2, 2, 3, 4]), requests=[rng.randint(0, 3) for _ in range(biu)],
        words=[rng.randrange(1 << 32) for _ in range(biu)],
        apps=[rng.choice(["table", "counter", "follow"]) for _ in range(biu)],
        delay=rng.randint(plan.dmin, plan.dmax), clocks={node: clock() for node in bus.nodes()},
        links=rng.choice([[], delays]))


def random_run(seed: str) -> Watched:
    """The run of a seed: a random bus, mostly with fewer faulty nodes than good ones of each kind,
    and with nodes of one kind alone that send unlike things."""
    rng = random.Random(seed)
    scenario = random_bus(rng)
    bus, unlike_kind = scenario.bus, rng.choice([BIU, RMU])
    ways: dict[Node, Choice] = {}
    for kind in (BIU, RMU):
        most = (bus.size(kind) - 1) // 2 + (rng.random() < 0.1)
        for number in rng.sample(range(bus.size(kind)), min(most, bus.size(kind))):
            ways[kind, number] = rng.choice(ANY if kind == unlike_kind else ALIKE)
            onset = rng.randrange(scenario.frames), rng.randint(0, bus.sync)
            scenario.onsets[kind, number] = rng.choice([(0, 0), onset])
    return Watched(scenario, Adversary(rng, ways)).run()


@dataclass
class Tried:
    """What has been tried."""

    runs: int = 0
    frames: int = 0
    deliveries: int = 0
    sent: int = 0
    convicted: int = 0
    breaches: int = 0

    def add(self, world: Watched) -> None:
        """Adds a run."""
        self.runs += 1
        self.frames += world.milestone[1]
        self.deliveries += world.deliveries
        self.sent += world.behavior.sent
        self.convicted += sum(world.convicted)
        self.breaches += world.breach is not None


def main(words: list[str]) -> int:
    """tools/adversary with these words; its status."""
    parser = Parser("tools/adversary", HELP)
    parser.add_argument("count", metavar="COUNT", type=int)
    parser.add_argument("seed", metavar="SEED", type=int)
    asked = parser.parse_args(words)
    count, tried = arguments.integer("COUNT", asked.count, 1, MOST_RUNS), Tried()
    for number in range(count):
        try:
            tried.add(random_run(f"{asked.seed} {number}"))
        except Broken as fault:
            print(f"run {number} of seed {asked.seed} breaks the promise: {fault}")
            return 1
    print(f"{tried.runs} runs keep the promise: {tried.frames} frames, {tried.deliveries} "
          f"deliveries, {tried.sent} messages from faulty nodes, {tried.convicted} convicted, "
          f"{tried.breaches} breaches of the fault premise")
    return 0
