"""All messages of a run, from the logs of its good nodes: who sent which bytes, and the tick and
the window in which the receiver counts them."""
from __future__ import annotations

from bisect import bisect_right
from collections.abc import Iterator
from concurrent.futures import ThreadPoolExecutor
from dataclasses import dataclass
from functools import cached_property

from robus.calls import answer
from robus.engines import Engine, Model
from robus.errors import Failed
from robus.model import TAIL, Stage, model
from robus.results import Report
from robus.scenario import Scenario

AT_A_TIME = 2  # runs beside each other


@dataclass(frozen=True)
class Message:
    """A message that a good node received: the first tick of the receiver that is not before it,
    the time of that tick in reference units, and the bytes."""

    time: int
    target: model.Node
    source: model.Node
    tick: int
    data: bytes


@dataclass(frozen=True)
class Run:
    """A scenario, and what an engine answers for it."""

    engine: Engine
    document: Scenario
    scenario: model.Scenario
    report: Report

    @classmethod
    def of(cls, engine: Engine, document: Scenario) -> Run:
        """The run of a scenario by an engine; Refused if the scenario is refused."""
        found = answer(engine, ["run"], document.text, scenario=document)
        try:
            scenario = model.read_scenario(document.text)
        except model.Refused as refusal:
            why = f"but the second model says '{refusal}' ({engine})"
            raise Failed(("run",), found.status, why) from None
        return cls(engine, document, scenario, Report(engine, found.status, found.output))

    @property
    def bus(self) -> model.Bus:
        """The bus of the scenario."""
        return self.scenario.bus

    @cached_property
    def clocks(self) -> dict[model.Node, model.Timeline]:
        """The clock of each node."""
        return {node: model.Timeline(*it) for node, it in self.scenario.clocks.items()}

    @cached_property
    def epochs(self) -> dict[str, list[int]]:
        """By the name of a node the first tick of each frame that it began while it was good."""
        found: dict[str, list[int]] = {}
        for it in self.report.epochs:
            found.setdefault(it.node, []).append(it.tick)
        return found

    @cached_property
    def offsets(self) -> list[tuple[int, int, int]]:
        """The first tick of each window of a frame, its slot and its stage, in order."""
        return [(it.first, it.slot, it.stage) for it in self.bus.windows()]

    def window_of(self, node: model.Node, tick: int) -> Stage:
        """The frame, the slot and the stage of the window in which a node counts a tick; the tail
        is stage 4."""
        epochs = self.epochs.get(model.name_of(node), [0])
        frame = max(0, bisect_right(epochs, tick) - 1)
        place = bisect_right(self.offsets, (tick - epochs[frame], self.bus.sync, TAIL)) - 1
        _, slot, stage = self.offsets[place]
        return frame, slot, stage

    def logs(self) -> Iterator[bytes]:
        """The log of each node, in the order of the nodes. The second model gives all of them by
        one run, other engines each by a run of its own."""
        if isinstance(self.engine, Model):
            yield from logs_of_model(self.scenario)
            return
        words = [["record", model.name_of(node)] for node in self.bus.nodes()]
        with ThreadPoolExecutor(AT_A_TIME) as pool:
            found = pool.map(lambda it: answer(self.engine, it, self.document.text,
                                               scenario=self.document), words)
            yield from (it.output for it in found)

    @cached_property
    def messages(self) -> list[Message]:
        """All messages that good nodes received, in the order of time."""
        found: list[Message] = []
        for node, log in zip(self.bus.nodes(), self.logs()):
            found += messages_in(log, node, self.clocks[node])
        return sorted(found, key=lambda it: (it.time, it.target))


def logs_of_model(scenario: model.Scenario) -> list[bytes]:
    """The logs of all nodes by one run of the second model."""
    world = model.World(scenario)
    for site in world.sites.values():
        site.recorder = model.Recorder()
    world.run()
    return [model.log_header(scenario.bus, node) + site.recorder.end()
            for node, site in world.sites.items()]


def messages_in(log: bytes, node: model.Node, clock: model.Timeline) -> Iterator[Message]:
    """The messages of a log of this node, in their order."""
    reader = model.LogReader(log)
    try:
        bus, owner = reader.header()
        events = reader.records(bus.size(model.other(owner[0])))
    except model.Refused as refusal:
        words = "record", model.name_of(node)
        raise Failed(words, 0, f"but its log is none: {refusal}") from None
    tick = 0
    for kind, first, second in events:
        if kind == "ticks":
            tick += first
        else:
            source = model.other(node[0]), first
            yield Message(clock.time_of(tick), node, source, tick, second)


def check(run: Run, world: model.World) -> None:
    """Raises Failed if the second model, which ran the same scenario, has another report."""
    if run.report.output != model.text_of(world.lines):
        raise Failed(("run",), run.report.status,
                     f"and its report is not that of the second model ({run.engine})")


def is_faulty(scenario: model.Scenario, node: model.Node, place: Stage) -> bool:
    """Whether a node is faulty in the slot of a window."""
    return not scenario.is_good(node, *place[:2])
