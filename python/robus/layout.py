"""The frame of a scenario, slot by slot: number, what it is for, who sends, who owns it."""
from __future__ import annotations

import sys
from dataclasses import dataclass

from robus.errors import BadArgument
from robus.model import BIU, RMU, TooLong, model, name_of, nodes_in, read
from robus.tool import Parser, input_of
from robus.units import Unit, behind

Masks = tuple[int, ...]  # by kind a mask of nodes

HELP = """Prints the frame of a scenario, a line for each slot: its number, what it is for, and its
stages with who speaks in each. The owner of a data slot is that by the requests, as long as all
BIUs are good and none is convicted. With --frame F it is the owner that good nodes hold in frame F
of the run, for which the tool runs the scenario on tools/model. A slot without an owner, or whose
sender is convicted, is idle: nobody speaks or listens in it. With --unit U, the length of a
reference unit, as 1ps, it prints also the tick and the time at which each slot begins. It is not
proved."""


def purpose(bus: model.Bus, slot: int) -> str:
    """What a slot is for."""
    if slot == bus.sync:
        return "sync"
    role, kind, number = bus.sender_place(slot)
    if role == "diagnosis":
        return "diagnosis by " + name_of((kind, number))
    return {"schedule": "request of B%d", "data": "data %d"}[role] % number


def stages(bus: model.Bus, slot: int) -> str:
    """Who speaks in each stage of a slot."""
    if slot == bus.sync:
        return "1 BIUs call, 2 RMUs call, 3 BIUs call"
    role, kind, number = bus.sender_place(slot)
    sender = "owner" if role == "data" else name_of((kind, number))
    these, those = ("BIUs", "RMUs") if kind == BIU else ("RMUs", "BIUs")
    third = "" if role == "data" else f", 3 {these} to {those}"
    return f"1 {sender} to {those}, 2 {those} to {these}{third}"


def listens(bus: model.Bus, slot: int, stage: int, kind: int) -> bool:
    """Whether nodes of a kind expect messages in a stage if the slot is not idle."""
    if stage == 4:
        return False
    if slot == bus.sync:
        return kind == (RMU, BIU, RMU)[stage - 1]
    role, sender, _ = bus.sender_place(slot)
    if stage == 3 and role == "data":
        return False
    return (kind == sender) == (stage == 2)


def range_of(first: int, count: int) -> str:
    """The range of `count` numbers from the first on, as text."""
    return f"{first}" if count == 1 else f"{first}..{first + count - 1}"


def drawing(bus: model.Bus) -> str:
    """The frame as a row of its parts, with the numbers of their slots."""
    parts = [("requests", bus.biu), ("data", bus.slots), ("diagnosis by BIUs", bus.biu),
             ("diagnosis by RMUs", bus.rmu), ("sync", 1)]
    cells, first = [], 0
    for name, count in parts:
        number = range_of(first, count)
        wide = max(len(name), len(number))
        cells.append((name.ljust(wide), number.ljust(wide)))
        first += count
    return f'| {" | ".join(it[0] for it in cells)} |\n| {" | ".join(it[1] for it in cells)} |'


def owners_by_requests(scenario: model.Scenario) -> list[int | None]:
    """The owner of each data slot while all BIUs are good."""
    return model.owners_of(scenario.bus, scenario.requests, set(range(scenario.bus.biu)))


def owners_in(scenario: model.Scenario, frame: int) -> tuple[list[int | None] | None, Masks]:
    """The owners that good nodes hold in a frame of the run, and the nodes convicted then; no
    owners if the run does not come so far."""
    owners: list[int | None] | None = None
    held: Masks = (0, 0)

    class Run(model.World):
        """The run, which keeps what the first node holds that closes stage 1 of the frame's first
        data slot."""

        def tell_stage(self, site: model.Site, at: int, window: model.Window,
                       taken: model.Taken) -> None:
            """Keeps the owners and the convicted nodes, if the window is that one."""
            nonlocal owners, held
            if (at, window.slot, window.stage) == (frame, self.bus.biu, 1) and owners is None:
                owners = list(site.core.owners)
                held = tuple(model.mask_of(site.core.convicted(kind)) for kind in (BIU, RMU))
            super().tell_stage(site, at, window, taken)

    Run(scenario).run()
    return owners, held


@dataclass(frozen=True)
class SlotRow:
    """A slot of a frame: its number, purpose, owner or nothing, and who speaks in its stages."""

    slot: int
    purpose: str
    owner: str
    stages: str


def rows(scenario: model.Scenario, owners: list[int | None],
         convicted: Masks = (0, 0)) -> list[SlotRow]:
    """A row for each slot of a frame with these owners and these convicted nodes."""
    bus, found = scenario.bus, []
    for slot in range(bus.sync + 1):
        owner, speak = "", stages(bus, slot)
        if slot < bus.sync:
            role, kind, number = bus.sender_place(slot)
            if role == "data":
                number = owners[number]
                owner = "nobody" if number is None else name_of((kind, number))
                speak = "idle: nobody owns it" if number is None else speak
            elif convicted[kind] >> number & 1:
                speak = f"idle: {name_of((kind, number))} is convicted"
        found.append(SlotRow(slot, purpose(bus, slot), owner, speak))
    return found


def begins(bus: model.Bus, slot: int, unit: Unit) -> str:
    """The first tick of a slot from that of its frame on, and its time by a clock without drift."""
    tick = 3 * slot * bus.plan.l
    return f"tick {tick}{behind(unit, tick * bus.plan.u)}"


def table(bus: model.Bus, found: list[SlotRow], unit: Unit | None) -> list[str]:
    """The rows under a head. If a unit is given, they have the time at which each slot begins."""
    times = [begins(bus, it.slot, unit) if unit else "" for it in found]
    wide = max(map(len, times)) + 2 if unit else 0
    lines = ["slot  " + ("begins".ljust(wide) if unit else "") + "for               owner   stages"]
    for it, time in zip(found, times):
        lines.append(f"{it.slot:<5d} {time:{wide}}{it.purpose:<17s} {it.owner:<7s} {it.stages}")
    return lines


def main(words: list[str]) -> int:
    """tools/layout with these words; its status."""
    parser = Parser("tools/layout", HELP)
    parser.add_argument("scenario", metavar="SCENARIO", help="a file, or - for standard input")
    parser.add_argument("--frame", type=int, help="the owners of this frame of the run")
    parser.add_argument("--unit", type=Unit.of, help="the time of a reference unit, as 1ps")
    asked = parser.parse_args(words)
    scenario = scenario_or_status(asked.scenario, "tools/layout")
    if isinstance(scenario, int):
        return scenario
    bus, owners, convicted = scenario.bus, owners_by_requests(scenario), (0, 0)
    what = "while all BIUs are good"
    if asked.frame is not None:
        owners, convicted = owners_in(scenario, asked.frame)
        if owners is None:
            raise BadArgument(f"--frame: the run has no schedule in frame {asked.frame}")
        names = [name for kind in (BIU, RMU) for name in nodes_in(convicted[kind], kind)]
        what = f"in frame {asked.frame}, with {', '.join(names) or 'nobody'} convicted"
    print(f"{bus.biu} BIUs, {bus.rmu} RMUs, {bus.slots} data slots: a frame of {bus.sync} slots "
          f"and the sync slot, {bus.sync}")
    print(f"\n{drawing(bus)}\n\nowners {what}\n")
    print("\n".join(table(bus, rows(scenario, owners, convicted), asked.unit)))
    return 0


def scenario_or_status(path: str, tool: str, data: bytes | None = None) -> model.Scenario | int:
    """The scenario of a file, which `data` holds if it is read already; if it is refused or too
    long, a status, with one line on standard error."""
    try:
        return read(input_of(path) if data is None else data)
    except model.Refused as refusal:
        print(f"{tool}: {path}: {refusal}; tools/lint says where and why", file=sys.stderr)
        return 3
    except TooLong:
        print(f"{tool}: {path} is longer than {model.SCENARIO_LIMIT} bytes", file=sys.stderr)
        return 4
