"""A scenario from its document: the rules on its keys, on each value, and on what the values say
together."""
from __future__ import annotations

from .answers import refuse
from .entries import clocks_in, links_in, onsets_in, say_in
from .forms import Document, has_unknown_key, has_wrong_form, lacks_key, tables_of
from .inequalities import first_failing
from .names import MOST_LINKS, MOST_PAIRS, MOST_SAYS, Segments
from .plan import Plan
from .ranges import apps_in, bus_in, list_in, within
from .scenario import Scenario
from .toml import read_toml


def scenario_in(document: Document) -> Scenario:
    """What a document says whose values are in range; else it is refused by rule 5."""
    bus, frames = bus_in(document), within(document["frames"], 1, 4096)
    plan = bus.plan
    return Scenario(
        bus,
        frames,
        list_in(document, "requests", bus.biu, 1, most=64),
        list_in(document, "words", bus.biu, 0),
        apps_in(document, bus.biu),
        within(document.get("delay", (plan.dmin + plan.dmax) // 2), 1, 1_000_000_000),
        clocks_in(bus, document.get("clock", [])),
        links_in(bus, frames, document.get("link", [])),
        onsets_in(bus, frames, document.get("fault", [])),
        [say_in(bus, frames, entry) for entry in document.get("say", [])],
    )


def keeps_time(plan: Plan, ticks: Segments) -> bool:
    """Whether a clock's segments begin with tick 0 and rise, and its ticks are as long as the plan
    lets them be."""
    firsts = [first for first, _ in ticks]
    return (
        firsts[:1] == [0]
        and all(a < b for a, b in zip(firsts, firsts[1:]))
        and all(plan.u - plan.r <= length <= plan.u + plan.r for _, length in ticks)
    )


def check_rules(scenario: Scenario) -> None:
    """The rules that speak of what a document says: 6 to 11."""
    bus, plan, clocks = scenario.bus, scenario.bus.plan, scenario.clocks.values()
    if failing := first_failing(bus):
        refuse(6, failing)
    if not all(keeps_time(plan, ticks) for _, ticks in clocks):
        refuse(7)
    delays = [scenario.delay] + [rule.delay for rule in scenario.links]
    if not all(plan.dmin <= delay <= plan.dmax for delay in delays):
        refuse(8)
    starts = [start for start, _ in clocks]
    if max(starts) - min(starts) > plan.p:
        refuse(9)
    if any(scenario.is_good(say.source, say.frames[0], say.slots[0]) for say in scenario.says):
        refuse(10)
    pairs = sum(len(ticks) for _, ticks in clocks)
    if len(scenario.says) > MOST_SAYS or len(scenario.links) > MOST_LINKS or pairs > MOST_PAIRS:
        refuse(11)


def read_scenario(text: bytes) -> Scenario:
    """The scenario that a document says; Refused by the first rule that it breaks."""
    document = read_toml(text)
    for code, breaks in ((2, lacks_key), (3, has_unknown_key), (4, has_wrong_form)):
        if any(breaks(*table) for table in tables_of(document)):
            refuse(code)
    scenario = scenario_in(document)
    check_rules(scenario)
    return scenario
