"""Refusals of a scenario for what its values say together: plan, clocks, delays, starts, who speaks
while good, too many entries."""
from __future__ import annotations

from typing import Iterator

from robus.forms import Broken, title
from robus.model import model
from robus.ranges import Values

# By inequality the number of the plan to raise
RAISE = {1: "h", 2: "l", 3: "h", 4: "v", 5: "h", 6: "z", 7: "p"}


def of_plan(values: Values) -> Iterator[Broken]:
    """The inequalities of the timing plan that fail."""
    if values.plan is None or values.sync is None:
        return
    bus = model.Bus(values.biu, values.rmu, values.slots, values.plan)
    for number, (left, right) in enumerate(model.sides_of(bus), 1):
        if left < right:
            yield 6, ("plan",), (f"inequality {number} of the plan fails: {left} is to be at least "
                                 f"{right}; raise {RAISE[number]} (tools/plan finds one that "
                                 "holds)")


def of_clocks(values: Values) -> Iterator[Broken]:
    """Clocks that do not begin with tick 0, or whose first ticks do not rise, or whose ticks are
    too long or too short."""
    plan = values.plan
    for place in values.entries("clock"):
        ticks = values.get(place, "ticks")
        if ticks is None or plan is None:
            continue
        if not ticks:
            yield 7, place + ("ticks",), "ticks is to have a pair at least"
        elif ticks[0][0] != 0:
            yield 7, place + ("ticks", 0, 0), "the first pair is to begin with tick 0"
        for index, (first, length) in enumerate(ticks):
            if index and first <= ticks[index - 1][0]:
                yield 7, place + ("ticks", index, 0), (f"first ticks are to rise, and {first} does "
                                                       f"not come after {ticks[index - 1][0]}")
            low, high = plan.u - plan.r, plan.u + plan.r
            if not low <= length <= high:
                yield 7, place + ("ticks", index, 1), ("a tick's length is to be u - r to u + r, "
                                                       f"which is {low} to {high}")


def of_delays(values: Values) -> Iterator[Broken]:
    """Delays that are shorter or longer than the plan has them."""
    for place in [()] + values.entries("link"):
        delay, plan = values.get(place, "delay"), values.plan
        if delay is not None and plan is not None and not plan.dmin <= delay <= plan.dmax:
            yield 8, place + ("delay",), ("a delay is to lie within dmin to dmax, which is "
                                          f"{plan.dmin} to {plan.dmax}")


def of_starts(values: Values) -> Iterator[Broken]:
    """The starts lie within p; the one that is furthest from most others is named."""
    if values.plan is None or values.biu is None or values.rmu is None:
        return
    starts = {place: values.get(place, "start", 0) for place in values.entries("clock")}
    if len(starts) < values.biu + values.rmu:
        starts[()] = 0
    low, high = min(starts.values()), max(starts.values())
    if high - low > values.plan.p:
        worst = next(place for place, start in starts.items() if start == high)
        other = next(place for place, start in starts.items() if start == low)
        after = title(other) if other else "the clocks that have no start"
        yield 9, worst + ("start",), (f"the starts are to lie within p, which is {values.plan.p}: "
                                      f"this is {high - low} units after {after}")


def of_speakers(values: Values) -> Iterator[Broken]:
    """Say entries of nodes that are good there."""
    onsets, is_whole = {}, True
    for place in values.entries("fault"):
        node = values.node(values.get(place, "node"))
        onset = values.get(place, "frame"), values.get(place, "slot")
        if node and None not in onset:
            onsets[node] = onset
        else:
            is_whole = False
    for place in values.entries("say"):
        node = values.node(values.get(place, "from"))
        frames, slots = values.get(place, "frames"), values.get(place, "slots")
        if node is None or frames is None or slots is None:
            continue
        name = values.get(place, "from")
        if node not in onsets and not is_whole:
            continue
        if node not in onsets:
            yield 10, place + ("from",), (f"{name} has no [[fault]] entry, so it is good, and says "
                                          "what good nodes say")
        elif (frames[0], slots[0]) < onsets[node]:
            frame, slot = onsets[node]
            yield 10, place + ("frames",), (f"{name} is good until frame {frame}, slot {slot}, and "
                                            f"this begins at frame {frames[0]}, slot {slots[0]}")


def of_counts(values: Values) -> Iterator[Broken]:
    """Say entries, link entries and pairs of ticks beyond the number that there may be."""
    for name, most in (("say", model.MOST_SAYS), ("link", model.MOST_LINKS)):
        places = values.entries(name)
        if len(places) > most:
            yield 11, places[most], (f"there are {len(places)} [[{name}]] entries, and {most} may "
                                     "be")
    if values.biu is None or values.rmu is None:
        return
    pairs = {place: len(values.get(place, "ticks", [0])) for place in values.entries("clock")}
    total = sum(pairs.values()) + max(0, values.biu + values.rmu - len(pairs))
    if total > model.MOST_PAIRS:
        most = max(pairs, key=pairs.get)
        yield 11, most + ("ticks",), (f"the ticks of all clocks have {total} pairs, and "
                                      f"{model.MOST_PAIRS} may be")


def findings(values: Values) -> Iterator[Broken]:
    """All that breaks a rule on what the values say together: the rule's code, the place, why."""
    for rule in (of_plan, of_clocks, of_delays, of_starts, of_speakers, of_counts):
        yield from rule(values)
