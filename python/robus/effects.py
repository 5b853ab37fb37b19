"""Warnings: what an accepted scenario says that can have no effect, or another than meant."""
from __future__ import annotations

from typing import Iterator

from robus import syntax
from robus.forms import title
from robus.layout import listens, purpose
from robus.locate import Locator, Place
from robus.model import TAIL, model, name_of, read
from robus.watch import Watched, watch

Warned = tuple[Place, str]  # the place in the document, and why
# Runs of more stages than this are not made for a warning
MOST_STAGES = 200_000


def windows_of(say: model.Say) -> Iterator[tuple[int, int]]:
    """The slots and stages of a say entry."""
    for slot in range(say.slots[0], say.slots[1] + 1):
        for stage in range(say.stages[0], say.stages[1] + 1):
            yield slot, stage


def receivers(bus: model.Bus, pattern: model.Pattern) -> list[model.Node]:
    """The nodes for which a pattern stands."""
    return [node for node in bus.nodes() if model.stands_for(pattern, node)]


def unheard(scenario: model.Scenario, place: Place, say: model.Say) -> Iterator[Warned]:
    """A say entry in stages in which no receiver listens, or to receivers that are all faulty by
    then."""
    bus, kind = scenario.bus, say.target[0]
    if not any(listens(bus, slot, stage, kind) for slot, stage in windows_of(say)):
        slot, stage = say.slots[0], say.stages[0]
        place_text = f"stage {stage} of slot {slot} ({purpose(bus, slot)})"
        what = "the tail" if stage == TAIL else place_text
        yield place, (f"no {('BIU', 'RMU')[kind]} listens in {what}: what is said there is never "
                      f"taken, and is evidence against {name_of(say.source)}")
    frame, slot = say.frames[0], say.slots[0]
    if not any(scenario.is_good(node, frame, slot) for node in receivers(bus, say.target)):
        yield place + ("to",), ("each node to which this is said is faulty by then, and hears "
                                "nothing")


def said_twice(scenario: model.Scenario, places: list[Place]) -> Iterator[Warned]:
    """Two say entries of one node that fall into one window of one receiver."""
    def meet(a: model.Pair, b: model.Pair) -> bool:
        """Whether two ranges have a number in common."""
        return a[0] <= b[1] and b[0] <= a[1]

    heard = [set(receivers(scenario.bus, say.target)) for say in scenario.says]
    for index, say in enumerate(scenario.says):
        for before, other in enumerate(scenario.says[:index]):
            same = say.source == other.source and heard[index] & heard[before]
            ranges = ((say.frames, other.frames), (say.slots, other.slots),
                      (say.stages, other.stages))
            if same and all(meet(*it) for it in ranges):
                yield places[index], (f"{title(places[before])} speaks to the same receiver in the "
                                      "same window: two messages there are evidence, and none is "
                                      "taken")
                break


def covered_links(scenario: model.Scenario) -> Iterator[Warned]:
    """Link entries all of whose messages a later entry is for."""
    def within(a: model.Pair, b: model.Pair) -> bool:
        """Whether the range a lies in the range b."""
        return b[0] <= a[0] and a[1] <= b[1]

    def end_within(a: model.Pattern, b: model.Pattern) -> bool:
        """Whether b stands for all nodes for which a stands."""
        return a[0] == b[0] and (b[1] is None or a[1] == b[1])

    links = scenario.links[-400:]
    skipped = len(scenario.links) - len(links)
    for index, rule in enumerate(links):
        for later, other in enumerate(links[index + 1:], index + 1):
            ends = (rule.source, other.source), (rule.target, other.target)
            ranges = ((rule.frames, other.frames), (rule.slots, other.slots),
                      (rule.stages, other.stages))
            if all(end_within(*it) for it in ends) and all(within(*it) for it in ranges):
                yield ("link", skipped + index), (f"{title(('link', skipped + later))} is for all "
                                                  "of these messages, and the last one counts")
                break


def of_root(scenario: model.Scenario, document: model.Document) -> Iterator[Warned]:
    """Words that are never said, a probation in which no accusation lapses, and clocks that
    nothing asks."""
    bus = scenario.bus
    if "requests" in document and "words" in document:
        for number, asked in enumerate(scenario.requests):
            if not asked and scenario.words[number]:
                yield ("words", number), (f"B{number} asks for no data slot, so its word is never "
                                          "said")
    if "probation" in document and 0 < scenario.frames <= bus.probation:
        yield ("probation",), f"no accusation lapses in a run of {scenario.frames} frames"
    for number, entry in enumerate(document.get("clock", [])):
        onset = scenario.onsets.get(("BR".index(entry["node"][0]), int(entry["node"][1:])))
        if onset == (0, 0):
            yield ("clock", number), (f"{entry['node']} is faulty from the first slot on, so "
                                      "nothing asks its clock")


def convicted_since(run: Watched, node: model.Node) -> int | None:
    """The frame from which on some good node holds a node convicted."""
    kind, number = node
    return min((frame for frame, starts in run.starts.items()
                if any(it.convicted[kind] >> number & 1 for it in starts.values())), default=None)


def of_run(run: Watched, places: list[Place]) -> Iterator[Warned]:
    """Say entries of nodes that are convicted by then, in idle slots, or past the end of the
    run."""
    scenario, bus = run.scenario, run.bus
    for place, say in zip(places, scenario.says):
        frame, slot = say.frames[0], say.slots[0]
        if run.breach and (frame, slot, say.stages[0]) > run.place:
            last_frame, last_slot, stage = run.place
            yield place, (f"the run ends before, with the breach in frame {last_frame}, "
                          f"slot {last_slot}, stage {stage}")
            continue
        since = convicted_since(run, say.source)
        slots = [(at, it) for at in range(say.frames[0], say.frames[1] + 1)
                 for it in range(say.slots[0], say.slots[1] + 1)]
        if since is not None and since <= frame:
            yield place, (f"{name_of(say.source)} is convicted from frame {since} on, so nobody "
                          "takes what it says")
        elif say.slots[1] < bus.sync and all(is_idle(run, *it) for it in slots):
            yield place, (f"slot {slot} of frame {frame} is idle, its sender being convicted or "
                          "none, so nobody listens")


def is_idle(run: Watched, frame: int, slot: int) -> bool:
    """Whether no good node has a sender in this slot; not if the run does not come there."""
    return (frame, slot) in run.reached and (frame, slot) not in run.busy


def warnings(data: bytes) -> list[tuple[int, Place, str]]:
    """Line, place and reason of each warning, in the order of lines."""
    scenario = read(data)
    text = data.decode("utf-8")
    document = syntax.tomllib.loads(model.older_toml(text))
    locator = Locator(text)
    places = [("say", number) for number in range(len(scenario.says))]
    found = [*of_root(scenario, document), *covered_links(scenario), *said_twice(scenario, places)]
    for place, say in zip(places, scenario.says):
        found += unheard(scenario, place, say)
    stages = 3 * scenario.bus.sync * scenario.frames * len(scenario.bus.nodes())
    if scenario.says and stages <= MOST_STAGES:
        known = {place[:2] for place, _ in found if place[0] == "say"}
        found += [it for it in of_run(watch(scenario), places) if it[0] not in known]
    return sorted(((locator.line_of(place), place, why) for place, why in found),
                  key=lambda it: it[0])
