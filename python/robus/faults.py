"""Writes the entries of nodes that are good but for given lies."""
from __future__ import annotations

import re
import sys
from argparse import SUPPRESS

from robus.errors import BadArgument
from robus.layout import purpose, scenario_or_status
from robus.liars import Liar, Lie, Lying
from robus.model import Stage, model, name_of
from robus.texts import names
from robus.tool import Parser

HELP = """Writes the [[fault]] entry and the [[say]] entries of nodes that do all that good nodes
do, but for the given lies. The scenario runs on tools/model, in which such a node goes on by the
rules after its first lie. It is not proved.

    tools/faults SCENARIO NODE LIE.. [NODE LIE..].. [--unaware]

A LIE is FRAMES/SLOTS=WHAT or FRAMES/SLOTS/STAGES=WHAT, followed by @NODES if only some nodes are
lied to. FRAMES, SLOTS and STAGES are numbers or ranges a..b; WHAT is a word, silent, or fault (that
there is no word); NODES are names with commas between them, and self for the node that lies.

    tools/faults bus.toml B1 0/4/1=7@R0 0/4/1=8@R1,R2    in frame 0, slot 4, stage 1 B1 says 7
                                                         to R0 and 8 to R1 and R2
    tools/faults bus.toml R2 0/5=silent B0 1/3=9         in frame 0, slot 5 R2 says nothing, and
                                                         in frame 1, slot 3 B0 says 9

A node expects its own word back from those that relay it, and accuses each that relays another one.
Its accusations go into its vectors, and these count in convictions. So it matters what the liar
believes it said. A lie that all receivers are told alike is told to the liar too, which then
accuses nobody for it. If receivers are told different things, the liar keeps the right word and
accuses all that relay a lie. If a lie names self among its NODES, the liar believes that lie. With
--unaware it always keeps the right word, like a node whose transmitter is broken. A liar that
breaks the protocol, by silence for example, is ignored from then on by those that notice, and
accuses them when its own word does not come back. The head of the output and lines on standard
error say whom the liars accuse.

The entries go behind the scenario: cat bus.toml lies.toml | robus run. The nodes must have no
[[fault]] entry yet. Name all liars of a run in one call: the entries of an earlier call do not
take account of what the nodes of a later call say.

status: 0 done, 2 wrong words or no such file, 3 the scenario is refused, 4 it is too long"""

NAME = r"[BR]\d+"
SPAN = r"(\d+)(?:\.\.(\d+))?"
NODES = rf"(?:{NAME}|self)"
LIE = re.compile(rf"{SPAN}/{SPAN}(?:/{SPAN})?=(silent|fault|\d+)(?:@({NODES}(?:,{NODES})*))?")
# To whom, frames, slots, stage, and the lines behind these
Entry = tuple[str, model.Pair, model.Pair, int, tuple[str, ...]]


def span(first: str, last: str | None) -> tuple[int, int]:
    """A range, or one number."""
    return int(first), int(last or first)


def targets_in(text: str, named: str | None, bus: model.Bus,
               node: model.Node) -> tuple[model.Node, ...]:
    """The nodes that a lie names, the liar itself among them for `self`."""
    found = []
    for name in named.split(",") if named else []:
        is_self = name == "self"
        target = node if is_self else ("BR".index(name[0]), int(name[1:]))
        if not is_self and (target not in bus.nodes() or target[0] == node[0]):
            raise BadArgument(f"{text}: {name} is no node of the other kind")
        found.append(target)
    return tuple(found)


def lie_in(text: str, scenario: model.Scenario, node: model.Node) -> Lie:
    """The lie of a node that a word is; BadArgument if it is none in this scenario."""
    found = LIE.fullmatch(text)
    if not found:
        raise BadArgument(f"{text} is no lie: one is as 0/4/1=7@R0 or 0/5=silent")
    frames, slots = span(found[1], found[2]), span(found[3], found[4])
    stages = span(found[5], found[6]) if found[5] else (1, 3)
    for what, (low, high), least, most in (("frames", frames, 0, scenario.frames - 1),
                                           ("slots", slots, 0, scenario.bus.sync),
                                           ("stages", stages, 1, 3)):
        if not least <= low <= high <= most:
            raise BadArgument(f"{text}: {what} are to be a range within {least} to {most}")
    targets = targets_in(text, found[8], scenario.bus, node)
    if found[7].isdigit() and int(found[7]) >= 1 << 32:
        raise BadArgument(f"{text}: a word is below 4294967296")
    return Lie(frames, slots, stages, found[7], targets, text)


def payload(bus: model.Bus, slot: int, tick: int, early: int, text: bytes) -> tuple[str, ...]:
    """What an entry says: the lines behind its ranges. Below the sync slot the tick within the
    window has no meaning, and is left out."""
    tag, _, _, _, value = model.read_message(bus, text)
    said = {model.WORD_TAG: f"word = {value}", model.FAULT_TAG: "fault = true",
            model.SYNC_TAG: "sync = true"}[tag]
    if slot < bus.sync:
        return (said,)
    at = () if tick == bus.plan.h else (f"offset = {tick}",)
    early = min(early, bus.plan.u - bus.plan.r - 1)
    return at + ((f"early = {early}",) if early else ()) + (said,)


def entries(scenario: model.Scenario, liar: Liar) -> list[Entry]:
    """A liar's entries. Those that differ in one range alone are made one."""
    bus, far = scenario.bus, model.other(liar.node[0])
    places: dict[Stage, dict[tuple[str, ...], list[model.Node]]] = {}
    for frame, slot, stage, target, tick, early, text in liar.came:
        said = places.setdefault((frame, slot, stage), {})
        said.setdefault(payload(bus, slot, tick, early, text), []).append(target)
    single = []
    for (frame, slot, stage), said in sorted(places.items()):
        good = {it for it in bus.nodes() if it[0] == far and scenario.is_good(it, frame, slot)}
        for what, targets in said.items():
            to = ["BR"[far]] if good <= set(targets) else [name_of(it) for it in targets]
            single += [(name, (frame, frame), (slot, slot), stage, what) for name in to]
    return merged(merged(single, 2), 1)


def merged(rows: list[Entry], at: int) -> list[Entry]:
    """The rows, those made one that are alike but for the range at this place, if one of them ends
    just before the other begins."""
    open_rows: dict[tuple[object, ...], int] = {}
    done: list[Entry] = []
    for row in sorted(rows, key=lambda it: it[at]):
        alike = row[:at] + row[at + 1:]
        before = open_rows.get(alike)
        if before is not None and done[before][at][1] + 1 == row[at][0]:
            done[before] = row[:at] + ((done[before][at][0], row[at][1]),) + row[at + 1:]
        else:
            open_rows[alike] = len(done)
            done.append(row)
    return sorted(done, key=lambda it: (it[1], it[2], it[3], it[0]))


def accusations(bus: model.Bus, liar: Liar) -> list[str]:
    """Whom a liar accuses, a line for each stage in which it finds others, and reason."""
    return [f"{name_of(liar.node)} accuses {names(found)} from frame {frame}, slot {slot} "
            f"({purpose(bus, slot)}), stage {stage} on: {why}"
            for ((frame, slot, stage), why), found in sorted(liar.accused.items())]


def text_of(scenario: model.Scenario, liar: Liar) -> str:
    """A liar's entries as TOML, behind comments on whom it accuses."""
    name, (frame, slot) = name_of(liar.node), liar.onset
    notes = accusations(scenario.bus, liar) or [f"{name} accuses nobody"]
    lines = ["", *("# " + it for it in notes), "[[fault]]", f'node = "{name}"',
             f"frame = {frame}", f"slot = {slot}"]
    for to, frames, slots, stage, what in entries(scenario, liar):
        there = " to ".join(purpose(scenario.bus, it) for it in sorted(set(slots)))
        lines += ["", "[[say]] # " + there, f'from = "{name}"', f'to = "{to}"',
                  f"frames = [{frames[0]}, {frames[1]}]", f"slots = [{slots[0]}, {slots[1]}]",
                  f"stages = [{stage}, {stage}]", *what]
    return "\n".join(lines) + "\n"


def lying(scenario: model.Scenario, liars: list[Liar]) -> Lying:
    """The run of a scenario with the liars; BadArgument if a lie changes nothing that its node says
    or keeps."""
    scenario.onsets.update({liar.node: liar.onset for liar in liars})
    run = Lying(scenario, liars).run()
    for liar, lie in ((liar, lie) for liar in liars for lie in liar.lies if not lie.is_used):
        where, why = purpose(run.bus, lie.slots[0]), "the run ends with a breach first"
        if not run.breach:
            why = (f"a good {name_of(liar.node)} says nothing there, in {where} (tools/layout says "
                   "who speaks in which slot and stage), or a later lie is for the same receivers")
        raise BadArgument(f"{lie.text}: {why}; a [[say]] entry by hand can")
    return run


def liars_in(words: list[str], scenario: model.Scenario, is_aware: bool) -> list[Liar]:
    """The nodes and lies that the words name; BadArgument if the scenario has no such thing."""
    liars: list[Liar] = []
    for word in words:
        if "=" in word or "/" in word:
            if not liars:
                raise BadArgument(f"{word} is before the node that says it")
            lie = lie_in(word, scenario, liars[-1].node)
            if not is_aware and liars[-1].node in lie.targets:
                raise BadArgument(f"{word} names self, and with --unaware the right word is kept")
            liars[-1].lies.append(lie)
            continue
        try:
            node = model.node_in(scenario.bus, word)
        except model.Refused:
            raise BadArgument(f"the bus has no node {word}") from None
        if node in scenario.onsets or any(liar.node == node for liar in liars):
            why = "a [[fault]] entry already" if node in scenario.onsets else "been named before"
            raise BadArgument(f"{word} has {why}")
        liars.append(Liar(node, [], is_aware))
    for name in (name_of(liar.node) for liar in liars if not liar.lies):
        raise BadArgument(f"LIE is missing behind {name}; one is as 0/4/1=7@R0 or 0/5=silent")
    return liars


def main(words: list[str]) -> int:
    """tools/faults with these words; its status."""
    parser = Parser("tools/faults", HELP, SUPPRESS)
    parser.add_argument("scenario", metavar="SCENARIO", help="a file, or - for standard input")
    parser.add_argument("lies", nargs="+", metavar="NODE LIE..",
                        help="a node, as B1 or R2, and its lies; then the next node")
    parser.add_argument("--unaware", action="store_true",
                        help="nodes keep the right word as their own, whatever they say")
    asked = parser.parse_args(words)
    scenario = scenario_or_status(asked.scenario, "tools/faults")
    if isinstance(scenario, int):
        return scenario
    liars = liars_in(asked.lies, scenario, not asked.unaware)
    lying(scenario, liars)
    sys.stdout.write("".join(text_of(scenario, liar) for liar in liars))
    notes = [note for liar in liars for note in accusations(scenario.bus, liar)]
    count = len(scenario.says) + sum(len(entries(scenario, liar)) for liar in liars)
    if count > model.MOST_SAYS:
        notes.append(f"the scenario then has {count} [[say]] entries, more than the "
                     f"{model.MOST_SAYS} that it may have")
    for note in notes:
        print(f"tools/faults: {note}", file=sys.stderr)
    return 0
