"""Says who broke a run or was near it, why each node was convicted or was not, and what was said,
heard, taken and voted in a slot."""
from __future__ import annotations

from typing import Iterable, Iterator

from robus.errors import BadArgument
from robus.layout import begins, purpose, scenario_or_status
from robus.model import BIU, RMU, TAIL, model, name_of
from robus.texts import grouped, heard_text, message_text, names, place_text, value_text
from robus.simulation import add_options, hands_of
from robus.tool import Parser, input_of
from robus.units import Unit, behind
from robus.verdicts import of_nodes, since
from robus.watch import Closed, Premise, Watched, watch

HELP = """Explains a run: at a breach the class of each node with the stage and the receivers that
show it; how near the fault premise came to a breach, and where; for each conviction the vectors
that name the node and the evidence behind them; for each other node that is faulty or accused why
it is not convicted; and whom faulty nodes name in their vectors. With FRAME and SLOT it prints what
each good node said, heard, took (accepted) and voted in each stage of that slot, and what the
premise counts after it. With --unit U, the length of a reference unit, as 1ps, it prints times
beside ticks. --words and --letter hand words to BIUs, as tools/simulate does. It runs the scenario
on tools/model, a second model of the bus, and not on the proved program. It is not proved."""

OUTNUMBER = "do not outnumber the other trusted ones that were heard in this frame"
CAUSES = {"FewGoodBiu": f"the good BIUs {OUTNUMBER}", "FewGoodRmu": f"the good RMUs {OUTNUMBER}",
          "TwoSided": "of both kinds a trusted node was heard differently by different receivers"}
KINDS = "BIUs", "RMUs"
CLASSES = "good", "symmetric", "asymmetric", "benign", "convicted"


def kind_text(premise: Premise, kind: int) -> str:
    """How many nodes of a kind are good, and which others were heard."""
    heard = premise.heard[kind]
    others = f"{len(heard)} other{'' if len(heard) == 1 else 's'} heard"
    return f"{premise.good[kind]} good, {others}" + (f" ({names(heard)})" if heard else "")


def margins(run: Watched) -> list[str]:
    """How near the premise came to a breach: for each kind, and for nodes heard differently."""
    lines = ["", "the fault premise, where it was nearest to a breach:"]
    for kind, premise in sorted(run.tightest.items()):
        where = f" in {place_text(run.bus, *premise.place)}" if premise.heard[kind] else ""
        more = max(0, (premise.lead(kind) + 1) // 2)
        then = f"; a breach takes {more} more of the good to lie there" if more else "; a breach"
        lines.append(f"  {KINDS[kind]}: {kind_text(premise, kind)}{where}{then}")
    two = run.two_faced
    if two is None:
        lines.append("  no faulty node was heard differently by different receivers")
    else:
        who = names([*two.unlike[BIU], *two.unlike[RMU]])
        then = "a breach" if two.faces == 2 else (
            f"a breach takes one of the {KINDS[RMU if two.unlike[BIU] else BIU]} too")
        lines.append(f"  heard differently: {who} in {place_text(run.bus, *two.place)}; {then}")
    return lines


def classes(run: Watched, unit: Unit | None) -> list[str]:
    """At a breach, the class of each node with what shows it."""
    lines = [f"breach in {place_text(run.bus, *run.place)}: {run.breach}",
             "  " + CAUSES[run.breach], ""]
    for kind in (BIU, RMU):
        found = [it for node, it in run.classes.items() if node[0] == kind]
        counts = [f"{found.count(it)} {it}" for it in CLASSES if it in found]
        lines.append(f"{KINDS[kind]}: {', '.join(counts)}")
    lines.append("")
    for node, found in run.classes.items():
        is_faulty = node in run.scenario.onsets and found not in ("good", "convicted")
        faulty = f",{since(run, node)}" if is_faulty else ""
        lines.append(f"{name_of(node):<4s} {found}{faulty}")
        if found in ("symmetric", "asymmetric"):
            lines += ["     " + it for it in shown(run, node, found, unit)]
    return lines


def sight_text(sight: model.Sight | None, unit: Unit | None) -> str:
    """What a receiver took from a node in a stage, in words."""
    if sight is None:
        return "nothing"
    time, value = sight
    return value_text(value) if time is None else f"its call at time {time}{behind(unit, time)}"


def shown(run: Watched, node: model.Node, found: str, unit: Unit | None) -> list[str]:
    """The stages of the frame that make a node symmetric or asymmetric, with the receivers."""
    frame, onset = run.place[0], run.scenario.onsets[node]
    lines = []
    for slot, stage, sights in run.sights_of(node):
        is_unlike = not run.judge.are_alike(list(sights.values()))
        if found == "asymmetric" and not is_unlike:
            continue
        took: dict[str, list[model.Node]] = {}
        for at, sight in sights.items():
            took.setdefault(sight_text(sight, unit), []).append(at)
        when = ", while it was good" if (frame, slot) < onset else ""
        each = "; ".join(f"{names(nodes)} took {text}" for text, nodes in took.items())
        lines.append(f"slot {slot} ({purpose(run.bus, slot)}), stage {stage}{when}: {each}")
    if len(lines) > 4:
        lines = lines[:3] + [f"and in {len(lines) - 3} more stages"]
    return lines


def stages_in(bus: model.Bus, slot: int) -> tuple[int, ...]:
    """The stages of a slot in which nodes speak, and the tail."""
    if slot == bus.sync:
        return 1, 2, 3, TAIL
    return (1, 2) if bus.sender_place(slot)[0] == "data" else (1, 2, 3)


def slot_table(run: Watched, frame: int, slot: int, unit: Unit | None) -> Iterator[str]:
    """What each good node said, heard, took and voted in each stage of a slot."""
    bus, at = run.bus, f", from {begins(run.bus, slot, unit)} of the frame on" if unit else ""
    yield f"frame {frame}, slot {slot}: {purpose(bus, slot)}{at}"
    for stage in stages_in(bus, slot):
        found = run.stages.get((frame, slot, stage))
        if not found:
            continue
        yield ""
        yield "tail" if stage == TAIL else f"stage {stage}"
        if stage in run.premises:
            counts = [f"{KINDS[it]} {kind_text(run.premises[stage], it)}" for it in (BIU, RMU)]
            yield "  premise: " + "; ".join(counts)
        rows = [("node", "said", "heard", "took", "vote", "accuses")]
        rows += [row_of(bus, node, found[node], slot == bus.sync, unit)
                 for node in bus.nodes() if node in found]
        widths = [max(len(row[i]) for row in rows) for i in range(len(rows[0]))]
        for row in rows:
            yield ("  " + "  ".join(it.ljust(wide) for it, wide in zip(row, widths))).rstrip()


def row_of(bus: model.Bus, node: model.Node, it: Closed, is_sync: bool,
           unit: Unit | None) -> tuple[str, ...]:
    """What one good node did in a stage: its name, what it said, heard and took, its vote, and whom
    it accuses from there on."""
    far = model.other(node[0])
    said = message_text(bus, it.said) if it.said else "-"
    heard = grouped(((far, source), heard_text(bus, came, unit))
                    for source, came in sorted(it.heard.items()))
    took = grouped(((far, source), "" if is_sync else value_text(value))
                   for source, value in sorted(it.taken.items()))
    vote = value_text(it.vote) if it.has_vote else "-"
    against = [(far, source) for source in it.accused | it.differed]
    return name_of(node), said, heard, took, vote, names(against) if against else "-"


def told(run: Watched, unit: Unit | None) -> list[str]:
    """All that is told of a whole run."""
    frames = run.scenario.frames
    plural = "" if frames == 1 else "s"
    ended = f"the run came to its end after {frames} frame{plural}, without a breach"
    lines = classes(run, unit) if run.breach else [ended]
    return lines + margins(run) + of_nodes(run)


def explanation_of(scenario: model.Scenario, frame: int | None = None, slot: int | None = None,
                   unit: Unit | None = None, hands: Iterable[model.HandIn] = (),
                   names: tuple[str, str] = ("frame", "slot")) -> str:
    """What is told of a scenario's run with these words handed in, or of a slot of it; BadArgument
    if the run has no such slot, with one of the names of the two arguments."""
    if (frame is None) != (slot is None):
        raise BadArgument(f"{names[frame is not None]}: it is missing; {' and '.join(names)} are "
                          "wanted together")
    if frame is None:
        return "\n".join(told(watch(scenario, hands=hands), unit))
    run = watch(scenario, (frame, slot), hands)
    if (frame, slot) not in run.reached:
        slots = [number for of, number in run.reached if of == frame]
        most = max(slots, default=max(of for of, _ in run.reached))
        what = f"slot {slot} in frame {frame}" if slots else f"frame {frame}"
        raise BadArgument(f"{names[bool(slots)]}: the run has no {what}; the last is {most}")
    return "\n".join(slot_table(run, frame, slot, unit))


def main(words: list[str]) -> int:
    """tools/explain with these words; its status."""
    parser = Parser("tools/explain", HELP)
    parser.add_argument("scenario", metavar="SCENARIO", help="a file, or - for standard input")
    parser.add_argument("frame", type=int, nargs="?", metavar="FRAME", help="a frame of the run")
    parser.add_argument("slot", type=int, nargs="?", metavar="SLOT", help="a slot of that frame")
    parser.add_argument("--unit", type=Unit.of, help="the time of a reference unit, as 1ps")
    add_options(parser)
    asked = parser.parse_args(words)
    data = input_of(asked.scenario)
    scenario = scenario_or_status(asked.scenario, "tools/explain", data)
    if isinstance(scenario, int):
        return scenario
    hands = hands_of(data, asked.words, asked.letter)
    text = explanation_of(scenario, asked.frame, asked.slot, asked.unit, hands, ("FRAME", "SLOT"))
    print("(by tools/model, a second model of the bus, not by the proved program)\n")
    print(text)
    return 0
