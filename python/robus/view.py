"""Writes a run as one page of HTML that a browser shows without anything else."""
from __future__ import annotations

import json
from pathlib import Path
from typing import Any

from robus.errors import BadArgument
from robus.explanation import told
from robus.layout import purpose
from robus.model import name_of
from robus.runner import patience
from robus.trace import frames_in, parser_of, run_of
from robus.trace_messages import Run
from robus.units import Unit
from robus.view_run import Sent, Viewed, view_of

PAGE = Path(__file__).resolve().parent / "page"
# The most windows of nodes on a page of all frames, which is then about 10 MB
MOST_WINDOWS = 200_000

HELP = """Writes a run as one page of HTML on standard output: a lane for each node with its windows
and an arrow for each message, the table of each slot as tools/explain prints it, and the frames
with deliveries, convictions and the breach. The page fetches nothing. docs/TRACES.md shows it.

    tools/view examples/two_sided.toml > run.html

For a long run --frames says which frames to show. Without it a run whose page would be much larger
than 10 MB is refused.

The messages are read from the logs that a program writes for the nodes: the proved program, if it
is up to date. All else on the page is computed by tools/model, a second model of the bus. If its
report differs from the program's, nothing is written. The page itself is not proved.

status: 0 done, 1 done and the run ended with a breach, 2 wrong words or no such file, 3 the
scenario is refused, 70 there was no answer"""


def frame_of(run: Run, world: Viewed, frame: int, sent: list[Sent]) -> dict[str, Any]:
    """A frame as the page has it."""
    nodes, starts = run.bus.nodes(), world.starts[frame]
    convicted = sorted({name for it in run.report.convictions if it.frame == frame
                        for name in it.convicted})
    return {
        "number": frame,
        "epochs": [starts[node].tick if node in starts else None for node in nodes],
        "convicted": convicted,
        "deliveries": [[it.slot, it.receiver, it.sender, it.word]
                       for it in run.report.deliveries if it.frame == frame],
        "sent": [it.packed() for it in sent],
        "tables": {f"{slot}.{stage}": rows for (at, slot, stage), rows in world.tables.items()
                   if at == frame},
        "premise": {f"{slot}.{stage}": text
                    for (at, slot, stage), text in world.standings.items() if at == frame},
    }


def data_of(run: Run, frames: range, unit: Unit | None, name: str) -> dict[str, Any]:
    """All that the page shows, to be written as JSON."""
    world, sent = view_of(run, frames, unit)
    bus, breach = run.bus, run.report.breach
    shown = [frame_of(run, world, frame, sent.get(frame, [])) for frame in frames]
    return {
        "name": name, "engine": str(run.engine), "ending": run.report.ending(),
        "nodes": [name_of(it) for it in bus.nodes()],
        "clocks": [run.scenario.clocks[it] for it in bus.nodes()],
        "windows": [[it.first, it.slot, it.stage] for it in bus.windows()],
        "tail": bus.longest_tail(),
        "purposes": [purpose(bus, slot) for slot in range(bus.sync + 1)],
        "onsets": {name_of(node): it for node, it in run.scenario.onsets.items()},
        "breach": [breach.frame, breach.slot, breach.stage, breach.cause] if breach else None,
        "unit": float(unit.seconds) if unit else None,
        "story": told(world, unit), "frames": shown, "strings": list(world.strings.numbers),
    }


def page_of(data: dict[str, Any]) -> str:
    """The page with its script, its style and the data in it."""
    page, script, style = ((PAGE / f"view.{it}").read_text(encoding="utf-8")
                           for it in ("html", "js", "css"))
    text = json.dumps(data, separators=(",", ":")).replace("<", "\\u003c")
    for mark, part in (("/*STYLE*/", style), ("/*SCRIPT*/", script), ("/*DATA*/", text)):
        page = page.replace(mark, part, 1)
    return page


def refuse_long(run: Run, frames: range) -> None:
    """Raises BadArgument if a page of these frames would be too large."""
    if len(frames) * len(run.bus.windows()) * len(run.bus.nodes()) > MOST_WINDOWS:
        raise BadArgument(f"a page of all {len(frames)} frames would be too large; "
                          "--frames FIRST:LAST says which to show")


def main(words: list[str]) -> int:
    """tools/view with these words; its status."""
    asked = parser_of("tools/view", HELP).parse_args(words)
    run = run_of("tools/view", asked)
    name = "standard input" if asked.scenario == "-" else Path(asked.scenario).name
    frames = frames_in(asked.frames, run)
    if asked.frames is None:
        refuse_long(run, frames)
    with patience("tools/view", run.engine):
        data = data_of(run, frames, asked.unit, name)
    print(page_of(data))
    return run.report.status
