"""The rows of a campaign (docs/CAMPAIGNS.md): what a worker writes, and the file that keeps them.

    tools/campaign_row ENGINE [ITEM..]

runs the scenarios of the items, or if there are none those of the lines of standard input, and
writes a row of each. An item is `NUMBER file PATH`, `NUMBER seed SEED` for a scenario of
tools/scenario, `NUMBER bus SEED PLAN` for one of the bus in a campaign's plan.json, or
`NUMBER command SEED COMMAND`, whose output is the scenario. An item whose scenario can't be had, or
whose run is killed, has an empty line in place of its row, and the status is 1 then. After SIGINT
or SIGTERM no further item is run."""
from __future__ import annotations

import csv
import io
import os
import signal
import sys
from pathlib import Path
from typing import Dict, List

from robus.campaign_plan import NoScenario, columns_of, text_of
from robus.engines import Engine, named
from robus.errors import BadArgument, RobusError
from robus.rows import cell, rows_of
from robus.summary import summary_of
from robus.sweep import COLUMNS

HEAD = ["number", "scenario", *COLUMNS]
# What a row of a bus with faults has beside these
MORE = ["faults", "latency_least", "latency_greatest", "lost_of_good"]
KINDS = "file", "seed", "bus", "command"  # of an item
NUMBERS = "number", "deliveries", "none"  # what each whole row has as a number


def name_of(kind: str, source: str) -> str:
    """The name of an item's scenario in its row: that of the file, or the seed."""
    return Path(source).name if kind == "file" else source.partition(" ")[0]


def parts_of(item: str) -> List[str]:
    """The number, the kind and the source of an item; BadArgument if it is none."""
    parts = item.split(" ", 2)
    if len(parts) < 3 or not parts[0].isdecimal() or parts[1] not in KINDS:
        raise BadArgument(f"{item} is no item; one is as '1 seed 7' or '1 file bus.toml'")
    return parts


def row_text(engine: Engine, item: str) -> str:
    """The row of an item, as a line of CSV."""
    number, kind, source = parts_of(item)
    text = text_of(kind, source)
    found = engine.call(["run"], text)
    if found.status < 0:
        raise NoScenario(f"{engine} was killed by signal {-found.status}")
    rows = list(rows_of(found.output.decode("ascii").splitlines()))
    summary, more = summary_of(found.status, rows), columns_of(kind, source, text, rows)
    line = io.StringIO()
    csv.writer(line, lineterminator="\n").writerow(
        [number, name_of(kind, source), *[cell(getattr(summary, name)) for name in COLUMNS],
         *[cell(more[name]) for name in MORE if more]])
    return line.getvalue()


def main(words: List[str]) -> int:
    """Runs the items and writes their rows, each at once and whole."""
    if words[:1] in (["--help"], ["-h"]):
        print(__doc__)
        return 0
    if not words:
        raise BadArgument("ENGINE is missing; --help says more")
    engine, stopped, status = named(words[0]), [], 0
    for item in words[1:]:
        parts_of(item)
    for it in (signal.SIGINT, signal.SIGTERM):
        signal.signal(it, lambda *_: stopped.append(True))
    for item in words[1:] or (line.rstrip("\n") for line in sys.stdin):
        if stopped:
            return 1
        try:
            row = row_text(engine, item)
        except (OSError, RobusError) as fault:
            print(f"tools/campaign_row: no row {item.split(' ')[0]}: {fault}", file=sys.stderr)
            row, status = "\n", 1
        os.write(sys.stdout.fileno(), row.encode())
    return status


def put(path: Path, text: str) -> None:
    """Writes a file whole or not at all."""
    new = path.with_name(path.name + ".new")
    with open(new, "w", encoding="utf-8") as file:
        file.write(text)
        file.flush()
        os.fsync(file.fileno())
    os.replace(new, path)


def rows_in(folder: Path) -> Dict[int, Dict[str, str]]:
    """The whole rows by number, each by column; what a killed run left of its last one is none."""
    path, rows = folder / "rows.csv", {}
    text = path.read_text(encoding="utf-8", errors="replace") if path.exists() else ""
    lines = text.split("\n")
    head = next(csv.reader(lines[:1]), [])
    for line in lines[1:-1]:
        cells = next(csv.reader([line]), [])
        found = dict(zip(head, cells))
        if len(cells) == len(head) and all(found.get(it, "").isdigit() for it in NUMBERS):
            rows.setdefault(int(found["number"]), found)
    return rows


def settle(folder: Path, head: List[str]) -> Dict[int, Dict[str, str]]:
    """Leaves each whole row once, in order."""
    rows, text = rows_in(folder), io.StringIO()
    out = csv.DictWriter(text, head, lineterminator="\n", restval="", extrasaction="ignore")
    out.writeheader()
    out.writerows(rows[number] for number in sorted(rows))
    put(folder / "rows.csv", text.getvalue())
    return rows
