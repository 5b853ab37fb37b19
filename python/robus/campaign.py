"""Runs many scenarios in worker processes, or on GNU parallel, and keeps a row of each."""
from __future__ import annotations

import fcntl
import os
import sys
from dataclasses import replace
from pathlib import Path
from typing import List, Optional, TextIO

from robus.arguments import number_in
from robus.campaign_faults import summary_of_faults
from robus.campaign_plan import BusFaults, NoScenario, Plan, new_plan, plan_of, text_of
from robus.campaign_rows import HEAD, MORE, put, rows_in, settle
from robus.campaign_summary import histogram_of, summary_of
from robus.campaign_words import BUS_DEFAULTS, Asked, asked_in, jobs_in, unit_in
from robus.campaign_workers import is_gnu_parallel, run_parallel, run_workers
from robus.engines import TOP, Engine, choose
from robus.errors import BadArgument, NoEngine
from robus.lint import refusal_of
from robus.tool import input_of

HELP = """Runs many scenarios, and keeps a row of each.

usage: tools/campaign FOLDER COUNT SEED [--generator COMMAND] [--engine ENGINE] [--jobs N]
                      [--unit U] [OPTIONS OF PARALLEL..]
       tools/campaign FOLDER COUNT SEED --bus FILE [--faults N] [--kinds KIND,..] [--onset PLACE]
       tools/campaign FOLDER summary [--unit U]
       tools/campaign FOLDER scenario NUMBER

FOLDER is the campaign's. If it has *.toml files, they are the scenarios, in an order that SEED
shuffles. Else scenario NUMBER is what COMMAND prints for the seed SEED + NUMBER - 1. The seed takes
the place of {} in COMMAND, or is put behind it. Without --generator COMMAND is tools/scenario, if
that is there, and else `robus gen {} 8`.

With --bus the scenarios are the one in FILE with faults that the seed draws: N faulty nodes, a
number or a range a..b (0..1 if it is not given), each of one of the KINDs silent, symmetric,
asymmetric and babbling (all if none is given), from a PLACE on: any (also if it is not given),
FRAMES or FRAMES/SLOTS, as 0/5 or 3..7. The summary then tells breaches, convictions, lost words and
latencies by the number and kinds of faulty nodes.

--jobs N runs N workers at a time, as many as there are processors if it is not given. --unit is the
time of a reference unit, as 1ps: the summary has times in seconds then. What is not named here, as
--sshlogin 8/host, goes to GNU parallel as it is, which then starts the workers. Options of this
tool may be before FOLDER, too. If the same line is called again, it goes on where the last run
stopped; with a greater COUNT it adds scenarios.

The scenarios are run by the library or the proved program (make build), or if none is up to date by
an unproved build that tools/quick has kept. --model, which is --engine model, runs them by
tools/model, a second model of the bus in Python, which is not proved and slower, and needs no
build. The first line and the summary say if what runs them is not proved.

Written are rows.csv, summary.txt, spread.svg, and plan.json for the next run. `scenario` prints the
scenario of a row. docs/CAMPAIGNS.md has more.

status: 0 done, 2 wrong words or no such file, 70 some scenarios have no row, 130 interrupted"""


def engine_of(name: Optional[str]) -> Engine:
    """The engine that is asked for; tools/model has to be asked for by name."""
    engine = choose(["run"], name)
    if engine.name == "model" and not (name or os.environ.get("ROBUS_ENGINE")):
        raise NoEngine("no program is up to date: make build makes one, and --model runs "
                       "tools/model in its place, which is not proved")
    return engine


def bus_of(asked: Asked) -> Optional[BusFaults]:
    """The bus that is asked for, with its faults; BadArgument if they do not fit."""
    file = asked.get("--bus")
    if file is None:
        option = next((it for it in BUS_DEFAULTS if it in asked.values), None)
        if option:
            raise BadArgument(f"{option} is for --bus, which is not there")
        return None
    if file != "-" and not os.path.exists(file):
        raise BadArgument(f"--bus: {file} is no file")
    try:
        text = input_of(file).decode("utf-8")
    except UnicodeDecodeError:
        raise BadArgument(f"--bus: {file} is no text in UTF-8") from None
    found = BusFaults(text, *[asked.values.get(it, BUS_DEFAULTS[it]) for it in BUS_DEFAULTS])
    refusal = refusal_of(text.encode())
    if refusal:
        raise BadArgument(f"--bus: {file}: {refusal}; tools/lint says where and why")
    found.generator()
    return found


def kept_plan(folder: Path, plan: Plan, asked: Asked) -> Plan:
    """The plan of the folder's campaign, which the first run begins with this one; BadArgument if
    it is that of another campaign."""
    path = folder / "plan.json"
    if not path.exists():
        put(path, plan.text())
        return plan
    old = plan_of(folder)
    if asked.get("--generator") is None and not plan.bus and not old.bus:
        plan = replace(plan, generator=old.generator)
    if old.scenarios != plan.scenarios:
        raise BadArgument(f"FOLDER: {folder} is another campaign ({path}): take another folder")
    if old.unproved != plan.unproved:
        raise BadArgument(f"--engine: {folder} was begun with the engine {old.engine}: go on so, "
                          "or take another folder")
    return old if asked.get("--unit") is None else replace(old, unit=plan.unit)


def run(folder: Path, plan: Plan, count: int, engine: Engine, asked: Asked, lock: TextIO) -> bool:
    """Runs what has no row yet. The result says whether it was interrupted."""
    found = rows_in(folder)
    numbers = [number for number in range(1, count + 1) if number not in found]
    items = [plan.item(folder, number) for number in numbers]
    name = "model" if engine.name == "model" else engine.path
    jobs = jobs_in(asked)
    with open(folder / "rows.csv", "ab") as rows:
        if asked.options:
            words = [str(TOP / "tools/campaign_row"), name]
            return run_parallel(words, items, jobs, asked.options, rows, lock)
        words = [sys.executable, "-m", "robus", "campaign_rows", name]
        return run_workers(words, items, jobs or os.cpu_count() or 1, rows)


def tell(folder: Path, plan: Plan) -> int:
    """Writes and prints what the rows say."""
    rows, unit = rows_in(folder), unit_in(plan.unit)
    if not rows:
        raise BadArgument(f"FOLDER: {folder} has no row yet")
    text = f"run by {plan.unproved}\n\n" if plan.unproved else ""
    text += summary_of(rows, unit)
    if plan.bus:
        text += "\n" + summary_of_faults(rows, unit)
    put(folder / "summary.txt", text)
    spreads = [int(it["spread"]) for it in rows.values() if it["spread"]]
    put(folder / "spread.svg", histogram_of(spreads, unit))
    print(text, end="")
    return 0


def campaign(folder: Path, count: int, seed: int, asked: Asked) -> int:
    """Runs a campaign, or goes on with it, and tells what its rows say."""
    bus, engine = bus_of(asked), engine_of(asked.get("--engine"))
    if asked.options and not is_gnu_parallel():
        raise NoEngine(f"{asked.options[0]} is for GNU parallel, which is not there: "
                       "apt-get install parallel, or the like")
    print(f"tools/campaign: run by {engine}", file=sys.stderr)
    folder.mkdir(parents=True, exist_ok=True)
    with open(folder / "lock", "w") as lock:
        try:
            fcntl.flock(lock, fcntl.LOCK_EX | fcntl.LOCK_NB)
        except BlockingIOError:
            raise BadArgument(f"FOLDER: another run works in {folder}") from None
        plan = new_plan(folder, seed, engine.name, asked.get("--generator"), bus,
                        asked.get("--unit"))
        plan = kept_plan(folder, plan, asked)
        count = min(count, len(plan.files)) if plan.files else count
        head = HEAD + (MORE if plan.bus else [])
        settle(folder, head)
        is_interrupted = run(folder, plan, count, engine, asked, lock)
        rows = settle(folder, head)
        missing = sum(1 for number in range(1, count + 1) if number not in rows)
        left = f"{missing} of {count} scenarios have no row yet: the same line again goes on"
        if is_interrupted:
            raise KeyboardInterrupt(f"interrupted; {left}")
        if missing:
            raise NoScenario(left)
        return tell(folder, plan)


def print_scenario(folder: Path, text: str) -> int:
    """Prints the scenario of a row."""
    plan = plan_of(folder)
    number = number_in("NUMBER", text, 1, len(plan.files) or None)
    _, kind, source = plan.item(folder, number).split(" ", 2)
    sys.stdout.buffer.write(text_of(kind, source))
    return 0


def main(words: List[str]) -> int:
    """tools/campaign with these words; its status."""
    if {"--help", "-h"} & set(words):
        print(HELP)
        return 0
    asked = asked_in(words)
    unit_in(asked.get("--unit"))
    jobs_in(asked)
    if len(asked.words) < 2:
        name = "COUNT (or summary, or scenario)" if asked.words else "FOLDER"
        raise BadArgument(f"{name} is missing; --help says more")
    folder, *rest = Path(asked.words[0]), *asked.words[1:]
    if folder.exists() and not folder.is_dir():
        raise BadArgument(f"FOLDER: {folder} is no folder")
    known = {"summary": 1, "scenario": 2}.get(rest[0])
    if known and len(rest) > known:
        raise BadArgument(f"{rest[known]} is one word too many behind {' '.join(rest[:known])}")
    if rest == ["summary"]:
        plan = plan_of(folder)
        return tell(folder, replace(plan, unit=asked.get("--unit") or plan.unit))
    if rest[:1] == ["scenario"]:
        if not rest[1:]:
            raise BadArgument("NUMBER is missing: which row's scenario is to be printed")
        return print_scenario(folder, rest[1])
    count = number_in("COUNT", rest[0], 1)
    if not rest[1:]:
        raise BadArgument("SEED is missing behind COUNT")
    return campaign(folder, count, number_in("SEED", rest[1], 0), asked)
