"""Runs of a scenario with other values at some of its keys."""
from __future__ import annotations

import csv
import math
import re
import sys
from collections import deque
from concurrent.futures import Future, ThreadPoolExecutor
from dataclasses import dataclass, fields
from typing import Any, Collection, Deque, Dict, Iterable, Iterator, List, Mapping, TextIO

from robus import arguments, toml
from robus.arguments import shown
from robus.engines import Engine, Which, choose
from robus.errors import BadArgument, Failed
from robus.rows import cell
from robus.scenario import Scenario, Source, parts_of, scenario_of
from robus.summary import Summary, summary_of_output
from robus.tool import ENGINE_HELP, Parser, input_of

HELP = """Runs a scenario with each choice of values at some of its keys, and writes a row of CSV
for each run as it ends: the values, how the run ended, whom good nodes convicted, the spread in
reference units, how many deliveries there were and how many of them were none. It is not proved.
Standard error says what runs the bus.

    tools/sweep SCENARIO KEY=VALUES..

KEY is a place in the scenario, as frames, plan.p or fault[0].slot. Entries count from 0, and [*]
means every entry, as in say[*].from. If KEY is several keys with commas between them, all of them
get the same value. VALUES are a range, as 0..15, values with commas between them, as 1,5,9 or
B0,R2, or an array of TOML, as '[[1, 2], [3, 4]]'. If there are several KEY=VALUES, each combination
of their values is run.

    tools/sweep examples/late_onset.toml 'fault[0].slot=0..13'
    tools/sweep examples/late_onset.toml 'fault[0].node=B2,R2' 'fault[0].frame=0..2' --workers 4
    tools/sweep examples/symmetric_liar.toml 'fault[0].node,say[*].from=R0,R1,R2'

status: 0 done, however the runs ended, 2 wrong words or no such file, 3 the scenario is no TOML, 70
a run gave no report; the rows before it are written"""
COLUMNS = [it.name for it in fields(Summary)]
MOST_WORKERS, MOST_DIGITS = 1024, 18
# The values by their keys: what is swept, and one choice of it
Values = Mapping[str, Iterable[Any]]
Choice = Dict[str, Any]


@dataclass(frozen=True)
class SweepRow:
    """A run of a sweep: the values that stood at the changed keys, and the run in a line. A
    scenario that is refused has a row too, with status 3 and the rule as its cause."""

    changes: Dict[str, Any]
    summary: Summary


def values_of(given: Any) -> Dict[str, Collection[Any]]:
    """The values of a sweep, as collections of which there is no empty one."""
    if not isinstance(given, Mapping) or not given:
        raise BadArgument(f"values: {shown(given)} is no dict of paths and values, as "
                          "{'fault[0].slot': range(16)}")
    found: Dict[str, Collection[Any]] = {}
    for key, values in given.items():
        for path in keys_in(key):
            parts_of(path, "values")
        if isinstance(values, (str, bytes, Mapping)) or not isinstance(values, Iterable):
            raise BadArgument(f"values: {key}: {shown(values)} is no list and no range of values")
        found[key] = values if isinstance(values, (range, list, tuple)) else list(values)
        if not found[key]:
            raise BadArgument(f"values: {key}: {shown(values)} has no value")
    return found


def keys_in(key: Any) -> List[str]:
    """The paths that a key of a sweep names, with commas between them."""
    if not isinstance(key, str):
        raise BadArgument(f"values: {shown(key)} is no path; one is as fault[0].slot")
    return key.split(",")


def choices_of(values: Mapping[str, Collection[Any]]) -> Iterator[Choice]:
    """Each choice of values, the last key changing fastest."""
    if not values:
        yield {}
        return
    first, *rest = values
    for value in values[first]:
        for others in choices_of({key: values[key] for key in rest}):
            yield {first: value, **others}


def changed_by(scenario: Scenario, choice: Choice) -> Scenario:
    """The scenario with a choice of values."""
    changes = {path: value for key, value in choice.items() for path in keys_in(key)}
    return scenario.changed(changes, "values", "values")


def row_of(engine: Engine, scenario: Scenario, choice: Choice) -> SweepRow:
    """The row of the scenario that a choice of values makes."""
    found = engine.call(["run"], changed_by(scenario, choice).text)
    if found.status not in (0, 1, 3):
        raise Failed(("run",), found.status)
    try:
        return SweepRow(choice, summary_of_output(found.status, found.output))
    except ValueError as fault:
        raise Failed(("run",), found.status, f"but it wrote no report: {fault}") from None


def rows_of(scenario: Scenario, values: Mapping[str, Collection[Any]], engine: Engine,
            workers: int) -> Iterator[SweepRow]:
    """A row for each choice, in their order, each as soon as its run and those before it are
    over. Runs that are under way when the caller leaves are not waited for."""
    pool = ThreadPoolExecutor(workers)
    waiting: Deque[Future[SweepRow]] = deque()
    try:
        for choice in choices_of(values):
            waiting.append(pool.submit(row_of, engine, scenario, choice))
            if len(waiting) >= 2 * workers:
                yield waiting.popleft().result()
        while waiting:
            yield waiting.popleft().result()
    finally:
        for it in waiting:
            it.cancel()
        pool.shutdown(wait=False)


def sweep(scenario: Source, values: Values, *, engine: Which = None, workers: int = 1
          ) -> List[SweepRow]:
    """Runs the scenario with each choice of the values, as {"fault[0].slot": range(16)}, and gives
    a row for each, in the order of the values. With several keys each value of one is taken with
    each of the others; "a,b" are two paths that are given the same value.

    `workers` runs are under way at a time, which helps if a library or a program runs them. Failed
    is raised if a run gives neither a report nor a refusal."""
    workers = arguments.integer("workers", workers, 1, MOST_WORKERS)
    given, wanted = scenario_of(scenario), values_of(values)
    return list(rows_of(given, wanted, choose(["run"], engine), workers))


def value_cell(value: Any) -> Any:
    """A changed value as CSV has it: arrays and tables as TOML."""
    return toml.value_text(value) if isinstance(value, (list, tuple, dict)) else value


def write_csv(keys: List[str], rows: Iterable[SweepRow], count: int, file: TextIO) -> None:
    """Writes the rows as CSV, each as it comes: the changed keys, then the columns of a summary.
    At a terminal standard error is told how many of them there are."""
    out = csv.writer(file, lineterminator="\n")
    out.writerow(keys + COLUMNS)
    for number, row in enumerate(rows, 1):
        summary = [cell(getattr(row.summary, name)) for name in COLUMNS]
        out.writerow([value_cell(row.changes[key]) for key in keys] + summary)
        file.flush()
        if sys.stderr.isatty():
            print(f"\r{number} of {count} ", end="", file=sys.stderr)
    if sys.stderr.isatty():
        print(file=sys.stderr)


def values_in(key: str, text: str) -> Collection[Any]:
    """The values that a word names: a range, an array of TOML, or values between commas."""
    found = re.fullmatch(r"(\d+)\.\.(\d+)", text, re.ASCII)
    if found:
        if max(map(len, found.groups())) > MOST_DIGITS:
            raise BadArgument(f"{key}: the numbers of a range have at most {MOST_DIGITS} digits")
        low, high = int(found[1]), int(found[2])
        if low > high:
            raise BadArgument(f"{key}: {text} is empty; a range has its lower end first")
        return range(low, high + 1)
    if text.startswith("["):
        try:
            return toml.loads(f"values = {text}\n".encode())["values"]
        except (ValueError, RecursionError) as fault:
            raise BadArgument(f"{key}: {shown(text)} is no array of TOML: {fault}") from None
    return [int(it) if re.fullmatch(r"-?\d{1,19}", it, re.ASCII) else it for it in text.split(",")]


def main(words: List[str]) -> int:
    """tools/sweep with these words; its status."""
    parser = Parser("tools/sweep", HELP)
    parser.add_argument("scenario", metavar="SCENARIO", help="a file, or - for standard input")
    parser.add_argument("values", nargs="+", metavar="KEY=VALUES")
    parser.add_argument("--engine", help=ENGINE_HELP)
    parser.add_argument("--workers", type=int, default=1, help="how many runs at a time")
    asked = parser.parse_args(words)
    scenario = Scenario(input_of(asked.scenario), asked.scenario)
    given: Dict[str, Collection[Any]] = {}
    for word in asked.values:
        key, is_there, text = word.partition("=")
        if not is_there or not key:
            raise BadArgument(f"{word} is not as KEY=VALUES")
        if not text:
            raise BadArgument(f"{key}: no value is behind the =")
        given[key] = values_in(key, text)
    workers = arguments.integer("--workers", asked.workers, 1, MOST_WORKERS)
    values, engine = values_of(given), choose(["run"], asked.engine)
    changed_by(scenario, next(choices_of(values)))
    print(f"tools/sweep: run by {engine}", file=sys.stderr)
    count = math.prod(map(len, values.values()))
    write_csv(list(values), rows_of(scenario, values, engine, workers), count, sys.stdout)
    return 0
