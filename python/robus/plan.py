"""The seven inequalities of a timing plan, what they leave over, and the least plan of a bus."""
from __future__ import annotations

import argparse
import re
from dataclasses import fields, replace

from robus import forms, ranges, syntax
from robus.errors import BadArgument
from robus.laws import RAISE
from robus.model import TooLong, model
from robus.tool import Parser, input_of
from robus.units import DataSheet, Unit, behind, delays, drift, duration, tick_of_rate, time_text

HELP = """Prints the seven inequalities of a scenario's timing plan, or of the least plan for a bus
of the given sizes. It prints both sides of each, what is left over, and for one that fails which
number to raise; then the least plan for the same sizes, drift and delays. It evaluates the
inequalities of docs/RULES.md in Python and is not proved: robus check and robus run decide whether
a plan is accepted.

    tools/plan SCENARIO [--unit U]
    tools/plan --biu N --rmu N --slots N [--u N] [--r N] [--dmin N] [--dmax N] [--c N] [--unit U]
    tools/plan --biu N --rmu N --slots N --tick TIME --drift SHARE --delay TIME..TIME [--c N]

A TIME is a number with its unit, for example 1us. --rate 1MHz means the same as --tick 1us. SHARE
is by how much of its length a tick may be longer or shorter, for example 50ppm. From these the tool
chooses the reference unit, the finest power of ten of a second for which all numbers are in range,
and prints it. U is the length of a reference unit, for example 1ps; with --unit the tool prints
times in seconds beside those in units.

status: 0 the plan holds, 1 it fails or there is none, 2 wrong words or no such file, 3 a size is
missing, or a size or a number of the plan is out of range, 4 the scenario is too long"""

MEANING = {
    1: "a message does not come before its window, up to stage 1 of the sync slot",
    2: "nor after its last tick",
    3: "the same in stage 2 of the sync slot",
    4: "nor after its last tick",
    5: "the same in stage 3",
    6: "nor after its last tick",
    7: "the next frame begins within p too",
}
MOST = 1000
SIZES = "biu", "rmu", "slots"
NUMBERS = "u", "r", "dmin", "dmax", "c"
SHEET = "tick", "drift", "delay"
# What is an option here, where it is a key of a scenario elsewhere
OPTION = re.compile(rf"\b(?:{'|'.join(SIZES + NUMBERS)})\b")


def up(top: int, below: int) -> int:
    """A quotient, rounded up."""
    return -(-top // below)


def raised(bus: model.Bus) -> model.Plan:
    """The plan with each of p, h, l, v and z raised to what its inequalities ask for beside the
    other numbers."""
    q = bus.plan
    short, long, drift = q.u - q.r, q.u + q.r, 2 * q.r
    p = max(q.p, model.sides_of(bus)[6][1])
    sent = 3 * bus.sync * q.l + q.h
    h = max(q.h, up(p + drift * sent - q.dmin, short),
            up(p + drift * (sent + q.l) - 2 * q.dmin, long),
            up(p + drift * (sent + q.l + q.v) - 3 * q.dmin, long))
    l = max(q.l, 1 + h + up(p + q.dmax + drift * sent, short))
    v = max(q.v, 1 + h + up(p + 2 * q.dmax + long + drift * (sent + q.l), short))
    z = max(q.z, 1 + h + up(p + 3 * q.dmax + 2 * long + drift * (sent + q.l + q.v), short))
    return replace(q, p=p, h=h, l=l, v=v, z=z)


def least(bus: model.Bus) -> model.Plan | None:
    """The least plan for the sizes of a bus and the u, r, dmin, dmax and c of its plan; None if a
    number leaves its range.

    What an inequality asks of one number only grows with the others, so raising from the lowest
    numbers stops at the least plan that holds: no number of any plan that holds is below its
    number."""
    plan = replace(bus.plan, p=0, h=1, l=1, v=1, z=1)
    while True:
        if max(plan.h, plan.l, plan.v, plan.z) > MOST or plan.p > 10**9:
            return None
        higher = raised(replace(bus, plan=plan))
        if higher == plan:
            return plan
        plan = higher


def ticks_of_frame(bus: model.Bus) -> int:
    """The ticks of a frame, with the longest tail."""
    last = bus.windows()[-1]
    return last.first + last.length


def table(bus: model.Bus, unit: Unit | None = None) -> list[str]:
    """The seven inequalities as lines: both sides and what is left over, in reference units, and
    what each is for."""
    rows = []
    for number, (left, right) in enumerate(model.sides_of(bus), 1):
        spare = f"{left - right}{behind(unit, left - right)}"
        mark = "" if left >= right else f"   FAILS: raise {RAISE[number]}"
        rows.append((f"C{number}   {left:<14d} {right:<14d} ", spare, MEANING[number] + mark))
    wide = max(10, *(len(spare) for _, spare, _ in rows))
    return ["     left           at least       left over"] + [
        f"{sides}{spare:<{wide}} {what}" for sides, spare, what in rows]


def spelt(plan: model.Plan) -> str:
    """A plan as a line of a scenario, without what is the default."""
    values = ((it.name, getattr(plan, it.name), it.default) for it in fields(plan))
    rest = [f"{name} = {value}" for name, value, default in values if value != default]
    return f"plan = {{ {', '.join(rest)} }}" if rest else "plan = { }"


def bus_of(path: str) -> model.Bus | None:
    """The bus of a scenario with its plan, whether it is feasible or not; None if sizes or plan are
    not within their ranges."""
    data = input_of(path)
    if len(data) > model.SCENARIO_LIMIT:
        raise TooLong
    if syntax.fault_of(data):
        model.refuse(1)
    values = ranges.Values(model.read_toml(data))
    if values.sync is None or values.plan is None:
        return None
    return model.Bus(values.biu, values.rmu, values.slots, values.plan)


def sizes_in(asked: argparse.Namespace) -> model.Bus:
    """The bus of the sizes and numbers that are asked for; BadArgument if there is none."""
    given = {key: getattr(asked, key) for key in NUMBERS if getattr(asked, key) is not None}
    plan = replace(model.Plan(), **given)
    document = {"biu": asked.biu, "rmu": asked.rmu, "slots": asked.slots, "frames": 1,
                "plan": {it.name: getattr(plan, it.name) for it in fields(plan)}}
    values = ranges.Values(document)
    for _, _, why in ranges.findings(values):
        raise BadArgument(OPTION.sub(r"--\g<0>", why))
    return model.Bus(asked.biu, asked.rmu, asked.slots, plan)


def parser_of_words() -> argparse.ArgumentParser:
    """What reads the words of tools/plan."""
    parser = Parser("tools/plan", HELP, argparse.SUPPRESS)
    parser.add_argument("scenario", nargs="?", metavar="SCENARIO",
                        help="a file, or - for standard input")
    for key in SIZES:
        parser.add_argument("--" + key, type=int, help=forms.TABLES["root"][key][1])
    for key in NUMBERS:
        what, default = forms.TABLES["plan"][key][1], getattr(model.Plan(), key)
        parser.add_argument("--" + key, type=int, help=f"{what}; {default} if it is not given")
    parser.add_argument("--unit", type=Unit.of, help="the time of a reference unit, as 1ps")
    parser.add_argument("--tick", type=duration, help="the length of a tick, as 1us")
    parser.add_argument("--rate", dest="tick", type=tick_of_rate, help="ticks per second, as 1MHz")
    parser.add_argument("--drift", type=drift, help="how much longer or shorter a tick may be, "
                        "as 50ppm")
    parser.add_argument("--delay", type=delays, help="the range of delays, as 2us..9us")
    return parser


def why_wrong(asked: argparse.Namespace) -> str | None:
    """Why the words do not fit together, or None."""
    sheet = [key for key in SHEET if getattr(asked, key) is not None]
    numbers = [key for key in (*SIZES, *NUMBERS) if getattr(asked, key) is not None]
    if asked.scenario is not None and numbers + sheet:
        return f"a scenario has its own sizes and plan, and --{(numbers + sheet)[0]} is for none"
    if asked.scenario is None and None in (asked.biu, asked.rmu, asked.slots):
        if not numbers + sheet:
            return "SCENARIO is missing, or --biu, --rmu and --slots; --help says more"
        missing = next(key for key in SIZES if getattr(asked, key) is None)
        return f"--{missing} is missing; --biu, --rmu and --slots are wanted together"
    beside = [key for key in ("u", "r", "dmin", "dmax", "unit") if getattr(asked, key) is not None]
    if sheet and beside:
        return f"--{sheet[0]} chooses u, r, dmin, dmax and the unit, and --{beside[0]} fixes one"
    if sheet and len(sheet) < len(SHEET):
        missing = next(key for key in SHEET if key not in sheet)
        return f"--{missing} is missing; --tick or --rate, --drift and --delay are wanted together"
    return None


def main(words: list[str]) -> int:
    """tools/plan with these words; its status."""
    parser = parser_of_words()
    asked = parser.parse_args(words)
    why = why_wrong(asked)
    if why:
        raise BadArgument(why)
    if asked.scenario is not None:
        return of_scenario(parser, asked.scenario, asked.unit)
    if asked.tick is not None:
        sheet = DataSheet(asked.tick, asked.drift, asked.delay)
        vars(asked).update(sheet.numbers(), unit=sheet.unit())
        print(f"the reference unit is {asked.unit}: {asked.u} units are a tick of "
              f"{time_text(sheet.tick)}")
    return tell(sizes_in(asked), None, asked.unit)


def of_scenario(parser: argparse.ArgumentParser, path: str, unit: Unit | None) -> int:
    """Prints the table of a scenario's plan; the status."""
    try:
        bus = bus_of(path)
    except model.Refused as refusal:
        parser.exit(3, f"tools/plan: {path}: {refusal}; tools/lint says where and why\n")
    except TooLong:
        parser.exit(4, f"tools/plan: {path} is longer than {model.SCENARIO_LIMIT} bytes\n")
    if bus is None:
        parser.exit(3, f"tools/plan: {path} says no sizes or no plan within their ranges; "
                    "tools/lint says where\n")
    return tell(bus, bus.plan, unit)


def frame_text(bus: model.Bus, unit: Unit | None) -> str:
    """How long a frame is at most."""
    ticks = ticks_of_frame(bus)
    return f"{ticks} ticks, {ticks * bus.plan.u} units of time{behind(unit, ticks * bus.plan.u)}"


def tell(bus: model.Bus, plan: model.Plan | None, unit: Unit | None = None) -> int:
    """Prints the table of the plan, or of the least one if none is given; the status."""
    low = least(bus)
    print(f"{bus.biu} BIUs, {bus.rmu} RMUs, {bus.slots} data slots: the sync slot is {bus.sync}")
    if plan is None and low is None:
        print(f"no plan holds: a window would be longer than {MOST} ticks, or p above 1000000000. "
              "Let u be greater, or r or dmax smaller")
        return 1
    shown = replace(bus, plan=plan or low)
    print("\n".join(["", spelt(shown.plan), ""] + table(shown, unit)))
    print(f"\na frame has at most {frame_text(shown, unit)}")
    if unit is not None:
        print(f"good nodes begin a frame at most {shown.plan.p} units{behind(unit, shown.plan.p)} "
              "apart")
    holds = model.first_failing(shown) is None
    if plan is not None:
        print("the plan holds" if holds else
              f"the plan fails: inequality {model.first_failing(shown)} is the first")
        if low is None:
            print("no plan holds for these sizes, drift and delays")
        else:
            ticks = ticks_of_frame(replace(bus, plan=low))
            print(f"least plan for these sizes, drift and delays: {spelt(low)} (a frame of at most "
                  f"{ticks} ticks)")
    return 0 if holds else 1
