"""Writes what happened on the links of a run as files for Wireshark and GTKWave."""
from __future__ import annotations

import argparse
import re
from pathlib import Path

from robus import pcap
from robus.errors import BadArgument
from robus.runner import engine_for, patience, refuse_other_kind, say
from robus.scenario import Scenario
from robus.tool import ENGINE_HELP, Parser, input_of
from robus.trace_messages import Run
from robus.units import Unit
from robus.vcd import Waves

HELP = """Writes what happened on the links of a run: the messages that good nodes received for
Wireshark (--pcap), and what the nodes said, heard, delivered and accused for GTKWave (--vcd), with
a save file of the same name that ends with .gtkw. docs/TRACES.md shows both, and how to find a
liar in them.

    tools/trace examples/two_sided.toml --pcap run.pcapng
    tools/trace examples/two_sided.toml --vcd run.vcd

The messages are read from the logs that a program writes for the nodes: the proved program, if it
is up to date. All else in a --vcd is computed by tools/model, a second model of the bus. If its
report differs from the program's, nothing is written. This tool itself is not proved.

status: 0 done, 1 done and the run ended with a breach, 2 wrong words or no such file, 3 the
scenario is refused, 70 there was no answer"""


def frames_in(text: str | None, run: Run) -> range:
    """The frames that FIRST:LAST asks for; all without a text."""
    breach = run.report.breach
    most = breach.frame if breach else run.scenario.frames - 1
    if text is None:
        return range(most + 1)
    found = re.fullmatch(r"(\d{1,4})(?::(\d{1,4}))?", text, re.ASCII)
    first, last = (int(found[1]), int(found[2] or found[1])) if found else (1, 0)
    if not first <= last <= most:
        raise BadArgument(f"--frames: {text!r} is no FIRST:LAST of the run's frames, 0:{most}")
    return range(first, last + 1)


def parser_of(tool: str, page: str) -> Parser:
    """A parser of what tools/trace and tools/view have in common."""
    parser = Parser(tool, page)
    parser.add_argument("scenario", metavar="SCENARIO", help="a file, or - for standard input")
    parser.add_argument("--frames", metavar="FIRST:LAST", help="these frames of the run alone")
    parser.add_argument("--unit", type=Unit.of, help="the time of a reference unit, as 1ps")
    parser.add_argument("--engine", help=ENGINE_HELP)
    return parser


def run_of(tool: str, asked: argparse.Namespace) -> Run:
    """The run of the scenario that is asked for."""
    data = input_of(asked.scenario)
    name = "standard input" if asked.scenario == "-" else asked.scenario
    refuse_other_kind("run", data, name)
    engine = engine_for(["run"], "robus", asked.engine)
    say(tool, f"run by {engine}")
    with patience(tool, engine):
        return Run.of(engine, Scenario(data, name))


def save_file_of(path: Path) -> Path:
    """The save file of GTKWave beside a value change dump."""
    if not path.name or path.suffix == ".gtkw":
        raise BadArgument(f"--vcd: {path} is no name of a dump; one ends with .vcd")
    return path.with_suffix(".gtkw")


def write_waves(path: Path, save: Path, waves: Waves, unit: Unit | None) -> None:
    """Writes a value change dump and its save file."""
    path.write_text("".join(f"{it}\n" for it in waves.lines(unit)), "ascii", "replace")
    save.write_text("".join(f"{it}\n" for it in waves.save_file(path.name, unit)), "utf-8")


def main(words: list[str]) -> int:
    """tools/trace with these words; its status."""
    parser = parser_of("tools/trace", HELP)
    parser.add_argument("--pcap", metavar="FILE", help="a capture for Wireshark, of form pcapng")
    parser.add_argument("--vcd", metavar="FILE", help="waves for GTKWave, and FILE's save file")
    asked = parser.parse_args(words)
    if asked.pcap is None and asked.vcd is None:
        raise BadArgument("--pcap FILE or --vcd FILE is wanted; --help says more")
    save = None if asked.vcd is None else save_file_of(Path(asked.vcd))
    run = run_of("tools/trace", asked)
    frames = frames_in(asked.frames, run)
    with patience("tools/trace", run.engine):
        if save is not None:
            write_waves(Path(asked.vcd), save, Waves.of(run, frames), asked.unit)
        if asked.pcap is not None:
            Path(asked.pcap).write_bytes(pcap.capture(run, frames, asked.unit))
    return run.report.status
