"""Runs the programs' words for somebody at a terminal: reads the input once, finds an engine or
builds one, and says on standard error what ran and what its status means.

The status is that of the program only if the program answered, with the last line that its output
has to have; whatever else happens has a status of its own (`robus.tool`)."""
from __future__ import annotations

import argparse
import os
import re
import sys
import threading
from contextlib import contextmanager
from dataclasses import dataclass
from typing import Iterator, List, Optional, Tuple

from robus import engines, quick
from robus.answers import fault_in, tail_of
from robus.arguments import number_in
from robus.calls import answer
from robus.engines import Engine, Quick, Tried, Which
from robus.errors import BadArgument, Failed, NoEngine
from robus.scenario import Scenario
from robus.tool import ENGINE_HELP, NOT_WRITTEN, NotWritten, Parser, drop_output, input_of
from robus.words import (FORMS, PROGRAMS, SCENARIO_WORDS, count_of, meaning, misused, reads,
                         with_file, wrong_in)

HELP = """Runs one of these words, writes what its program writes, and ends with the status of the
program. For bridge the program is robus_bridge, for picture robus_picture, and else robus. FILE is
what the program reads; without FILE, or if it is -, that is standard input. Standard error says
what ran and what the status means.

    run FILE, check FILE, letters FILE, record NODE FILE, group most MASK FILE, group mid MASK FILE
    replay LOG, listen SKIP LOG, gen SEED FRAMES, stress SEED FRAMES, spell HEX
    bridge FILE, picture REPORT, picture FIRST LAST REPORT

These are the words of python3 -m robus, and docs/robus.md explains them. tools/run FILE is the
word `run` alone, and tools/bridge FILE the word `bridge`. A proved program is run if one is up to
date. Else an unproved build is run; if none is kept yet, it is made with the Rattle kit, in up to
two minutes. Without the kit tools/model is run, the second model of the bus, if it has the word.

status: that of the program, 2 wrong words or no such file, 70 there was no answer"""
DRAW_HELP = """Draws the run of a scenario, or the frames FIRST to LAST of it, as an SVG on standard
output.

    tools/picture SCENARIO [FIRST LAST]
    tools/picture examples/late_onset.toml 1 2 > run.svg

status: 0 done, even if the run ended with a breach, 2 wrong words or no such file, 3 the scenario
is refused, 70 there was no answer"""
PAGES = ("--help", "-h", "--version")
BRIDGE = re.compile(rb'^[ \t]*"?bridges"?[ \t]*=', re.MULTILINE)
ONE_BUS = re.compile(rb'^[ \t]*"?biu"?[ \t]*=', re.MULTILINE)
SLOW = ("still running: an unproved build takes hundreds of times as long as the program of "
        "'make build'")


@dataclass(frozen=True)
class Call:
    """What is to be run: the word of `robus.words`, the program's own words, the input (None for
    standard input), the name of the file, and the tool that runs it."""

    tool: str
    word: str
    words: List[str]
    data: Optional[bytes] = None
    file: Optional[str] = None

    @property
    def program(self) -> str:
        """The program that has the words."""
        return PROGRAMS.get(self.word, "robus")


def say(tool: str, what: str) -> None:
    """A line on standard error."""
    print(f"{tool}: {what}", file=sys.stderr, flush=True)


def built(program: str) -> Optional[Engine]:
    """An unproved build of the program, made now if none is kept; None if none can be made."""
    if not quick.is_there():
        return None
    robus = quick.program_of("robus")
    if robus is None or quick.program_of(program) is None:
        return Tried()
    return Quick(str(robus))


def engine_for(words: List[str], program: str, asked: Which = None) -> Engine:
    """The engine that is asked for; else a program as it was proved, a library, an unproved build,
    or the second model."""
    wanted = asked or os.environ.get("ROBUS_ENGINE")
    if wanted and wanted != Quick.name:
        return engines.choose(words, wanted, program)
    for find in () if wanted else (engines.program, engines.library):
        found = find()
        if found is not None and found.has(words, program):
            return found
    found = built(program)
    if found is None and wanted:
        raise NoEngine(quick.NO_KIT)
    return found or engines.choose(words, None, program)


class Output:
    """Standard output, of which the end is kept."""

    def __init__(self) -> None:
        self.tail = b""

    def write(self, piece: bytes) -> None:
        """Writes a piece at once."""
        sys.stdout.buffer.write(piece)
        sys.stdout.buffer.flush()
        self.tail = tail_of(self.tail, piece)


@contextmanager
def patience(tool: str, engine: Engine) -> Iterator[None]:
    """Says at a terminal that a run by an unproved build is slow, after ten seconds."""
    timer = threading.Timer(10, say, (tool, SLOW))
    timer.daemon = True
    if isinstance(engine, Quick) and sys.stderr.isatty():
        timer.start()
    try:
        yield
    finally:
        timer.cancel()


def run(call: Call, asked: Which = None, known: Optional[Engine] = None) -> int:
    """Runs a call, writes its output, and tells how it ended; its status. `known` is the engine
    that was named already."""
    engine = engine_for(call.words, call.program, asked)
    if engine != known:
        say(call.tool, f"run by {engine}")
    output = Output()
    data = call.data if reads(call.word) else b""
    try:
        with patience(call.tool, engine):
            status = engine.stream(call.words, data, output.write, call.program)
    except NotWritten as fault:
        if not fault.is_closed_pipe:
            raise
        # The reader had enough, and the run is not known to have ended
        drop_output()
        return NOT_WRITTEN
    why = fault_in(call.words, call.program, status, output.tail)
    if why:
        raise Failed(tuple(call.words), status, f"{why} ({engine})")
    if status == 2:
        raise BadArgument(misused(call.tool, call.words, is_file(call.words)))
    told = meaning(call.word, status, call.file)
    if told:
        say(call.tool, f"status {status}: {told}")
    return status


def is_file(words: List[str]) -> bool:
    """Whether the last word is a file, which was meant to be read."""
    return bool(words) and os.path.isfile(words[-1])


def refuse_other_kind(word: str, data: bytes, file: str) -> None:
    """Raises BadArgument if a bridge is run as one bus, or one bus as a bridge."""
    if word in SCENARIO_WORDS and BRIDGE.search(data):
        raise BadArgument(f"{file} is a bridge of two buses: make bridge SCENARIO={file} runs it")
    if word == "bridge" and not BRIDGE.search(data) and ONE_BUS.search(data):
        raise BadArgument(f"{file} is a scenario of one bus: make run SCENARIO={file} runs it")


def main(words: List[str]) -> int:
    """`python3 -m robus WORD ..`, tools/run and tools/bridge; the status."""
    word = words[0]
    tool = f"tools/{word}" if word in ("run", "bridge") else f"robus {word}"
    form = FORMS[word][0] + " [FILE]" * reads(word)
    parser = Parser(tool, HELP, f"{tool}{form[len(word):]} [--engine ENGINE]")
    parser.add_argument("words", nargs="*", help=argparse.SUPPRESS)
    parser.add_argument("--engine", help=ENGINE_HELP)
    asked = parser.parse_args(words[1:])
    count = count_of(word, len(asked.words))
    wrong = wrong_in([word, *asked.words], reads(word))
    if wrong:
        raise BadArgument(wrong)
    own, rest = asked.words[:count], asked.words[count:]
    file = rest[0] if rest else "-"
    if reads(word) and not rest and sys.stdin is not None and sys.stdin.isatty():
        raise BadArgument(f"FILE is missing: the words are '{form}'")
    data = input_of(file) if reads(word) else b""
    name = "standard input" if file == "-" else file
    refuse_other_kind(word, data, name)
    call = {"bridge": ["run"], "picture": own}.get(word, [word, *own])
    return run(Call(tool, word, call, data, None if file == "-" else file), asked.engine)


def call_of(tool: str, program: str, words: List[str]) -> Call:
    """The call of a program with its own words, and with standard input as its input."""
    word = {own: word for word, own in PROGRAMS.items()}.get(program, (words or [""])[0])
    return Call(tool, word, words)


def robus(words: List[str]) -> int:
    """tools/robus with these words; the status. A file behind them is read in place of standard
    input."""
    if not words:
        raise BadArgument("WORDS are missing, as in tools/robus run SCENARIO; "
                          "tools/robus --help lists them")
    own, file = with_file(words)
    is_word = words[0] in FORMS and words[0] not in PROGRAMS
    if words[0] not in PAGES and not is_word or is_word and wrong_in(words, reads(words[0])):
        raise BadArgument(misused("tools/robus", words, is_file(words)))
    if file is None:
        return run(call_of("tools/robus", "robus", own))
    data = input_of(file)
    refuse_other_kind(own[0], data, "standard input" if file == "-" else file)
    return run(Call("tools/robus", own[0], own, data, None if file == "-" else file))


def report_of(file: str, data: bytes, asked: Which) -> Tuple[bytes, Engine]:
    """The report of a scenario's run, and what ran it; Refused, or Failed, if there is none."""
    name = "standard input" if file == "-" else file
    refuse_other_kind("run", data, name)
    engine = engine_for(["run"], "robus", asked)
    say("tools/picture", f"run by {engine}")
    with patience("tools/picture", engine):
        return answer(engine, ["run"], data, scenario=Scenario(data, name)).output, engine


def frames_in(words: List[str], report: bytes) -> List[str]:
    """The words FIRST and LAST, if the run has these frames."""
    ending = report.decode().splitlines()[-1].split()
    last = int(ending[1])
    first = number_in("FIRST", words[0], 0, last)
    return [str(first), str(number_in("LAST", words[1], first, last))]


def draw(words: List[str]) -> int:
    """tools/picture with these words; the status."""
    parser = Parser("tools/picture", DRAW_HELP)
    parser.add_argument("scenario", metavar="SCENARIO", help="a file, or - for standard input")
    parser.add_argument("frames", nargs="*", default=[], metavar="FIRST LAST")
    parser.add_argument("--engine", help=ENGINE_HELP)
    asked = parser.parse_args(words)
    if len(asked.frames) == 1:
        raise BadArgument("LAST is missing: FIRST and LAST are the numbers of two frames")
    if len(asked.frames) > 2:
        raise BadArgument(f"{asked.frames[2]} is one word too many behind FIRST and LAST")
    report, engine = report_of(asked.scenario, input_of(asked.scenario), asked.engine)
    frames = frames_in(asked.frames, report) if asked.frames else []
    return run(Call("tools/picture", "picture", frames, report), asked.engine, engine)
