"""The words of the programs as calls. Each raises BadArgument if an argument has a value that it
may not have, Refused if the input is refused, Failed if a program gives no result, and NoEngine if
nothing that is there can run it.

A scenario is a Scenario, the path of a file, a TOML document as bytes or as a str of several
lines, or a dict of its keys. `engine` is `library`, `program`, `quick`, `model`, a path, or an
Engine; without it the first of these four that is there runs the call."""
from __future__ import annotations

import os
from typing import Any, Iterable, List, Optional, Sequence, Type, TypeVar, Union

from robus import arguments
from robus.arguments import shown
from robus.engines import Answer, Engine, Which, choose
from robus.errors import BadArgument, Failed, Refused
from robus.results import (BridgeReport, Check, Groups, Letters, Log, Replay, Report, Result,
                           Stress)
from robus.rows import Refusal, row_of
from robus.scenario import Scenario, Source, scenario_of

R = TypeVar("R", bound=Result)
LogSource = Union[Log, bytes, str, os.PathLike]
MOST_SKIP = (1 << 31) - 1
MOST_SEED = (1 << 64) - 1
MOST_FRAMES = 4096


def refusal_in(line: str) -> Refusal:
    """The refusal that a line is."""
    row = row_of(line)
    assert isinstance(row, Refusal), line
    return row


def answer(engine: Engine, words: Sequence[str], data: bytes, *, program: str = "robus",
           scenario: Optional[Scenario] = None) -> Answer:
    """What an engine answers, if that is a result."""
    found = engine.call(words, data, program)
    if found.status == 3:
        refusal = refusal_in(found.output.decode("ascii", "replace").splitlines()[-1])
        text, file = (scenario.text, scenario.file) if scenario else (None, None)
        raise Refused(refusal, text, file)
    if found.status not in (0, 1):
        raise Failed(tuple(words), found.status)
    return found


def of_scenario(kind: Type[R], words: List[str], source: Source, which: Which) -> R:
    """The result of words that read a scenario."""
    scenario, engine = scenario_of(source), choose(words, which)
    found = answer(engine, words, scenario.text, scenario=scenario)
    return kind(engine, found.status, found.output)


def bytes_of(source: LogSource) -> bytes:
    """The bytes of a log."""
    if isinstance(source, Log):
        return source.data
    if isinstance(source, (bytes, bytearray, memoryview)):
        return bytes(source)
    if not isinstance(source, (str, os.PathLike)):
        raise BadArgument(f"log: {shown(source)} is no Log, no bytes and no path of a file")
    with open(arguments.path("log", source), "rb") as file:
        return file.read()


def mask_of(members: Iterable[str]) -> int:
    """The mask of a group of BIUs, which are named one by one."""
    if isinstance(members, (str, bytes)) or not isinstance(members, Iterable):
        raise BadArgument(f'members: {shown(members)} is no list of BIUs, as ["B0", "B1"]')
    numbers = {arguments.node("members", name, "B")[1] for name in members}
    if not numbers:
        raise BadArgument("members: a group has 1 to 16 BIUs, and none is named")
    return sum(1 << number for number in numbers)


def run(scenario: Source, *, engine: Which = None) -> Report:
    """Runs a scenario. A breach of the fault premise is no error: the report has it."""
    return of_scenario(Report, ["run"], scenario, engine)


def check(scenario: Source, *, engine: Which = None) -> Check:
    """Both sides of the seven inequalities of the scenario's timing plan, in reference units."""
    return of_scenario(Check, ["check"], scenario, engine)


def letters(scenario: Source, *, engine: Which = None) -> Letters:
    """Runs a scenario; the letters that its BIUs receive whole."""
    return of_scenario(Letters, ["letters"], scenario, engine)


def group(scenario: Source, how: str, members: Iterable[str], *, engine: Which = None) -> Groups:
    """Runs a scenario; what its good BIUs find for a group of BIUs, as ["B0", "B1", "B2"].

    `how` is `most`, the word of more than half of those that own a slot, or `mid`, the middle."""
    words = ["group", arguments.one_of("how", how, ("most", "mid")), str(mask_of(members))]
    return of_scenario(Groups, words, scenario, engine)


def record(scenario: Source, node: str, *, engine: Which = None) -> Log:
    """Runs a scenario; the log of all that one node, as `B0`, was given."""
    kind, number = arguments.node("node", node)
    given, words = scenario_of(scenario), ["record", f"{kind}{number}"]
    by = choose(words, engine)
    found = answer(by, words, given.text, scenario=given)
    return Log(by, found.status, found.output)


def replay(log: LogSource, *, engine: Which = None) -> Replay:
    """What the node of a log makes of it, without the rest of the bus."""
    data = bytes_of(log)
    by = choose(["replay"], engine)
    found = answer(by, ["replay"], data)
    return Replay(by, found.status, found.output)


def listen(log: LogSource, skip: int = 0, *, engine: Which = None) -> Replay:
    """What a passive listener makes of the log of a BIU from tick `skip` of the log on, which is
    tick 0 of its own."""
    words = ["listen", str(arguments.integer("skip", skip, 0, MOST_SKIP))]
    data = bytes_of(log)
    by = choose(words, engine)
    found = answer(by, words, data)
    return Replay(by, found.status, found.output)


def bridge(document: Source, *, engine: Which = None) -> BridgeReport:
    """Runs the two buses of a bridge (docs/robus_bridge.md); the words that cross between them."""
    given = scenario_of(document, "document")
    by = choose(["run"], engine, "robus_bridge")
    found = answer(by, ["run"], given.text, program="robus_bridge")
    return BridgeReport(by, found.status, found.output)


def seed_and_frames(seed: int, frames: int) -> List[str]:
    """The words of a generated scenario."""
    return [str(arguments.integer("seed", seed, 0, MOST_SEED)),
            str(arguments.integer("frames", frames, 1, MOST_FRAMES))]


def gen(seed: int, frames: int, *, engine: Which = None) -> Scenario:
    """A large scenario that the seed, 0 to 2^64 - 1, fixes, of 1 to 4096 frames."""
    words = ["gen", *seed_and_frames(seed, frames)]
    return Scenario.from_toml(answer(choose(words, engine), words, b"").output)


def stress(seed: int, frames: int, *, engine: Which = None) -> Stress:
    """Runs the scenario that `gen` gives; four numbers of its run. A breach raises Failed."""
    words = ["stress", *seed_and_frames(seed, frames)]
    by = choose(words, engine)
    found = answer(by, words, b"")
    if found.status != 0:
        raise Failed(tuple(words), found.status)
    return Stress(by, found.status, found.output)


def spell(letter: bytes, *, engine: Which = None) -> List[int]:
    """The words that spell a letter of 1 to 255 bytes."""
    words = ["spell", arguments.some_bytes("letter", letter, 1, 255).hex()]
    found = answer(choose(words, engine), words, b"")
    return [row_of(line).word for line in found.output.decode("ascii").splitlines()]


def explain(scenario: Source, frame: Optional[int] = None, slot: Optional[int] = None, *,
            words: Any = (), letters: Iterable[Any] = ()) -> str:
    """What tools/explain says: who broke the run and why nodes were convicted, or with a frame and
    a slot what each good node said, heard, took and voted there. `words` and `letters` are handed
    in, as by `simulate`. It runs the second model, and wants Python 3.11."""
    from robus.explanation import explanation_of
    from robus.model import TooLong, model, read
    from robus.simulation import hands_of

    given = scenario_of(scenario)
    for name, value in (("frame", frame), ("slot", slot)):
        if value is not None:
            arguments.integer(name, value, 0, MOST_FRAMES)
    try:
        found = read(given.text)
    except model.Refused as refusal:
        raise Refused(refusal_in(str(refusal)), given.text, given.file) from None
    except TooLong:
        raise Failed(("explain",), 4) from None
    return explanation_of(found, frame, slot, hands=hands_of(given, words, letters))
