"""The program: its words, and what it answers."""
from __future__ import annotations

import re
import sys
from typing import BinaryIO, Callable

from .answers import Refused, refuse, text_of
from .generator import generated
from .inequalities import sides_of
from .logs import log_header, replay
from .names import Answer, LETTERS, LOG_LIMIT, Node, SCENARIO_LIMIT
from .reading import read_scenario
from .world import World


def do_run(text: bytes) -> Answer:
    """What `run` answers: the report of a scenario's run."""
    world = World(read_scenario(text)).run()
    return (1 if world.breach else 0), text_of(world.lines)


def do_check(text: bytes) -> Answer:
    """What `check` answers: both sides of the seven inequalities, in reference units."""
    sides = sides_of(read_scenario(text).bus)
    return 0, text_of(f"C{i} {left} {right}" for i, (left, right) in enumerate(sides, 1))


def do_record(text: bytes, node: Node) -> Answer:
    """What `record` answers: the log of a node."""
    scenario = read_scenario(text)
    if node[1] >= scenario.bus.size(node[0]):
        refuse(12)
    world = World(scenario, node).run()
    return (1 if world.breach else 0), log_header(scenario.bus, node) + world.recorder.end()


def do_stress(seed: int, frames: int) -> Answer:
    """What `stress` answers: four numbers of the generated scenario's run, or status 1 at a
    breach."""
    world = World(read_scenario(generated(seed, frames))).run()
    if world.breach:
        return 1, b""
    return 0, text_of(
        [
            f"frames {frames}",
            f"deliveries {world.deliveries}",
            f"convicted {sum(world.convicted)}",
            f"spread {world.spread}",
        ]
    )


def number_in(word: str, least: int, most: int) -> int | None:
    """The number that a word is; nothing if it is none, or out of the range."""
    if not re.fullmatch(r"0|[1-9][0-9]*", word, re.ASCII) or not least <= int(word) <= most:
        return None
    return int(word)


def call_of(words: list[str]) -> tuple[Callable[[bytes], Answer], int] | None:
    """What the words ask for: a function of the input, and how long this may be; nothing if they
    have no form."""
    match words:
        case ["run"]:
            return do_run, SCENARIO_LIMIT
        case ["check"]:
            return do_check, SCENARIO_LIMIT
        case ["record", name] if re.fullmatch(r"[BR]([0-9]|1[0-5])", name, re.ASCII):
            node = LETTERS.index(name[0]), int(name[1:])
            return lambda text: do_record(text, node), SCENARIO_LIMIT
        case ["replay"]:
            return lambda text: (0, text_of(replay(text))), LOG_LIMIT
        case ["gen" | "stress" as verb, seed, frames]:
            seed, frames = number_in(seed, 0, (1 << 64) - 1), number_in(frames, 1, 4096)
            if seed is None or frames is None:
                return None
            if verb == "gen":
                return lambda _: (0, generated(seed, frames)), 0
            return lambda _: do_stress(seed, frames), 0
    return None


def answer(words: list[str], stdin: BinaryIO) -> Answer:
    """The status, and what is written."""
    call = call_of(words)
    if call is None:
        return 2, b""
    action, limit = call
    text = stdin.read(limit + 1) if limit else b""
    if len(text) > limit:
        return 4, b""
    try:
        return action(text)
    except Refused as refusal:
        return 3, f"{refusal}\n".encode()


def main() -> None:
    """Answers the words of the command line, and ends with the answer's status."""
    status, text = answer(sys.argv[1:], sys.stdin.buffer)
    sys.stdout.buffer.write(text)
    sys.exit(status)
