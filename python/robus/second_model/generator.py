"""The scenario that a seed fixes."""
from __future__ import annotations

from typing import Iterator

from .answers import text_of
from .bus import Bus
from .names import BIU, RMU, name_of


def drawn(seed: int) -> Iterator[int]:
    """The upper halves of the states of a linear congruential generator."""
    state = seed
    while True:
        state = (state * 6364136223846793005 + 1442695040888963407) % (1 << 64)
        yield state >> 32


def generated(seed: int, frames: int) -> bytes:
    """The document that `gen` writes for a seed and a number of frames."""
    numbers, bus = drawn(seed), Bus(8, 5, 16)
    plan, nodes, middle = bus.plan, bus.nodes(), frames // 2
    fall = next(numbers) % frames
    starts = {(BIU, 0): plan.p, (RMU, 0): 0}
    starts |= {node: next(numbers) % (plan.p + 1) for node in nodes if node not in starts}
    lengths = {node: plan.u - plan.r + next(numbers) % (2 * plan.r + 1) for node in nodes}
    lines = ["biu = 8", "rmu = 5", "slots = 16", f"frames = {frames}"]
    lines += ["requests = [2, 2, 2, 2, 2, 2, 2, 2]", "words = [1, 2, 3, 4, 5, 6, 7, 8]"]
    for node in nodes:
        lines += ["[[clock]]", f'node = "{name_of(node)}"', f"start = {starts[node]}"]
        lines += [f"ticks = [[0, {lengths[node]}]]"]
    for source in nodes:
        for target in nodes:
            if source[0] != target[0]:
                delay = plan.dmin + next(numbers) % (plan.dmax - plan.dmin + 1)
                lines += ["[[link]]", f'from = "{name_of(source)}"', f'to = "{name_of(target)}"']
                lines += [f"delay = {delay}"]
    for name, frame, slot in (("B7", middle, 15), ("R4", fall, 0)):
        lines += ["[[fault]]", f'node = "{name}"', f"frame = {frame}", f"slot = {slot}"]
    for number, word in enumerate((1, 1, 2, 2)):
        lines += ["[[say]]", 'from = "B7"', f'to = "R{number}"', f"frames = [{middle}, {middle}]"]
        lines += ["slots = [15, 15]", "stages = [1, 1]", f"word = {word}"]
    return text_of(lines)
