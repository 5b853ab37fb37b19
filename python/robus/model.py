"""What the package asks of the second model of the bus, `second_model`, which takes nothing from
the package, and tools/model. It wants Python 3.11."""
from __future__ import annotations

import io
import os
import sys

from robus.errors import BadArgument
from robus.rows import names_in
from robus.tool import input_of
from robus.words import misused, with_file

if sys.version_info < (3, 11):
    raise ImportError("needs Python 3.11 or newer, and this is "
                      f"{sys.version_info[0]}.{sys.version_info[1]}")
from robus import second_model as model  # noqa: E402

BIU, RMU, TAIL = model.BIU, model.RMU, model.TAIL
name_of = model.name_of
Slot = tuple[int, int]  # a frame, and a slot of it
# A frame, a slot of it, and a stage of that; the tail is stage 4 of the sync slot
Stage = tuple[int, int, int]


class TooLong(Exception):
    """The document is longer than 4,194,304 bytes."""


def read(text: bytes) -> model.Scenario:
    """The scenario that a document says; else model.Refused with the line of the refusal."""
    if len(text) > model.SCENARIO_LIMIT:
        raise TooLong
    return model.read_scenario(text)


def nodes_in(mask: int, kind: int) -> list[str]:
    """The names of the nodes of a kind whose bits a mask has."""
    return names_in(mask, "BR"[kind])


HELP = """tools/model WORDS.. [FILE]: the second model of the bus, which is not proved. For the
words run, check, record NODE, replay, gen SEED FRAMES and stress SEED FRAMES it writes what robus
writes, with the same status. Without FILE it reads standard input.

    tools/model run examples/one_silent_rmu.toml"""


def main(words: list[str]) -> int:
    """tools/model with these words; its status."""
    if words[:1] in (["--help"], ["-h"]):
        print(HELP)
        return 0
    if not words:
        raise BadArgument("WORDS are missing, as in tools/model run SCENARIO; "
                          "tools/model --help says more")
    own, file = with_file(words)
    data = sys.stdin.buffer if file is None else io.BytesIO(input_of(file))
    status, text = model.answer(own, data)
    if status == 2:
        raise BadArgument(misused("tools/model", words, os.path.isfile(words[-1])))
    sys.stdout.buffer.write(text)
    return status
