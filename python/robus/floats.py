"""Numbers as the 32-bit words of a bus: those of IEEE 754 in single precision."""
from __future__ import annotations

import struct

from robus import arguments
from robus.arguments import shown
from robus.errors import BadArgument


def float_word(number: float) -> int:
    """The word that stands for a number: the nearest float of single precision."""
    try:
        return struct.unpack(">I", struct.pack(">f", number))[0]
    except (struct.error, OverflowError):
        raise BadArgument(f"number: {shown(number)} is no float of single precision") from None


def word_float(word: int) -> float:
    """The number that a word stands for."""
    return struct.unpack(">f", struct.pack(">I", arguments.integer("word", word, 0,
                                                                   arguments.MOST_WORD)))[0]
