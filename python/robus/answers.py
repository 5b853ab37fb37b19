"""When what a program gave is an answer: by its status, and by the end of what it wrote.

A report ends with `end` or `breach`, and each other output has a last line too. One without it is
torn, or is that of another program, and no result is made of it."""
from __future__ import annotations

import re
from typing import Dict, Optional, Sequence

LINE = rb"(?:\A|\n)"
ENDED = LINE + rb"end \d+\n"
BREACH = LINE + rb"breach [^\n]+\n"
LOG_END = rb"\x04"
# How an output ends, by status and by the word that was run; a `stress` with a breach writes none
ENDS: Dict[int, Dict[str, bytes]] = {
    0: {"run": ENDED, "letters": ENDED, "group": ENDED, "replay": ENDED, "listen": ENDED,
        "record": LOG_END, "check": LINE + rb"C7 \d+ \d+\n", "stress": LINE + rb"spread \d+\n",
        "spell": LINE + rb"w \d+\n", "gen": rb"[^\n]\n", "picture": rb"</svg>\n"},
    1: {"run": BREACH, "letters": BREACH, "group": BREACH, "record": LOG_END, "stress": b""},
}
REFUSED = LINE + rb"refused \d+ [A-Za-z]+(?: \d+)?\n"
LACKS = {0: "its last line", 1: "a last line `breach`", 3: "a line `refused`"}
MOST_STATUS = 8
# The number of bytes that show how an output ends
TAIL = 256


def tail_of(before: bytes, more: bytes) -> bytes:
    """The end of an output, of which `more` comes after `before`."""
    return (before + more[-TAIL:])[-TAIL:]


def fault_in(words: Sequence[str], program: str, status: int, tail: bytes) -> Optional[str]:
    """Why a status and the end of an output are no answer of a program; None if they are one."""
    if status < 0:
        return f"killed by signal {-status}"
    if status > MOST_STATUS:
        return "which no program of ROBUS has"
    word = "picture" if program == "robus_picture" else (list(words) or [""])[0]
    form = REFUSED if status == 3 else ENDS.get(status, {}).get(word)
    if form is None:
        return f"which {program} does not have for these words" if status == 1 else None
    if re.search(form + rb"\Z", tail):
        return None
    return f"but what it wrote lacks {LACKS[status]}"
