"""The words of the programs: the form of each, and what its statuses mean."""
from __future__ import annotations

import re
from typing import Dict, List, Optional, Sequence, Tuple

# The form of each word, and whether it reads an input
FORMS: Dict[str, Tuple[str, bool]] = {
    "run": ("run", True), "check": ("check", True), "letters": ("letters", True),
    "record": ("record NODE", True), "group": ("group most|mid MASK", True),
    "replay": ("replay", True), "listen": ("listen SKIP", True), "gen": ("gen SEED FRAMES", False),
    "stress": ("stress SEED FRAMES", False), "spell": ("spell HEX", False),
    "bridge": ("bridge", True), "picture": ("picture [FIRST LAST]", True)}
# The arguments in these forms, as docs/robus.md has them: the range of a number, or the form of
# another word and what that is
NUMBERS = {"SEED": (0, (1 << 64) - 1), "FRAMES": (1, 4096), "SKIP": (0, (1 << 31) - 1),
           "MASK": (1, (1 << 16) - 1), "FIRST": (0, (1 << 32) - 1), "LAST": (0, (1 << 32) - 1)}
OTHERS = {"NODE": (r"[BR](?:\d|1[0-5])", "no node; nodes are B0 to B15 and R0 to R15"),
          "HEX": (r"(?:[0-9a-f]{2}){1,255}",
                  "no letter; one is 1 to 255 bytes, each two digits of 0 to 9 and a to f"),
          "most|mid": (r"most|mid", "neither most nor mid")}
PROGRAMS = {"bridge": "robus_bridge", "picture": "robus_picture"}
SCENARIO_WORDS = ("run", "check", "letters", "record", "group")

ENDED = {"run": "the run came to its end", "bridge": "both runs came to their end"}
BREACH = {"bridge": "the bridge ended with a breach of the fault premise on one of its buses"}
MEANINGS = {4: "the input is longer than it may be (docs/robus.md has the limits)",
            5: "standard input could not be read", 6: "standard output could not be written",
            7: "no memory was left", 8: "the arguments could not be read"}


def reads(word: str) -> bool:
    """Whether a word reads an input."""
    return word in FORMS and FORMS[word][1]


def count_of(word: str, given: int) -> int:
    """How many words are between the first one and the file, if `given` words follow the first."""
    if word == "picture":
        return 2 if given > 1 else 0
    return len(FORMS[word][0].split()) - 1


def why_wrong(name: str, text: str) -> Optional[str]:
    """Why a word is not the argument of this name; None if it is."""
    if name in NUMBERS:
        low, high = NUMBERS[name]
        is_number = re.fullmatch(r"0|[1-9]\d{0,19}", text, re.ASCII)
        is_wrong = not is_number or not low <= int(text) <= high
        what = f"no number from {low} to {high}"
    else:
        form, what = OTHERS[name]
        is_wrong = not re.fullmatch(form, text, re.ASCII)
    return f"{name}: {text or repr(text)} is {what}" if is_wrong else None


def wrong_in(words: Sequence[str], files: int = 0) -> Optional[str]:
    """What is wrong with the words of a program, behind which this many files may be named; None if
    nothing is. docs/robus.md has the ranges."""
    word, *given = words
    form = FORMS[word][0] + " [FILE]" * files
    names = re.findall(r"[A-Za-z|]+", FORMS[word][0])[1:]
    if word == "picture" and len(given) <= files:
        names = []
    for name, text in zip(names, given):
        why = why_wrong(name, text)
        if why:
            return why
    if len(given) < len(names):
        return f"{names[len(given)]} is missing: the words are '{form}'"
    if len(given) > len(names) + files:
        return f"{given[len(names) + files]} is one word too many: the words are '{form}'"
    if names == ["FIRST", "LAST"] and int(given[0]) > int(given[1]):
        return f"LAST: {given[1]} is less than FIRST, {given[0]}"
    return None


def with_file(words: List[str]) -> Tuple[List[str], Optional[str]]:
    """Words of robus, and the file that is named behind them, if one is."""
    if not words or not reads(words[0]) or words[0] in PROGRAMS:
        return words, None
    count = len(FORMS[words[0]][0].split())
    return (words[:count], words[count]) if len(words) == count + 1 else (words, None)


def refusal_hint(word: str, file: Optional[str]) -> str:
    """What is refused, and where more is said about it."""
    if word in SCENARIO_WORDS:
        return f"the scenario is refused; tools/lint {file or 'SCENARIO'} says where and why"
    page = PROGRAMS.get(word, "robus")
    return f"{file or 'the input'} is refused; docs/{page}.md says what the line means"


def meaning(word: str, status: int, file: Optional[str]) -> Optional[str]:
    """What a status means, in words; None if nothing is to be said. `file` is what was read."""
    if status == 0:
        return ENDED.get(word)
    if status == 1:
        said = BREACH.get(word, "the run ended with a breach of the fault premise")
        hint = f"; tools/explain {file} says who broke it" if word == "run" and file else ""
        return said + hint
    if status == 3:
        return refusal_hint(word, file)
    return MEANINGS.get(status)


def misused(tool: str, words: List[str], is_file: bool) -> str:
    """What is wrong with words that robus does not have. `is_file` says that the last of them is a
    file."""
    word = words[0] if words else ""
    if word in PROGRAMS:
        return f"{word} is no word of robus, but of {PROGRAMS[word]}: tools/{word} FILE runs it"
    wrong = wrong_in(words, reads(word)) if word in FORMS else None
    if wrong:
        return wrong
    hint = f". For a file it is {tool} run {words[-1]}" if is_file else ""
    return f"there are no words '{' '.join(words)}'{hint}; {tool} --help lists them"
