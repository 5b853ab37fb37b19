"""Words that are handed to BIUs over time: a table of frame, node and word, and letters."""
from __future__ import annotations

import csv
import io
import os
from dataclasses import astuple, dataclass, fields
from typing import Any, Dict, Iterable, List, Optional, TextIO, Tuple, Union

from robus import arguments
from robus.arguments import shown
from robus.errors import BadArgument

MOST_FRAME = 4096
HEADER = ["frame", "node", "word"]


@dataclass(frozen=True)
class HandIn:
    """As a frame begins, a BIU is handed a word, which it offers from then on."""

    frame: int
    node: str
    word: int


WordSource = Union[str, os.PathLike, Iterable[Any]]
LetterSource = Union[str, Tuple[int, str, bytes]]


def hand_in(frame: Any, node: Any, word: Any) -> HandIn:
    """A hand-in with these values, which are checked."""
    arguments.node("node", node, "B")
    return HandIn(arguments.integer("frame", frame, 0, MOST_FRAME), node,
                  arguments.integer("word", word, 0, arguments.MOST_WORD))


def number_of(text: str) -> Any:
    """The number that a cell is, or the cell."""
    return int(text) if text.isascii() and text.isdigit() else text


def read_table(text: str, name: str) -> List[HandIn]:
    """The rows of a CSV with the columns frame, node and word; BadArgument names the line."""
    rows = csv.reader(io.StringIO(text))
    if next(rows, None) != HEADER:
        raise BadArgument(f"{name}:1: the first line is not {','.join(HEADER)}")
    found = []
    for row in rows:
        if len(row) != 3:
            raise BadArgument(f"{name}:{rows.line_num}: a line has a frame, a node and a word")
        try:
            found.append(hand_in(number_of(row[0]), row[1], number_of(row[2])))
        except BadArgument as fault:
            raise BadArgument(f"{name}:{rows.line_num}: {fault}") from None
    return found


def entry_of(entry: Any) -> HandIn:
    """A HandIn, or a tuple of a frame, a node and a word, as a HandIn."""
    try:
        frame, node, word = astuple(entry) if isinstance(entry, HandIn) else entry
    except (TypeError, ValueError):
        raise BadArgument(f"words: {shown(entry)} is no frame, node and word") from None
    return hand_in(frame, node, word)


def words_of(source: WordSource) -> Dict[int, List[HandIn]]:
    """What is handed in at each frame; `source` is the path of a CSV, or hand-ins."""
    if isinstance(source, (str, os.PathLike)):
        name = arguments.path("words", source)
        with open(name, encoding="utf-8", newline="") as file:
            found = read_table(file.read(), name)
    elif isinstance(source, Iterable) and not isinstance(source, (bytes, bytearray)):
        found = [entry_of(it) for it in source]
    else:
        raise BadArgument(f"words: {shown(source)} is no path of a CSV and no list of hand-ins")
    by_frame: Dict[int, List[HandIn]] = {}
    for it in found:
        others = by_frame.setdefault(it.frame, [])
        if it.node in [other.node for other in others]:
            raise BadArgument(f"words: {it.node} has two words in frame {it.frame}")
        others.append(it)
    return by_frame


def write_table(words: Iterable[HandIn], file: TextIO) -> None:
    """Writes hand-ins as the CSV that `words_of` reads."""
    out = csv.writer(file, lineterminator="\n")
    out.writerow([it.name for it in fields(HandIn)])
    out.writerows(astuple(it) for it in words)


def letter_words(letter: bytes) -> List[int]:
    """The words that spell a letter of 1 to 255 bytes."""
    text = arguments.some_bytes("letter", letter, 1, 255)
    padded = text + bytes(-len(text) % 3)
    parts = [padded[at:at + 3] for at in range(0, len(padded), 3)]
    return [(1 << 24) + len(text), *[(2 << 24) + int.from_bytes(it, "big") for it in parts]]


def letter_of(source: LetterSource) -> Tuple[int, str, bytes]:
    """The frame in which a letter begins, its sender, and its bytes; `3:B0:6869` is one, too."""
    form = "FRAME:NODE:HEX, as 3:B0:6869"
    try:
        frame, node, letter = source.split(":") if isinstance(source, str) else source
        letter = bytes.fromhex(letter) if isinstance(source, str) else letter
    except (TypeError, ValueError):
        raise BadArgument(f"letters: {shown(source)} is not {form}") from None
    frame = number_of(frame) if isinstance(frame, str) else frame
    try:
        arguments.node("node", node, "B")
        return (arguments.integer("frame", frame, 0, MOST_FRAME), node,
                arguments.some_bytes("bytes", letter, 1, 255))
    except BadArgument as fault:
        raise BadArgument(f"letters: {shown(source)}: {fault}") from None


class Writer:
    """The controller of a BIU that sends letters, a word in each frame, and after a letter 0, which
    says nothing. Two letters are sent one after the other. It wants one data slot a frame: in a
    second one the BIU would say its word again, and its receivers would drop the letter."""

    def __init__(self, node: str):
        self.node = node
        self._letters: List[Tuple[int, List[int], bytes]] = []  # frame, words to say, and bytes
        self._said: Optional[int] = None  # the word that is offered in this frame
        self._slots = 0  # how many own slots this frame had so far
        self._has_begun = False

    def add(self, frame: int, letter: bytes) -> None:
        """Adds a letter, which starts in this frame, or once the letters before it are sent."""
        self._letters.append((frame, letter_words(letter), letter))
        self._letters.sort(key=lambda it: it[0])

    @property
    def unsent(self) -> List[str]:
        """The letters that are not sent, in the form of `letter_of`."""
        return [f"{frame}:{self.node}:{letter.hex()}" for frame, _, letter in self._letters]

    @property
    def is_at_last_letter(self) -> bool:
        """Whether the last letter has begun, as far as the BIU was asked."""
        return len(self._letters) <= 1 and self._said is not None

    def deliver(self, slot: int, sender: str, word: Optional[int]) -> None:
        """The BIU delivers its own word, which has then been sent."""
        if sender != self.node or self._said is None:
            return
        self._slots += 1
        if self._slots > 1:
            raise BadArgument(f"letters: {self.node} has more than one data slot in a frame, and "
                              "says its word in each; let it ask for one (requests)")
        words = self._letters[0][1]
        del words[0]
        if not words:
            del self._letters[0]

    def offer(self, frame: int) -> Optional[int]:
        """The next word of a letter; None before the first letter."""
        self._slots, self._said = 0, None
        if self._letters and self._letters[0][0] <= frame:
            self._said, self._has_begun = self._letters[0][1][0], True
            return self._said
        return 0 if self._has_begun else None


def writers_of(letters: Iterable[LetterSource]) -> Dict[str, Writer]:
    """The writer of each BIU that has letters to send."""
    if isinstance(letters, (str, bytes)) or not isinstance(letters, Iterable):
        raise BadArgument(f'letters: {shown(letters)} is no list of letters, as ["3:B0:6869"]')
    found: Dict[str, Writer] = {}
    for frame, node, letter in map(letter_of, letters):
        found.setdefault(node, Writer(node)).add(frame, letter)
    return found
