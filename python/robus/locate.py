"""Where things are in a TOML document: for each key, entry and element its line and its text.

A place is a tuple of keys and numbers, as ("say", 2, "slots", 0) for the first number of `slots` in
the third `[[say]]`. The document must be one that a TOML reader has accepted."""
from __future__ import annotations

import re
from dataclasses import dataclass, field
from typing import Dict, List, Tuple, Union

Place = Tuple[Union[str, int], ...]
STRING = re.compile(r'"""(?:\\.|[^\\])*?"""+|\'\'\'.*?\'\'\'+|"(?:\\.|[^"\\\n])*"|\'[^\'\n]*\'',
                    re.DOTALL)
BARE = re.compile(r"[A-Za-z0-9_-]+")
BLANK = re.compile(r"(?:[ \t\r\n]|#[^\n]*)*")
SPACE = re.compile(r"[ \t]*")
OTHER = re.compile(r"[^,\]}#\r\n]*")
ESCAPES = {"b": "\b", "t": "\t", "n": "\n", "f": "\f", "r": "\r", "e": "\x1b", '"': '"', "\\": "\\"}


@dataclass
class Locator:
    """Reads a document once; `lines` and `texts` are by place."""

    text: str
    at: int = 0  # the character that is read next
    lines: Dict[Place, int] = field(default_factory=dict)  # from 1
    texts: Dict[Place, str] = field(default_factory=dict)
    counts: Dict[Place, int] = field(default_factory=dict)  # how many tables of an array were met

    def __post_init__(self) -> None:
        self.text = self.text.removeprefix("\ufeff")
        self.ends = [it.start() for it in re.finditer("\n", self.text)]
        table: Place = ()
        self.skip(BLANK)
        while self.at < len(self.text):
            begin = self.at
            if self.text[begin] == "[":
                table = self.header()
                self.note(table, begin)
            else:
                self.entry(table)
            self.skip(BLANK)

    def skip(self, pattern: re.Pattern[str]) -> str:
        """Goes behind what the pattern finds here; the text of it, which is empty if it finds
        nothing."""
        found = pattern.match(self.text, self.at)
        self.at = found.end() if found and found.end() > self.at else self.at
        return found[0] if found else ""

    def line_at(self, at: int) -> int:
        """The line of a character, from 1."""
        low, high = 0, len(self.ends)
        while low < high:
            middle = (low + high) // 2
            low, high = (middle + 1, high) if self.ends[middle] < at else (low, middle)
        return low + 1

    def note(self, place: Place, begin: int) -> None:
        """Keeps that a place stands from a character on up to here, if it has not been met
        before."""
        self.lines.setdefault(place, self.line_at(begin))
        self.texts.setdefault(place, self.text[begin : self.at].strip())

    def key(self) -> Place:
        """Reads a key, which has several parts if it has points."""
        parts: List[str] = []
        while True:
            self.skip(SPACE)
            if self.text[self.at] in "\"'":
                parts.append(unquoted(self.skip(STRING)))
            else:
                before = self.at
                parts.append(self.skip(BARE))
                self.at += self.at == before
            self.skip(SPACE)
            if self.text[self.at : self.at + 1] != ".":
                return tuple(parts)
            self.at += 1

    def header(self) -> Place:
        """Reads the header of a table; the place of the table."""
        is_array = self.text.startswith("[[", self.at)
        self.at += 1 + is_array
        place: Place = ()
        key = self.key()
        for part in key[:-1]:
            place += (part,)
            if place in self.counts:
                place += (self.counts[place] - 1,)
        place += key[-1:]
        if is_array:
            self.counts[place] = self.counts.get(place, 0) + 1
            place += (self.counts[place] - 1,)
        self.at += 1 + is_array
        return place

    def entry(self, table: Place) -> None:
        """Reads a key and its value in a table, and keeps where they are."""
        begin = self.at
        place = table + self.key()
        self.at += 1
        self.value(place)
        self.lines[place] = self.line_at(begin)
        for shorter in range(len(table) + 1, len(place)):
            self.note(place[:shorter], begin)

    def value(self, place: Place) -> None:
        """Reads the value at a place, and keeps where it and each part of it are."""
        self.skip(BLANK)
        begin, mark = self.at, self.text[self.at : self.at + 1]
        if mark in "[{" and mark:
            self.at += 1
            number = 0
            self.skip(BLANK)
            while self.at < len(self.text) and self.text[self.at] not in "]}":
                if mark == "[":
                    self.value(place + (number,))
                    number += 1
                else:
                    self.entry(place)
                self.skip(BLANK)
                self.at += self.text[self.at : self.at + 1] == ","
                self.skip(BLANK)
            self.at += 1
        elif not self.skip(STRING):
            self.skip(OTHER)
        self.note(place, begin)

    def line_of(self, place: Place) -> int:
        """The line of a place, or of what holds it."""
        while place and place not in self.lines:
            place = place[:-1]
        return self.lines.get(place, 1)


def unquoted(part: str) -> str:
    """A quoted key's text."""
    if part[:1] != '"':
        return part[1:-1]
    return re.sub(r"\\(x[0-9A-Fa-f]{2}|u[0-9A-Fa-f]{4}|U[0-9A-Fa-f]{8}|.)",
                  lambda it: ESCAPES[it[1]] if it[1] in ESCAPES else chr(int(it[1][1:], 16)),
                  part[1:-1])
