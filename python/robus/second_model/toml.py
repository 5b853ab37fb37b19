"""TOML 1.1, read by way of TOML 1.0, which the standard library has."""
from __future__ import annotations

import re
import tomllib
from typing import Any, Iterator

from .answers import refuse
from .forms import Document, is_int, is_table

# What stands in TOML 1.1: a string, a comment, a mark that opens, closes or divides a value, the
# end of a line, or anything else
TOML_PART = re.compile(
    r'''(?P<lines>"""(?:\\.|[^\\])*?"""+|\'\'\'.*?\'\'\'+)'''
    r'''|(?P<string>"(?:\\.|[^"\\\n])*"|\'[^\'\n]*\')'''
    r"|(?P<unclosed>[\"'].*)|(?P<comment>#[^\r\n]*)|(?P<mark>[\[\]{},])"
    r"|(?P<end>\r?\n)|(?P<blank>[ \t]+)|(?P<other>[^\"'#\[\]{},\r\n \t]+|.)",
    re.DOTALL,
)


def older_escape(it: re.Match[str]) -> str:
    """What stands in TOML 1.0 for an escape that was found in a string."""
    escape = it[1]
    if escape == "e":
        return r"\u001b"
    return r"\u00" + escape[1:] if len(escape) == 3 else it[0]


def older_string(part: str) -> str:
    """A string without the escapes that TOML 1.1 added."""
    if part[0] == "'":
        return part
    return re.sub(r"\\(x[0-9A-Fa-f]{2}|.)", older_escape, part, flags=re.DOTALL)


def may_break(before: str, after: str) -> bool:
    """Whether a line may end between these parts of an inline table: not inside a key, nor around
    its sign of equality."""
    return not before.endswith(("=", ".")) and not after.startswith(("=", "."))


def older_parts(text: str) -> list[tuple[str, str]]:
    """The parts of a document of TOML 1.1, each with what stands for it in TOML 1.0: nothing for a
    byte order mark at its start."""
    mark = "\ufeff" * text.startswith("\ufeff")
    found = [(it.lastgroup, it[0]) for it in TOML_PART.finditer(text, len(mark))]
    after, then = [], ""
    for kind, part in reversed(found):
        after.append(then)
        then = then if kind in ("comment", "end", "blank") else part
    parts, open_marks, before, comma = [], [], ["", ""], 0
    for (kind, part), then in zip(found, reversed(after)):
        if kind in ("lines", "string"):
            part = older_string(part)
        elif kind == "other":
            part = re.sub(r"(?<![\d+\-:.])(\d\d:\d\d)(?![\d:.])", r"\1:00", part)
        elif kind in ("comment", "end"):
            is_inside = open_marks[-1:] == ["{"] and may_break(before[0], then)
            if is_inside and not re.search(r"[\x00-\x08\x0b\x0c\x0e-\x1f\x7f]", part):
                part = " "
        elif part in ("{", "["):
            open_marks.append(part)
        elif part == ",":
            comma = len(parts)
        elif part in ("}", "]"):
            if part == "}" and before[0] == "," and before[1] not in ("", "{", ","):
                parts[comma] = ""
            open_marks = open_marks[:-1]
        if kind not in ("comment", "end", "blank"):
            before = [part, before[0]]
        parts.append(part)
    return [(mark, "")] + [(it, part) for (_, it), part in zip(found, parts)]


def older_toml(text: str) -> str:
    """A document of TOML 1.1 in TOML 1.0, which tomllib reads: inline tables on one line, without a
    comma at the end; times with seconds."""
    return "".join(part for _, part in older_parts(text))


MOST_LEVELS = 80  # of arrays and inline tables in each other, and of parts of a key


def too_deep_at(text: str) -> int | None:
    """Where a document first nests arrays and inline tables, or the parts of a key, deeper than it
    may; nothing if it does not."""
    marks: list[str] = []
    in_key, dots = True, 0
    for it in TOML_PART.finditer(text):
        kind, part = it.lastgroup, it[0]
        if kind == "other" and in_key:
            key, equals, _ = part.partition("=")
            dots += key.count(".")
            in_key = not equals
        elif kind == "mark" and part in "[{" and not in_key:
            marks.append(part)
            in_key = part == "{"
        elif kind == "mark" and part in "]}" and marks:
            marks.pop()
            in_key = False
        elif part == "," and marks:
            in_key = marks[-1] == "{"
        elif kind == "end" and not marks:
            in_key = True
        if kind in ("mark", "end"):
            dots = 0
        if len(marks) > MOST_LEVELS or dots >= MOST_LEVELS:
            return it.start()
    return None


def read_toml(text: bytes) -> Document:
    """The document that the bytes are; refused by rule 1 if they are none, nest too deeply, or
    have an integer of more than 64 bits."""
    try:
        characters = text.decode("utf-8")
        if too_deep_at(characters) is not None:
            refuse(1)
        document = tomllib.loads(older_toml(characters))
    except (ValueError, RecursionError):
        refuse(1)
    if not all(-(1 << 63) <= number < 1 << 63 for number in integers_in(document)):
        refuse(1)
    return document


def integers_in(document: Document) -> Iterator[int]:
    """Each integer in a document, in its arrays and tables too."""
    left: list[Any] = [document]
    while left:
        value = left.pop()
        if is_int(value):
            yield value
        elif type(value) in (list, dict):
            left += value.values() if is_table(value) else value
