"""A scenario as a value: read from TOML or a dict, changed by path, written as TOML.

docs/SCENARIOS.md has its keys. What may be at a key is checked by the program that runs it and
by nothing here, so a scenario that is refused can be made, and is refused when it is run."""
from __future__ import annotations

import operator
import os
import re
from dataclasses import dataclass, field
from pathlib import Path
from typing import Any, Dict, List, Mapping, Optional, Tuple, Union

from robus import arguments, toml
from robus.arguments import shown
from robus.errors import BadArgument, Refused
from robus.rows import Refusal

PART = re.compile(r"\.?([A-Za-z0-9_-]+)|\[(\d+|\*)\]")
EACH = -1  # in a path all entries of an array, which is `[*]`
MOST_PARTS = 80  # of a path, as of a key in TOML
Key = Union[str, int]


def parts_of(path: str, name: str = "path") -> List[Key]:
    """The keys and numbers of a path: `fault[0].slot` is fault, 0, slot. `name` is that of the
    argument that has the path."""
    if not isinstance(path, str):
        raise BadArgument(f"{name}: {shown(path)} is no path; one is as fault[0].slot")
    parts: List[Key] = []
    at = 0
    while at < len(path):
        found = PART.match(path, at)
        if not found or (at == 0) == path.startswith((".", "["), at):
            raise BadArgument(f"{name}: {path!r} is no path; one is as fault[0].slot or plan.h")
        parts.append(found[1] or (EACH if found[2] == "*" else int(found[2])))
        at = found.end()
    if not 1 <= len(parts) <= MOST_PARTS:
        raise BadArgument(f"{name}: {shown(path)} has {len(parts)} parts, and a path has 1 to "
                          f"{MOST_PARTS}, as biu or fault[0].slot")
    return parts


def path_of(parts: Tuple[Key, ...]) -> str:
    """The path that these keys and numbers are."""
    text = "".join(f".{it}" if isinstance(it, str) else "[*]" if it == EACH else f"[{it}]"
                   for it in parts)
    return text[1:] if text.startswith(".") else text


def plain(value: Any) -> Any:
    """A value as TOML has it: mappings as dicts, sequences as lists, whole numbers of any type as
    int."""
    if isinstance(value, (bool, str, float)):
        return value
    if isinstance(value, Mapping):
        return {str(key): plain(it) for key, it in value.items()}
    if isinstance(value, (list, tuple, range)):
        return [plain(it) for it in value]
    return operator.index(value) if hasattr(value, "__index__") else value


def put(document: Any, parts: List[Key], value: Any, at: int = 0) -> None:
    """Puts a value in a document, at the parts from `at` on. What is missing on the way is added,
    and so is the entry behind the last one of an array. NoPlace is raised if there is no such
    place."""
    part, is_last, here = parts[at], at + 1 == len(parts), path_of(tuple(parts[:at + 1]))
    is_array = isinstance(part, int)
    if not isinstance(document, list if is_array else dict):
        raise NoPlace(f"{here!r} is no place in this scenario")
    if part == EACH:
        for number in range(len(document)):
            put(document, parts[:at] + [number] + parts[at + 1:], value, at)
        return
    if is_array and part > len(document):
        raise NoPlace(f"{path_of(tuple(parts))!r} is no place in this scenario, which has "
                      f"{len(document)} of {path_of(tuple(parts[:at]))!r}", is_beyond=True)
    if is_array and part == len(document):
        document.append(None)
    if is_last:
        document[part] = value
        return
    if (document[part] if is_array else document.get(part)) is None:
        document[part] = [] if isinstance(parts[at + 1], int) else {}
    put(document[part], parts, value, at + 1)


MISSING: Any = object()


class NoPlace(Exception):
    """A document has no such place, and none can be added there. `is_beyond` says that it is an
    entry of an array that has not the one before it either."""

    def __init__(self, why: str, is_beyond: bool = False):
        super().__init__(why)
        self.is_beyond = is_beyond


class NoEntry(BadArgument, IndexError):
    """An array has no such entry, and not the one before it either."""


def written(name: str, document: Any) -> bytes:
    """A document as TOML; BadArgument with the argument's name if it has a value that TOML has
    not."""
    try:
        return toml.dumps(plain(document)).encode()
    except (TypeError, ValueError, RecursionError) as fault:
        raise BadArgument(f"{name}: {fault or 'it is nested too deeply'}") from None


@dataclass(frozen=True, repr=False)
class Scenario:
    """A scenario that does not change; two are equal if their texts are. `text` is handed to the
    program byte for byte: that of the file it was read from, or the document written as TOML."""

    text: bytes
    file: Optional[str] = field(default=None, compare=False)

    @classmethod
    def read(cls, path: Union[str, os.PathLike]) -> Scenario:
        """The scenario in a file."""
        name = arguments.path("path", path)
        return cls(Path(name).read_bytes(), str(name))

    @classmethod
    def from_toml(cls, text: Union[str, bytes]) -> Scenario:
        """The scenario that a TOML document is."""
        if not isinstance(text, str):
            return cls(arguments.some_bytes("text", text))
        try:
            return cls(text.encode())
        except UnicodeEncodeError as fault:
            raise BadArgument(f"text: it cannot be written as UTF-8: {fault.reason}") from None

    @classmethod
    def from_dict(cls, document: Mapping[str, Any]) -> Scenario:
        """The scenario of a dict with the document's keys, as dict(biu=4, rmu=3, ..)."""
        if not isinstance(document, Mapping):
            raise BadArgument(f"document: {shown(document)} is no dict")
        return cls(written("document", document))

    def to_dict(self) -> Dict[str, Any]:
        """The document, as a dict of its own; Refused with 1 NotToml if the text is none."""
        try:
            return toml.loads(self.text)
        except (ValueError, RecursionError):
            raise Refused(Refusal(1, "NotToml"), self.text, self.file) from None

    def to_toml(self) -> str:
        """The text, which keeps comments and layout of a file as long as nothing is changed."""
        try:
            return self.text.decode("utf-8")
        except UnicodeDecodeError:
            raise Refused(Refusal(1, "NotToml"), self.text, self.file) from None

    def write(self, path: Union[str, os.PathLike]) -> None:
        """Writes the text into a file."""
        Path(arguments.path("path", path)).write_bytes(self.text)

    def get(self, path: str, default: Any = None) -> Any:
        """The value at a path, or the default if nothing is there."""
        found: Any = self.to_dict()
        for part in parts_of(path):
            if part == EACH:
                raise BadArgument(f"path: {path!r} is more than one place")
            is_array = isinstance(part, int)
            if not isinstance(found, list if is_array else dict):
                return default
            if (part >= len(found)) if is_array else (part not in found):
                return default
            found = found[part]
        return found

    def with_(self, path: Union[str, Mapping[str, Any]], value: Any = MISSING) -> Scenario:
        """The scenario with another value at a path, or with several, as {path: value}.

            scenario.with_("fault[0].slot", 5)
            scenario.with_({"frames": 9, "plan.h": 7, "fault": [dict(node="B1", frame=3, slot=0)]})

        A key that is missing is added, and so is the entry behind the last of an array. `[*]` is
        each entry of an array, as in say[*].from. Comments are lost."""
        if not isinstance(path, Mapping):
            parts_of(path)
        if isinstance(path, Mapping) != (value is MISSING):
            raise BadArgument("value: with_ takes a path and its value, or a dict of paths")
        return self.changed(path if isinstance(path, Mapping) else {path: value}, "path", "value")

    def changed(self, values: Mapping[str, Any], path_name: str, value_name: str) -> Scenario:
        """The scenario with these values at their paths. Paths and values have been given in
        arguments of these names."""
        document = self.to_dict()
        for path, value in values.items():
            try:
                put(document, parts_of(path, path_name), plain(value))
            except NoPlace as fault:
                kind = NoEntry if fault.is_beyond else BadArgument
                raise kind(f"{path_name}: {fault}") from None
        return Scenario(written(value_name, document))

    def without(self, path: str) -> Scenario:
        """The scenario without a key or an entry; KeyError if it is not there."""
        document = self.to_dict()
        *way, last = parts_of(path)
        table: Any = document
        try:
            for part in way:
                table = table[part]
            del table[last]
        except (KeyError, IndexError, TypeError):
            raise KeyError(path) from None
        return Scenario.from_dict(document)

    def __repr__(self) -> str:
        return f"Scenario({self.file or 'of no file'}, {len(self.text)} bytes)"


Source = Union[Scenario, str, os.PathLike, bytes, Mapping[str, Any]]


def scenario_of(source: Source, name: str = "scenario") -> Scenario:
    """A scenario as it is; of a path that of the file, of bytes and of a str of several lines that
    of the text, of a dict its own. `name` is that of the argument."""
    if isinstance(source, Scenario):
        return source
    if isinstance(source, (bytes, bytearray)) or isinstance(source, str) and "\n" in source:
        return Scenario.from_toml(source)
    if isinstance(source, Mapping):
        return Scenario(written(name, source))
    if not isinstance(source, (str, os.PathLike)):
        raise BadArgument(f"{name}: {shown(source)} is no Scenario, no path, no text of several "
                          "lines and no dict")
    return Scenario.read(arguments.path(name, source))


__all__ = ["Scenario", "Source", "parts_of", "path_of", "scenario_of"]
