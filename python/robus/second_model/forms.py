"""The keys of a document, and the form of the value at each."""
from __future__ import annotations

from dataclasses import fields
from typing import Any, Callable, Iterator

from .plan import Plan

Document = dict[str, Any]
Form = Callable[[Any], bool]  # whether a value has a form
Fields = dict[str, tuple[bool, Form]]  # by key whether a table must have it, and its form


def is_int(value: Any) -> bool:
    """Whether a value of a document is an integer; true and false are none."""
    return type(value) is int


def is_string(value: Any) -> bool:
    """Whether a value of a document is a string."""
    return type(value) is str


def is_table(value: Any) -> bool:
    """Whether a value of a document is a table."""
    return type(value) is dict


def is_true(value: Any) -> bool:
    """Whether a value of a document is true or false; what is false is refused later, by rule 5."""
    return type(value) is bool


def list_of(form: Form) -> Form:
    """The form of an array whose elements all have a form."""
    return lambda value: type(value) is list and all(map(form, value))


def is_pair(value: Any) -> bool:
    """Whether a value of a document is an array of two integers."""
    return list_of(is_int)(value) and len(value) == 2


REQUIRED, OPTIONAL = True, False
PLAN_FIELDS: Fields = {item.name: (OPTIONAL, is_int) for item in fields(Plan)}
ENTRY_FIELDS: dict[str, Fields] = {
    "clock": {
        "node": (REQUIRED, is_string),
        "start": (OPTIONAL, is_int),
        "ticks": (OPTIONAL, list_of(is_pair)),
    },
    "link": {
        "from": (REQUIRED, is_string),
        "to": (REQUIRED, is_string),
        "delay": (REQUIRED, is_int),
        "frames": (OPTIONAL, is_pair),
        "slots": (OPTIONAL, is_pair),
        "stages": (OPTIONAL, is_pair),
    },
    "fault": {
        "node": (REQUIRED, is_string),
        "frame": (REQUIRED, is_int),
        "slot": (REQUIRED, is_int),
    },
    "say": {
        "from": (REQUIRED, is_string),
        "to": (REQUIRED, is_string),
        "frames": (REQUIRED, is_pair),
        "slots": (REQUIRED, is_pair),
        "stages": (REQUIRED, is_pair),
        "offset": (OPTIONAL, is_int),
        "early": (OPTIONAL, is_int),
        "word": (OPTIONAL, is_int),
        "fault": (OPTIONAL, is_true),
        "sync": (OPTIONAL, is_true),
        "raw": (OPTIONAL, is_string),
    },
}
SAYINGS = ("word", "fault", "sync", "raw")
ROOT_FIELDS: Fields = {
    "biu": (REQUIRED, is_int),
    "rmu": (REQUIRED, is_int),
    "slots": (REQUIRED, is_int),
    "frames": (REQUIRED, is_int),
    "requests": (OPTIONAL, list_of(is_int)),
    "words": (OPTIONAL, list_of(is_int)),
    "apps": (OPTIONAL, list_of(is_string)),
    "plan": (OPTIONAL, is_table),
    "delay": (OPTIONAL, is_int),
    "version": (OPTIONAL, is_int),
    "bus": (OPTIONAL, is_int),
    "probation": (OPTIONAL, is_int),
    **{name: (OPTIONAL, list_of(is_table)) for name in ENTRY_FIELDS},
}


def tables_of(document: Document) -> Iterator[tuple[Document, Fields, str]]:
    """Each table of a document that has a table of fields, with these and its name."""
    yield document, ROOT_FIELDS, "root"
    if is_table(document.get("plan")):
        yield document["plan"], PLAN_FIELDS, "plan"
    for name, entry_fields in ENTRY_FIELDS.items():
        entries = document.get(name)
        for entry in entries if type(entries) is list else []:
            if is_table(entry):
                yield entry, entry_fields, name


def lacks_key(table: Document, table_fields: Fields, name: str) -> bool:
    """Whether a key is missing that a table must have; of [[say]] one that says something."""
    says_nothing = name == "say" and not any(key in table for key in SAYINGS)
    return says_nothing or any(
        required and key not in table for key, (required, _) in table_fields.items())


def has_unknown_key(table: Document, table_fields: Fields, _: str) -> bool:
    """Whether a table has a key that is not among its fields."""
    return any(key not in table_fields for key in table)


def has_wrong_form(table: Document, table_fields: Fields, _: str) -> bool:
    """Whether a value of a table has another form than its field."""
    return any(not table_fields[key][1](value) for key, value in table.items())
