"""TOML: documents of version 1.1 are read, and documents of any version written.

The standard library reads TOML from Python 3.11 on. Below that the package `tomli` is used if it is
there, and takes documents of version 1.0."""
from __future__ import annotations

import datetime
import json
import sys
from typing import Any, Dict, List

from robus.arguments import shown


def loads(text: bytes) -> Dict[str, Any]:
    """The document that the bytes are; ValueError if they are none."""
    if sys.version_info < (3, 11):
        try:
            import tomli
        except ImportError:
            raise ImportError("to read TOML it needs Python 3.11 or newer, or the package "
                              "tomli") from None
        return tomli.loads(text.decode("utf-8-sig"))
    import tomllib

    from robus.model import model

    characters = text.decode("utf-8")
    if model.too_deep_at(characters) is not None:
        raise ValueError("a value or a key is nested too deeply")
    return tomllib.loads(model.older_toml(characters))


def value_text(value: Any) -> str:
    """A value on one line."""
    if isinstance(value, bool):
        return "true" if value else "false"
    if isinstance(value, str):
        return json.dumps(value, ensure_ascii=False).replace("\x7f", "\\u007f")
    if isinstance(value, (list, tuple)):
        return f"[{', '.join(map(value_text, value))}]"
    if isinstance(value, dict):
        items = ", ".join(f"{key_text(key)} = {value_text(it)}" for key, it in value.items())
        return f"{{ {items} }}" if items else "{}"
    if isinstance(value, (datetime.date, datetime.time)):
        return value.isoformat()
    if isinstance(value, (int, float)):
        return repr(value)
    raise TypeError(f"TOML has no value like {shown(value)}")


def key_text(key: str) -> str:
    """A key, in quotes if it needs them."""
    is_bare = key != "" and all(it.isascii() and (it.isalnum() or it in "-_") for it in key)
    return key if is_bare else value_text(key)


def is_tables(value: Any) -> bool:
    """Whether a value is written as an array of tables, `[[name]]`."""
    return isinstance(value, list) and value != [] and all(isinstance(it, dict) for it in value)


def dumps(document: Dict[str, Any]) -> str:
    """A document as text: values first, arrays of tables behind them, each table on lines of its
    own."""
    lines: List[str] = []
    for key, value in document.items():
        if not is_tables(value):
            lines.append(f"{key_text(key)} = {value_text(value)}")
    for name, tables in document.items():
        for table in tables if is_tables(tables) else []:
            lines += ["", f"[[{key_text(name)}]]"]
            lines += [f"{key_text(key)} = {value_text(it)}" for key, it in table.items()]
    return "\n".join(lines) + "\n"
