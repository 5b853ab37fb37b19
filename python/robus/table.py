"""A report as rows for other tools: CSV, or lines of JSON."""
from __future__ import annotations

import argparse
import json
import sys
from typing import Iterable, Optional

from robus.errors import BadArgument
from robus.rows import LINES, NoRow, columns, dict_of, rows_of, write_csv
from robus.tool import Parser, lines_of

HELP = """Makes rows of what robus run, letters, group, check, stress, spell, replay or listen
wrote, or robus_bridge run: CSV of one kind of line with its columns named, or with --json a line of
JSON for each line of any kind. It reads a file, or standard input if none is named, and is not
proved.

kinds and their columns (times in reference units, ticks of the node's clock; a word that is `none`
is empty, in JSON null):

KINDS

    robus run < bus.toml | tools/table deliveries > deliveries.csv
    robus run < bus.toml | tools/table --json | jq -c 'select(.kind == "deliveries")'

status: 0 done, 2 wrong words or no such file, 3 a line is none of these"""


def write(kind: Optional[str], source: Iterable[str]) -> None:
    """CSV of one kind, or without one JSON of all."""
    if kind is not None:
        write_csv(kind, rows_of(source), sys.stdout)
        return
    for row in rows_of(source):
        print(json.dumps(dict_of(row)))


def main(words: list[str]) -> int:
    """tools/table with these words; its status."""
    listed = "\n".join(f"    {kind:<13} {', '.join(columns(kind))}" for kind in LINES)
    usage = "tools/table KIND [FILE], tools/table --json [FILE]"
    parser = Parser("tools/table", HELP.replace("KINDS", listed), usage)
    parser.add_argument("words", nargs="*", help=argparse.SUPPRESS)
    parser.add_argument("--json", action="store_true", help="JSON of all lines, a line for each")
    asked = parser.parse_args(words)
    names = asked.words[:]
    kind = None if asked.json else names.pop(0) if names else None
    if not asked.json and kind not in LINES:
        why = f"{kind} is none" if kind else "it is missing"
        raise BadArgument(f"KIND: {why}; there are {', '.join(LINES)}, or --json for all of them")
    if len(names) > 1:
        raise BadArgument(f"{names[1]} is one word too many: {usage}")
    file = names[0] if names else "-"
    try:
        with lines_of(file) as source:
            write(kind, source)
    except NoRow as fault:
        name = "standard input" if file == "-" else file
        print(f"tools/table: {name}: {fault}", file=sys.stderr)
        return 3
    return 0
