"""Says where and why a scenario is refused, and what in it can have no effect."""
from __future__ import annotations

import json
import re
from dataclasses import asdict, dataclass

from robus import forms, laws, ranges, syntax
from robus.locate import Locator, Place
from robus.model import TooLong, model, read
from robus.scenario import path_of
from robus.tool import Parser, input_of

HELP = """Says where and why a scenario is refused: every finding with its line, what is there and
what may be there. It agrees with robus on what is refused, and names first the rule for which robus
refuses it. Of an accepted scenario it says what can have no effect, for which it runs the scenario
on tools/model. It is not proved.

status: 0 accepted, 2 wrong words or no such file, 3 refused, 4 longer than a scenario may be"""


@dataclass
class Finding:
    """What is found at a line: a rule's code, or 0 if it is a warning."""

    code: int
    line: int
    place: str
    stands: str
    why: str
    path: str = ""  # the place as Scenario.with_ takes it, say[1].slots


def spelt(place: Place) -> str:
    """A place as a reader writes it: say 2.slots."""
    if not place:
        return ""
    is_entry = len(place) > 1 and isinstance(place[1], int) and place[0] in model.ENTRY_FIELDS
    head, rest = str(place[0]), place[1:]
    if is_entry:
        head, rest = f"{place[0]} {place[1] + 1}", place[2:]
    return head + "".join(f"[{it}]" if isinstance(it, int) else f".{it}" for it in rest)


def visible(text: str) -> str:
    """A text with escapes for the characters that would act on a terminal."""
    return "".join(it if it.isprintable() else ascii(it)[1:-1] for it in text)


def short(text: str) -> str:
    """A text on one line, of at most 60 characters."""
    text = visible(" ".join(text.split()))
    return text if len(text) <= 60 else text[:57] + "..."


def another_kind(data: bytes) -> str | None:
    """What the bytes are if they are no scenario, but something else that robus reads or
    writes."""
    if data.startswith((b"RBL1", b"RBL2")):
        return "this is a log, which robus replay and robus listen read"
    if re.match(rb"e \d+ [BR]\d+ \d+ \d+$", data, re.MULTILINE):
        return "this is a report, which tools/table and robus_picture read"
    has_bridges = re.search(rb"^[ \t]*bridges[ \t]*=", data, re.MULTILINE)
    if has_bridges and not re.match(rb"[ \t]*biu[ \t]*=", data, re.MULTILINE):
        return "this is a bridge of two buses, which make bridge runs"
    return None


def refusal_of(data: bytes) -> str | None:
    """The line with which the scenario is refused; nothing if it is accepted."""
    try:
        read(data)
    except model.Refused as refusal:
        return str(refusal)
    return None


def findings_in(data: bytes) -> list[Finding]:
    """All that is wrong with a document, in the order of its lines; nothing if it is
    accepted."""
    fault = syntax.fault_of(data)
    if fault:
        line, column, why = fault
        rows = data.decode("utf-8", "replace").split("\n")
        stands = rows[line - 1].strip() if line <= len(rows) else ""
        return [Finding(1, line, f"column {column}", short(stands), why[:1].lower() + why[1:])]
    text = data.decode("utf-8")
    parts = syntax.older(text)
    document = syntax.tomllib.loads("".join(part for _, part in parts))
    locator = Locator(text)

    def finding(code: int, place: Place, why: str) -> Finding:
        """What is found at a place, with its line and what stands there."""
        stands = locator.texts.get(place, "")
        return Finding(code, locator.line_of(place), visible(spelt(place)), short(stands),
                       visible(why), visible(path_of(place)))

    wide = [finding(1, place, "integers are of 64 bits")
            for place, value in syntax.values_in(document)
            if not -(1 << 63) <= value < 1 << 63]
    if wide:
        return wide
    values = ranges.Values(document)
    sources = forms.findings(document), ranges.findings(values), laws.findings(values)
    found = [finding(*it) for source in sources for it in source]
    return sorted(found, key=lambda it: (it.line, it.code))


def lint(data: bytes) -> tuple[str | None, list[Finding]]:
    """The refusal's line, and all findings; of an accepted scenario warnings."""
    refusal = refusal_of(data)
    if refusal is None:
        from robus import effects

        return None, [Finding(0, line, spelt(place), "", why, path_of(place))
                      for line, place, why in effects.warnings(data)]
    code, kind = int(refusal.split()[1]), another_kind(data)
    found = [Finding(code, 1, "", "", kind)] if kind else findings_in(data)
    if code not in [it.code for it in found]:
        why = "the second model refuses it, and this tool finds no place for it"
        found.insert(0, Finding(code, 1, "", "", why))
    return refusal, found


def line_for(name: str, it: Finding) -> str:
    """A finding as a line of text."""
    rule = "warning" if it.code == 0 else f"{it.code} {model.SCENARIO_RULES[it.code]}"
    what = f": {it.place}" if it.place else ""
    stands = ""
    if it.stands and it.code == 1:
        stands = f" `{it.stands}`"
    elif it.stands and not it.stands.startswith("[["):
        stands = f" = {it.stands}"
    return f"{name}:{it.line}: {rule}{what}{stands}: {it.why}"


def main(words: list[str]) -> int:
    """tools/lint with these words; its status."""
    parser = Parser("tools/lint", HELP)
    parser.add_argument("scenario", metavar="SCENARIO", help="a file, or - for standard input")
    parser.add_argument("--json", action="store_true", help="a line of JSON for each finding")
    asked = parser.parse_args(words)
    try:
        refusal, found = lint(input_of(asked.scenario))
    except TooLong:
        print(f"{asked.scenario}: longer than {model.SCENARIO_LIMIT} bytes")
        return 4
    for it in found:
        print(json.dumps(asdict(it)) if asked.json else line_for(asked.scenario, it))
    if not asked.json:
        kind = "warning" if refusal is None else "finding"
        count = f"{len(found)} {kind}{'' if len(found) == 1 else 's'}"
        print(f'{asked.scenario}: {refusal or "accepted"}, {count}')
    return 3 if refusal else 0
