"""docs/pictures show what the second model reports, in the places of docs/robus_picture.md.

test_library looks whether robus_picture draws exactly these pictures."""
from __future__ import annotations

import unittest
from dataclasses import dataclass
from pathlib import Path
from xml.etree import ElementTree

import robus
from helpers import EXAMPLES, TOP

SVG = "{http://www.w3.org/2000/svg}"
PICTURES = sorted((TOP / "docs/pictures").glob("*.svg"))


@dataclass(frozen=True)
class Sign:
    """A rectangle or a text: its look, its left edge and its top or base, and what it says."""

    look: str
    x: int
    y: int
    text: str = ""


class Drawing:
    """A picture: its size, its rectangles and its texts."""

    def __init__(self, path: Path):
        root = ElementTree.parse(path).getroot()
        self.width, self.height = int(root.get("width")), int(root.get("height"))
        self.boxes = list(root.iter(SVG + "rect"))
        self.signs = [
            Sign(it.get("class"), int(it.get("x")), int(it.get("y")), it.text or "")
            for it in root.iter()
            if it.tag in (SVG + "rect", SVG + "text")
        ]
        # The base of each frame's title, by its number.
        self.titles = {
            int(it.text.split()[1]): it.y
            for it in self.having("title")
            if it.text.startswith("frame ")
        }
        self.first = min(self.titles.values(), default=0)

    def having(self, *looks: str) -> list[Sign]:
        return [it for it in self.signs if it.look in looks]

    def rows(self) -> dict[str, int]:
        """How far the row of each node is below the title of its frame."""
        later = [base for base in self.titles.values() if base > self.first]
        end = min(later, default=self.height)
        names = [it for it in self.having("name") if self.first < it.y < end]
        return {it.text: it.y - self.first for it in names}

    def columns(self) -> dict[int, int]:
        """The middle of each slot's column."""
        heads = [it for it in self.having("slot") if it.text.isdigit()]
        top = min(it.y for it in heads)
        return {int(it.text): it.x for it in heads if it.y == top}

    def in_frames(self, *looks: str) -> list[Sign]:
        """What stands below the first title, so that it is no part of the legend."""
        return [it for it in self.having(*looks) if it.y > self.first]


def report_of(picture: Path) -> robus.Report:
    return robus.run(EXAMPLES / (picture.stem + ".toml"), engine="model")


class Pictures(unittest.TestCase):
    @classmethod
    def setUpClass(cls):
        found = [(path.stem, Drawing(path), report_of(path)) for path in PICTURES]
        cls.panels = [it for it in found if it[1].titles]
        cls.overviews = [it for it in found if not it[1].titles]

    def test_both_views_are_there(self):
        self.assertGreaterEqual(len(self.panels), 5)
        self.assertGreaterEqual(len(self.overviews), 1)

    def test_all_is_on_the_page(self):
        for name, drawing, _ in self.panels + self.overviews:
            for box in drawing.boxes:
                x, y, width, height = (int(box.get(it)) for it in ("x", "y", "width", "height"))
                self.assertLessEqual(x + width, drawing.width, name)
                self.assertLessEqual(y + height, drawing.height, name)
            for sign in drawing.signs:
                self.assertLess(sign.x, drawing.width, name)
                self.assertLessEqual(sign.y, drawing.height, name)

    def test_each_delivery_is_in_its_place(self):
        for name, drawing, report in self.panels:
            rows, columns = drawing.rows(), drawing.columns()
            due = {
                (columns[it.slot], drawing.titles[it.frame] + rows[it.receiver],
                 "none" if it.word is None else str(it.word))
                for it in report.deliveries
            }
            cells = {(it.x, it.y, it.text) for it in drawing.in_frames("word", "nothing")}
            self.assertEqual(cells, due, name)

    def test_each_begin_is_on_the_scale(self):
        for name, drawing, report in self.panels:
            rows = drawing.rows()
            marks = {(it.x, it.y) for it in drawing.in_frames("tick")}
            due = set()
            for frame, title in drawing.titles.items():
                begins = {it.node: it.time for it in report.epochs if it.frame == frame}
                for node, time in begins.items():
                    after = (time - min(begins.values())) * 160 // max(1, report.spread)
                    due.add((94 + after, title + rows[node] - 12))
            self.assertEqual(marks, due, name)
            ends = [it.text for it in drawing.having("most")]
            panels = len(drawing.titles) if report.spread else 0
            self.assertEqual(ends, [str(report.spread)] * panels, name)

    def test_who_is_convicted_and_who_is_absent(self):
        for name, drawing, report in self.panels:
            rows = drawing.rows()
            for frame, title in drawing.titles.items():
                held = [it.convicted for it in report.convictions if it.frame == frame]
                convicted = {node for nodes in held for node in nodes}
                present = {it.node for it in report.epochs if it.frame == frame}
                places = {title + below: node for node, below in rows.items()}
                crossed = {places[it.y] for it in drawing.in_frames("cross") if it.y in places}
                absent = {places[it.y] for it in drawing.in_frames("absent") if it.y in places}
                self.assertEqual(crossed, convicted, name)
                self.assertEqual(absent, set(rows) - present, name)

    def test_the_overview_has_a_cell_for_each_slot(self):
        for name, drawing, report in self.overviews:
            slots = {(it.frame, it.slot) for it in report.deliveries}
            numbers = {it.text: it.x for it in drawing.having("slot")}
            self.assertEqual(set(numbers), {str(slot) for _, slot in slots}, name)
            top = min(it.y for it in drawing.having("slot"))
            cells = [it for it in drawing.having("agree", "silent", "differ") if it.y > top]
            self.assertEqual(len(cells), len(slots), name)
            silent = {(it.frame, it.slot) for it in report.deliveries if it.word is None}
            orange = [it for it in cells if it.look == "silent"]
            self.assertEqual(len(orange), len(silent), name)
            named = [it.text for it in drawing.having("newcomer")][1:]
            self.assertEqual(sorted(named), sorted(report.convicted), name)


if __name__ == "__main__":
    unittest.main()
