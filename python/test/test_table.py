"""Rows of the lines that docs/robus.md and docs/robus_bridge.md name."""
import json
import re
import unittest

from helpers import EXAMPLES, TOP, output_of, run_model
from robus import rows

LINES = """e 0 B0 917 9170000
c 1 R2 4 5
p 1 B0 10 1
d 1 5 B0 B2 none
d 1 6 B15 R3 4294967295
m 3 7 B1 B0 6869
g 0 B0 20
x 1 left B0 60
w 16777218
C3 70006 61952
spread 60200
end 3
breach 0 5 2 TwoSided
breach right 0 5 2 TwoSided
refused 6 PlanFails 1
refused 2 MissingKey
"""
ROWS = [
    {"kind": "begins", "frame": 0, "node": "B0", "tick": 917, "time": 9170000},
    {"kind": "convicted", "frame": 1, "node": "R2", "biu_mask": 4, "rmu_mask": 5, "convicted": ["B2", "R0", "R2"]},
    {"kind": "ports", "frame": 1, "node": "B0", "state": 10, "losses": 1},
    {"kind": "deliveries", "frame": 1, "slot": 5, "receiver": "B0", "sender": "B2", "word": None},
    {"kind": "deliveries", "frame": 1, "slot": 6, "receiver": "B15", "sender": "R3", "word": 4294967295},
    {"kind": "letters", "frame": 3, "slot": 7, "receiver": "B1", "sender": "B0", "hex": "6869"},
    {"kind": "groups", "frame": 0, "receiver": "B0", "word": 20},
    {"kind": "crossings", "frame": 1, "bus": "left", "receiver": "B0", "word": 60},
    {"kind": "words", "word": 16777218},
    {"kind": "inequalities", "inequality": 3, "left": 70006, "right": 61952},
    {"kind": "numbers", "name": "spread", "number": 60200},
    {"kind": "end", "frames": 3},
    {"kind": "breach", "bus": None, "frame": 0, "slot": 5, "stage": 2, "cause": "TwoSided"},
    {"kind": "breach", "bus": "right", "frame": 0, "slot": 5, "stage": 2, "cause": "TwoSided"},
    {"kind": "refused", "code": 6, "name": "PlanFails", "number": 1},
    {"kind": "refused", "code": 2, "name": "MissingKey", "number": None},
]


class Tables(unittest.TestCase):
    def table(self, words: list[str], text: str) -> tuple[int, str]:
        path = TOP / "python/test/rows.log"
        path.write_text(text)
        try:
            return output_of("table", [*words, path])
        finally:
            path.unlink()

    def test_each_kind_of_line(self):
        status, text = self.table(["--json"], LINES)
        self.assertEqual(status, 0)
        self.assertEqual([json.loads(line) for line in text.splitlines()], ROWS)

    def test_columns_of_csv(self):
        self.assertEqual(self.table(["deliveries"], LINES),
                         (0, "frame,slot,receiver,sender,word\n1,5,B0,B2,\n1,6,B15,R3,4294967295\n"))
        self.assertEqual(self.table(["convicted"], LINES), (0, "frame,node,biu_mask,rmu_mask,convicted\n1,R2,4,5,B2 R0 R2\n"))

    def test_a_begin_without_a_time(self):
        self.assertEqual(self.table(["begins"], "e 1 B0 917\n"), (0, "frame,node,tick,time\n1,B0,917,\n"))

    def test_lines_that_are_none(self):
        for line in ("hello", "e 0 B0", "d 0 4 B0 B0 x", "e 0 B16 0 0", "d 0 4 B0 B0 -1", "", "e 0 B0 0 0 0"):
            self.assertEqual(self.table(["--json"], line + "\n")[0], 3, line)

    def test_whole_reports(self):
        for path in EXAMPLES.glob("*.toml"):
            report = run_model("run", data=path.read_bytes())
            status, text = self.table(["--json"], report)
            self.assertEqual((status, len(text.splitlines())), (0, len(report.splitlines())))

    def test_the_kinds_are_those_of_the_page(self):
        page = (TOP / "docs/robus.md").read_text()
        first = set(re.findall(r"^\| `(\w+)[ `]", page[page.index("### Lines"):page.index("### Breaches")], re.M))
        forms = [re.sub(r"<(\w+)>", lambda it: f"(?:{rows.FIELDS[it[1]]})", re.split(r"[ \[]", form)[0])
                 for _, form in rows.LINES.values()]
        self.assertIn("d", first)
        for word in first:
            self.assertTrue(any(re.fullmatch(form, word) for form in forms), word)


if __name__ == "__main__":
    unittest.main()
