"""The mutants that docs/MUTANTS.md names are those of the gate."""
import re
import unittest
from pathlib import Path

TOP = Path(__file__).resolve().parents[2]
ROWS = [row.split("|") for row in (TOP / "docs/MUTANTS.md").read_text().splitlines()
        if row.startswith("| ") and "`" in row]


class Mutants(unittest.TestCase):
    """The table against crates/NAME/must-fail."""

    def test_each_mistake_has_a_mutant(self):
        self.assertEqual(len(ROWS), 24)
        for _, mistake, mutants, _ in ROWS:
            named = re.findall(r"`(\w+)/(\w+)`", mutants)
            self.assertTrue(named, mistake)
            for crate, name in named:
                edit = TOP / f"crates/{crate}/must-fail/{name}.edit"
                self.assertTrue(edit.is_file(), f"{mistake}: there is no {edit.relative_to(TOP)}")

    def test_each_mutant_can_be_applied(self):
        for edit in sorted(TOP.glob("crates/*/must-fail/*.edit")):
            file, *pairs = re.findall(r"^(?:file|old|new): (.*)$", edit.read_text(), re.MULTILINE)
            content = (edit.parents[1] / file.strip()).read_text()
            for old, new in zip(pairs[::2], pairs[1::2]):
                self.assertEqual(content.count(old.strip()), 1, edit)
                content = content.replace(old.strip(), new.strip())


if __name__ == "__main__":
    unittest.main()
