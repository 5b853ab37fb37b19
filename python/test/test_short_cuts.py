"""The short cuts of tests/short_cuts, docs/PERFORMANCE.md and the comments are the same."""
import importlib.machinery
import importlib.util
import re
import sys
import unittest

from helpers import TOP

EDITS = sorted((TOP / "tests/short_cuts").glob("*.edit"))


def tool():
    """The script tools/short_cuts as a module."""
    loader = importlib.machinery.SourceFileLoader("short_cuts", str(TOP / "tools/short_cuts"))
    module = importlib.util.module_from_spec(importlib.util.spec_from_loader("short_cuts", loader))
    sys.modules["short_cuts"] = module
    loader.exec_module(module)
    return module


class ShortCuts(unittest.TestCase):
    def setUp(self):
        self.edits = [tool().Edit.read(path) for path in EDITS]

    def test_each_edit_can_be_applied(self):
        for edit in self.edits:
            text = (TOP / edit.file).read_text()
            for old, new in edit.pairs:
                self.assertEqual(text.count(old), 1, f"{edit.name}: {old}")
                self.assertNotEqual(old, new)

    def test_the_table_has_each_of_them(self):
        rows = re.findall(r"^\| ([a-z ]+) \| (.+?) \| (`rb_.+?) \| [\d,]+ \| [\d.]+ % \|$",
                          (TOP / "docs/PERFORMANCE.md").read_text(), re.M)
        self.assertEqual({(it.name, it.avoids, it.where) for it in self.edits}, set(rows))

    def test_comments_name_each_of_them(self):
        named = set()
        for path in (TOP / "crates").glob("*/src/**/*.rt"):
            text = re.sub(r"\s*\n\s*//+ ?", " ", path.read_text())
            named.update(re.findall(r'short cut "([a-z ]+)"', text))
        self.assertEqual(named, {it.name for it in self.edits})


if __name__ == "__main__":
    unittest.main()
