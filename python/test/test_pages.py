"""The blocks of docs/LIBRARY.md and docs/NOTEBOOK.md print what stands there."""
import contextlib
import doctest
import inspect
import re
import typing
import unittest

import robus
from helpers import TOP, is_fast


class Pages(unittest.TestCase):
    def blocks(self, name: str) -> dict:
        """Runs the blocks of a page from the top of the repository; the names that they leave."""
        parser, runner = doctest.DocTestParser(), doctest.DocTestRunner(verbose=False)
        test = parser.get_doctest((TOP / "docs" / name).read_text(encoding="utf-8"), {}, name, name, 0)
        said: list = []
        with contextlib.chdir(TOP):
            runner.run(test, out=said.append, clear_globs=False)
        self.assertEqual("".join(said), "")
        self.assertGreater(runner.tries, 5)
        return test.globs

    def test_library(self):
        self.blocks("LIBRARY.md")

    def test_cosimulation(self):
        self.blocks("COSIMULATION.md")

    def test_notebook_and_its_pictures(self):
        page = (TOP / "docs/NOTEBOOK.md").read_text(encoding="utf-8")
        pictures = re.findall(r"!\[[^]]+\]\(pictures/(\w+)\.svg\)", page)
        self.assertEqual(pictures, ["late_onset", "two_sided"])
        drawing = self.blocks("NOTEBOOK.md")["drawing"]
        if is_fast("robus_picture"):
            self.assertEqual(drawing, (TOP / "docs/pictures/two_sided.svg").read_text(encoding="utf-8"))

    def test_all_names_are_on_the_page_with_types_and_a_sentence(self):
        page = (TOP / "docs/LIBRARY.md").read_text(encoding="utf-8")
        for name in robus.__all__:
            it = getattr(robus, name)
            self.assertTrue(it.__doc__, name)
            if name not in ("Answer", "Engine", "Result"):
                self.assertIn(name, page)
            if inspect.isfunction(it):
                self.assertEqual(set(typing.get_type_hints(it)), {*inspect.signature(it).parameters, "return"}, name)


if __name__ == "__main__":
    unittest.main()
