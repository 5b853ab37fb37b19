"""What tools/wrong_bodies has tried, where a script stands for `rt`."""
import os
import pathlib
import shutil
import subprocess
import tempfile
import unittest

from helpers import TOP

# Stands for `rt`: writes its words and the mutants that are where it runs, and is not
# content with any of `high`
RT = """#!/bin/sh
echo "$@"; ls crates/*/must-fail/*; [ ! -e crates/high/must-fail ]
"""


class WrongBodies(unittest.TestCase):
    def setUp(self):
        folder = tempfile.TemporaryDirectory()
        self.addCleanup(folder.cleanup)
        self.top = pathlib.Path(folder.name)
        for part in ("tools", "bin", "crates/high/must-fail", "crates/low/src", "crates/low/out"):
            (self.top / part).mkdir(parents=True)
        shutil.copy(TOP / "tools/wrong_bodies", self.top / "tools/wrong_bodies")
        for name in ("crates.txt", "HANDLES", "crates/high/must-fail/of_the_gate.edit"):
            (self.top / name).write_text("\n")
        for name in ("high", "low"):
            (self.top / "tests/wrong_bodies" / name).mkdir(parents=True)
            (self.top / "tests/wrong_bodies" / name / "turned.edit").write_text("\n")
        (self.top / "bin/rt").write_text(RT)
        (self.top / "bin/rt").chmod(0o755)

    def tried(self, *words: str) -> tuple[int, list[str], str]:
        """The status of tools/wrong_bodies, and what it writes."""
        env = dict(os.environ, PATH=f"{self.top}/bin{os.pathsep}{os.environ['PATH']}")
        done = subprocess.run([self.top / "tools/wrong_bodies", *words], capture_output=True, text=True, env=env)
        return done.returncode, done.stdout.splitlines(), done.stderr

    def test_one_crate(self):
        self.assertEqual(self.tried("low"), (0, ["must-fail low", "crates/low/must-fail/turned.edit"], ""))

    def test_all_but_those_of_the_gate(self):
        bodies = ["crates/high/must-fail/turned.edit", "crates/low/must-fail/turned.edit"]
        self.assertEqual(self.tried(), (1, ["must-fail high low", *bodies], ""))

    def test_a_crate_that_has_none(self):
        self.assertEqual(self.tried("other"), (
            2, [], "tools/wrong_bodies: CRATE: other has no mutants here; there are high, low\n"))

    def test_each_can_be_applied(self):
        for edit in sorted((TOP / "tests/wrong_bodies").glob("*/*.edit")):
            rows = [row.partition(": ") for row in edit.read_text().splitlines()]
            text = (TOP / "crates" / edit.parent.name / rows[0][2]).read_text()
            for word, _, old in rows[1::2]:
                self.assertEqual((word, text.count(old)), ("old", 1), edit)


if __name__ == "__main__":
    unittest.main()
