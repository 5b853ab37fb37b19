"""What tools/build has proved, in which order, and what it keeps, where a script stands for
`rt`."""
import os
import pathlib
import shutil
import subprocess
import tempfile
import unittest

from helpers import TOP

# Stands for `rt`: refuses a crate with a file src/wrong, and one below which a library is missing
RT = """#!/bin/sh
name=$(basename "$PWD")
for low in $(grep "^$name:" ../../crates.txt | cut -d : -f 2); do
    [ -e "../$low/out/rlib/stamp" ] || { echo "no $low"; exit 2; }
done
[ ! -e src/wrong ] || { echo "fn $name: not proved"; exit 1; }
mkdir -p out/rlib && echo "$name" > out/rlib/stamp && echo "$name $*" >> "$ORDER"
"""


class Build(unittest.TestCase):
    def setUp(self):
        folder = tempfile.TemporaryDirectory()
        self.addCleanup(folder.cleanup)
        self.top = pathlib.Path(folder.name)
        (self.top / "tools").mkdir()
        shutil.copy(TOP / "tools/build", self.top / "tools/build")
        (self.top / "crates.txt").write_text("robus: high  # a program\n\nhigh: low side\nside: low\nlow:\nother: low\n")
        for name in ("robus", "high", "side", "low", "other"):
            (self.top / "crates" / name / "src").mkdir(parents=True)
            (self.top / "crates" / name / "src/lib.rt").write_text("\n")
        (self.top / "bin").mkdir()
        (self.top / "bin/rt").write_text(RT)
        (self.top / "bin/rt").chmod(0o755)

    def build(self, **more: str) -> tuple[int, str, str, list[str]]:
        """The status of `tools/build robus`, what it writes, and the libraries that were proved, in
        their order."""
        order = self.top / "order"
        order.write_text("")
        env = dict(os.environ, PATH=f"{self.top}/bin{os.pathsep}{os.environ['PATH']}", ORDER=str(order), RT_JOBS="2", **more)
        done = subprocess.run([self.top / "tools/build", "robus"], capture_output=True, text=True, env=env)
        return done.returncode, done.stdout, done.stderr, order.read_text().splitlines()

    def test_the_libraries_below_lowest_first_and_once(self):
        status, out, said, order = self.build()
        self.assertEqual((status, said), (0, ""))
        self.assertEqual(order, ["low lib --jobs 2", "side lib --jobs 2", "high lib --jobs 2"])
        self.assertEqual(out.splitlines()[0], "tools/build: 3 libraries are to be proved, 2 at a time")
        self.assertEqual(out.splitlines()[3], "  0.0 minutes  high is proved, 3 of 3")
        self.assertEqual((self.top / "crates/high/out/rlib/stamp").read_text(), "high\n")
        self.assertFalse((self.top / "crates/high/out/room").exists())
        self.assertEqual(self.build(), (0, "", "", []))

    def test_one_that_is_not_proved(self):
        wrong = self.top / "crates/side/src/wrong"
        wrong.touch()
        status, out, said, order = self.build()
        self.assertEqual((status, order), (1, ["low lib --jobs 2"]))
        self.assertIn("side is NOT proved", out)
        self.assertTrue(said.startswith("fn side: not proved\ntools/build: side is not proved, and nothing above it was tried"), said)
        wrong.unlink()
        self.assertEqual(self.build()[3], ["side lib --jobs 2", "high lib --jobs 2"])

    def test_a_source_that_changed(self):
        self.build()
        (self.top / "crates/side/src/lib.rt").write_text("// other\n")
        self.assertEqual(self.build()[3], ["side lib --jobs 2", "high lib --jobs 2"])


if __name__ == "__main__":
    unittest.main()
