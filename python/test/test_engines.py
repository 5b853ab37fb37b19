"""Which engine runs a call, and how the shared library is called: docs/LIBRARY.md."""
import os
import shutil
import stat
import subprocess
import sys
import tempfile
import unittest
from pathlib import Path
from unittest import mock

import robus
from helpers import EXAMPLES, TOP, output_of
from robus import engines
from robus.answers import fault_in

# Stands for librobus.so: the words with `|` between them, the input, and as many bytes more as the
# last word says
STUB = r"""
#include <stdint.h>
#include <stdlib.h>
#include <string.h>
typedef struct { int32_t status; uint64_t length; } robus_answer;

robus_answer robus_call(const uint8_t *words, size_t words_length,
                        const uint8_t *input, size_t input_length,
                        uint8_t *output, size_t output_length) {
    size_t last = words_length;
    while (last > 0 && words[last - 1] != 0) last--;
    size_t more = strtoull((const char *)words + last, 0, 10), length = 0;
    for (size_t i = 0; i < words_length + input_length + more; i++) {
        uint8_t byte = i < words_length ? (words[i] ? words[i] : '|')
                     : i < words_length + input_length ? input[i - words_length] : '+';
        if (length < output_length) output[length] = byte;
        length++;
    }
    return (robus_answer){length > output_length ? 9 : 0, length};
}
"""
PROGRAM = """#!/bin/sh
echo "end $#"
cat
exit 1
"""


class Choice(unittest.TestCase):
    def test_the_variable_and_the_argument(self):
        with mock.patch.dict(os.environ, ROBUS_ENGINE="model"):
            self.assertEqual(robus.run(EXAMPLES / "two_sided.toml").engine.name, "model")
            with self.assertRaises(robus.NoEngine):
                robus.letters(EXAMPLES / "letter.toml")
        self.assertEqual(robus.run(EXAMPLES / "two_sided.toml", engine="model").engine, engines.model())
        self.assertIn("not proved", str(engines.model()))
        with self.assertRaises(robus.NoEngine):
            robus.run(EXAMPLES / "two_sided.toml", engine="nosuch")

    def test_the_first_that_is_there(self):
        found = [find() for find in engines.ENGINES.values()]
        first = next(it for it in found if it is not None)
        with mock.patch.dict(os.environ):
            os.environ.pop("ROBUS_ENGINE", None)
            self.assertEqual(robus.choose(["run"]), first)
        for name, it in zip(engines.ENGINES, found):
            if it is not None:
                self.assertEqual(robus.choose(["run"], name).name, name)

    def test_a_program_by_its_path(self):
        with tempfile.TemporaryDirectory() as folder:
            path = Path(folder, "robus")
            path.write_text(PROGRAM)
            path.chmod(path.stat().st_mode | stat.S_IXUSR)
            report = robus.run(b"breach 0 0 2 TwoSided\n", engine=str(path))
            self.assertEqual((report.status, report.text), (1, "end 1\nbreach 0 0 2 TwoSided\n"))
            self.assertEqual(str(report.engine), f"program {path}")

    def test_an_engine_that_is_none(self):
        """What is no program and no library, or answers as no program of ROBUS does, has no
        result."""
        with tempfile.TemporaryDirectory() as folder:
            text = Path(folder, "text")
            text.write_text("no program")
            shared = Path(folder, "none.so")
            shared.write_text("no library")
            for engine in (folder, text, shared, "nosuch"):
                with self.assertRaises(robus.NoEngine, msg=engine):
                    robus.run(EXAMPLES / "two_sided.toml", engine=str(engine))
            text.chmod(0o755)  # a text that may be executed is none either: the system refuses it
            for engine in ("/bin/true", "/bin/cat", "/bin/false"):
                with self.assertRaises(robus.Failed, msg=engine):
                    robus.run(EXAMPLES / "two_sided.toml", engine=engine)
            with self.assertRaises(ValueError):
                robus.run(EXAMPLES / "two_sided.toml", engine=3)

    def test_a_torn_answer_is_none(self):
        """Each output has a last line of its word: docs/robus.md and docs/robus_bridge.md name
        them."""
        for word, status, whole in (("run", 0, b"e 0 B0 0 0\nend 1\n"), ("run", 1, b"breach 0 0 2 TwoSided\n"), ("run", 3, b"refused 2 MissingKey\n"),
                                    ("check", 0, b"C6 1 0\nC7 60200 60109\n"), ("record", 1, b"RBL1\x02\x04"), ("spell", 0, b"w 16777218\n"),
                                    ("stress", 0, b"convicted 2\nspread 60200\n"), ("stress", 1, b"")):
            self.assertIsNone(fault_in([word], "robus", status, whole), word)
            if whole:
                self.assertIsNotNone(fault_in([word], "robus", status, whole[:-1]), word)
        self.assertIsNotNone(fault_in(["run"], "robus", 0, b"breach 0 0 2 TwoSided\n"))
        self.assertIsNotNone(fault_in(["run"], "robus", 1, b"end 3\n"))
        self.assertIn("signal 9", fault_in(["run"], "robus", -9, b"end 3\n"))
        self.assertIsNotNone(fault_in(["run"], "robus", 70, b""))

    def test_an_unproved_build_says_that_it_is_one(self):
        self.assertIn("unproved", str(engines.Quick("/somewhere/.quick/robus-0")))


class Words(unittest.TestCase):
    """python3 -m robus WORD ..: the programs' words."""

    def words(self, *words, data: bytes = b"") -> tuple[int, bytes, str]:
        env = dict(os.environ, PYTHONPATH=str(TOP / "python"), ROBUS_ENGINE="model", PYTHONDONTWRITEBYTECODE="1")
        done = subprocess.run([sys.executable, "-m", "robus", *map(str, words)], capture_output=True, env=env, input=data)
        return done.returncode, done.stdout, done.stderr.decode()

    def test_what_ran_them_is_told(self):
        status, out, said = self.words("run", EXAMPLES / "too_few_good.toml")
        self.assertEqual((status, out.splitlines()[-1]), (1, b"breach 0 0 2 FewGoodRmu"))
        self.assertEqual(said.splitlines()[0], "tools/run: run by tools/model, a second model of the bus, which is not proved")
        self.assertIn("status 1: the run ended with a breach of the fault premise; tools/explain", said.splitlines()[1])

    def test_files_and_standard_input(self):
        path = EXAMPLES / "one_silent_rmu.toml"
        log = robus.record(path, "R0", engine="model").data
        self.assertEqual(self.words("record", "R0", path)[:2], (0, log))
        self.assertEqual(self.words("record", "R0", "-", data=path.read_bytes())[:2], (0, log))
        self.assertEqual(self.words("replay", data=log)[:2], (0, robus.replay(log, engine="model").output))

    def test_words_that_make_no_sense(self):
        with mock.patch.dict(os.environ, ROBUS_ENGINE="model"):
            for tool, *words in (["record"], ["run", "a", "b"], ["gen", "7"], ["run", "nosuch.toml"]):
                self.assertEqual(output_of(tool, words), (2, ""), words)
            self.assertEqual(output_of("letters", [EXAMPLES / "letter.toml"]), (70, ""))


@unittest.skipUnless(shutil.which("cc"), "no C compiler")
class SharedLibrary(unittest.TestCase):
    @classmethod
    def setUpClass(cls):
        cls.folder = tempfile.TemporaryDirectory()
        path = Path(cls.folder.name, "librobus.so")
        path.with_suffix(".c").write_text(STUB)
        subprocess.run(["cc", "-shared", "-fPIC", "-o", str(path), str(path.with_suffix(".c"))], check=True)
        cls.engine = robus.choose(["run"], str(path))

    @classmethod
    def tearDownClass(cls):
        cls.folder.cleanup()

    def test_words_and_input_as_they_are(self):
        found = self.engine.raw(["group", "most", "7"], b"a\0\xffb")
        self.assertEqual((found.status, found.output), (0, b"group|most|7a\0\xffb+++++++"))
        self.assertEqual(self.engine.raw(["run"]).output, b"run")

    def test_a_buffer_that_is_too_small_is_made_greater(self):
        more = 2 * engines.FIRST_LENGTH
        found = self.engine.raw(["stress", str(more)], b"")
        self.assertEqual((found.status, len(found.output)), (0, len(f"stress|{more}") + more))

    def test_it_has_no_bridge(self):
        self.assertFalse(self.engine.has(["run"], "robus_bridge"))


class Installed(unittest.TestCase):
    def test_from_a_prefix(self):
        with tempfile.TemporaryDirectory() as prefix:
            done = subprocess.run(["make", "-s", "install-python", "PREFIX=" + prefix], cwd=TOP, capture_output=True, text=True)
            self.assertEqual((done.returncode, done.stderr), (0, ""))
            env = {"PATH": os.environ["PATH"], "PYTHONPATH": prefix + "/lib/python3/dist-packages", "ROBUS_ENGINE": "model",
                   "PYTHONDONTWRITEBYTECODE": "1"}
            words = f"import robus; print(robus.__file__, robus.run('{EXAMPLES / 'one_silent_rmu.toml'}').convicted)"
            done = subprocess.run([sys.executable, "-c", words], cwd=prefix, env=env, capture_output=True, text=True)
            self.assertEqual(done.stdout, f"{prefix}/lib/python3/dist-packages/robus/__init__.py ('R2',)\n")
            program = Path(prefix, "bin/robus")
            program.parent.mkdir()
            program.write_text(PROGRAM)
            words = "from robus import engines; print(engines.program())"
            done = subprocess.run([sys.executable, "-c", words], cwd=prefix, env=env, capture_output=True, text=True)
            self.assertEqual(done.stdout, f"program {program}\n")


if __name__ == "__main__":
    unittest.main()
