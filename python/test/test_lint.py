"""What tools/lint says of spoilt documents, of whole ones, and of those that say what can have no
effect."""
import pathlib
import random
import unittest

from robus.keys import TABLES
from robus.forms import FIELDS
from robus.lint import findings_in, lint
from robus.locate import Locator
from spoilt import SPOILT, WHOLE

TOP = pathlib.Path(__file__).resolve().parents[2]


def spoil(old: str, new: str) -> bytes:
    assert WHOLE.count(old) >= 1, old
    return WHOLE.replace(old, new, 1).encode()


class Spoilt(unittest.TestCase):
    def test_each_mistake_is_found_at_its_line(self):
        for old, new, refusal, line, words in SPOILT:
            with self.subTest(new=new[:40]):
                said, found = lint(spoil(old, new))
                self.assertEqual(said, refusal)
                self.assertEqual(min(it.code for it in found), int(refusal.split()[1]))
                self.assertTrue([it for it in found if it.line == line and words in it.why], found)

    def test_all_mistakes_are_found_at_once(self):
        data = WHOLE
        for old, new, *_ in SPOILT:
            if new in ("slotz = 8", 'biu = "4"', "frames = 0", "delay = 15001", "[0, 10002]", "[10, 20, 30]"):
                data = data.replace(old, new, 1)
        said, found = lint(data.encode())
        self.assertEqual(said, "refused 2 MissingKey")
        self.assertEqual({it.code for it in found}, {2, 3, 4, 7, 8})

    def test_two_damages_at_once_agree_with_the_model(self):
        rng = random.Random(1)
        for _ in range(400):
            data = WHOLE
            for old, new, *_ in rng.sample(SPOILT[5:42], 2):
                data = data.replace(old, new, 1)
            said, found = lint(data.encode())
            if said is not None:
                self.assertEqual(min(it.code for it in found), int(said.split()[1]), data)

    def test_whole_documents_are_accepted(self):
        self.assertEqual(lint(WHOLE.encode()), (None, []))
        for path in (TOP / "examples").glob("*.toml"):
            self.assertIsNone(lint(path.read_bytes())[0], path)
            self.assertEqual(findings_in(path.read_bytes()), [], path)

    def test_what_is_no_scenario(self):
        bridge = (TOP / "examples/bridges/carried_words.toml").read_bytes()
        for data, refusal, words in ((bridge, "refused 2 MissingKey", "a bridge"), (b"e 0 B0 0 0\n", "refused 1 NotToml", "a report"),
                                     (b"RBL1\0\1", "refused 1 NotToml", "a log"), (b"RBL2\0\1", "refused 1 NotToml", "a log")):
            said, found = lint(data)
            self.assertEqual((said, len(found)), (refusal, 1))
            self.assertIn(words, found[0].why)

    def test_a_byte_order_mark(self):
        mark = b"\xef\xbb\xbf"
        self.assertEqual(lint(mark + WHOLE.encode()), (None, []))
        self.assertEqual(lint(mark + b"biu = 1\nrmu = \n")[1][0].line, 2)
        self.assertEqual(lint(mark + mark + WHOLE.encode())[0], "refused 1 NotToml")

    def test_the_keys_are_those_of_the_page(self):
        page = (TOP / "docs/SCENARIOS.md").read_text()
        for name, keys in TABLES.items():
            self.assertEqual(set(keys), set(FIELDS[name]))
            for key in keys:
                self.assertIn(f"`{key}`", page)


class Warnings(unittest.TestCase):
    def warns(self, more: str, words: str):
        refusal, found = lint((WHOLE + more).encode())
        self.assertIsNone(refusal)
        self.assertTrue([it for it in found if words in it.why], found)

    def test_say_entries_without_effect(self):
        say = '[[say]]\nfrom = "R2"\nto = "%s"\nframes = [%d, %d]\nslots = [%d, %d]\nstages = [%d, %d]\nword = 1\n'
        self.warns(say % ("B1", 0, 0, 6, 6, 1, 1), "no BIU listens in stage 1 of slot 6 (data 2)")
        self.warns(say % ("B1", 1, 1, 6, 6, 2, 2), "R2 is convicted from frame 1 on")
        self.warns(say % ("B", 0, 0, 6, 6, 2, 2), "speaks to the same receiver in the same window")
        self.warns('[[fault]]\nnode = "B1"\nframe = 0\nslot = 0\n' + say % ("B1", 0, 0, 7, 7, 2, 2), "is faulty by then")

    def test_a_link_that_a_later_one_covers(self):
        self.warns('[[link]]\nfrom = "B"\nto = "R"\ndelay = 6000\n', "the last one counts")


class Places(unittest.TestCase):
    def test_lines_of_nested_values(self):
        found = Locator('a = 1 # one\n"b c".d = [1,\n  [2, 3]]\n[[clock]]\nx = """\n]\n"""\ny = { z = 4,\n w = "#" }\n[[clock]]\ny = 2\n')
        self.assertEqual(found.lines[("b c", "d", 1, 0)], 3)
        self.assertEqual(found.lines[("clock", 0, "y", "w")], 9)
        self.assertEqual(found.texts[("clock", 0, "y", "w")], '"#"')
        self.assertEqual(found.lines[("clock", 1)], 10)
        self.assertEqual(found.line_of(("clock", 1, "nothing")), 10)


class Depth(unittest.TestCase):
    """docs/SCENARIOS.md: arrays and inline tables are nested at most 80 deep, and a key has at most
    80 parts."""

    def test_the_limit(self):
        for text in ("x = %s%s", "x = %s1%s", "[%s]", "%s = 1", "x = { %s = 1.5 }"):
            for levels, code in ((80, 3), (81, 1)):
                if text.count("%s") == 2:
                    ends = ("[", "]") if "1" not in text else ("{ a = ", " }")
                    found = text % tuple(it * levels for it in ends)
                else:
                    found = text % ".".join(["x"] * levels)
                data = (f"biu = 1\nrmu = 1\nslots = 1\nframes = 1\n{found}\n").encode()
                self.assertEqual(int(lint(data)[0].split()[1]), code, found)

    def test_what_is_far_deeper(self):
        for text in ("x = " + "[" * 20000, "x." * 2000 + "x = 1"):
            refusal, found = lint(text.encode())
            self.assertEqual((refusal, [it.why for it in found]), ("refused 1 NotToml", ["a value or a key is nested more than 80 levels deep"]))


if __name__ == "__main__":
    unittest.main()
