"""What tools/prose finds in comments."""
import pathlib
import tempfile
import unittest

from helpers import script_ending

# Each comment of a lemma or a definition, and the rules that it breaks
COMMENTS = {
    "if no segment is left, its length stays": [],
    "where no segment is left": ["fragment"],
    "it goes on to the next": ["fragment"],
    "of a good source the call is taken": ["fragment"],
    "the same for an RMU": ["fragment"],
    "who listens": ["fragment"],
    "whole numbers are not parts": [],
    "items of both lists": [],
    "The same for an RMU": ["opening"],
    "the begin of a frame": ["begin"],
    "a comment\n-- where each line but the first may open so": [],
}


class Prose(unittest.TestCase):
    def rules(self, folder: str) -> list[list[str]]:
        """The rules that each comment breaks in a file of this folder."""
        with tempfile.TemporaryDirectory() as top:
            file = pathlib.Path(top, folder, "Comments.antt")
            file.parent.mkdir()
            broken = []
            for comment in COMMENTS:
                file.write_text(f"-- {comment}\nname = one\n", encoding="utf-8")
                status, text, _ = script_ending("prose", [file])
                broken.append([line.split()[1] for line in text.splitlines()])
                self.assertEqual(status, 1 if broken[-1] else 0)
            return broken

    def test_each_comment_of_a_lemma_and_of_a_definition(self):
        for folder in ("proofs", "specs"):
            with self.subTest(folder=folder):
                self.assertEqual(self.rules(folder), list(COMMENTS.values()))

    def test_a_comment_elsewhere_may_open_with_any_word(self):
        expected = [[rule for rule in rules if rule != "fragment"] for rules in COMMENTS.values()]
        self.assertEqual(self.rules("src"), expected)


if __name__ == "__main__":
    unittest.main()
