"""The pages of `make site`: what they render, the order of the promise, and that their check and
that of the code's shape find what is wrong."""
import contextlib
import io
import tempfile
import unittest
from pathlib import Path

from helpers import TOP, script
from robus.errors import BadArgument
from robus_docs.atlas import Atlas
from robus_docs.build import Site
from robus_docs.documents import Documents, with_code
from robus_docs.links import clicks_to, link_faults, place_faults, read_pages
from robus_docs.markdown import Renderer
from robus_docs.pages import Pages
from robus_docs.reading import Reading
from robus_docs.shape import numbered
from robus_docs.source import CRATES, module, named_by, reach


class Rendering(unittest.TestCase):
    def rendered(self, text: str) -> str:
        return Renderer(lambda said: f"<code>{said}</code>", lambda link: f"~/{link}").render(text)

    def test_blocks(self):
        text = ("# A `name` & more\n\nTwo\nlines, *so* **it** is.\n\n    a < b\n\n"
                "| one | two |\n|---|---|\n| `x` | [y](z.md) |\n\n- a\n  b\n  - c\n- d\n\n1. e\n")
        self.assertEqual(self.rendered(text), "\n".join([
            '<h1 id="a-name-more">A <code>name</code> &amp; more</h1>',
            "<p>Two\nlines, <em>so</em> <strong>it</strong> is.</p>",
            "<pre><code>a &lt; b</code></pre>",
            '<div class="wide"><table><thead><tr><th>one</th><th>two</th></tr></thead>'
            '<tr><td><code>x</code></td><td><a href="~/z.md">y</a></td></tr></table></div>',
            "<ul><li>a\nb<ul><li>c</li></ul></li><li>d</li></ul>",
            "<ol><li>e</li></ol>",
        ]))


class Checking(unittest.TestCase):
    def faults(self, pages: dict) -> list:
        with tempfile.TemporaryDirectory() as room:
            for name, body in pages.items():
                (Path(room) / name).write_text(body, encoding="utf-8")
            return list(link_faults(Path(room), read_pages(Path(room))))

    def test_what_is_wrong_is_found(self):
        self.assertEqual(self.faults({
            "a.html": '<p id="x"><a href="b.html#y">b</a></p>',
            "b.html": '<p id="y"><a href="a.html#x">a</a> <a href="#y">b</a></p>',
        }), [])
        self.assertEqual(self.faults({
            "a.html": '<p id="x"><a href="b.html#z">b</a><a href="c.html">c</a></p>',
            "b.html": '<p id="y"><b>b</p></b><i id="y"></i>',
        }), [
            "a.html: b.html has no anchor z", "a.html: there is no c.html",
            "b.html: </p> closes nothing, line 1", "b.html: two anchors y",
            "b.html: <p> is not closed",
        ])

    def test_places_and_clicks(self):
        with tempfile.TemporaryDirectory() as room:
            for name, link in (("a", "b.html"), ("b", "c.html#x"), ("c", "a.html"), ("d", "#")):
                body = f'<p id="x"><a href="{link}">on</a></p>'
                (Path(room) / f"{name}.html").write_text(body, encoding="utf-8")
            pages = read_pages(Path(room))
        self.assertEqual(clicks_to(pages, "a.html", "c.html#x"), ["b.html", "c.html#x"])
        self.assertIsNone(clicks_to(pages, "a.html", "d.html"))
        self.assertEqual(list(place_faults(pages, ["a.html#x", "a.html#y", "e.html"])),
                         ["there is no a.html#y", "there is no e.html"])


class Folders(unittest.TestCase):
    def test_a_folder_with_other_files_is_refused_and_kept(self):
        with tempfile.TemporaryDirectory() as room:
            kept = Path(room) / "kept.txt"
            kept.write_text("mine", encoding="utf-8")
            with self.assertRaisesRegex(BadArgument, "other files than the pages"):
                Site(Path(room)).build()
            self.assertEqual(kept.read_text(encoding="utf-8"), "mine")


class Words(unittest.TestCase):
    documents = Documents(Atlas())

    def test_words_and_sections_have_their_places(self):
        terms = {word: (url, said) for word, url, said in self.documents.terms()}
        self.assertEqual(terms["faulty"], ("docs/GLOSSARY.html#faults", "Not good."))
        self.assertNotIn("word", terms)
        self.assertIn(("Judging: the fault premise", "RULES",
                       "docs/RULES.html#judging-the-fault-premise"), self.documents.sections())

    def test_paths_in_code_font_are_links(self):
        for said, url in (("site/index.html", "index.html"),
                          ("crates/rb_bus/specs", "crates/rb_bus.html"),
                          ("rb_rules/specs/Judging", "definitions/rb_rules/Judging.html"),
                          ("tools/site", "files/tools/site.html")):
            self.assertEqual(self.documents.name(said, TOP),
                             f'<a href="~/{url}"><code>{said}</code></a>')
        example = self.documents.name("python/flight_control.py", TOP / "examples")
        self.assertIn("files/examples/python/flight_control.py.html", example)
        self.assertEqual(self.documents.name("crates/robus/out", TOP),
                         "<code>crates/robus/out</code>")

    def test_names_in_a_comment_become_code(self):
        said = "rb_top::run, docs/A.md, `rb_top::run`, in crates/robus_c/specs."
        self.assertEqual(with_code(said),
                         "`rb_top::run`, `docs/A.md`, `rb_top::run`, in `crates/robus_c/specs`.")


class Promise(unittest.TestCase):
    def test_each_definition_is_above_what_it_uses_and_none_is_left_out(self):
        atlas = Atlas()
        reading = Reading(atlas, Pages(atlas, Documents(atlas)))
        top = CRATES / "rb_top/specs/Promise.antt"
        self.assertEqual(reading.places()[0], (top, "KeepsTheHeadline"))
        wanted, _ = reach(module(top), ["KeepsTheHeadline", "told_by_run"])
        self.assertEqual(set(reading.places()), set(wanted))
        part = {place: at for at, places in enumerate(reading.parts) for place in places}
        late = [(place[1], other[1]) for place in wanted for other in named_by(place)[0]
                if part[place] == part[other] and reading.number[other] < reading.number[place]
                and place not in reach(module(other[0]), [other[1]])[0]]
        self.assertEqual(late, [])


class Shape(unittest.TestCase):
    def test_a_number_above_its_limit_is_refused(self):
        compare = script("shape").compare
        for number, status, said in ((3, 1, "and the limit is 2"), (2, 0, ""), (1, 0, "lower")):
            out = io.StringIO()
            with contextlib.redirect_stdout(out):
                ended = compare({"crates in a row": number}, {"crates in a row": 2})
            self.assertEqual(ended, status)
            self.assertIn(said, out.getvalue())

    def test_statements_that_differ_in_bound_names_are_one(self):
        one = numbered("(m n : ℕ) → m ≤ n → P m")
        self.assertEqual(one, numbered("(j k : ℕ) → j ≤ k → P j"))
        self.assertNotEqual(one, numbered("(j k : ℕ) → j ≤ k → P k"))


if __name__ == "__main__":
    unittest.main()
