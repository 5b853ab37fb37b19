"""The browser of tools/site, on pages that are made here: it clicks what a reader sees, types, and
notes what is wrong. Without chromium nothing is tested."""
import tempfile
import unittest
import unittest.mock
from pathlib import Path

from robus_docs.browser import Browser, chromium
from robus_docs.links import read_pages
from robus_docs.visit import Visit, browser_faults, way_faults

PAGE = ('<!DOCTYPE html><html><body><main>{}</main><div id="search"><input></div><p id="progress">'
        '</p>{}</body></html>')
DEEP = "definitions/rb_rules/Headline.html"
TICKS = """<script>
const box = document.querySelector("section input"), said = document.getElementById("progress");
const show = () => { said.textContent = `${Number(box.checked)} of 1 read`; };
box.checked = localStorage.getItem("tick") !== null;
box.onchange = () => { STORE; show(); };
show();
</script>"""
SECTION = '<section class="definition"><input type="checkbox"></section>'


def written(room: str, pages: dict) -> Path:
    """A folder with these pages."""
    for name, (body, script) in pages.items():
        path = Path(room) / name
        path.parent.mkdir(parents=True, exist_ok=True)
        path.write_text(PAGE.format(body, script), encoding="utf-8")
    return Path(room)


@unittest.skipUnless(chromium(), "no chromium is here")
class Visiting(unittest.TestCase):
    def faults(self, part: str, pages: dict) -> list:
        with tempfile.TemporaryDirectory() as room, Browser(chromium()) as browser:
            folder = written(room, pages)
            return list(getattr(Visit(browser, folder, read_pages(folder)), part)())

    def test_clicks_on_visible_links_alone(self):
        deep = ('<p style="height: 4000px">far</p><b id="stated_skew">here</b>', "")
        lost = f"no click leads to {DEEP}#stated_skew"
        for style, faults in (("", []), ("display: none", [lost])):
            link = f'<a style="{style}" href="{DEEP}#stated_skew">on</a>'
            self.assertEqual(self.faults("clicks", {"index.html": (link, ""), DEEP: deep}), faults)

    def test_ticks_that_do_not_stay_are_found(self):
        for store, count in (('localStorage.setItem("tick", 1)', 0), ("0", 1)):
            pages = {"promise.html": (SECTION, TICKS.replace("STORE", store))}
            self.assertEqual(len(self.faults("ticks", pages)), count)

    def test_a_search_without_a_script_finds_nothing(self):
        self.assertEqual(self.faults("search", {"index.html": ("", "")}),
                         ["the search for StandsFor finds None first"])

    def test_errors_on_the_console(self):
        with tempfile.TemporaryDirectory() as room, Browser(chromium()) as browser:
            folder = written(room, {"a.html": ("", "<script>console.error('oh', 1)</script>"),
                                    "b.html": ("", "<script>nobody()</script>")})
            for name in ("a", "b"):
                browser.open(f"{folder.resolve().as_uri()}/{name}.html")
            browser.value("0")
            self.assertEqual(browser.errors[0], "oh 1")
            self.assertIn("nobody is not defined", browser.errors[1])


class Ways(unittest.TestCase):
    def test_a_link_that_a_click_must_show_first_does_not_count(self):
        with tempfile.TemporaryDirectory() as room:
            link = f'<a href="{DEEP}#stated_skew">on</a>'
            deep = ('<b id="stated_skew">here</b>', "")
            folder = written(room, {"index.html": (link, ""), DEEP: deep})
            self.assertEqual(list(way_faults(read_pages(folder))), [])
            folder = written(room, {"index.html": (f"<details>{link}</details>", "")})
            self.assertEqual(len(list(way_faults(read_pages(folder)))), 1)

    def test_without_a_browser_it_says_so(self):
        said: list = []
        with unittest.mock.patch("robus_docs.visit.chromium", return_value=None):
            self.assertEqual(browser_faults(Path("."), {}, said.append), [])
        self.assertEqual(said, ["no chromium is here: no page was opened in a browser"])


if __name__ == "__main__":
    unittest.main()
