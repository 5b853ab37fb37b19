"""Visits the pages in a browser as a reader does: by clicks, by the search, with ticks."""
from __future__ import annotations

import json
from pathlib import Path
from typing import Callable, Iterator

from robus_docs.browser import Browser, BrowserFails, chromium
from robus_docs.links import Page, clicks_to

FRONT, PROMISE = "index.html", "promise.html"
DEEP, MOST_CLICKS = "definitions/rb_rules/Headline.html#stated_skew", 6
SOUGHT, FOUND = "StandsFor", "definitions/rb_rules/StandsFor.html#StandsFor"
KINDS = (FRONT, PROMISE, "laws/index.html", "laws/rb_laws_promise/runs_keep_the_promise.html",
         "definitions/index.html", "definitions/rb_rules/Judging.html", "crates/index.html",
         "crates/rb_top.html", "docs/index.html", "docs/PROMISES.html", "python.html",
         "header.html", "files/Makefile.html")
TICK = "section.definition input[type=checkbox]"
BUSY = 5.0  # seconds that a tick has to be seen, on a busy machine


def way_faults(pages: dict[str, Page]) -> Iterator[str]:
    """Whether the way from the front page to a deep definition is too long."""
    way = clicks_to(pages, FRONT, DEEP)
    if way is None or len(way) > MOST_CLICKS:
        yield f"more than {MOST_CLICKS} clicks lead from the front page to {DEEP}"


class Visit:
    """A visit to a folder of pages."""

    def __init__(self, browser: Browser, folder: Path, pages: dict[str, Page]) -> None:
        self.browser, self.pages = browser, pages
        self.root = folder.resolve().as_uri()

    def faults(self) -> Iterator[str]:
        """What is wrong."""
        for it in (self.clicks, self.search, self.ticks, self.consoles):
            try:
                yield from it()
            except BrowserFails as fault:
                yield f"{it.__name__} in chromium: {fault}"

    def clicks(self) -> Iterator[str]:
        """Clicks from the front page to a deep definition, on links that a reader sees."""
        self.browser.open(f"{self.root}/{FRONT}")
        for url in clicks_to(self.pages, FRONT, DEEP) or []:
            target = json.dumps(f"{self.root}/{url}")
            suits = f"it => it.href === {target} || it.href.split('#')[0] === {target}"
            if not self.browser.click("main a, nav a", suits):
                yield f"no click leads to {url}"
                return
            self.browser.wait_for("document.readyState === 'complete' && "
                                  f"location.href.startsWith({target})", url)
        name = DEEP.partition("#")[2]
        seen = (f"(() => {{ const box = document.getElementById({json.dumps(name)})"
                ".getBoundingClientRect(); return box.top >= 0 && box.top < innerHeight; })()")
        self.browser.wait_for(seen, f"{name} in view")

    def search(self) -> Iterator[str]:
        """Types a name into the search box, and follows the first that it finds."""
        self.browser.open(f"{self.root}/{FRONT}")
        self.browser.click("#search input")
        self.browser.type(SOUGHT)
        first = self.browser.value("document.querySelector('#search ol a')?.href")
        if first != f"{self.root}/{FOUND}":
            yield f"the search for {SOUGHT} finds {first} first"
            return
        self.browser.press_enter()
        self.browser.wait_for(f"location.href === {json.dumps(first)}", FOUND)

    def is_ticked(self, states: list[bool]) -> bool:
        """Whether the boxes come to have these states, and the page to say that one is read. On a
        busy machine that takes a while."""
        boxes = f"[...document.querySelectorAll('{TICK}')].map(it => it.checked)"
        said = f"document.getElementById('progress').textContent.startsWith('1 of {len(states)} ')"
        wanted = json.dumps(json.dumps(states, separators=(",", ":")))
        script = f"JSON.stringify({boxes}) === {wanted} && {said}"
        try:
            self.browser.wait_for(script, "the tick", BUSY)
        except BrowserFails:
            return False
        return True

    def ticks(self) -> Iterator[str]:
        """Ticks a definition as read, and looks at it after the page is loaded again."""
        self.browser.open(f"{self.root}/{PROMISE}")
        before = self.browser.value(
            f"[...document.querySelectorAll('{TICK}')].map(it => it.checked)")
        self.browser.click(TICK)
        states = [True, *before[1:]]
        is_made = self.is_ticked(states)
        self.browser.value("window.isOld = true")
        self.browser.ask("Page.reload")
        self.browser.wait_for("!window.isOld && document.readyState === 'complete'", "the page")
        if any(before) or not is_made or not self.is_ticked(states):
            said = self.browser.value("document.getElementById('progress').textContent")
            yield f"{PROMISE}: a tick does not stay: {said}"

    def consoles(self) -> Iterator[str]:
        """Opens a page of each kind, and looks for errors on the console."""
        seen = dict.fromkeys(f"in chromium: {it}" for it in self.browser.errors)
        for url in KINDS:
            self.browser.errors.clear()
            self.browser.open(f"{self.root}/{url}")
            self.browser.value("0")  # what the page has written by now comes before the answer
            seen.update(dict.fromkeys(f"{url} in chromium: {it}" for it in self.browser.errors))
        yield from seen


def browser_faults(folder: Path, pages: dict[str, Page], say: Callable[[str], object]
                   ) -> list[str]:
    """What is wrong in the browser. Without one nothing is looked at, and it says so."""
    program = chromium()
    if not program:
        say("no chromium is here: no page was opened in a browser")
        return []
    try:
        with Browser(program) as browser:
            return list(Visit(browser, folder, pages).faults())
    except (BrowserFails, OSError) as fault:
        return [f"chromium: {fault}"]
