"""Checks a folder of pages: each is well-formed, and each link and anchor leads somewhere."""
from __future__ import annotations

import collections
import os
from html.parser import HTMLParser
from pathlib import Path
from typing import Iterator, Optional
from urllib.parse import unquote, urlparse

VOID = {"meta", "link", "img", "input", "br", "hr"}
Target = tuple[str, str]  # a page, and an anchor in it or nothing


class Page(HTMLParser):
    """What a page has: its anchors, its links, and what is wrong in its tags."""

    def __init__(self, url: str, text: str) -> None:
        super().__init__(convert_charrefs=True)
        self.url, self.anchors, self.links = url, set(), []
        self.hidden: set[int] = set()  # the places in links of those that a click must show first
        self.faults: list[str] = []
        self.open: list[str] = []
        self.feed(text)
        self.close()
        if self.open:
            self.faults.append(f"{url}: <{self.open[-1]}> is not closed")

    def handle_starttag(self, tag: str, attrs: list[tuple[str, Optional[str]]]) -> None:
        """Keeps the anchor and the link of a tag."""
        values = dict(attrs)
        if len(values) < len(attrs):
            self.faults.append(f"{self.url}: <{tag}> has an attribute twice")
        if mark := values.get("id"):
            if mark in self.anchors:
                self.faults.append(f"{self.url}: two anchors {mark}")
            self.anchors.add(mark)
        for link in (values.get("href"), values.get("src")):
            if link is not None:
                if tag != "a" or "details" in self.open:
                    self.hidden.add(len(self.links))
                self.links.append(link)
        if tag == "p" and "p" in self.open or tag == "a" and "a" in self.open:
            self.faults.append(f"{self.url}: <{tag}> within <{tag}>, line {self.getpos()[0]}")
        if tag not in VOID:
            self.open.append(tag)

    def handle_endtag(self, tag: str) -> None:
        """Closes the tag that was opened last."""
        if not self.open or self.open[-1] != tag:
            self.faults.append(f"{self.url}: </{tag}> closes nothing, line {self.getpos()[0]}")
        else:
            self.open.pop()

    def targets(self, without_hidden: bool = False) -> Iterator[Target]:
        """The places in the folder to which the page leads, or to which links lead that a reader
        sees at once."""
        for at, link in enumerate(self.links):
            if without_hidden and at in self.hidden:
                continue
            found = urlparse(link)
            if not found.scheme:
                path = os.path.normpath(os.path.join(os.path.dirname(self.url), found.path))
                yield (path if found.path else self.url), unquote(found.fragment)


def read_pages(folder: Path) -> dict[str, Page]:
    """All pages of a folder."""
    return {it.relative_to(folder).as_posix(): Page(it.relative_to(folder).as_posix(),
                                                    it.read_text(encoding="utf-8"))
            for it in sorted(folder.rglob("*.html"))}


def link_faults(folder: Path, pages: dict[str, Page]) -> Iterator[str]:
    """What is wrong in the pages."""
    for page in pages.values():
        yield from page.faults
        for url, mark in dict.fromkeys(page.targets()):
            if url in pages:
                if mark and mark not in pages[url].anchors:
                    yield f"{page.url}: {url} has no anchor {mark}"
            elif not (folder / url).is_file():
                yield f"{page.url}: there is no {url}"


def place_faults(pages: dict[str, Page], wanted: list[str]) -> Iterator[str]:
    """The addresses at which there is nothing."""
    for it in wanted:
        url, _, mark = it.partition("#")
        if url not in pages or (mark and mark not in pages[url].anchors):
            yield f"there is no {it}"


def clicks_to(pages: dict[str, Page], start: str, wanted: str) -> Optional[list[str]]:
    """The fewest clicks on visible links that lead from a page to an address, as the addresses in
    between."""
    url, _, mark = wanted.partition("#")
    todo, seen = collections.deque([(start, [])]), {start}
    while todo:
        here, clicks = todo.popleft()
        for page, anchor in pages[here].targets(without_hidden=True):
            if (page, anchor) == (url, mark):
                return [*clicks, wanted]
            if page in pages and page not in seen:
                seen.add(page)
                todo.append((page, [*clicks, page]))
    return None
