"""HTML: the frame of a page, code with its names as links, and documents."""
from __future__ import annotations

import html
import re
from typing import Callable, Optional

from robus_docs.source import Module, Place, meaning_of, rust_types

Link = Callable[[Place], Optional[str]]  # the address of a definition; none if it has no page
KEYWORDS = set("abbrev pub unfoldable record data where let in if then else use ghost fn struct "
               "enum impl for trait ensures requires mut const type match extern".split())
TOKEN = re.compile(r"(?P<comment>(?:--|//)[^\n]*)|(?P<word>[A-Za-z_]\w*'*)|(?P<other>.|\n)", re.S)
MENU = (("index.html", "ROBUS"), ("promise.html", "The promise"), ("laws/index.html", "Laws"),
        ("definitions/index.html", "Definitions"), ("crates/index.html", "Crates"),
        ("docs/index.html", "Documents"), ("python.html", "Python"), ("header.html", "C"))


def escape(text: str) -> str:
    """A text in HTML."""
    return html.escape(text, quote=True)


def anchor(url: str, inside: str, title: str = "") -> str:
    """A link. An address of the site begins with `~/`, which `page` makes relative."""
    said = f' title="{escape(title)}"' if title else ""
    return f'<a href="~/{escape(url)}"{said}>{inside}</a>'


def named(url: Optional[str], name: str) -> str:
    """A name in code font, a link if there is an address."""
    code = f"<code>{escape(name)}</code>"
    return anchor(url, code) if url else code


def page(url: str, title: str, body: str) -> str:
    """The whole text of a page at an address."""
    root = "../" * url.count("/")
    menu = " ".join(f'<a{mark} href="~/{it}">{name}</a>' for it, name in MENU
                    for mark in [' class="here"' if it == url else ""])
    text = f"""<!DOCTYPE html>
<html lang="en" data-root="{root}">
<head>
<meta charset="utf-8">
<meta name="viewport" content="width=device-width, initial-scale=1">
<title>{escape(title)}</title>
<link rel="stylesheet" href="~/style.css">
<script src="~/names.js" defer="defer"></script>
<script src="~/script.js" defer="defer"></script>
</head>
<body>
<header><nav>{menu}</nav><div id="search"></div></header>
<main>
{body}
</main>
</body>
</html>
"""
    return text.replace('"~/', f'"{root}')


def bound_in(text: str) -> set[str]:
    """The names that a definition binds itself: those of parameters, of functions and of `let`."""
    found = set()
    for pattern in (r"[({]((?:[\w']+ )+):", r"λ ((?:[\w']+ ?)+)\.", r"\blet ([\w']+) ="):
        for names in re.findall(pattern, text):
            found.update(names.split())
    return {it for it in found if it[0].islower()}


def code(text: str, here: Module, link: Link, own: str = "") -> str:
    """Lines of code of a file with each name as a link to its definition."""
    return f"<pre>{words_of_code(text, here, link, own)}</pre>"


def words_of_code(text: str, here: Module, link: Link, own: str = "") -> str:
    """Code of a file, within a line, with each name as a link to its definition."""
    bound = bound_in(text)
    types = {name: (file, name) for file, name in
             rust_types(re.findall(r"\w+", text), here)} if here.is_source else {}
    parts, before = [], ""
    for found in TOKEN.finditer(text):
        said = found.group(0)
        if found.lastgroup == "comment":
            parts.append(f'<span class="comment">{escape(said)}</span>')
        elif said == own:
            parts.append(f"<b>{escape(said)}</b>")
        elif found.lastgroup == "word" and said in KEYWORDS:
            parts.append(f'<span class="keyword">{said}</span>')
        elif found.lastgroup == "word" and said not in bound and before != ".":
            parts.append(word(said, here, link, types))
        else:
            parts.append(escape(said))
        before = said
    return f"<code>{''.join(parts)}</code>"


def word(said: str, here: Module, link: Link, types: dict[str, Place]) -> str:
    """A word of code, as a link if it means something that has a page."""
    meant = meaning_of(here, said) or types.get(said)
    if isinstance(meant, str):
        return f'<span class="kit" title="from the kit: {escape(meant)}">{escape(said)}</span>'
    url = link(meant) if meant else None
    return anchor(url, escape(said)) if url else escape(said)


def details(summary: str, items: list[str]) -> str:
    """A list that is opened by a click; nothing if it is empty."""
    if not items:
        return ""
    inside = "".join(f"<li>{it}</li>" for it in items)
    return f"<details><summary>{summary}</summary><ul>{inside}</ul></details>"


def count(number: int, one: str, many: str = "") -> str:
    """A number with its noun."""
    return f"{number:,} {one if number == 1 else many or one + 's'}"
