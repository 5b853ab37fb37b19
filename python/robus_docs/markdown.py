"""Renders the documents: the part of Markdown that they use."""
from __future__ import annotations

import re
from typing import Callable

from robus_docs.atlas import anchor_of
from robus_docs.markup import escape

Resolve = Callable[[str], str]  # the HTML of a code span
Follow = Callable[[str], str]  # the address behind a link or picture
INLINE = re.compile(r"`(?P<code>[^`]+)`|!\[(?P<alt>[^\]]*)\]\((?P<picture>[^)]+)\)"
                    r"|\[(?P<text>(?:[^\[\]]|\[[^\]]*\])+)\]\((?P<link>[^)]+)\)"
                    r"|\*\*(?P<bold>.+?)\*\*|\*(?P<italic>[^*\s][^*]*?)\*"
                    r"|(?P<bare>https?://[^\s)]+)", re.S)
ITEM = re.compile(r"(?P<indent> *)(?P<mark>[-*]|\d+\.) +(?P<text>.*)")


class Renderer:
    """Renders a document; code spans and links by the functions given."""

    def __init__(self, resolve: Resolve, follow: Follow) -> None:
        self.resolve, self.follow = resolve, follow
        self.anchors: dict[str, int] = {}

    def inline(self, text: str) -> str:
        """A text within a block."""
        parts, end = [], 0
        for found in INLINE.finditer(text):
            parts += [escape(text[end:found.start()]), self.span(found)]
            end = found.end()
        return "".join(parts) + escape(text[end:])

    def span(self, found: re.Match[str]) -> str:
        """Code, a picture, a link, or words in bold or italic."""
        kind, said = found.lastgroup, found.group(0)
        if kind == "code":
            return self.resolve(re.sub(r"\s+", " ", found.group("code")))
        if kind == "picture":
            return f'<img src="{self.follow(found["picture"])}" alt="{escape(found["alt"])}">'
        if kind == "link":
            inside = re.sub(r"</?a\b[^>]*>", "", self.inline(found["text"]))
            return f'<a href="{self.follow(found["link"])}">{inside}</a>'
        if kind == "bare":
            return f'<a href="{escape(said)}">{escape(said)}</a>'
        name = "strong" if kind == "bold" else "em"
        return f"<{name}>{self.inline(found[kind])}</{name}>"

    def heading(self, line: str) -> str:
        """A heading with its anchor."""
        level, text = len(line) - len(line.lstrip("#")), line.lstrip("#").strip()
        name = anchor_of(text)
        again = self.anchors.get(name, 0)
        self.anchors[name] = again + 1
        name += f"-{again}" if again else ""
        return f'<h{level} id="{escape(name)}">{self.inline(text)}</h{level}>'

    def table(self, lines: list[str]) -> str:
        """A table whose second line is under its heads."""
        rows = [[it.strip() for it in re.split(r"(?<!\\)\|", line.strip().strip("|"))]
                for line in lines]
        head, body = rows[0], rows[2:]
        cells = "".join(f"<th>{self.inline(it)}</th>" for it in head)
        text = f"<thead><tr>{cells}</tr></thead>" if any(head) else ""
        for row in body:
            cells = "".join(f"<td>{self.inline(it.replace(chr(92) + '|', '|'))}</td>" for it in row)
            text += f"<tr>{cells}</tr>"
        return f'<div class="wide"><table>{text}</table></div>'

    def items(self, lines: list[str]) -> str:
        """A list with the lists in it."""
        first = ITEM.match(lines[0])
        assert first
        depth, parts = len(first["indent"]), []
        for line in lines:
            found = ITEM.match(line)
            if found and len(found["indent"]) <= depth:
                parts.append([found["text"]])
            else:
                parts[-1].append(line)
        name = "ol" if first["mark"][0].isdigit() else "ul"
        inside = "".join(f"<li>{self.item(it)}</li>" for it in parts)
        return f"<{name}>{inside}</{name}>"

    def item(self, lines: list[str]) -> str:
        """An item: its text, then what else it has."""
        indent = min((len(it) - len(it.lstrip()) for it in lines[1:] if it.strip()), default=0)
        rest = [it[indent:] for it in lines[1:]]
        text = [lines[0]]
        while rest and rest[0].strip() and not ITEM.match(rest[0]):
            text.append(rest.pop(0))
        return self.inline("\n".join(text)) + self.render("\n".join(rest))

    def render(self, text: str) -> str:
        """The HTML of a text."""
        lines, parts = text.split("\n"), []
        while lines:
            size, part = self.block(lines)
            parts.append(part)
            del lines[:size]
        return "\n".join(it for it in parts if it)

    def block(self, lines: list[str]) -> tuple[int, str]:
        """The first block: how many lines it has, and its HTML."""
        line = lines[0]
        if not line.strip():
            return 1, ""
        if line.startswith("```"):
            size = next((at for at in range(1, len(lines)) if lines[at].startswith("```")),
                        len(lines) - 1)
            return size + 1, f"<pre><code>{escape(chr(10).join(lines[1:size]))}</code></pre>"
        if re.match(r"#+ ", line):
            return 1, self.heading(line)
        if line.startswith("    "):
            size = run_of(lines, lambda it: it.startswith("    ") or not it.strip())
            said = "\n".join(it[4:] for it in lines[:size]).rstrip()
            return size, f"<pre><code>{escape(said)}</code></pre>"
        if line.startswith("|"):
            size = run_of(lines, lambda it: it.startswith("|"))
            return size, self.table(lines[:size])
        if ITEM.match(line):
            mark = r"\d+\. " if line[0].isdigit() else r"[-*] "
            size = run_of(lines, lambda it: not it.strip() or it.startswith(" ")
                          or bool(re.match(mark, it)))
            return size, self.items(lines[:size])
        size = run_of(lines, lambda it: bool(it.strip()) and not it.startswith(("#", "|", "```"))
                      and not re.match(r"[-*] ", it))
        return size, f"<p>{self.inline(chr(10).join(lines[:size]))}</p>"


def run_of(lines: list[str], is_in: Callable[[str], bool]) -> int:
    """How many lines from the first on belong together."""
    return next((at for at in range(1, len(lines)) if not is_in(lines[at])), len(lines))
