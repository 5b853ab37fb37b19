"""The pages of documents, of the Python package, of the C header, and of files."""
from __future__ import annotations

import ast
import itertools
import os
import re
import textwrap
from pathlib import Path
from typing import Iterator, Optional

from robus_docs.atlas import Atlas, anchor_of
from robus_docs.markdown import Renderer
from robus_docs.markup import anchor, escape, named
from robus_docs.source import CRATES, TOP, module, text_of

PICTURES = (".svg", ".png")
FRONT = TOP / "site/index.html"  # which make site writes


def documents() -> list[Path]:
    """The documents: those that lead to the others first."""
    names = ("README.md", "docs/README.md", "CHANGELOG.md")
    first = [TOP / it for it in names if (TOP / it).exists()]
    return [*first, *(it for it in sorted((TOP / "docs").glob("*.md")) if it not in first),
            TOP / "examples/README.md"]


def document_url(path: Path) -> str:
    """The address of a document."""
    name = "_".join(path.relative_to(TOP).with_suffix("").parts).removeprefix("docs_")
    return f"docs/{'START' if name == 'README' and path.parent != TOP else name}.html"


class Documents:
    """Renders documents. `files` and `pictures` are the files of the repository they link to."""

    def __init__(self, atlas: Atlas) -> None:
        self.atlas = atlas
        self.files: set[Path] = set()
        self.pictures: set[Path] = set()
        self.known = {path: document_url(path) for path in documents()}

    def renderer(self, folder: Path = TOP) -> Renderer:
        """A renderer of texts whose links are from this folder."""
        return Renderer(lambda said: self.name(said, folder),
                        lambda link: self.follow(folder, link))

    def of_crate(self, crate: str) -> Renderer:
        """A renderer of the comments of a crate."""
        return Renderer(lambda said: named(self.atlas.url_within(crate, said), said),
                        lambda link: self.follow(TOP, link))

    def name(self, said: str, folder: Path) -> str:
        """A name in code font in a document of a folder, as a link if it means something."""
        url = self.atlas.url_named(said)
        if not url and "/" in said and " " not in said:
            url = self.path_url(said, folder)
        if not url and (found := re.match(r"(tools/\w+|make \w+)", said)):
            word = found.group(1)
            url = self.file_url(TOP / (word if word.startswith("tools/") else "Makefile"))
        return named(url, said)

    def path_url(self, said: str, folder: Path) -> Optional[str]:
        """The address of a path of the repository, below crates/, or below a folder."""
        for path in (TOP / said.strip("/"), CRATES / said.strip("/"), folder / said.strip("/")):
            for suffix in ("", ".antt", ".rt"):
                file = path.with_name(path.name + suffix) if suffix else path
                is_there = file.is_file() or is_kept(file) or file == FRONT
                if TOP in file.resolve().parents and is_there:
                    return self.file_url(file)
        return None

    def follow(self, folder: Path, link: str) -> str:
        """The address behind a link of a document."""
        if re.match(r"\w+:", link):
            return escape(link)
        target, _, part = link.partition("#")
        if not target:
            return f"#{escape(part)}"
        path = Path(os.path.normpath(folder / target))
        url = self.file_url(path)
        url = url or os.path.relpath(path, TOP)
        return f"~/{escape(url)}" + (f"#{escape(part)}" if part else "")

    def file_url(self, path: Path) -> Optional[str]:
        """The address of a file or folder of the repository. None means that there is none."""
        if TOP not in path.parents:
            return None
        if path.is_dir():
            if path == CRATES:
                return "crates/index.html"
            if (path / "README.md") in self.known:
                return self.known[path / "README.md"]
            if path == TOP / "docs":
                return "docs/index.html"
            if CRATES in path.parents:
                return f"crates/{path.relative_to(CRATES).parts[0]}.html"
        if path in self.known:
            return self.known[path]
        if path == TOP / "include/robus.h":
            return "header.html"
        if path == FRONT:
            return "index.html"
        if path.suffix == ".antt" and path.parent.name == "specs" and module(path).blocks:
            return f"definitions/{path.parent.parent.name}/{path.stem}.html"
        if not path.exists():
            return None
        kept = self.pictures if path.suffix in PICTURES else self.files
        kept.add(path)
        name = path.relative_to(TOP).as_posix()
        return f"files/{name}" if path.suffix in PICTURES else f"files/{name}.html"

    def page(self, path: Path) -> str:
        """A document."""
        return self.renderer(path.parent).render(text_of(path))

    def index(self) -> str:
        """The list of documents."""
        rows = []
        for path, url in self.known.items():
            title = text_of(path).split("\n", 1)[0].lstrip("# ")
            rows.append(f"<li>{anchor(url, self.renderer().inline(title))} "
                        f"<small>{path.relative_to(TOP)}</small></li>")
        return f"<h1>Documents</h1><ul>{''.join(rows)}</ul>"

    def sections(self) -> Iterator[tuple[str, str, str]]:
        """Each section of a document: its title, the document's name, and its address."""
        for path, url in self.known.items():
            for title in re.findall(r"(?m)^##+ (.*)", text_of(path)):
                yield title.replace("`", ""), path.stem, f"{url}#{anchor_of(title)}"

    def terms(self) -> Iterator[tuple[str, str, str]]:
        """Each word of the glossary: the address of its section, and its meaning."""
        url, mark = self.known[TOP / "docs/GLOSSARY.md"], ""
        for line in text_of(TOP / "docs/GLOSSARY.md").split("\n"):
            if line.startswith("## "):
                mark = anchor_of(line[3:])
            elif found := re.fullmatch(r"\| (?!word \|)([^|]+) \| (.*) \|", line):
                yield found.group(1), f"{url}#{mark}", found.group(2)

    def file_page(self, path: Path) -> str:
        """A file of the repository as it is, or the names in a folder."""
        title = f"<h1>{escape(path.relative_to(TOP).as_posix())}</h1>"
        if path.is_dir():
            names = "".join(f"<li><code>{escape(it.name)}</code></li>"
                            for it in sorted(path.iterdir()) if it.name != "out")
            return f"{title}<ul>{names}</ul>"
        lines = path.read_text(encoding="utf-8", errors="replace").rstrip("\n").split("\n")
        body = "".join(f'<span id="L{at}">{escape(line)}\n</span>'
                       for at, line in enumerate(lines, 1))
        return f'{title}<pre class="file"><code>{body}</code></pre>'

    def header(self) -> str:
        """The C header: each comment as text, and what it is about as code."""
        text = text_of(TOP / "include/robus.h")
        parts = ["<h1>The C header</h1>", '<p class="lead"><code>#include "robus.h"</code></p>']
        end = 0
        for found in re.finditer(r"(?ms)^/\*(.*?)\*/\n", text):
            parts.append(self.declaration(text[end:found.start()]))
            said = re.sub(r"(?m)^ \* ?", "", found.group(1)).strip()
            if re.match(r"[A-Z][A-Z ]+\n", said):
                title, _, said = said.partition("\n")
                parts.append(f'<h2 id="{anchor_of(title)}">{escape(title.capitalize())}</h2>')
            parts.append(self.said(said))
            end = found.end()
        return "".join(parts) + self.declaration(text[end:])

    def said(self, text: str) -> str:
        """A comment of the header: paragraphs, and lists as they are."""
        parts = []
        for block in re.split(r"\n\s*\n", text):
            for is_list, lines in itertools.groupby(block.split("\n"), lambda it: it[:2] == "  "):
                said = "\n".join(lines)
                parts.append(f"<pre><code>{escape(textwrap.dedent(said))}</code></pre>" if is_list
                             else f"<p>{self.renderer().inline(with_code(said))}</p>")
        return "".join(parts)

    def declaration(self, text: str) -> str:
        """Declarations, each name at the start of a line with an anchor."""
        text = text.strip("\n")
        if not text.strip():
            return ""
        marks = "".join(f'<span id="{name}"></span>' for name in names_declared(text))
        return f"{marks}<pre><code>{escape(text)}</code></pre>"

    def header_names(self) -> list[str]:
        """The names of the header's calls and types."""
        return names_declared(text_of(TOP / "include/robus.h"))


def is_kept(folder: Path) -> bool:
    """Whether a folder is one of the repository, and was not made by a build."""
    return folder.is_dir() and "out" not in folder.parts


def with_code(text: str) -> str:
    """A comment with the calls, documents and folders that it names in code font."""
    names = r"(?:rb_\w+|robus_c)::\w+(?:::\w+)?|docs/\w+\.md|crates/\w+(?:/\w+)*"
    return re.sub(rf"(?<![`\w/])({names})(?![`/])", r"`\1`", text)


def names_declared(text: str) -> list[str]:
    """The calls and types that C declares."""
    calls = re.findall(r"(?m)^(?:\w[\w ]*[ *])(robus_\w+)\(", text)
    return list(dict.fromkeys(calls + re.findall(r"(?m)^\} (robus_\w+);", text)))


class Package:
    """The page of the Python package, from its docstrings."""

    def __init__(self, renderer: Renderer) -> None:
        self.renderer = renderer
        self.files = sorted((TOP / "python/robus").rglob("*.py"))

    @staticmethod
    def module_name(file: Path) -> str:
        """The name of a module."""
        parts = file.relative_to(TOP / "python").with_suffix("").parts
        return ".".join(it for it in parts if it != "__init__")

    def page(self) -> str:
        """All modules with their public classes and functions."""
        parts = ["<h1>The Python package</h1>"]
        names = [self.module_name(file) for file in self.files]
        listed = " · ".join(f'<a href="#{it}">{it.removeprefix("robus.")}</a>' for it in names)
        parts.append(f"<p>{anchor('docs/LIBRARY.html', 'LIBRARY')} says how to use it.</p>"
                     f"<p>{listed}</p>")
        for file, name in zip(self.files, names):
            tree = ast.parse(text_of(file))
            parts.append(f'<h2 id="{name}">{name}</h2>{self.said(tree)}')
            parts += [self.item(name, it) for it in self.items(tree)]
        return "".join(parts)

    def items(self, tree: ast.AST) -> Iterator[ast.AST]:
        """The public classes and functions in a body."""
        for it in getattr(tree, "body", []):
            if isinstance(it, (ast.ClassDef, ast.FunctionDef)) and not it.name.startswith("_"):
                yield it

    def said(self, node: ast.AST) -> str:
        """A docstring."""
        text = ast.get_docstring(node) or ""
        return self.renderer.render(re.sub(r"(?m)^(?!    ).+$", lambda it: with_code(it.group(0)),
                                           text))

    def item(self, owner: str, node: ast.AST) -> str:
        """A class or function."""
        name = f"{owner}.{node.name}"
        inside = ""
        if isinstance(node, ast.ClassDef):
            bases = ", ".join(ast.unparse(it) for it in node.bases)
            head = f"class {node.name}({bases})" if bases else f"class {node.name}"
            inside = "".join(self.item(name, it) for it in self.items(node))
        else:
            result = f" -> {ast.unparse(node.returns)}" if node.returns else ""
            head = f"{node.name}({ast.unparse(node.args)}){result}"
        return (f'<section class="call" id="{name}"><p><code><b>{escape(head)}</b></code></p>'
                f"{self.said(node)}{inside}</section>")

    def names(self) -> Iterator[tuple[str, str]]:
        """Each public class, function and method with the first line of its docstring."""
        for file in self.files:
            todo = [(self.module_name(file), it) for it in self.items(ast.parse(text_of(file)))]
            for owner, it in todo:
                name = f"{owner}.{it.name}"
                yield name, (ast.get_docstring(it) or "").split("\n")[0]
                todo += [(name, inner) for inner in self.items(it)
                         if isinstance(it, ast.ClassDef)]
