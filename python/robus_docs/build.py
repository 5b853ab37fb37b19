"""Writes all pages to a folder."""
from __future__ import annotations

import json
import shutil
import textwrap
from pathlib import Path
from typing import Iterator

from robus.errors import BadArgument
from robus_docs.atlas import (Atlas, call_anchor, call_url, crate_of, definition_of, is_law,
                              mutant_url, mutants_of, url_of)
from robus_docs.documents import Documents, Package
from robus_docs.front import front, phrases
from robus_docs.markup import page
from robus_docs.instances import Instances
from robus_docs.laws import Laws
from robus_docs.pages import COMPUTED, Pages, first_sentence
from robus_docs.proofs import Proofs
from robus_docs.reading import Reading
from robus_docs.source import CRATES, TOP, crates, definitions_of, module, sources_of, text_of

Name = tuple[str, str, str, str]  # a name, its kind, its address, and its comment


class Site:
    """All pages, written to a folder."""

    def __init__(self, folder: Path) -> None:
        self.folder = folder
        self.atlas = Atlas()
        self.documents = Documents(self.atlas)
        self.pages = Pages(self.atlas, self.documents)
        self.reading = Reading(self.atlas, self.pages)
        self.pages.promised = self.reading.number
        self.laws = Laws(self.pages, Proofs(self.atlas), Instances(self.atlas))
        self.pages.met = self.laws.met
        self.package = Package(self.documents.renderer())
        self.count = 0

    def write(self, url: str, title: str, body: str) -> None:
        """Writes a page."""
        path = self.folder / url
        path.parent.mkdir(parents=True, exist_ok=True)
        path.write_text(page(url, title, body), encoding="utf-8")
        self.count += 1

    def build(self) -> None:
        """Writes all pages. The pages that were in the folder are gone; another folder than one of
        pages is refused."""
        if self.folder.exists():
            if any(self.folder.iterdir()) and not (self.folder / "names.js").exists():
                raise BadArgument(f"{self.folder} has other files than the pages: "
                                  "name a new folder")
            shutil.rmtree(self.folder)
        self.write("index.html", "ROBUS, a verified fault-tolerant broadcast bus",
                   front(self.reading, self.atlas))
        self.write("promise.html", "The promise, read downwards", self.reading.page())
        self.write_code()
        self.write_documents()
        here = Path(__file__).parent
        for name in ("style.css", "script.js"):
            shutil.copyfile(here / name, self.folder / name)
        names = json.dumps([list(it) for it in self.names()], ensure_ascii=False,
                           separators=(",", ":")).replace("],[", "],\n[")
        (self.folder / "names.js").write_text(f"const NAMES = {names};\n", encoding="utf-8")

    def write_code(self) -> None:
        """Writes the pages of crates, definitions and laws."""
        self.write("crates/index.html", "Crates", self.pages.crates_index())
        self.write("definitions/index.html", "Definitions", self.pages.definitions_index())
        self.write("laws/index.html", "Laws", self.laws.index())
        for crate in crates():
            self.write(f"crates/{crate}.html", crate, self.pages.crate_page(crate))
            for file in definitions_of(crate):
                if module(file).blocks:
                    self.write(f"definitions/{crate}/{file.stem}.html", f"{file.stem} ({crate})",
                               self.pages.module_page(crate, file))
        for crate, name, call in self.laws.all():
            self.write(call_url(crate, name), name, self.laws.page(crate, name, call))

    def write_documents(self) -> None:
        """Writes the documents, the package, the header, and the files that these link to."""
        for path, url in self.documents.known.items():
            self.write(url, path.stem, self.documents.page(path))
        self.write("docs/index.html", "Documents", self.documents.index())
        self.write("python.html", "The Python package", self.package.page())
        self.write("header.html", "The C header", self.documents.header())
        for path in sorted(self.documents.files):
            name = path.relative_to(TOP).as_posix()
            self.write(f"files/{name}.html", name, self.documents.file_page(path))
        for path in sorted(self.documents.pictures):
            target = self.folder / "files" / path.relative_to(TOP)
            target.parent.mkdir(parents=True, exist_ok=True)
            shutil.copyfile(path, target)

    def names(self) -> Iterator[Name]:
        """All names that the search knows."""
        for place in self.atlas.places:
            it = definition_of(place)
            yield it.name, f"{it.kind} of {crate_of(place[0])}", url_of(place), short(it.comment)
            for field, said in it.fields.items():
                kind = f"field of {it.name} of {crate_of(place[0])}"
                yield field, kind, url_of(place), short(said)
        for crate, name, call in self.calls():
            kind = "law" if is_law(crate) else "call"
            said = short(first_sentence(call.docstring))
            yield f"{crate}::{name}", kind, call_url(crate, name), said
            for clause in call.function.clauses:
                if clause.name:
                    yield clause.name, f"clause of {crate}::{name}", call_url(crate, name), ""
        for crate in crates():
            lib = CRATES / crate / "src/lib.rt"
            about = module(lib).about if lib.exists() else ""
            yield crate, "crate", f"crates/{crate}.html", short(first_sentence(about))
            for it in mutants_of(crate):
                yield it.name, "mutant", mutant_url(crate, it.name), crate
        for path, url in self.documents.known.items():
            yield path.stem, "document", url, text_of(path).split("\n", 1)[0].lstrip("# ")
        yield from self.words()
        yield from ((name, "Python", f"python.html#{name}", short(said))
                    for name, said in self.package.names())
        yield from ((name, "C", f"header.html#{name}", "")
                    for name in self.documents.header_names())
        yield from self.cases()

    def words(self) -> Iterator[Name]:
        """Words of the glossary, sections of the documents, and phrases of the promise."""
        for word, url, said in self.documents.terms():
            yield word, "word of the glossary", url, short(said)
        for title, name, url in self.documents.sections():
            yield title, f"section of {name}", url, ""
        for phrase, url in phrases(self.reading, self.atlas).items():
            yield phrase.replace("\n", " "), "phrase of the promise", url, ""

    def calls(self):
        """Each public call once, by its name."""
        return {(crate, name): (crate, name, call)
                for crate, name, call in self.atlas.calls()}.values()

    def cases(self) -> Iterator[Name]:
        """The computed cases."""
        for crate in COMPUTED:
            for file in sources_of(crate):
                for it in module(file).functions:
                    url = f"crates/{crate}.html#{call_anchor(it.name)}"
                    yield it.name, "computed case", url, short(first_sentence(it.docstring))

    def addresses(self) -> list[str]:
        """Where each name has its place."""
        return [url for _, _, url, _ in self.names()]


def short(text: str) -> str:
    """A comment for the list of a search."""
    return textwrap.shorten(text, 160, placeholder=" ..")
