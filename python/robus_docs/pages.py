"""The pages of crates and of modules of definitions."""
from __future__ import annotations

import re
import textwrap
from pathlib import Path
from typing import Container, Mapping

from robus_docs.atlas import (COMPUTED, Atlas, call_anchor, call_url, crate_of, definition_of,
                              is_law, key_of, mutant_url, mutants_of, url_of)
from robus_docs.documents import Documents
from robus_docs.library import Call
from robus_docs.markup import anchor, code, count, details, escape, named
from robus_docs.source import (CRATES, Function, Place, crates, definitions_of, module, sources_of)


class Pages:
    """Makes these pages from the atlas."""

    def __init__(self, atlas: Atlas, documents: Documents) -> None:
        self.atlas, self.renderer, self.documents = atlas, documents.renderer(), documents
        self.met: Mapping[tuple[Path, str], list[str]] = {}  # by case the laws it is an instance of
        self.promised: Container[Place] = ()  # the definitions of the promise, read downwards

    def prose(self, crate: str, text: str) -> str:
        """A docstring of a crate as HTML, with the names in it as links."""
        return self.documents.of_crate(crate).render(text)

    def comment(self, crate: str, text: str) -> str:
        """A comment of a crate in one line as HTML."""
        return self.documents.of_crate(crate).inline(text.replace("\n", " "))

    def definition(self, place: Place, away: bool = False) -> str:
        """A definition with its comment, its text and what hangs on it, and away from its own page
        with a link to that."""
        it, here = definition_of(place), module(place[0])
        said = self.comment(crate_of(place[0]), it.comment)
        home = anchor(url_of(place), f"{crate_of(place[0])}, {place[0].stem}") + " · "
        size = self.atlas.count_behind(place)
        behind = f"rests on {count(size, 'other')}" if size else "rests on nothing else here"
        if place in self.promised:
            behind += " · " + anchor(f"promise.html#{key_of(place)}", "where the promise needs it")
        mark = escape(url_of(place).partition("#")[2])
        return (f'<section class="definition" id="{mark}" data-key="{escape(key_of(place))}">'
                f'<h3><a href="#{mark}">{escape(it.name)}</a> '
                f"<small>{it.kind} · {home if away else ''}{behind}</small></h3>"
                f"{f'<p>{said}</p>' if said else ''}"
                f"{code(chr(10).join(it.lines), here, url_of, it.name)}{self.around(place)}"
                "</section>")

    def around(self, place: Place) -> str:
        """Who uses a definition, which cases compute it, and which sentences name it."""
        users = [f"{named(url_of(it), it[1])} <small>{crate_of(it[0])}</small>"
                 for it in self.atlas.users.get(place, [])]
        callers = [named(call_url(crate, name), f"{crate}::{name}")
                   for crate, name in dict.fromkeys(self.atlas.callers.get(place, []))]
        cases = [f"{self.case(it)}: {self.comment(crate_of(it.file), first_sentence(it.docstring))}"
                 for it in self.atlas.cases.get(place, [])]
        sentences = self.sentences(url_of(place))
        return "".join([
            details(f"In {count(len(sentences), 'sentence')} of the documents", sentences),
            details(f"Used by {count(len(users), 'definition')}", users),
            details(f"In the contracts of {count(len(callers), 'call')}", callers),
            details(f"Computed by {count(len(cases), 'case')}", cases)])

    def case(self, it: Function) -> str:
        """A computed case, as a link."""
        return named(call_url(crate_of(it.file), it.name), it.name)

    def sentences(self, url: str) -> list[str]:
        """The sentences of the documents that name what is at an address."""
        return [f"{anchor(where, document_of(where))}: {self.renderer.inline(said)}"
                for where, said in self.atlas.sentences.get(url, [])]

    def module_page(self, crate: str, file: Path) -> str:
        """The page of a module of definitions."""
        here = module(file)
        places = [(file, name) for name in here.blocks]
        about = self.comment(crate, here.about)
        listed = " · ".join(f'<a href="#{escape(name)}">{escape(name)}</a>' for _, name in places)
        return (f"<h1>{escape(file.stem)}</h1>"
                f"<p class=\"lead\">{about}</p><p>{anchor(f'crates/{crate}.html', crate)} · "
                f"{count(len(places), 'definition')}</p><p>{listed}</p>"
                + "".join(self.definition(it) for it in places))

    def contract(self, call: Call) -> str:
        """A call's head with its contract, with links."""
        return code(call.code, module(call.file), url_of, call.function.name)

    def call(self, crate: str, name: str, call: Call, anchor_name: str) -> str:
        """A call on the page of its crate, with the sentences that name it."""
        sentences = self.sentences(call_url(crate, name))
        places = self.atlas.in_contract(call)
        rests = [f"{named(url_of(it), it[1])} {self.comment(crate, definition_of(it).comment)}"
                 for it in places]
        title = (anchor(call_url(crate, name), escape(name)) if is_law(crate)
                 else f'<a href="#{anchor_name}">{escape(name)}</a>')
        return (f'<section class="call" id="{anchor_name}"><h3>{title}</h3>'
                f"{self.prose(crate, call.docstring)}{self.contract(call)}"
                + details(f"Named in {count(len(sentences), 'sentence')} of PROMISES and RULES",
                          sentences)
                + details(f"{count(len(rests), 'definition')} in the contract", rests)
                + "</section>")

    def crate_page(self, crate: str) -> str:
        """The page of a crate."""
        library = self.atlas.libraries.get(crate)
        lib = CRATES / crate / "src/lib.rt"
        about = self.prose(crate, module(lib).about) if lib.exists() else ""
        uses = ", ".join(anchor(f"crates/{it}.html", it) if it in crates() else it
                         for it in crates()[crate]) or "nothing"
        used_by = [it for it in sorted(crates()) if crate in crates()[it]]
        users = ", ".join(anchor(f"crates/{it}.html", it) for it in used_by) or "nothing"
        parts = [f"<h1>{crate}</h1>", f'<div class="lead">{about}</div>',
                 f"<p>Uses {uses}.</p><p>Used by {users}.</p>", self.calls_of(crate)]
        if crate in COMPUTED:
            parts.append(self.cases_of(crate))
        parts += [self.types_of(crate), self.modules_of(crate), self.mutants_of(crate)]
        if library is None and crate not in COMPUTED:
            parts.insert(3, "<p>This crate has no calls for others.</p>")
        return "\n".join(it for it in parts if it)

    def calls_of(self, crate: str) -> str:
        """The public calls of a crate, by the type that they belong to."""
        calls = [(name, call) for owner, name, call in self.atlas.calls() if owner == crate]
        if not calls:
            return ""
        library, seen, parts = self.atlas.libraries[crate], set(), ["<h2>Public calls</h2>"]
        owners = [None, *sorted({call.owner for _, call in calls if call.owner}
                                | {it for it in library.types if not self.is_block(crate, it)})]
        for owner in owners:
            if owner:
                parts.append(self.owner(crate, owner))
            for name, call in calls:
                if call.owner == owner:
                    number = sum(1 for it in seen if it[0] == name)
                    seen.add((name, number))
                    mark = call_anchor(name) + (f"-{number}" if number else "")
                    parts.append(self.call(crate, name, call, mark))
        return "".join(parts)

    def is_block(self, crate: str, name: str) -> bool:
        """Whether a public type is a struct or an enum, and no trait."""
        return any(name in module(file).blocks for file in sources_of(crate))

    def owner(self, crate: str, owner: str) -> str:
        """The heading of a type's calls, with what clauses see of a trait."""
        library = self.atlas.libraries[crate]
        said = self.prose(crate, library.types.get(owner, ""))
        seen = "\n".join(library.seen.get(owner, []))
        ghost = f"<pre><code>{escape(seen)}</code></pre>" if seen else ""
        return f'<h3 class="owner" id="owner.{owner}">{owner}</h3>{said}{ghost}'

    def cases_of(self, crate: str) -> str:
        """The cases that a crate computes."""
        parts = ["<h2>Computed cases</h2>"]
        for file in sources_of(crate):
            for it in module(file).functions:
                call = Call(it)
                parts.append(f'<section class="call" id="{call_anchor(it.name)}">'
                             f"<h3>{escape(it.name)}</h3>{self.prose(crate, it.docstring)}"
                             f"{self.contract(call)}{self.laws_of(it)}</section>")
        return "".join(parts)

    def laws_of(self, case: Function) -> str:
        """The laws of whose premises a case is an instance."""
        laws = self.met.get((case.file, case.name), [])
        return details(f"An instance of the premises of {count(len(laws), 'law')}", laws)

    def types_of(self, crate: str) -> str:
        """The types of a crate, as in its sources."""
        places = [(file, name) for file in sources_of(crate) for name in module(file).blocks]
        if not places:
            return ""
        return "<h2>Types</h2>" + "".join(self.definition(it) for it in places)

    def modules_of(self, crate: str) -> str:
        """The modules of definitions of a crate."""
        items = []
        for file in definitions_of(crate):
            here = module(file)
            if here.blocks:
                url = f"definitions/{crate}/{file.stem}.html"
                size = count(len(here.blocks), "definition")
                about = self.comment(crate, here.about)
                items.append(f"<li>{anchor(url, file.stem)}: {about} <small>{size}</small></li>")
        return f"<h2>Definitions</h2><ul>{''.join(items)}</ul>" if items else ""

    def mutants_of(self, crate: str) -> str:
        """The mutants that the contracts of a crate refuse."""
        parts = []
        for it in mutants_of(crate):
            lines = "\n".join(textwrap.indent(text, sign) for change in it.changes
                              for text, sign in zip(change, "-+"))
            where = "each gate refuses it" if it.is_in_gate else "refused when asked for"
            said = "".join(f"<p>{it}</p>" for it in self.sentences(mutant_url(crate, it.name)))
            parts.append(f'<section class="mutant" id="mutant.{it.name}"><h3>'
                         f"{escape(it.name.replace('_', ' '))} <small>{escape(it.file)} · {where}"
                         f"</small></h3>{said}<pre><code>{escape(lines)}</code></pre></section>")
        note = ("<p>Each mutant is a body with one mistake. The prover refuses it, so the contract "
                "says what the mistake breaks.</p>")
        return f"<h2>Mutants</h2>{note}{''.join(parts)}" if parts else ""

    def crates_index(self) -> str:
        """The list of all crates."""
        rows = []
        for crate in sorted(crates()):
            lib = CRATES / crate / "src/lib.rt"
            about = module(lib if lib.exists() else lib.with_name("main.rt")).about
            said = self.comment(crate, first_sentence(about))
            rows.append(f"<tr><td>{anchor(f'crates/{crate}.html', crate)}</td><td>{said}</td></tr>")
        return f"<h1>Crates</h1><table>{''.join(rows)}</table>"

    def definitions_index(self) -> str:
        """The list of all modules of definitions."""
        parts = ["<h1>Definitions</h1><p>A reader has to believe the definitions of "
                 f"{anchor('crates/rb_base.html', 'rb_base')} and "
                 f"{anchor('crates/rb_rules.html', 'rb_rules')}, and those that a promise names. "
                 f"{anchor('docs/RULES.html', 'The rules')} say them in words.</p>"]
        first = ("rb_rules", "rb_base")
        for crate in sorted(crates(), key=lambda it: (it not in first, it)):
            if listed := self.modules_of(crate):
                said = listed.replace("<h2>Definitions</h2>", "")
                parts.append(f"<h2>{anchor(f'crates/{crate}.html', crate)}</h2>{said}")
        return "".join(parts)


def document_of(url: str) -> str:
    """The name of the document at an address."""
    return url.partition("#")[0].split("/")[-1].removesuffix(".html")


def first_sentence(text: str) -> str:
    """The first sentence of a docstring."""
    block = re.split(r"\n\s*\n", text.strip())[0]
    return re.split(r"(?<=\.)\s", block.replace("\n", " "))[0]
