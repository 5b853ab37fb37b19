"""The pages of laws, which are contracts of functions that do nothing: what each says, which
computed instance meets its premises, and which proofs rest on it."""
from __future__ import annotations

import functools
from pathlib import Path
from typing import Iterator, Optional

from robus_docs.atlas import call_url, crate_of, definition_of, is_instance, is_law, url_of
from robus_docs.instances import Fact, Instance, Instances, Premise, premises_of
from robus_docs.library import Call
from robus_docs.markup import anchor, count, details, escape, named, words_of_code
from robus_docs.pages import Pages, first_sentence
from robus_docs.proofs import Proofs
from robus_docs.source import CRATES, module

MOST_NAMED = 8  # cases in one sentence
NONE = "<b>No computed instance</b>"


class Laws:
    """The pages of laws."""

    def __init__(self, pages: Pages, proofs: Proofs, instances: Instances) -> None:
        self.pages, self.atlas = pages, pages.atlas
        self.proofs, self.instances = proofs, instances

    def all(self) -> Iterator[tuple[str, str, Call]]:
        """Each law with its crate and name, those of the promise first."""
        laws = [it for it in self.atlas.calls() if is_law(it[0])]
        yield from sorted(laws, key=lambda it: it[0] != "rb_laws_promise")

    @functools.cached_property
    def met(self) -> dict[tuple[Path, str], list[str]]:
        """For each computed case the laws that have it as an instance, as links."""
        found: dict[tuple[Path, str], list[str]] = {}
        for crate, name, call in self.all():
            premises = () if is_instance(call.function) else self.premises_in(call)
            for instance in self.instances.of_law(premises):
                for it in instance.cases:
                    laws = found.setdefault((it.file, it.name), [])
                    link = named(call_url(crate, name), name)
                    is_wrong = any(not it.holds for it in instance.orders.values())
                    if not is_wrong and link not in laws and all(
                            premise in instance.facts for premise in premises
                            if premise.predicate and not premise.within):
                        laws.append(link)
        return found

    def page(self, crate: str, name: str, call: Call) -> str:
        """The page of a law: statement, premises, instances, and who cites it."""
        places = self.atlas.in_contract(call)
        said = self.pages.prose(crate, call.docstring)
        parts = [f'<h1>{escape(name)}</h1><div class="lead">{said}</div>',
                 f"<p>A law of {anchor(f'crates/{crate}.html', crate)}.</p>",
                 self.pages.contract(call)]
        parts += [self.pages.definition(it, away=True) for it in places]
        parts.append(self.premises(call))
        parts.append(self.cited(crate, name))
        return "".join(parts) + self.sentences(crate, name)

    def premises(self, call: Call) -> str:
        """The premises of a law, and the computed instance that meets them."""
        title = "<h2>Premises, and a computed instance</h2>"
        if is_instance(call.function):
            return f"{title}<p>This law is a computed instance itself.</p>"
        premises = self.premises_in(call)
        if not premises:
            return f"{title}<p>This law has no premises: none need be met.</p>"
        found = self.instances.of_law(premises)
        instance = found[0] if found else Instance()
        items = "".join(f"<li>{self.premise(it, instance)}</li>" for it in premises)
        return f"{title}<p>{self.verdict(premises, found)}</p><ul>{items}</ul>"

    def premises_in(self, call: Call) -> tuple[Premise, ...]:
        """The premises of a law."""
        return tuple(it for place in self.atlas.in_contract(call) for it in premises_of(place))

    def standing(self, crate: str, name: str, call: Call) -> str:
        """Whether a law has a computed instance, and what rests on it, in a few words."""
        citing = self.proofs.citing((crate, name))
        resting = [count(len(found), one) for found, one in
                   ((citing.calls, "public call"), (citing.laws, "other law")) if found]
        premises = () if is_instance(call.function) else self.premises_in(call)
        verdict = self.verdict(premises, self.instances.of_law(premises)) if premises else ""
        kind = ("a computed instance" if is_instance(call.function) else "no premises"
                if not premises else "no computed instance" if NONE in verdict else "computed")
        on_it = f"on it {' and '.join(resting)}" if resting else "stands for itself"
        return f"{kind} · {on_it}"

    def verdict(self, premises: tuple[Premise, ...], found: list[Instance]) -> str:
        """Which cases meet the premises of a law, in words."""
        if not found:
            return f"{NONE}: no case states one of these premises."
        cases = self.in_words(found)
        left = [it for it in premises if not found[0].meets(it)]
        is_wrong = any(not it.holds for it in found[0].orders.values())
        own = [it for it in left if not it.within]
        if not left:
            return f"<b>Computed instance</b>: {cases} all of them."
        alike = " of the same values" if any(map(self.elsewhere, own or left)) else ""
        lacking = f"No case states {', '.join(map(self.said, own or left))}{alike}."
        if not own:
            return (f"<b>Computed instance</b>: {cases} the premises of the law. Its "
                    f"conclusion has premises, too. {lacking}")
        if is_wrong or any(it.predicate for it in own) or not any(
                it.predicate for it in found[0].facts):
            others = cases.replace("each of", "Each of", 1)
            return f"{NONE}: {lacking[0].lower()}{lacking[1:]} {others} the others."
        return f"<b>Computed instance</b>: {cases} the predicates. {lacking}"

    def in_words(self, found: list[Instance]) -> str:
        """The cases of instances as the subject of a sentence, with the verb `meet`."""
        ways = [[self.pages.case(case) for case in it.cases] for it in found]
        if len(ways) == 1:
            together = " together meet" if len(ways[0]) > 1 else " meets"
            return " and ".join(ways[0]) + together
        named_ways = [" with ".join(it) for it in ways]
        if len(ways) > MOST_NAMED:
            named_ways[MOST_NAMED:] = [f"{len(ways) - MOST_NAMED} more"]
        return f"each of {', '.join(named_ways[:-1])} and {named_ways[-1]} meets"

    def said(self, premise: Premise) -> str:
        """A premise as code."""
        return words_of_code(premise.text, module(premise.file), url_of)

    def premise(self, premise: Premise, instance: Instance) -> str:
        """A premise with the fact that states it."""
        said = self.said(premise)
        if premise.predicate and (comment := definition_of(premise.predicate).comment):
            said += f": {self.pages.comment(crate_of(premise.predicate[0]), comment)}"
        if premise.within:
            asking = named(url_of(premise.within), premise.within[1])
            said += f" <small>(asked by {asking})</small>"
        fact, order = instance.facts.get(premise), instance.orders.get(premise)
        if order:
            return (f"{said}<br>{'by its numbers' if order.holds else 'not so there'}: "
                    f"{order.left} {escape(order.sign)} {order.right}")
        if not fact:
            other = self.elsewhere(premise)
            return f"{said}<br>no case states this" + (
                f" of the same values; {self.stating(other)}" if other else "")
        return f"{said}<br>{self.stating(fact)}"

    def elsewhere(self, premise: Premise) -> Optional[Fact]:
        """A fact that is a premise, of whatever values."""
        return next(iter(self.instances.stating(premise, Instance())), None)

    def stating(self, fact: Fact) -> str:
        """A fact with its case."""
        stated = words_of_code(fact.text.replace("each_of_", ""), module(fact.file), url_of)
        return f"{self.pages.case(fact.case)} states {stated}"

    def cited(self, crate: str, name: str) -> str:
        """The laws and calls whose proofs rest on a law."""
        citing = self.proofs.citing((crate, name))
        lemmas = ", ".join(
            f"<code>{escape(lemma)}</code> in <code>{file.relative_to(CRATES).with_suffix('')}"
            "</code>" for file, lemma in citing.lemmas)
        proved = f"<h2>Cited by</h2><p>Proved by {lemmas}.</p>"
        if not citing.laws and not citing.calls:
            return proved + "<p>It stands for itself: no call and no other law rests on it.</p>"
        laws, calls = ([named(call_url(*it), f"{it[0]}::{it[1]}") for it in found]
                       for found in (citing.laws, citing.calls))
        said = ("<p>The proofs of these use that lemma, directly or through other lemmas, or they "
                "call a function of their crate whose proof does.</p>")
        return (proved + said + details(f"{count(len(calls), 'public call')}", calls)
                + details(f"{count(len(laws), 'other law')}", laws))

    def sentences(self, crate: str, name: str) -> str:
        """The sentences of PROMISES that name a law."""
        items = "".join(f"<li>{it}</li>" for it in self.pages.sentences(call_url(crate, name)))
        return f"<h2>In the documents</h2><ul>{items}</ul>" if items else ""

    def index(self) -> str:
        """The list of all laws."""
        said = ("A law is the contract of a function that does nothing. The small print says "
                "whether a case computes an instance of its premises, and what rests on it.")
        parts, last = [f"<h1>Laws</h1><p>{said}</p>"], ""
        for crate, name, call in self.all():
            if crate != last:
                about = self.pages.prose(crate, self.atlas.libraries[crate].about)
                parts.append(f"<h2>{anchor(f'crates/{crate}.html', crate)}</h2>{about}")
                last = crate
            said = self.pages.comment(crate, first_sentence(call.docstring))
            parts.append(f"<p>{named(call_url(crate, name), name)}: {said} "
                         f"<small>{self.standing(crate, name, call)}</small></p>")
        return "".join(parts)
