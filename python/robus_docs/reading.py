"""The promise, read downwards: the definitions on which it rests, in the order in which they are
best read."""
from __future__ import annotations

from robus_docs.atlas import Atlas, crate_of, definition_of, key_of, url_of
from robus_docs.library import Call
from robus_docs.markup import anchor, code, count, details, escape, named
from robus_docs.pages import Pages
from robus_docs.source import CRATES, Place, module, named_by, reach

TOP_CALL = ("rb_top", "run_robus")
# The parts in the order of reading: the heading, a sentence, and the first definitions of the part.
# Each other definition is in the first part that reaches it without a first one of another part.
PARTS = (
    ("The report of a run", "What the top call promises of `run`, clause by clause. The other "
     "forms that run a bus have promises of their own.",
     ["rb_top.Promise.KeepsTheHeadline", "rb_laws_promise.Promise.KeepsThePromise"]),
    ("What good nodes have in common", "Skew, deliveries, words, schedules and convictions.",
     ["rb_rules.Headline.Headline"]),
    ("One machine", "All good nodes together are one machine, without votes, clocks and "
     "accusations.",
     ["rb_rules.StandsFor.StandsFor"]),
    ("Shares", "Each good BIU owns the data slots that it asks for, up to an equal share.",
     ["rb_laws_promise.Shares.GetTheirShare"]),
    ("Records", "What the record of a slot says.", ["rb_laws_groups.Lines.IsRight"]),
    ("Moments of a run", "The promise speaks of moments: before and after a stage, a slot, a "
     "frame. A slot is complete if the run has not ended after its last stage.",
     ["rb_rules.Moments.IsComplete", "rb_rules.Moments.IsSettled", "rb_rules.Moments.IsReached",
      "rb_rules.Moments.IsGoodBefore", "rb_rules.Moments.IsGoodAfter"]),
    ("The fault premise", "The book judges each stage. The first verdict that gives a cause is the "
     "breach, and the run ends with it.",
     ["rb_rules.Book.with_stage", "rb_rules.Judging.verdict_of"]),
    ("The rounds", "The run, window by window: what each node sends, hears and holds.",
     ["rb_rules.Rounds.records_of", "rb_rules.Rounds.moment"]),
    ("Lawful scenarios", "What every accepted scenario keeps: a feasible plan, clocks and delays "
     "within bounds, and only faulty nodes that say what the rules do not.",
     ["rb_rules.Lawful.IsLawful"]),
    ("Nodes that run", "What nodes hold that run event by event, each with a clock of its own.",
     ["rb_laws_events.Promise.RunningNodesKeepThePromise"]),
    ("Events", "The run, event by event.", ["rb_rules.WorldStep.world_after"]),
    ("The text of the report", "The bytes that the sink is given.", ["rb_top.Texts.told_by_run"]),
    ("The text of the scenario", "The bytes that are accepted, and the scenario that they say.",
     ["rb_top.Inputs.IsTextOf"]),
    ("Sets, counts and values", "What all of this is made of.", ["rb_base"]),
)


class Reading:
    """The parts of the promise with their definitions."""

    def __init__(self, atlas: Atlas, pages: Pages) -> None:
        self.atlas, self.pages = atlas, pages
        keys = {key_of(place): place for place in atlas.places}
        top = keys[PARTS[0][2][0]]
        base, _ = reach(module(top[0]), [top[1]])
        self.roots = [[keys[it] for it in names if it in keys] for _, _, names in PARTS]
        self.roots[-1] = sorted(it for it in base if crate_of(it[0]) == PARTS[-1][2][0])
        self.first = {it for roots in self.roots for it in roots}
        self.parts: list[list[Place]] = []
        self.seen: set[Place] = set()
        for roots in self.roots:
            self.parts.append(self.order(roots))
        self.number = {place: at for at, place in enumerate(self.places())}
        self.parent = self.parents()

    def places(self) -> list[Place]:
        """All definitions, in order."""
        return [place for part in self.parts for place in part]

    def order(self, roots: list[Place]) -> list[Place]:
        """The definitions of a part: each before those that it names, those named first before the
        others."""
        done: list[Place] = []

        def visit(place: Place) -> None:
            if place in self.seen:
                return
            self.seen.add(place)
            for other in reversed(named_by(place)[0]):
                if other not in self.first or other in roots:
                    visit(other)
            done.append(place)

        for root in reversed(roots):
            visit(root)
        return done[::-1]

    def parents(self) -> dict[Place, Place]:
        """For each definition the one that leads to it on the shortest way from the first."""
        top = self.roots[0][0]
        found, todo = {}, [top]
        for place in todo:
            for other in named_by(place)[0]:
                if other in self.number and other not in found and other != top:
                    found[other] = place
                    todo.append(other)
        return found

    def way(self, place: Place) -> str:
        """The way from the clause to a definition, as links."""
        names = []
        while place in self.parent:
            place = self.parent[place]
            names.append(anchor(self.link(place), escape(place[1])))
        names.append('<a href="#clause">promise</a>')
        return f'<p class="way">{" › ".join(reversed(names))} ›</p>'

    def link(self, place: Place) -> str:
        """The address of a definition: on this page if it is here."""
        return f"promise.html#{key_of(place)}" if place in self.number else url_of(place)

    def clause(self) -> str:
        """The clause of the top call that all of this says."""
        crate, name = TOP_CALL
        call: Call = self.atlas.libraries[crate].calls[name][0]
        clause = next(it for it in call.function.clauses if it.name == "promise")
        here = module(call.file)
        said = code(clause.code, here, self.link)
        place = (CRATES / "rb_top/specs/Promise.antt", "KeepsItsPromise")
        form = "\n".join(definition_of(place).lines[:2])
        return (f'<p id="clause">The clause <code>promise</code> of '
                f"{named('crates/rb_top.html#call.run_robus', 'run_robus')} is</p>{said}"
                f"<p>and for the words <code>run</code> "
                f"{named(url_of(place), 'KeepsItsPromise')} is "
                f"{named(self.link(self.roots[0][0]), 'KeepsTheHeadline')}:</p>"
                + code(form, module(place[0]), self.link, "KeepsItsPromise"))

    def page(self) -> str:
        """The whole page."""
        places = self.places()
        lines = sum(len(definition_of(it).lines) for it in places)
        contents = "".join(f'<li><a href="#part.{at}">{escape(title)}</a> '
                           f"<small>{count(len(self.parts[at - 1]), 'definition')}</small></li>"
                           for at, (title, _, _) in enumerate(PARTS, 1))
        parts = [f"<h1>The promise, read downwards</h1>"
                 f'<p class="lead">{count(len(places), "definition")} in {count(lines, "line")} '
                 "say what is promised of a run. A definition is above those that it uses, unless "
                 "an earlier part has them. A name of the kit has no link; its module shows when "
                 "pointed at.</p>"
                 f'<p id="progress"></p><ol>{contents}</ol>', self.clause()]
        among = sum(1 << at for at, place in enumerate(self.atlas.places) if place in self.number)
        for at, ((title, said, _), part) in enumerate(zip(PARTS, self.parts), 1):
            parts.append(f'<h2 id="part.{at}">{at}. {escape(title)}</h2>'
                         f"<p>{self.pages.renderer.inline(said)}</p>")
            parts += [self.entry(place, among, at) for place in part]
        return "\n".join(parts)

    def entry(self, place: Place, among: int, part: int) -> str:
        """A definition of a part with how much of the whole is behind it."""
        it, here, key = definition_of(place), module(place[0]), key_of(place)
        size = self.atlas.count_behind(place, among)
        share = round(100 * size / (len(self.number) - 1))
        behind = f"{size:,} behind it" + (f", {share}%" if share else "") if size else "ground"
        home = anchor(url_of(place), f"{crate_of(place[0])}, {place[0].stem}")
        comment = self.pages.comment(crate_of(place[0]), it.comment)
        said = f"<p>{comment}</p>" if comment else ""
        users = [named(self.link(it), it[1]) for it in self.atlas.users.get(place, [])
                 if it in self.number]
        sentences = self.pages.sentences(url_of(place))
        return (f'<section class="definition" id="{key}" data-key="{key}">'
                f'<h3><a href="#{key}">{escape(it.name)}</a> <small>{home} · '
                f'<a href="#part.{part}">part {part}</a> · {behind}</small></h3>'
                f"{self.way(place)}{said}{code(chr(10).join(it.lines), here, self.link, it.name)}"
                + details(f"In {count(len(sentences), 'sentence')} of the documents", sentences)
                + details(f"Used by {count(len(users), 'definition')} of this page", users)
                + "</section>")
