"""The front page: what the project is, and the promise of a run in one paragraph."""
from __future__ import annotations

import re

from robus.errors import BadArgument
from robus_docs.atlas import Atlas, is_law, key_of
from robus_docs.markup import anchor, count, escape
from robus_docs.reading import Reading

# Each phrase in brackets is a link to the definition or page behind the bar
PROMISE = """If [the drive is plain|crates/rb_world.html#owner.Drive], as the program's own is, and
[the status|rb_program.status.Status] is Done or Breach, then
[the input was read to its end|rb_outside.Bytes.ReadsToEnd], it is
[the text of an accepted scenario|rb_top.Inputs.IsTextOf], which is
[lawful|rb_rules.Lawful.IsLawful], and what was added to the output is exactly
[the report|rb_top.Texts.told_by_run] of [its rounds|rb_rules.Rounds.records_of].
The status is Breach [if and only if the rounds end with a breach|rb_top.Commands.EndsAs] of
[the fault premise|rb_rules.Judging.verdict_of]. Up to that breach
[good nodes begin each slot at most|rb_rules.Headline.BeginSlotsNear]
[a stated skew|rb_rules.Headline.stated_skew] apart,
[good BIUs deliver one value|rb_rules.Headline.DeliverAlike] in each slot that has an owner,
[a good owner's value is the word that its application offered|rb_rules.Headline.DeliverTheWord],
good nodes [hold one schedule|rb_rules.Headline.HoldOneSchedule] and
[convict the same nodes|rb_rules.Headline.ConvictAlike],
[never a good one|rb_rules.Headline.ConvictNoGoodNode].
All good nodes together [stand for one machine|rb_rules.StandsFor.StandsFor],
[each good BIU owns the slots that it asks for|rb_laws_promise.Shares.GetTheirShare] up to an
equal share, and
[nodes that run event by event|rb_laws_events.Promise.RunningNodesKeepThePromise], each by its own
clock, hold what the rounds hold."""
PREMISE = """The [fault premise|rb_rules.Judging.cause_of]: in each stage, the good nodes of each
kind outnumber the faulty trusted ones that were heard in this frame, and faulty nodes of at most
one kind say different things to different receivers."""
PHRASE = re.compile(r"\[([^|\]]+)\|([^\]]+)\]")
ABOUT = """ROBUS is a fault-tolerant broadcast bus: protocol, simulator, library and node core,
proved from the bytes of a scenario to the bytes of its report. Processors are attached to bus
interface units (BIUs), which are linked only with redundancy management units (RMUs). While enough
nodes are good, all good BIUs deliver the same words at nearly the same time, whatever faulty nodes
say."""


def phrases(reading: Reading, atlas: Atlas) -> dict[str, str]:
    """The phrases of the promise, each with its address. A phrase that leads to no definition is
    refused by its name."""
    places = {key_of(place): place for place in atlas.places}
    phrased = PHRASE.findall(PROMISE + PREMISE)
    if lost := sorted({key for _, key in phrased if "/" not in key} - places.keys()):
        raise BadArgument(f"robus_docs/front.py links to no definition: {', '.join(lost)}")
    return {text: key if "/" in key else reading.link(places[key]) for text, key in phrased}


def front(reading: Reading, atlas: Atlas) -> str:
    """The front page."""
    places = phrases(reading, atlas)
    promise, premise = (PHRASE.sub(lambda it: anchor(places[it.group(1)], escape(it.group(1))), it)
                        for it in (PROMISE, PREMISE))
    size = count(len(reading.places()), "definition")
    laws = sum(1 for crate, _, _ in atlas.calls() if is_law(crate))
    items = [
        (anchor("promise.html", "The promise, read downwards"),
         f"the {size} that say it, from the top call to the ground, to be ticked off"),
        (anchor("laws/index.html", "Laws"), f"{laws} theorems, each with its premises and uses"),
        (anchor("docs/RULES.html", "The rules of the bus"), "the definitions in words"),
        (anchor("docs/PROMISES.html", "Promises"), "every promise with the clause that carries it"),
        (anchor("docs/PROOF.html", "The proof"), "the argument, from report down to inequalities"),
        (anchor("docs/GLOSSARY.html", "Glossary"), "the words of the project"),
        (anchor("crates/index.html", "Crates"), "calls with contracts, types, and mutants that are "
         "refused"),
        (anchor("docs/TUTORIAL.html", "Tutorial"), "an hour with the program"),
        (anchor("docs/index.html", "All documents"), "the manual pages of the programs among them"),
        (anchor("python.html", "Python"), "the package, from its docstrings"),
        (anchor("header.html", "C"), "the calls and the node core for a host"),
    ]
    listed = "".join(f"<li>{link}: {said}</li>" for link, said in items)
    clause = anchor("promise.html#clause",
                    "the clause <code>promise</code> of <code>run_robus</code>")
    return (f'<h1>ROBUS</h1><p class="lead">{ABOUT}</p>'
            f'<p><img src="~/files/docs/bus.svg" alt="A word on its way over the bus"></p>'
            f"<h2>What is proved of <code>run</code></h2><p>{promise}</p><p>{premise}</p>"
            f"<p>This is {clause}: each link leads to the definition that says the phrase. "
            "On each page every name in a definition is a link to its own definition. "
            f"{anchor('docs/README.html', 'README')} says what is tested, trusted, or neither.</p>"
            f"<h2>Read</h2><ul>{listed}</ul>")

