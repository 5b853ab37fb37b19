"""Why nodes of a run are convicted or are not, and whom faulty nodes name."""
from __future__ import annotations

from dataclasses import dataclass
from typing import Iterable

from robus.model import Stage, model, name_of
from robus.texts import TAGS, heard_text, names, place_text, value_text
from robus.watch import Watched


def why_accused(run: Watched, node: model.Node, source: int, place: Stage) -> str:
    """Why what came of a source in a stage is direct evidence against it."""
    it, (frame, slot, stage) = run.stages[place][node], place
    came = it.heard.get(source, [])
    if source not in it.expected:
        return f"spoke where nothing was due ({heard_text(run.bus, came)})"
    if not came:
        return "said nothing where a message was due"
    if len(came) > 1:
        return f"sent {len(came)} messages in one window"
    found = model.read_message(run.bus, came[0][1])
    if found is None:
        return f"sent bytes that spell no message of this bus ({came[0][1].hex()})"
    if found[1:4] != (frame % 65536, slot, stage):
        of_frame, of_slot, of_stage = found[1:4]
        return f"sent a message for frame {of_frame}, slot {of_slot}, stage {of_stage}"
    return f"sent a {TAGS[found[0]]}, which is none of this slot"


def evidence(run: Watched, accuser: model.Node, source: int, last_frame: int) -> str | None:
    """The first evidence by which a good node accuses a node of the other kind."""
    for place in sorted(run.stages):
        it = run.stages[place].get(accuser)
        if it is None or place[0] > last_frame:
            continue
        where = place_text(run.bus, *place)
        if source in it.accused:
            return f"{where}: it {why_accused(run, accuser, source, place)}"
        if source in it.differed:
            said, right = value_text(it.taken.get(source)), value_text(it.right)
            return f"{where}: it said {said}, and {right} was right"
    return None


@dataclass(frozen=True)
class Poll:
    """The vectors of a frame that may convict a node: those that count, which of them name it, and
    which are not counted."""

    run: Watched
    frame: int
    node: model.Node
    valid: tuple[model.Node, ...]
    naming: tuple[model.Node, ...]
    lost: tuple[model.Node, ...]

    @classmethod
    def of(cls, run: Watched, frame: int, node: model.Node) -> Poll:
        """The poll on a node in a frame that the run ended."""
        kind, number = node
        votes = {it: vote for it, vote in run.turns[frame].items() if it[0] != kind}
        valid = [it for it, vote in votes.items()
                 if vote is not model.FAULT and vote < 1 << run.bus.size(kind)]
        naming = [it for it in valid if votes[it] >> number & 1]
        lost = [it for it in votes if it not in valid]
        return cls(run, frame, node, tuple(valid), tuple(naming), tuple(lost))

    @property
    def needed(self) -> int:
        """How many vectors have to name the node to convict it: more than half."""
        return len(self.valid) // 2 + 1

    @property
    def missing(self) -> int:
        """How many more vectors would have to name it."""
        return self.needed - len(self.naming)

    def of_good(self) -> Poll:
        """The poll over the vectors alone that good nodes said."""
        good = [it for it in self.valid if is_good_voter(self.run, self.frame, it)]
        naming = [it for it in self.naming if it in good]
        return Poll(self.run, self.frame, self.node, tuple(good), tuple(naming), ())

    def tipped(self) -> list[str]:
        """A line on what the vectors of faulty nodes turned, if they did."""
        good = self.of_good()
        if (self.missing > 0) == (good.missing > 0):
            return []
        faulty = names(it for it in self.valid if it not in good.valid)
        would = "would not" if good.missing > 0 else "would"
        left = named_by(good.naming) if good.naming else "none names it"
        return [f"  without the vectors of faulty nodes ({faulty}) it {would} be convicted: "
                f"of {len(good.valid)} vectors, {left}"]

    def evidence(self) -> list[str]:
        """The evidence behind the vectors that name the node."""
        return evidence_lines(self.run, self.naming, self.node[1], self.frame)


def evidence_lines(run: Watched, accusers: Iterable[model.Node], source: int,
                   last_frame: int) -> list[str]:
    """The first evidence of each accuser up to a frame; those with the same together."""
    found: dict[str, list[model.Node]] = {}
    for accuser in accusers:
        why = evidence(run, accuser, source, last_frame) or "no evidence: faulty itself"
        found.setdefault(why, []).append(accuser)
    return [f"  {names(them)}: {why}" for why, them in found.items()]


def is_good_voter(run: Watched, frame: int, node: model.Node) -> bool:
    """Whether a node is good in its diagnosis slot of a frame."""
    kind, number = node
    slot = run.bus.biu + run.bus.slots + (run.bus.biu if kind else 0) + number
    return run.scenario.is_good(node, frame, slot)


def convicted_from(run: Watched) -> dict[model.Node, int]:
    """Each convicted node with the frame from which on it is convicted, in the order of these."""
    found: dict[model.Node, int] = {}
    for frame, starts in sorted(run.starts.items()):
        masks = next((it.convicted for it in starts.values()), (0, 0))
        for kind, number in run.bus.nodes():
            if masks[kind] >> number & 1:
                found.setdefault((kind, number), frame)
    return found


def conviction(run: Watched, node: model.Node, frame: int) -> list[str]:
    """Which vectors convict a node from a frame on, and what they rest on."""
    poll = Poll.of(run, frame - 1, node)
    others = len(poll.valid) - len(poll.naming)
    lines = ["", f"{name_of(node)} is convicted from frame {frame} on: of the {len(poll.valid)} "
             f"vectors of frame {frame - 1} that count, {named_by(poll.naming)}, and {others} "
             f"{'does' if others == 1 else 'do'} not"]
    if poll.lost:
        lines.append(f"  no vector of {names(poll.lost)} counts: there was none, or it names nodes "
                     "that there are not")
    return lines + poll.evidence() + poll.tipped()


def since(run: Watched, node: model.Node) -> str:
    """From when on a node is faulty, in words."""
    frame, slot = run.scenario.onsets[node]
    return f" faulty since frame {frame}, slot {slot}"


def named_by(accusers: Iterable[model.Node]) -> str:
    """How many vectors name a node, and whose."""
    them = list(accusers)
    return f"{len(them)} name{'s' if len(them) == 1 else ''} it ({names(them)})"


def is_reached(run: Watched, node: model.Node) -> bool:
    """Whether the run comes to the slot in which a node turns faulty."""
    onset = run.scenario.onsets.get(node)
    return onset is not None and (not run.breach or onset <= run.place[:2])


def accusers_of(run: Watched, node: model.Node) -> list[model.Node]:
    """The good nodes that find evidence against a node."""
    return sorted({accuser for closed in run.stages.values() for accuser, it in closed.items()
                   if accuser[0] != node[0] and node[1] in it.accused | it.differed})


def spared(run: Watched, node: model.Node) -> list[str]:
    """Why a node is not convicted that is faulty or accused; nothing if it is neither."""
    polls = [Poll.of(run, frame, node) for frame in sorted(run.turns)]
    nearest = min((it for it in polls if it.naming), key=lambda it: it.missing, default=None)
    found = accusers_of(run, node)
    if not (is_reached(run, node) or nearest or found):
        return []
    state = f"is{since(run, node)}, and is" if is_reached(run, node) else "is good and"
    head = f"{name_of(node)} {state} not convicted: "
    if nearest:
        frames = [it.frame for it in polls if it.naming == nearest.naming]
        head += (f"of the {len(nearest.valid)} vectors of {frames_text(frames)} that count, "
                 f"{named_by(nearest.naming)}, and {nearest.needed} would be needed")
        return ["", head, *nearest.evidence(), *nearest.tipped()]
    if not found:
        return ["", head + "no good node has evidence against it"]
    return ["", f"{head}no vector of a frame that ended names it, but {names(found)} would",
            *evidence_lines(run, found, node[1], run.scenario.frames)]


def frames_text(frames: list[int]) -> str:
    """Frames in words: their ranges."""
    parts: list[list[int]] = []
    for frame in frames:
        if parts and parts[-1][1] + 1 == frame:
            parts[-1][1] = frame
        else:
            parts.append([frame, frame])
    texts = [str(low) if low == high else f"{low}..{high}" for low, high in parts]
    return ("frame " if len(frames) == 1 else "frames ") + ", ".join(texts)


def named_by_faulty(run: Watched) -> list[str]:
    """Whom faulty nodes name in vectors that count, a line for each node and what it says."""
    said: dict[tuple[model.Node, int], list[int]] = {}
    for frame, votes in sorted(run.turns.items()):
        for node, vote in votes.items():
            counts = vote and vote < 1 << run.bus.size(1 - node[0])
            if counts and not is_good_voter(run, frame, node):
                said.setdefault((node, vote), []).append(frame)
    lines = []
    for (node, vote), frames in sorted(said.items()):
        far = [(1 - node[0], it) for it in range(run.bus.size(1 - node[0])) if vote >> it & 1]
        lines.append(f"  {name_of(node)} names {names(far)} in {frames_text(frames)}")
    return ["", "vectors of faulty nodes, which count like any other:", *lines] if lines else []


def of_nodes(run: Watched) -> list[str]:
    """Who is convicted and why, who is not and why not, and whom faulty nodes name."""
    convicted = convicted_from(run)
    lines = [line for node, frame in convicted.items() for line in conviction(run, node, frame)]
    lines = lines or ["", "nobody is convicted"]
    for node in run.bus.nodes():
        if node not in convicted:
            lines += spared(run, node)
    return lines + named_by_faulty(run)
