"""The keys of a scenario in words, table by table: what may be at each, and what it is.
docs/SCENARIOS.md is where they come from."""

NODE = 'a node name, as "B0" or "R2"'
ENDS = 'a node name, or "B" for all BIUs, "R" for all RMUs'
PAIR = "a pair [first, last]"

ROOT = {
    "biu": ("an integer, 1 to 16", "the number of BIUs"),
    "rmu": ("an integer, 1 to 16", "the number of RMUs"),
    "slots": ("an integer, 1 to 64", "the data slots of a frame"),
    "frames": ("an integer, 1 to 4096", "the frames of the run"),
    "requests": ("an array of biu integers, 0 to 64", "how many data slots each BIU asks for"),
    "words": ("an array of biu integers, 0 to 4294967295",
              "the state with which the application at each BIU begins"),
    "apps": ('an array of biu strings: "table", "counter", "follow"',
             "the application at each BIU"),
    "plan": ("a table, as { h = 7 }", "the timing plan"),
    "delay": ("an integer, 1 to 1000000000",
              "the delay of a message that no link entry speaks of"),
    "version": ("an integer, 1 or 2", "how messages are spelled"),
    "bus": ("an integer, 0 to 255; 0 in version 1", "the number of the bus"),
    "probation": ("an integer, 0 to 4096",
                  "after how many frames without new evidence an accusation lapses"),
    "clock": ("tables [[clock]]", "the clocks"),
    "link": ("tables [[link]]", "the delays of links"),
    "fault": ("tables [[fault]]", "which nodes turn faulty, and when"),
    "say": ("tables [[say]]", "what faulty nodes say"),
}
PLAN = {
    "u": ("an integer, 2 to 1000000", "units of a tick"),
    "r": ("an integer, 0 to u - 1", "by how many units a tick may be longer or shorter"),
    "dmin": ("an integer, 1 to 1000000000, at most dmax", "the least delay, in units"),
    "dmax": ("an integer, 1 to 1000000000, at least dmin", "the greatest delay, in units"),
    "l": ("an integer, 1 to 1000",
          "ticks of a window below the sync slot and of stage 1 of the sync slot"),
    "h": ("an integer, 1 to 1000", "the tick of a window at which its message is sent"),
    "v": ("an integer, 1 to 1000", "ticks of stage 2 of the sync slot"),
    "z": ("an integer, 1 to 1000", "ticks of stage 3 of the sync slot"),
    "c": ("an integer, 0 to 1000",
          "how many ticks beyond z after its call in stage 3 a BIU begins the next frame"),
    "p": ("an integer, 0 to 1000000000",
          "the bound on the skew of the nodes' first ticks of a frame, in units"),
}
CLOCK = {
    "node": (NODE, "whose clock it is"),
    "start": ("an integer, 0 to 1000000000000", "the time of tick 0, in units"),
    "ticks": ("an array of pairs [first tick, length], as [[0, 10000]]",
              "the first ticks and the lengths of what follows"),
}
LINK = {
    "from": (ENDS, "who sends"),
    "to": (ENDS + "; of the other kind", "who receives"),
    "delay": ("an integer, 1 to 1000000000", "the delay"),
    "frames": (PAIR + " within 0 to frames - 1", "the frames"),
    "slots": (PAIR + " within 0 to the sync slot's number", "the slots"),
    "stages": (PAIR + " within 1 to 3", "the stages"),
}
FAULT = {
    "node": (NODE, "the node that turns faulty"),
    "frame": ("an integer, 0 to frames - 1", "the frame from which on it is faulty"),
    "slot": ("an integer, 0 to the sync slot's number",
             "the slot of that frame from which on it is faulty"),
}
SAY = {
    "from": (NODE, "who says it"),
    "to": (ENDS + "; of the other kind", "to whom"),
    "frames": (PAIR + " within 0 to frames - 1", "the frames"),
    "slots": (PAIR + " within 0 to the sync slot's number", "the slots"),
    "stages": (PAIR + " within 1 to 4; 4 only if slots is the sync slot alone", "the stages"),
    "offset": ("an integer from 0, below the length of each window of the ranges",
               "the tick of the window at which it comes"),
    "early": ("an integer, 0 to u - r - 1; other than 0 only if slots is the sync slot alone",
              "by how many units it comes before that tick"),
    "word": ("an integer, 0 to 4294967295", "says this word"),
    "fault": ("true", "says that there is no word"),
    "sync": ("true", "calls to resynchronise"),
    "raw": ("a string of 2 to 64 hexadecimal digits, even in number", "says these bytes"),
}
TABLES = {"root": ROOT, "plan": PLAN, "clock": CLOCK, "link": LINK, "fault": FAULT, "say": SAY}
RANGES = {
    "biu": (1, 16), "rmu": (1, 16), "slots": (1, 64), "frames": (1, 4096), "delay": (1, 10**9),
    "version": (1, 2), "probation": (0, 4096), "u": (2, 10**6), "r": (0, 10**6),
    "dmin": (1, 10**9), "dmax": (1, 10**9), "l": (1, 1000), "h": (1, 1000), "v": (1, 1000),
    "z": (1, 1000), "c": (0, 1000), "p": (0, 10**9),
}


def may_stand(table: str, key: str) -> str:
    """What may be at a key, in words."""
    return TABLES[table][key][0]
