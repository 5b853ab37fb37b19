"""Forty spoilt documents: what is written in place of what, with which line the scenario is
refused, and line and words of the finding.

The refusals are those that docs/SCENARIOS.md gives."""

WHOLE = """biu = 4
rmu = 3
slots = 8
frames = 2
requests = [2, 2, 2, 2]
words = [10, 20, 30, 40]
apps = ["table", "counter", "follow", "table"]
plan = { p = 60200 }

[[clock]]
node = "B0"
start = 60200
ticks = [[0, 10001], [100, 9999]]

[[link]]
from = "B"
to = "R1"
delay = 5000

[[fault]]
node = "R2"
frame = 0
slot = 6

[[say]]
from = "R2"
to = "B0"
frames = [0, 0]
slots = [6, 6]
stages = [2, 2]
word = 5
"""

SPOILT = [
    ("biu = 4", "biu = ", "refused 1 NotToml", 1, "invalid value"),
    ("plan = { p = 60200 }", "plan = { p = 60200,\n # the skew\n l = , }", "refused 1 NotToml", 10, "invalid value"),
    ("rmu = 3", "rmu = 3\nrmu = 3", "refused 1 NotToml", 3, "overwrite"),
    ("frames = 2", "frames = 99999999999999999999", "refused 1 NotToml", 4, "64 bits"),
    ('from = "B"', 'from = "B', "refused 1 NotToml", 16, "character"),
    ("slots = 8", "slotz = 8", "refused 2 MissingKey", 3, "did you mean slots?"),
    ("frames = 2\n", "", "refused 2 MissingKey", 1, "has no frames"),
    ('node = "R2"', 'nod = "R2"', "refused 2 MissingKey", 21, "did you mean node?"),
    ("word = 5", "wrod = 5", "refused 2 MissingKey", 31, "did you mean word?"),
    ("word = 5", "words = 5", "refused 2 MissingKey", 31, "did you mean word?"),
    ('to = "R1"\n', "", "refused 2 MissingKey", 15, "link 1 has no to"),
    ("stages = [2, 2]\n", "", "refused 2 MissingKey", 25, "say 1 has no stages"),
    ("rmu = 3", "rmu = 3\ncolour = 1", "refused 3 UnknownKey", 3, "has no key colour"),
    ("start = 60200", "begin = 60200", "refused 3 UnknownKey", 12, "has no key begin"),
    ("rmu = 3", "rmu = 3\noffset = 5", "refused 3 UnknownKey", 3, "in [[say]]"),
    ("{ p = 60200 }", "{ p = 60200, delay = 5000 }", "refused 3 UnknownKey", 8, "at the root"),
    ("biu = 4", 'biu = "4"', "refused 4 WrongType", 1, "an integer, 1 to 16"),
    ("[[fault]]", "[fault]", "refused 4 WrongType", 20, "[[fault]]"),
    ("frames = [0, 0]", "frames = 0", "refused 4 WrongType", 28, "a pair"),
    ("delay = 5000", "delay = 5000.0", "refused 4 WrongType", 18, "an integer"),
    ("biu = 4", "biu = 17", "refused 5 OutOfRange", 1, "1 to 16"),
    ("frames = 2", "frames = 100000", "refused 5 OutOfRange", 4, "1 to 4096"),
    ("[10, 20, 30, 40]", "[10, 20, 30]", "refused 5 OutOfRange", 6, "each of the 4 BIUs, and has 3"),
    ("[10, 20, 30, 40]", "[10, 20, 30, 4294967296]", "refused 5 OutOfRange", 6, "0 to 4294967295"),
    ('node = "R2"', 'node = "r2"', "refused 5 OutOfRange", 21, "capital letters: R2"),
    ('node = "R2"', 'node = "R3"', "refused 5 OutOfRange", 21, "the bus has R0 to R2"),
    ('to = "B0"', 'to = "R1"', "refused 5 OutOfRange", 27, "of the other kind"),
    ("slots = [6, 6]", "slots = [6, 5]", "refused 5 OutOfRange", 29, "lower end first"),
    ("slots = [6, 6]", "slots = [6, 20]", "refused 5 OutOfRange", 29, "within 0 to 19"),
    ("stages = [2, 2]", "stages = [2, 4]", "refused 5 OutOfRange", 30, "slots is to be [19, 19]"),
    ("word = 5", "word = 5\noffset = 15", "refused 5 OutOfRange", 32, "0 to 14"),
    ("word = 5", 'word = 5\nraw = "00"', "refused 5 OutOfRange", 32, "word and raw"),
    ("word = 5", 'raw = "123"', "refused 5 OutOfRange", 31, "two for each byte"),
    ("word = 5", "word = 5\n\n[[fault]]\nnode = \"R2\"\nframe = 1\nslot = 0", "refused 5 OutOfRange", 34, "an entry already: fault 1"),
    ("{ p = 60200 }", "{ p = 60108 }", "refused 6 PlanFails 7", 8, "raise p"),
    ("{ p = 60200 }", "{ h = 5, p = 60200 }", "refused 6 PlanFails 1", 8, "raise h"),
    ("[0, 10001]", "[0, 10002]", "refused 7 ClockBounds", 13, "9999 to 10001"),
    ("[[0, 10001], [100, 9999]]", "[[1, 10001], [100, 9999]]", "refused 7 ClockBounds", 13, "begin with tick 0"),
    ("delay = 5000", "delay = 15001", "refused 8 DelayBounds", 18, "5000 to 15000"),
    ("start = 60200", "start = 60201", "refused 9 StartApart", 12, "within p, which is 60200"),
    ("slots = [6, 6]", "slots = [5, 5]", "refused 10 SayOfGood", 28, "good until frame 0, slot 6"),
    ('from = "R2"', 'from = "R1"', "refused 10 SayOfGood", 26, "no [[fault]] entry"),
    ("[[0, 10001], [100, 9999]]", "[" + ", ".join(f"[{tick}, 10000]" for tick in range(4091)) + "]",
     "refused 11 TooMany", 13, "4096 may be"),
]
