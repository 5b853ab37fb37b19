"""A second model of the bus, written from the documents alone (docs/RULES.md, docs/SCENARIOS.md,
docs/FORMATS.md, docs/robus.md), which takes nothing from the rest of the package. `answer` takes
the words and the input of `robus`, and gives what `robus` writes, with the same status:

    tools/model run|check|record NODE|replay < input
    tools/model gen|stress SEED FRAMES

A reader begins with `votes`, `seat`, `closing` and `core`, which are the rules of one node.
`world` and `settled` run a bus of them, and `premise` is the fault premise. The package takes all
names from here."""
from .bus import Window, TAIL, Bus
from .inequalities import sides_of, first_failing
from .names import (
    BIU, RMU, LETTERS, MAX_TICKS, SCENARIO_LIMIT, LOG_LIMIT, MOST_SAYS, MOST_LINKS, MOST_PAIRS,
    WORD_TAG, FAULT_TAG, SYNC_TAG, FAULT, Node, Pattern, Pair, Word, Message, Segments, Trusted,
    Taken, Ask, Sight, Row, Milestone, Event, HandIn, Answer, other, name_of, mask_of)
from .plan import Plan, PLAN_RANGES
from .clock import Timeline
from .messages import spell, xor_of, read_message
from .votes import majority_of, middle_of, owners_of, convicted_by
from .seat import Seat
from .closing import Closing, Shown
from .core import Core
from .scenario import LinkRule, Say, stands_for, covers, Scenario
from .answers import text_of, Refused, SCENARIO_RULES, refuse
from .forms import (
    Document, Form, Fields, is_int, is_string, is_table, is_true, list_of, is_pair, REQUIRED,
    OPTIONAL, PLAN_FIELDS, ENTRY_FIELDS, SAYINGS, ROOT_FIELDS, tables_of, lacks_key,
    has_unknown_key, has_wrong_form)
from .toml import (
    TOML_PART, older_escape, older_string, may_break, older_parts, older_toml, MOST_LEVELS,
    too_deep_at, read_toml, integers_in)
from .ranges import (
    within, node_in, pattern_in, pair_in, list_in, plan_in, bus_in, apps_in)
from .entries import clocks_in, links_in, onsets_in, say_in
from .reading import scenario_in, keeps_time, check_rules, read_scenario
from .port import Port
from .premise import Judge
from .site import Recorder, Site, FrameStart
from .settled import Settled
from .behavior import Behavior, Said, Span, listed
from .world import AFTER_MESSAGES, World
from .stepped import NO_FRAME, NOT_GOOD, NO_TABLE, Record, Stepped, why_not_handed
from .logs import log_header, LogReader, bad_field, replay
from .generator import drawn, generated
from .program import do_run, do_check, do_record, do_stress, number_in, call_of, answer, main
