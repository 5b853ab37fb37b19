"""Wrong words of every tool. Each is reported in one line on standard error: the tool's name, a
colon, and what is wrong, with the name of the argument or the wrong word itself."""
import os
import re
import shlex
import tempfile
import unittest
from pathlib import Path
from unittest import mock

from helpers import EXAMPLES, ending_of, program_for, script_ending
from robus.__main__ import TOOLS

LATE = str(EXAMPLES / "late_onset.toml")
BRIDGE = str(EXAMPLES / "bridges/carried_words.toml")
# Each line: what the message has to name, and a tool with wrong words. FILE is a scenario of two
# frames and more, BRIDGE a bridge, FOLDER no file yet, and PLACE the folder of all of these.
# The statuses are those of docs/LIBRARY.md: 2 for wrong words, 3 for an input that is refused, and
# 70 for an engine that is not there or gives no answer
WRONG_WORDS = {2: """
SCENARIO               lint
nosuch.toml            lint nosuch.toml
/                      lint /
--nosuch               lint FILE --nosuch
''                     lint ''
surplus                lint FILE surplus
COUNT                  adversary
SEED                   adversary 1
COUNT                  adversary wrong 1
COUNT                  adversary 0 1
SEED                   adversary 1 wrong
surplus                adversary 1 1 surplus
SCENARIO               plan
nosuch.toml            plan nosuch.toml
/                      plan /
--nosuch               plan FILE --nosuch
''                     plan ''
surplus                plan FILE surplus
--rmu                  plan --biu 5
--slots                plan --biu 5 --rmu 4
--biu                  plan --biu wrong
--biu                  plan --biu 17 --rmu 4 --slots 1
--rmu                  plan --biu 5 --rmu 0 --slots 1
--slots                plan --biu 5 --rmu 4 --slots 99
--slots                plan --biu 5 --rmu 4 --slots
--u                    plan --biu 5 --rmu 4 --slots 9 --u 1
--r                    plan --biu 5 --rmu 4 --slots 9 --r -1
--dmin                 plan --biu 5 --rmu 4 --slots 9 --dmin 0
--dmax                 plan --biu 5 --rmu 4 --slots 9 --dmax 1
--biu                  plan FILE --biu 5
--unit                 plan FILE --unit 1V
--drift                plan --biu 5 --rmu 4 --slots 9 --tick 1us
--delay                plan --biu 5 --rmu 4 --slots 9 --tick 1us --drift 50ppm
--tick                 plan --biu 5 --rmu 4 --slots 9 --tick 1 --drift 50ppm --delay 2us..9us
--tick                 plan --biu 5 --rmu 4 --slots 9 --tick 0us --drift 50ppm --delay 2us..9us
--rate                 plan --biu 5 --rmu 4 --slots 9 --rate 1 --drift 50ppm --delay 2us..9us
--rate                 plan --biu 5 --rmu 4 --slots 9 --rate 0Hz --drift 50ppm --delay 2us..9us
--drift                plan --biu 5 --rmu 4 --slots 9 --tick 1us --drift 50 --delay 2us..9us
--drift                plan --biu 5 --rmu 4 --slots 9 --tick 1us --drift 100% --delay 2us..9us
--delay                plan --biu 5 --rmu 4 --slots 9 --tick 1us --drift 50ppm --delay 9us..2us
--delay                plan --biu 5 --rmu 4 --slots 9 --tick 1us --drift 50ppm --delay 1fs..9s
--u                    plan --biu 5 --rmu 4 --slots 9 --tick 1us --drift 1% --delay 2us --u 5
SCENARIO               layout
nosuch.toml            layout nosuch.toml
/                      layout /
--nosuch               layout FILE --nosuch
''                     layout ''
surplus                layout FILE surplus
--frame                layout FILE --frame
--frame                layout FILE --frame wrong
--frame                layout FILE --frame -1
--frame                layout FILE --frame 99
--unit                 layout FILE --unit wrong
SCENARIO               faults
nosuch.toml            faults nosuch.toml B0 0/0=silent
NODE                   faults FILE
LIE                    faults FILE B0
B9                     faults FILE B9 0/0=silent
wrong                  faults FILE wrong 0/0=silent
wrong                  faults FILE B0 wrong
0/0=wrong              faults FILE B0 0/0=wrong
9/0=silent             faults FILE B0 9/0=silent
0/99=silent            faults FILE B0 0/99=silent
0/0/9=silent           faults FILE B0 0/0/9=silent
0/0=silent@B1          faults FILE B0 0/0=silent@B1
0/0=silent@R9          faults FILE B0 0/0=silent@R9
0/0=9999999999         faults FILE B0 0/0=9999999999
0/1/1=silent           faults FILE B0 0/1/1=silent
B2                     faults FILE B2 0/2=silent
--nosuch               faults FILE B0 0/0=silent --nosuch
SCENARIO               explain
nosuch.toml            explain nosuch.toml
/                      explain /
--nosuch               explain FILE --nosuch
''                     explain ''
SLOT                   explain FILE 0
FRAME                  explain FILE wrong 0
SLOT                   explain FILE 0 wrong
SLOT                   explain FILE 0 99
FRAME                  explain FILE 99 0
surplus                explain FILE 0 0 surplus
nosuch.csv             explain FILE --words nosuch.csv
--words                explain FILE --words
wrong                  explain FILE --letter wrong
--unit                 explain FILE --unit 1
SCENARIO               simulate
nosuch.toml            simulate nosuch.toml
/                      simulate /
surplus                simulate FILE surplus
--words                simulate FILE --words
nosuch.csv             simulate FILE --words nosuch.csv
FILE                   simulate FILE --words FILE
--letter               simulate FILE --letter
wrong                  simulate FILE --letter wrong
0:B0                   simulate FILE --letter 0:B0
0:R0:68                simulate FILE --letter 0:R0:68
0:B0:6                 simulate FILE --letter 0:B0:6
--letter               simulate FILE --letter -1:B0:68
9:B0:68                simulate FILE --letter 9:B0:68
SCENARIO               sweep
KEY=VALUES             sweep FILE
nosuch.toml            sweep nosuch.toml frames=1
frames                 sweep FILE frames
=1                     sweep FILE =1
fault[7].slot          sweep FILE 'fault[7].slot=1'
frames                 sweep FILE frames=5..2
frames                 sweep FILE frames=
a..b                   sweep FILE a..b=1
frames                 sweep FILE 'frames=[1'
frames                 sweep FILE 'frames=[]'
biu.a                  sweep FILE biu.a=1
words[0]               sweep FILE 'words[0]=1..99999999999999999999'
--workers              sweep FILE frames=1 --workers
--workers              sweep FILE frames=1 --workers 0
--workers              sweep FILE frames=1 --workers wrong
--nosuch               sweep FILE frames=1 --nosuch
SCENARIO               trace
--pcap                 trace FILE
nosuch.toml            trace nosuch.toml --pcap FOLDER
--pcap                 trace FILE --pcap
/                      trace FILE --pcap /
/                      trace FILE --vcd /
run.gtkw               trace FILE --vcd run.gtkw
--frames               trace FILE --pcap FOLDER --frames wrong
--frames               trace FILE --pcap FOLDER --frames 2:1
--frames               trace FILE --pcap FOLDER --frames 0:3
--unit                 trace FILE --pcap FOLDER --unit 1V
surplus                trace FILE surplus --pcap FOLDER
BRIDGE                 trace BRIDGE --pcap FOLDER
SCENARIO               view
nosuch.toml            view nosuch.toml
surplus                view FILE surplus
--frames               view FILE --frames 9
--unit                 view FILE --unit wrong
BRIDGE                 view BRIDGE
KIND                   table
nosuch                 table nosuch
nosuch                 table deliveries nosuch
/                      table deliveries /
surplus                table --json FILE surplus
surplus                table deliveries FILE surplus
--nosuch               table --nosuch
SCENARIO               draw
nosuch.toml            draw nosuch.toml
/                      draw /
--nosuch               draw FILE --nosuch
''                     draw ''
LAST                   draw FILE 1
surplus                draw FILE 1 2 surplus
LAST                   draw FILE 2 1
FIRST                  draw FILE wrong 2
LAST                   draw FILE 0 wrong
LAST                   draw FILE 0 99
FIRST                  draw FILE -1 0
BRIDGE                 draw BRIDGE
WORDS                  model
nosuch                 model nosuch
nosuch.toml            model run nosuch.toml
surplus                model run FILE surplus
letters                model letters
group                  model group most 7
SEED                   model gen
SEED                   model gen wrong 1
FRAMES                 model gen 1
FRAMES                 model gen 1 0
FRAMES                 model stress 1 4097
NODE                   model record
NODE                   model record X0
NODE                   model record B16
WORDS                  robus
nosuch                 robus nosuch
nosuch                 robus nosuch FILE
nosuch.toml            robus run nosuch.toml
surplus                robus run FILE surplus
FILE                   robus FILE
SEED                   robus gen
FRAMES                 robus gen 7
FRAMES                 robus gen 7 9999
NODE                   robus record
NODE                   robus record B16
nosuch.toml            run nosuch.toml
/                      run /
''                     run ''
surplus                run FILE surplus
--nosuch               run FILE --nosuch
BRIDGE                 run BRIDGE
nosuch.toml            check nosuch.toml
surplus                check FILE surplus
BRIDGE                 check BRIDGE
nosuch.toml            letters nosuch.toml
BRIDGE                 letters BRIDGE
surplus                letters FILE surplus
NODE                   record
NODE                   record FILE
NODE                   record X0 FILE
NODE                   record B00 FILE
nosuch.toml            record B0 nosuch.toml
surplus                record B0 FILE surplus
MASK                   group most
wrong                  group wrong 7 FILE
MASK                   group most 0 FILE
MASK                   group most 65536 FILE
MASK                   group mid B0 FILE
nosuch.toml            group mid 7 nosuch.toml
nosuch                 replay nosuch
/                      replay /
SKIP                   listen
SKIP                   listen wrong FILE
SKIP                   listen -1 FILE
SKIP                   listen 2147483648 FILE
nosuch                 listen 0 nosuch
SEED                   gen
FRAMES                 gen 7
SEED                   gen wrong 1
SEED                   gen 07 1
SEED                   gen 18446744073709551616 1
FRAMES                 gen 7 0
FRAMES                 gen 7 wrong
surplus                gen 7 1 surplus
SEED                   stress
FRAMES                 stress 7
SEED                   stress wrong 1
FRAMES                 stress 7 4097
surplus                stress 7 1 surplus
HEX                    spell
HEX                    spell wrong
HEX                    spell 686
HEX                    spell ABCD
HEX                    spell ''
surplus                spell 6869 surplus
FILE                   bridge FILE
nosuch.toml            bridge nosuch.toml
surplus                bridge BRIDGE surplus
nosuch                 picture nosuch
FIRST                  picture wrong 1 FILE
LAST                   picture 1 wrong FILE
LAST                   picture 2 1 FILE
surplus                picture 1 2 FILE surplus
PROGRAM                quick
nosuch                 quick nosuch
PROGRAM                quick --keep
nosuch                 quick --keep nosuch
surplus                quick --keep robus surplus
FOLDER                 campaign
COUNT                  campaign PLACE/new
SEED                   campaign PLACE/new 3
COUNT                  campaign PLACE/new wrong 1
COUNT                  campaign PLACE/new 0 1
SEED                   campaign PLACE/new 3 wrong
SEED                   campaign PLACE/new 3 -1
FILE                   campaign FILE 3 1
PLACE/new              campaign PLACE/new summary
PLACE/new              campaign PLACE/new scenario 1
NUMBER                 campaign PLACE/new scenario
PLACE                  campaign PLACE summary
surplus                campaign PLACE/new summary surplus
--generator            campaign PLACE/new 3 1 --generator
--jobs                 campaign PLACE/new 3 1 --jobs 0
--jobs                 campaign PLACE/new 3 1 --jobs wrong
--unit                 campaign PLACE/new 3 1 --unit 1V
--faults               campaign PLACE/new 3 1 --faults 0..2
nosuch.toml            campaign PLACE/new 3 1 --bus nosuch.toml
BRIDGE                 campaign PLACE/new 3 1 --bus BRIDGE
--faults               campaign PLACE/new 3 1 --bus FILE --faults 2..1
--faults               campaign PLACE/new 3 1 --bus FILE --faults 99
--kinds                campaign PLACE/new 3 1 --bus FILE --kinds nosuch
--onset                campaign PLACE/new 3 1 --bus FILE --onset wrong
--onset                campaign PLACE/new 3 1 --bus FILE --onset 99
--generator            campaign PLACE/new 3 1 --bus FILE --generator true
ENGINE                 campaign_rows
wrong                  campaign_rows model wrong
wrong                  campaign_rows model '1 wrong 1'
""", 3: """
FILE                   table deliveries FILE
FILE                   replay FILE
FILE                   listen 0 FILE
FILE                   picture FILE
BRIDGE                 layout BRIDGE
BRIDGE                 plan BRIDGE
BRIDGE                 faults BRIDGE B0 0/0=silent
BRIDGE                 explain BRIDGE
""", 70: """
nosuch                 run FILE --engine nosuch
/bin/true              run FILE --engine /bin/true
/                      run FILE --engine /
/etc/passwd            run FILE --engine /etc/passwd
nosuch                 simulate FILE --engine nosuch
/bin/true              simulate FILE --engine /bin/true
nosuch                 sweep FILE frames=1 --engine nosuch
/bin/true              sweep FILE frames=1 --engine /bin/true
/                      sweep FILE frames=1 --engine /
nosuch                 trace FILE --pcap FOLDER --engine nosuch
/bin/true              view FILE --engine /bin/true
nosuch                 draw FILE --engine nosuch
nosuch                 gen 7 1 --engine nosuch
nosuch                 campaign PLACE/new 3 1 --engine nosuch
nosuch                 campaign_rows nosuch
"""}
# Scripts of tools/ that are no tools of the package, with the status 2
SCRIPTS = """
SEED                   scenario
SEED                   scenario wrong
COUNT                  scenario FOLDER wrong 1
FOLDER                 scenario 1 2
CALL                   trusted rb_top
nosuch                 trusted rb_top nosuch
rb_nosuch              trusted rb_nosuch run
surplus                trusted rb_top run surplus
PAGE                   manual
NAME                   manual FILE
SECTION                manual FILE robus
nosuch.md              manual nosuch.md robus 1
surplus                manual FILE robus 1 what surplus
rb_nosuch              promises rb_nosuch
nosuch.md              prose nosuch.md
wrong                  shape wrong
COUNT                  compare_models
SEED                   compare_models 1
COUNT                  compare_models wrong 1
nosuch                 compare_models 1 1 nosuch
CRATE                  wrong_bodies wrong
nosuch.md              tutorial nosuch.md
surplus                tutorial FILE surplus
"""
# The words that the second model does not have
LACKING = {"letters", "group", "listen", "spell", "picture", "bridge", "draw"}


def lines(has_model: bool):
    """The status, the name and the words of each line whose tool the second model can run, or of
    each other one."""
    for status, text in WRONG_WORDS.items():
        for line in text.strip().splitlines():
            name, tool, *words = shlex.split(line)
            if (tool not in LACKING) == has_model:
                yield status, name or "''", tool, words


class Tools(unittest.TestCase):
    def setUp(self):
        folder = tempfile.TemporaryDirectory()
        self.addCleanup(folder.cleanup)
        self.stands = {"FILE": LATE, "BRIDGE": BRIDGE, "PLACE": folder.name,
                       "FOLDER": str(Path(folder.name, "new"))}

    def put(self, word: str) -> str:
        """A word with the path that it stands for."""
        head, slash, rest = word.partition("/")
        return self.stands.get(head, head) + slash + rest

    def refuses(self, status: int, name: str, tool: str, words: list) -> None:
        """Tries the words of a line. Beside the message, standard error may say what runs."""
        # FILE in a message is the word where none is among those of the line, as for `run`
        name = self.put(name) if name in words or "/" in name else name
        self.ends(name, TOOLS[tool][2], status, *ending_of(tool, list(map(self.put, words))))

    def ends(self, name: str, speaker: str, status: int, found: int, out: str, said: str) -> None:
        """Whether a tool ended with the status and said one line with the name."""
        told = [it for it in said.splitlines() if not it.startswith(f"{speaker}: run by ")]
        self.assertEqual(len(told), 1, said)
        self.assertTrue(told[0].startswith(f"{speaker}: "), said)
        self.assertRegex(told[0][len(speaker) + 2:],
                         rf"(?<![\w/-]){re.escape(name)}(?!\w)")
        self.assertNotRegex(said, r"Traceback|\[Errno|invalid literal|NoneType")
        self.assertEqual(found, status, said)
        if status == 2:
            self.assertEqual(out, "")

    def test_each_tool_is_tried(self):
        tried = {tool for has_model in (True, False) for _, _, tool, _ in lines(has_model)}
        self.assertEqual(tried, set(TOOLS))

    def test_words_of_scripts(self):
        for line in SCRIPTS.strip().splitlines():
            name, tool, *words = shlex.split(line)
            with self.subTest(line):
                self.ends(name, f"tools/{tool}", 2, *script_ending(tool, map(self.put, words)))

    def test_words_of_the_second_model(self):
        with mock.patch.dict(os.environ, ROBUS_ENGINE="model"):
            for line in lines(True):
                with self.subTest(line):
                    self.refuses(*line)

    def test_words_of_the_programs(self):
        for line in lines(False):
            with self.subTest(line):
                engine = program_for(line[2])
                if engine is None:
                    self.skipTest(f"no program that is there has {line[2]}")
                with mock.patch.dict(os.environ, ROBUS_ENGINE=engine):
                    self.refuses(*line)


if __name__ == "__main__":
    unittest.main()
