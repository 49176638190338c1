"""Replays: what is taken, and the faults of replay texts."""

import form
from tables.building import REPLAY_HEADER, answer, fault, lines_of, record, replay, rows
from tables.texts import SMALL_REPLAY, SMALL_SCRIPT

NODE = "N|T|[engine:e]|e"
START = "E|1|0|10|start"
FINISH = "E|1|0|11|finish|ok"
REPORT = "E|2|0|20|report|k|v"
SCRIPT = " ; ".join(SMALL_SCRIPT)
UNKNOWN, UNLAWFUL = "E|1|5|0|start", "E|1|0|0|report|b|1|a|2"
FIRST, START_OF_IT = "E|1|65536|0|dynamic|T|[engine:e]/[d:1]|one", "E|2|65536|1|start"
SECOND, OTHER = "E|1|65537|0|dynamic|T|[engine:e]/[d:2]|two", "E|1|131072|0|dynamic|T|[engine:e]/[d:1]|one"


def lines_apart(text) -> list:
    """The lines that stand apart by ` ; `."""
    return [it for it in text.split(" ; ") if it] if isinstance(text, str) else text


def small(name: str, steps: str, entries: str = ""):
    """The small script with these steps."""
    return taken(name, [*SMALL_SCRIPT, steps], entries)


def faulty(name: str, text, line: str):
    return fault(name, "replay", text, line)


def refused(name: str, lines, line: str):
    return fault(name, "replay", replay(*lines_apart(lines)), line)


def taken(name: str, lines, entries=""):
    """The replay of these lines takes these entries, below the lines of nodes."""
    nodes = [line for line in lines_apart(lines) if line.startswith("N|")]
    return answer(name, "replay", replay(*lines_apart(lines)), record(*nodes, *lines_apart(entries)))


STEPS = "S|3 S|0 S|01 S|+1 S|-1 S| S||1 S|1| S|1||t S|T S|tt S|1t S|t1 S1 s|1 SS|1 S|1,2 S|9 S|256 S|257 S|x S|١".split()
STEPS += ["S|18446744073709551617", "S| 1", "S|1 ", "S 1", "S|1\r"]

WORKERS = [*f"W|0 W|{form.MAX_WORKERS + 1} W|255 W|256 W|257 W|01 W| W W|1| W|1|2 W|a W|+1 w|1".split(), "W| 1", "W|1 ", "W|1\r"]

EVERY_TAIL = [line.replace("␀", "\0").replace("␍", "\r") for line in lines_of("EVERY_TAIL")]
"""Each form of a tail, with each escape of a text field."""

NODES = ["N|C|[engine:e]|e", "N|B|[engine:e]/[c:%5B%5D]|\\p\\\\\\n", "N|T|[engine:e]/[c:%5B%5D]/[t:\\p]|", "N|C|[other:x]|spät"]

STARTS = [f"E|1|0|{stamp}|start" for stamp in range(50)]
ALL_WORKERS = range(1, form.MAX_WORKERS + 1)
OF_ALL_WORKERS = [f"E|{worker}|0|{worker}|start" for worker in ALL_WORKERS]
IN_TURN = "S" + "".join(f"|{worker}" for worker in reversed(ALL_WORKERS)) + "|t" * form.MAX_WORKERS

SMALL_RECORD = record(NODE, START, REPORT, FINISH)
OF_VERSION_1 = "\n".join(["testkit-replay|1", "W|1", *NODES, *EVERY_TAIL[:-1], "S" + "|1|t" * len(EVERY_TAIL), ""])
AFTER_ALL = "S" + "|1" * (len(EVERY_TAIL) + 1) + "|t" * 100

CASES = rows(__file__, globals()) + [
    *[refused(f"replay/steps {steps!r}", [*SMALL_SCRIPT, steps], "line 7 is bad") for steps in STEPS],
    *[answer(f"replay/header of version {it}", "replay", f"testkit-replay|{it}\nW|1\nS\n", record()) for it in form.VERSIONS],
    *[taken(f"replay/W|{workers}", [f"W|{workers}", f"S|{workers}|t"]) for workers in ALL_WORKERS],
    *[refused(f"replay/workers {line!r}", [line, "S"], "line 2 is bad") for line in WORKERS],
]
