"""What `ask explain` answers: the answer of a question, and below it what explains it; and which words and records it refuses."""

from tables.building import answer, fault, lines_of, no, record, refusals, rows
from tables.exclusives import APART, BELOW, NESTED, OVERLAPPING, RAN_BEFORE, START_TWICE, events
from tables.questions import EVERY_KIND, SIXTY_FIVE_STARTS, START_FINISH_START, TWO_STARTS, TWO_TESTS_STATS, marks
from tables.texts import CUT, DEEP, EMPTY, ONE_START, REGISTERED_TEST, TWO_TESTS, TWO_TESTS_1

ENDS = record(*lines_of("ENDS"))
"""Each ending, and each other kind of event of a test."""

STARTED = '    {0}: E|1|0|0|start   [engine:e] "e"'
POSITIONS = " ".join(map(str, range(65)))
FOUND = "".join(f"{at} started\n{STARTED.format(at)}\n" for at in range(65))
EARLY = "65 started\n" + STARTED.format(64) + "   holds, but is not after 64\n    no event is left"

TWENTY_STARTS = record("N|T|[engine:e]|e", *["E|1|0|0|start"] * 20)
TWENTY_ONE_STARTS = TWENTY_STARTS + "E|1|0|0|start\n"

TREE = ("N|C|[engine:e]|e", 'N|C|[engine:e]/[class:A]|A "a"', "N|T|[engine:e]/[class:A]/[t:1]|one", "N|T|[engine:e]/[class:A]/[t:2]|")


def broken(name: str, output: str):
    """The name has the events of worker 1 below `TREE`, each its key, a blank and its tail."""
    events = [event.partition(" ") for event in name.partition(", ")[2].split("; ") if event]
    return no(name, "ask explain lifecycle", record(*TREE, *[f"E|1|{key}|0|{tail}" for key, _, tail in events]), output)


RUN = record(*TREE, "E|1|0|0|start", "E|1|1|0|skip|off", "E|1|0|0|finish|ok")

SKIPPED_BESIDE = events("1 skip|off, 2 start, 3 start, 3 finish|ok")
BOTH_RUN = events("1 start, 2 start")
RUNS_TWICE = events("1 start, 1 finish|ok, 1 start, 1 finish|fail")
OF_ONE_ID = record(
    "N|C|[engine:e]|e",
    "E|1|65536|0|dynamic|T|[engine:e]/[d:1]|one",
    "E|2|131072|1|dynamic|T|[engine:e]/[d:1]|other",
    *("E|1|65536|2|start", "E|2|131072|3|start", "E|2|131072|4|finish|ok", "E|1|65536|5|finish|ok"),
)
TWICE = marks("start", "finish|abort", "start", "finish|fail|boom")

ODD_ID, ODD_NAME = r"[engine:e\p%2F\\]", r'a\pb\nc\\ "d" ä(,)%'
ESCAPES = record(
    f"N|C|{ODD_ID}|{ODD_NAME}",
    rf"N|T|{ODD_ID}/[t:\n]|",
    "E|1|0|0|start",
    "E|1|1|1|start",
    r"E|1|1|2|finish|fail|x\py\nz\\",
    r"E|1|0|3|skip|100%",
    "E|1|0|4|finish|ok",
)
"""An id, a name and a message with each escape of a field, and with letters that a condition escapes."""

ESCAPES_WITHOUT_SKIP = ESCAPES.replace("skip|100%", "report")

refused = refusals(("explain/", "explain", 0, TWO_TESTS))
of_a_selection = refusals(("explain/of a selection, ", "explain", 0, TWO_TESTS))
of_a_match = refusals(*((f"explain/{mode}, ", f"explain {mode}", 1, TWO_TESTS) for mode in ("exactly", "loosely", "in-order")))

CASES = rows(__file__, globals()) + [
    answer("explain/in-order, sixty-five starts", "ask explain in-order" + " started" * 65, SIXTY_FIVE_STARTS, f"yes {POSITIONS}\n{FOUND}"),
    no("explain/in-order, sixty-six of sixty-five starts", "ask explain in-order" + " started" * 66, SIXTY_FIVE_STARTS, f"no 65\n{FOUND}{EARLY}"),
    answer("explain/lifecycle, no event", "ask explain lifecycle", EMPTY, "yes"),
    answer("explain/lifecycle, a run", "ask explain lifecycle", RUN, "yes"),
    fault("explain/a question with a letter less", "ask explai lifecycle", ONE_START, "unknown question"),
]
