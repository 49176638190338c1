"""What `ask` answers: statistics, matches, executions, lists and reports, of all events and of those that a selection picks."""

import form
from tables.building import answer, fault, lines_of, no, record, refusals, rows, stats
from tables.texts import BOTH_KINDS, CUT, DEEP, EMPTY, ONE_START, REGISTERED_TEST, TWO_TESTS, TWO_TESTS_1

TWO_TESTS_STATS = stats(skipped=1, started=2, finished=2, succeeded=1, failed=1)
TWO_TESTS_PICKS = dict(all=range(5), tests=(1, 2, 3), containers=(0, 4), skipped=(3,), started=(0, 1), finished=(2, 4))
TWO_TESTS_PICKS.update(succeeded=(4,), failed=(2,))
"""The positions of the events that each selection picks."""

THREE_TAILS = record("N|T|[engine:e]|e", "E|1|0|0|start", "E|1|0|1|finish|fail|boom", "E|1|0|2|skip|off")

SIXTY_FIVE_STARTS = record("N|T|[engine:e]|e", *["E|1|0|0|start"] * 65)

EVERY_KIND = record(*lines_of("EVERY_KIND"))
"""Twelve events: each kind, and each form of a tail."""

EVERY_KIND_STATS = stats(skipped=1, started=2, finished=5, aborted=2, succeeded=1, failed=2, reporting=3, dynamic=1)
EVERY_KIND_PICKS = dict(all=range(12), tests=range(1, 11), containers=(0, 1, 7, 11), skipped=(7,), started=(0, 2))
EVERY_KIND_PICKS.update(finished=(6, 8, 9, 10, 11), aborted=(6, 8), succeeded=(11,), failed=(9, 10), reporting=(3, 4, 5), dynamic=(1,))

SELECTED = [("empty record", EMPTY, {}), ("two tests", TWO_TESTS, TWO_TESTS_PICKS), ("every kind", EVERY_KIND, EVERY_KIND_PICKS)]

TWO_STARTS = record("N|T|[engine:e]|e", "E|1|0|0|start", "E|1|0|1|start")
START_FINISH_START = record("N|T|[engine:e]|e", "E|1|0|0|start", "E|1|0|1|finish|ok", "E|1|0|2|start")
FILES = record("N|T|[engine:e]|e", "E|1|0|0|start", "E|1|0|1|file|out/log.txt", "E|1|0|2|finish|ok")
VERSION_1 = "testkit-record|1\n" + ONE_START.partition("\n")[2]

NODE = "N|T|[engine:e]|e"
ACROSS = record(NODE, "N|T|[engine:f]|f", "E|1|0|1|start", "E|1|1|2|start", "E|1|0|3|finish|fail", "E|1|1|4|finish|abort|late")
REGISTERED = "N|C|[engine:e]|e ; E|1|65536|0|dynamic|T|[engine:e]/[d:1]|one"
OF_ONE_ID = f"{REGISTERED} ; E|2|131072|1|dynamic|T|[engine:e]/[d:1]|one ; E|1|65536|2|start ; E|2|131072|3|finish|ok ; E|1|65536|4|finish|ok"
GREATEST = record(NODE, "E|1|0|18446744073709551615|start", "E|1|0|18446744073709551614|finish|ok")


def missed(name: str, words: str, text: str, output: str):
    return no(name, f"ask stats {words}", text, output)


def marks(*tails: str) -> str:
    """A record of one test with these tails at the stamps 1, 2, .."""
    return record(NODE, *[f"E|1|0|{stamp}|{tail}" for stamp, tail in enumerate(tails, start=1)])


def executions(name: str, text: str, output: str):
    return answer(name, "ask executions", text, output)


def marked(name: str, tails: str, output: str):
    """The executions of a record of one test with these tails."""
    return executions(name, marks(*tails.split(" ; ")), output)


def missed_alone(name: str):
    """A statistic whose expectation alone is missed."""
    line = f"mismatch {name} expected 9 actual {len(TWO_TESTS_PICKS.get(name, ()))}"
    return missed(f"expectations/{name} alone", f"{name}=9", TWO_TESTS, TWO_TESTS_STATS + line)


ODD_IDS = record("N|C|[a:\\p]|bar", "N|C|[a:b]|letter", "N|C|[a:\\n]|line feed", "E|0|0|0|start", "E|0|1|0|start", "E|0|2|0|start")
REPORTED_OF_ONE_ID = record(
    *("N|C|[engine:z]|z", "N|C|[engine:a]|a"),
    *("E|1|65536|0|dynamic|T|[engine:a]/[d:1]|one", "E|2|131072|1|dynamic|T|[engine:a]/[d:1]|one"),
    *("E|2|131072|2|start", "E|0|0|3|start", "E|1|65536|4|start"),
)

def lines(text: str, *positions: int) -> str:
    """The lines of the events at these positions of a record text of version 2, each after its position."""
    events = [line for line in text.split("\n") if line.startswith("E|")]
    return "".join(f"{position} {events[position]}\n" for position in positions)


def listed(name: str, words: str, text: str, *positions: int):
    """The program lists the events at these positions."""
    return answer(f"list/{name}", f"ask list {words}", text, lines(text, *positions))


ESCAPES = record("N|T|[engine:e]|e", "E|15|0|18446744073709551615|skip|a\\pb\\n\\\\", "E|0|0|0|file|out/ä.txt", "E|1|0|7|report||")


def many_lines(count: int, skip_at: int) -> str:
    """A record of starts, with one skip among them."""
    return record("N|T|[engine:e]|e", *["E|1|0|0|start" if at != skip_at else "E|1|0|0|skip|off" for at in range(count)])


TOO_DEEP = DEEP + "test" + ")" * 33

refused = refusals(("list/", "list", 0, TWO_TESTS), ("explain/list, ", "explain list", 1, TWO_TESTS))

ALL_MISSED = "".join(f"mismatch {name} expected 7 actual 0\n" for name in form.STATISTICS)

CASES = rows(__file__, globals()) + [
    *[missed_alone(name) for name in form.STATISTICS],
    *[
        answer(f"count/{title}, {name}", f"ask count {name}", text, str(len(picks.get(name, ()))))
        for title, text, picks in SELECTED
        for name in form.SELECTIONS
    ],
    *[
        answer(f"stats of/{title}, all", "ask stats all", text, stats(**{it: len(picks.get(it, ())) for it in form.STATISTICS}))
        for title, text, picks in SELECTED
    ],
    *[listed(f"{title}, {name}", name, text, *picks.get(name, ())) for title, text, picks in SELECTED for name in form.SELECTIONS],
    listed("sixty-five starts", "started", SIXTY_FIVE_STARTS, *range(65)),
]
