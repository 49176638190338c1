"""What `ask locks` and `ask explain locks` answer: over which lock executions conflict, which overlap, and which pair comes first."""

from typing import List

from tables.building import answer, no, refusals, rows, whole_record
from tables.exclusives import events_of
from tables.texts import CUT, EMPTY, TWO_TESTS

NODES = ["N|C|[engine:e]|e", "N|C|[engine:e]/[c:1]|c", "N|T|[engine:e]/[c:1]/[t:2]|t2", "N|T|[engine:e]/[t:3]|t3", "N|T|[engine:e]/[t:4]|t4"]
MORE = [*NODES, "N|B|[engine:e]/[t:30]|t30", "N|T|[engine:e]/[t:30]/[t:6]|t6", "N|T|[f:f]|f"]
"""With a test whose id begins with the text of another's, which has a child, and another root."""


def held(locks: str, events: str, nodes: List[str] = NODES) -> str:
    """A record of two containers and three tests; the locks are keys, modes and names, the events keys and tails, of worker 1."""
    lines = ["L|" + "|".join(lock.split(None, 2)) for lock in locks.split(",") if lock]
    return whole_record(*nodes, *lines, *events_of(events))


BESIDE = "3 start, 4 start, 3 finish|ok, 4 finish|ok"
AFTER = "3 start, 3 finish|ok, 4 start, 4 finish|ok"
BELOW = "1 start, 2 start, 2 finish|ok, 1 finish|ok"
AROUND = "1 start, 3 start, 3 finish|ok, 1 finish|ok"
THREE = "1 start, 2 start, 3 start, 3 finish|ok, 2 finish|ok, 1 finish|ok"
REGISTERED = "3 start, 65536 dynamic|T|[engine:e]/[t:4]/[d:1]|d, 65536 start, 65536 finish|ok, 3 finish|ok"
LATE_CHILD = "3 start, 4 start, 3 finish|ok, 4 finish|ok, 65536 dynamic|T|[engine:e]/[t:4]/[d:1]|d"
AGAIN = "4 start, 4 finish|ok, 3 start, 2 start, 2 finish|ok, 4 start, 4 finish|ok, 3 finish|ok"


def yes(name: str, locks: str, events: str):
    return answer(name, "ask locks", held(locks, events), "yes")


def overlapping(name: str, locks: str, events: str, pair: str, *nodes: List[str]):
    return no(name, "ask locks", held(locks, events, *nodes), f"no {pair}")


def no_pair(name: str, locks: str, events: str, *nodes: List[str]):
    return overlapping(name, locks, events, "pair", *nodes)


def explained(name: str, locks: str, events: str, output: str):
    return (answer if output == "yes" else no)(name, "ask explain locks", held(locks, events), output)


refused = refusals(("locks/", "locks", 0, EMPTY), ("explain/locks, ", "explain locks", 1, EMPTY))

CASES = rows(__file__, globals())
