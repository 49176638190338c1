"""What `ask exclusive` answers: which executions conflict, which overlap, and which pair comes first."""

from typing import List

from tables.building import Text, answer, no, record, refusals, rows
from tables.texts import CUT, DEEP, EMPTY, TWO_TESTS

NODES = ["N|C|[engine:e]|e"] + [f"N|T|[engine:e]/[t:{key}]|t{key}" for key in (1, 2, 3)]


def events_of(text: str) -> List[str]:
    """The lines of events of worker 1, of which the text has keys and tails."""
    pairs = [pair.strip().partition(" ") for pair in text.split(",") if pair]
    return [f"E|1|{key}|0|{tail}" for key, _, tail in pairs]


def events(text: str) -> Text:
    """A record of a container and three tests below it; the events are their keys and tails, of worker 1. A record stands for itself."""
    return text if text.startswith("testkit-") else record(*NODES, *events_of(text))


APART = events("1 start, 1 finish|ok, 2 start, 2 finish|ok")
OVERLAPPING = events("1 start, 2 start, 1 finish|ok, 2 finish|ok")
NESTED = events("1 start, 2 start, 3 start, 2 finish|ok, 1 finish|ok, 3 finish|ok")
BELOW = events("0 start, 1 start, 1 finish|ok, 0 finish|ok")
START_TWICE = events("1 start, 1 start, 2 start, 2 finish|ok, 1 finish|ok")
RAN_BEFORE = events("3 start, 3 finish|ok, 1 start, 2 start, 2 finish|ok, 3 start, 3 finish|ok, 1 finish|ok")
OUTLIVING = events("1 start, 2 start, 2 finish|ok, 3 start, 3 finish|fail, 1 finish|abort")


def yes(name: str, words: str, text: str):
    return answer(name, f"ask exclusive {words}", events(text), "yes")


def overlapping(name: str, words: str, text: str, pair: str):
    return no(name, f"ask exclusive {words}", events(text), f"no {pair}")


def no_pair(name: str, words: str, text: str):
    return overlapping(name, words, text, "pair")


refused = refusals(("exclusive/", "exclusive", 0, OVERLAPPING), ("explain/exclusive, ", "explain exclusive", 1, TWO_TESTS))

CASES = rows(__file__, globals())
