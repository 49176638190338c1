"""What `ask lifecycle` answers: each rule, the order of the rules, and what keeps them."""

from tables.building import answer, fault, no, record, rows
from tables.texts import CUT, EMPTY, REGISTERED_TEST, TWO_TESTS

NODES = ["N|C|[engine:e]|e", "N|T|[engine:e]/[t:1]|one"]
SECOND = "N|T|[engine:e]/[t:2]|two"
BELOW = "N|T|[engine:e]/[t:1]/[u:1]|three"
ROOT = "N|T|[engine:f]|f"


def events(text: str, *third: str) -> str:
    """A record of a container and a test below it, and of a third node; each event is its key, a blank and its tail, of worker 1.

    A record stands for itself.
    """
    lines = [f"E|1|{key}|0|{tail}" for key, _, tail in (it.partition(" ") for it in text.split("; ") if it)]
    return text if text.startswith("testkit-") else record(*NODES, *third, *lines)


def kept(name: str, text: str, *third: str):
    return answer(name, "ask lifecycle", events(text, *third), "yes")


def broken(name: str, text: str, why: str, *third: str):
    return no(name, "ask lifecycle", events(text, *third), f"no {why}")


CASES = rows(__file__, globals())
