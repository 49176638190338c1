"""Of which events each condition holds, and which conditions are refused, each with the length of its longest prefix that begins one."""

from typing import List

from tables.building import answer, fault, lines_of, no, record, rows
from tables.texts import EMPTY

EVENTS = record(*lines_of("EVENTS"))
"""Seventeen events; the stamp of each is its position."""

ALL = "0 1 2 3 4 5 6 7 8 9 10 11 12 13 14 15 16"
OF_KEY_2 = "2 3 6 7 8 9 10 11 12 13 14"
TESTS = "1 2 3 4 5 6 7 8 9 10 11 12 13 14 16"


def at_all_positions(condition: str, positions: str) -> List:
    """As often in turn as it holds, the condition holds at these positions; and not once more."""
    count = len(positions.split())
    words = ["ask", "match", "in-order"] + [condition] * count
    return [
        answer(f"holds/{condition}", words, EVENTS, f"yes {positions}".rstrip()),
        no(f"holds/{condition}, no more", words + [condition], EVENTS, f"no {count}"),
    ]


NODE = "N|T|[engine:e]|e"
ENDINGS = record(NODE, "E|1|0|1|finish|fail", "E|1|0|2|finish|fail|a", "E|1|0|3|finish|fail|aa", "E|1|0|4|finish|abort|a")

NOTS, ENDS = "not(" * 32, ")" * 32

BAD_AT = ["^ test", "test^ ", "all(test^ test)", "all(test,^ test)", "test^\n", NOTS + "^", NOTS + "^x"]
BAD_AT += [f"{NOTS}test{ENDS[1:]}^", f"{NOTS}test{ENDS}^)", f"{NOTS}test{ENDS}^not(", "all(not(^x)," + "not(" * 40]
"""Each has a `^` after its longest prefix that begins a condition; more stand in the rows."""


def bad_at(prefix: str, rest: str):
    text = prefix + rest
    return fault(f"condition/{text!r}", ["ask", "match", "loosely", text], EMPTY, f"condition 1 is bad at {len(prefix.encode())}")


def deep(name: str, text: str):
    return fault(name, f"ask match exactly {text}", EMPTY, "condition 1 is too deep")


def is_read(name: str, text: str):
    """A condition is read; on an empty record it holds of no event."""
    return no(name, f"ask match in-order {text}", EMPTY, "no 0")


def all_bad_at(texts: str):
    return [bad_at(*text.split("^")) for text in texts.split(" ")]


CASES = rows(__file__, globals()) + [
    *at_all_positions("not(" * 32 + "test" + ")" * 32, TESTS),
    *at_all_positions("not(" * 31 + "test" + ")" * 31, "0 15"),
    *at_all_positions("all(" * 32 + "started" + ")" * 32, "0 1 16"),
    *at_all_positions("any(all(" * 16 + "started" + "))" * 16, "0 1 16"),
    *[bad_at(*text.split("^")) for text in BAD_AT],
]
