"""Texts of 16 MiB, which is the limit, and one byte more."""

from functools import partial

import form
from tables.building import HEADER, REPLAY_HEADER, answer, fault, rows
from tables.plan_texts import ONE_START as ONE_TEST_REPORT
from tables.texts import ONE_TEST_PLAN

NODE = "N|T|[engine:e]|e\n"
START = "E|1|0|0|start\n"

MOST = form.MAX_TEXT


def record_of_size(size: int) -> bytes:
    """A record of `size` bytes: a million starts, and a skip with a long reason."""
    text = HEADER + NODE + START * 1_000_000 + "E|1|0|0|skip|"
    return (text + "x" * (size - len(text) - 1) + "\n").encode()


def listed(text: bytes) -> bytes:
    """The lines of all events of a record text, each after its position."""
    events = [line for line in text.split(b"\n") if line.startswith(b"E|")]
    return b"".join(b"%d %s\n" % (position, event) for position, event in enumerate(events))


def name_of_size(header: str, rest: str, size: int) -> str:
    """An N line whose name fills the text of `header`, this line and `rest` up to `size` bytes."""
    node = "N|T|[engine:e]|"
    return node + "x" * (size - len(header) - len(rest) - len(node) - 1) + "\n"


def replay_of_size(size: int) -> bytes:
    header = REPLAY_HEADER + "W|1\n"
    return (header + name_of_size(header, "S\n", size) + "S\n").encode()


def record_of_replay(size: int) -> bytes:
    return (HEADER + name_of_size(REPLAY_HEADER + "W|1\n", "S\n", size)).encode()


def plan_of_size(size: int) -> bytes:
    return (ONE_TEST_PLAN + " " * (size - len(ONE_TEST_PLAN))).encode()


RECORD, LARGER_RECORD, LARGEST_RECORD = (partial(record_of_size, it) for it in (MOST, MOST + 1, 2 * MOST))
REPLAY, LARGER_REPLAY = (partial(replay_of_size, it) for it in (MOST, MOST + 1))
PLAN, LARGER_PLAN = (partial(plan_of_size, it) for it in (MOST, MOST + 1))
TEXT, LARGER_TEXT, BRACKETS, LARGER_BRACKETS = (partial(bytes.ljust, b"", it, fill) for fill in (b"x", b"[") for it in (MOST, MOST + 1))
RECORD_OF_REPLAY = partial(record_of_replay, MOST)


LAST_EVENT = lambda: b"1000000 " + RECORD().split(b"\n")[-2] + b"\n"
ALL_EVENTS = lambda: listed(RECORD())

CASES = rows(__file__, globals())
