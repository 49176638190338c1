"""Lines and words that are long, command lines of many words, long replays, and as many descriptors as there may be."""

from typing import Callable

from tables.building import HEADER, REPLAY_HEADER, answer, fault, no, rows, stats

NODE = "N|T|[engine:e]|e\n"
START = "E|1|0|0|start\n"
ONE_START = HEADER + NODE + START
LONG_TEXT = "x" * 1_000_000
LOOSELY, STARTED = "ask match loosely", " started"
TWENTY_THOUSAND = "many words/20,000 conditions"


def lines(*parts: str) -> Callable[[], bytes]:
    """A record text of these parts after the header, which is made when the case runs."""
    return lambda: (HEADER + "".join(parts) + "\n").encode()


def event(*tail: str) -> Callable[[], bytes]:
    """A record text of one node and one event with this tail."""
    return lines(NODE, "E|1|0|0|", *tail)


def starts(count: int, *workers: int) -> str:
    """The starts of workers in turn, as many of each, at the stamps 0, 1, .."""
    return "".join(f"E|{worker}|0|{stamp}|start\n" for stamp in range(count) for worker in workers)


def long_replay() -> bytes:
    """Two workers with 50,000 starts each; in turn each emits one and one is taken."""
    return (REPLAY_HEADER + "W|2\n" + NODE + starts(50_000, 1, 2) + "S" + "|2|t|1|t" * 50_000 + "\n").encode()


def long_replay_record() -> bytes:
    return (HEADER + NODE + starts(50_000, 2, 1)).encode()


def waiting_replay() -> bytes:
    """One worker emits 100,000 starts before the first is taken."""
    return (REPLAY_HEADER + "W|1\n" + NODE + starts(100_000, 1) + "S" + "|1" * 100_001 + "|t" * 100_001 + "\n").encode()


def roots(count: int) -> bytes:
    """A record of `count` static descriptors."""
    return (HEADER + "".join(f"N|C|[r:{number}]|n\n" for number in range(count))).encode()


def registrations(count: int) -> bytes:
    """A record in which worker 1 registers `count` descriptors."""
    lines = [f"E|1|{65_536 + number}|0|dynamic|T|[d:{number}]|n\n" for number in range(count)]
    return (HEADER + "".join(lines)).encode()


def most_of_both_kinds() -> bytes:
    """All static descriptors that there may be, all that worker 1 may register, and a start of the last static one."""
    return roots(65_536) + b"E|1|65535|0|start\n" + registrations(65_536)[len(HEADER) :]


def replay_of_takes(count: int) -> bytes:
    """A replay text whose `count` turns take nothing, before one that emits and one that takes."""
    return (REPLAY_HEADER + "W|15\n" + NODE + "E|15|0|7|start\nS" + "|t" * count + "|15|t\n").encode()


def record_of_worker_15(count: int) -> bytes:
    """A record in which worker 15 registers `count` tests and starts the last of them."""
    first = 15 * 65_536
    dynamic = "".join(f"E|15|{first + k}|0|dynamic|T|[t:{k}]|t\n" for k in range(count))
    return (HEADER + NODE + dynamic + f"E|15|{first + count - 1}|0|start\n").encode()


CASES = rows(__file__, globals()) + [
    *[
        no(f"{TWENTY_THOUSAND}, number {it} fails", LOOSELY + STARTED * it + " failed" + STARTED * (19_999 - it), ONE_START, f"no {it}\n")
        for it in (16_379, 16_380, 16_381, 16_382, 16_383, 16_384, 16_385)
    ],
]
