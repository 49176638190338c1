"""Executions of writers and readers, or of those that hold locks, of which some overlap, and texts whose lock lines may not stand there."""

from typing import List, Set, Tuple

import form
from generated.conditions import condition_text
from generated.numbers import Cases, Numbers, met_series
from tables.building import HEADER

NODES = ["N|C|[engine:e]|e"] + [f"N|T|[engine:e]/[t:{key}]|t{key}" for key in range(1, 5)]
FINISHES = ["finish|ok", "finish|ok", "finish|fail|boom", "finish|abort"]
OTHER_TAILS = ["start", "skip|off", "report|k|v"] + FINISHES
CONDITIONS = ["test", "container", "all()", "any()", "id(t:1)", "not(name(t2))", "any(name(t1),name(t3))", "started", "succeeded"] + [
    f"name(t{key})" for key in range(1, 5)
]
EXCLUSIVE_ANSWERS = ["yes", "no pair", "no 0 1", "no 0 2", "no 1 2", "no 0 3", "no 1 3", "no 2 3", "no 2 4"]


def tails(numbers: Numbers, keys: int) -> List[Tuple[int, str]]:
    """Up to fifteen keys and tails: mostly starts, each with a later finish, of keys that then may start anew."""
    running: Set[int] = set()
    made = []
    for _ in range(numbers.below(16)):
        key = numbers.below(keys)
        tail = numbers.one_of(FINISHES) if key in running else "start"
        if numbers.below(8) == 0:
            tail = numbers.one_of(OTHER_TAILS)
        running = running | {key} if tail == "start" else running - {key}
        made.append((key, tail))
    return made


def record_of(numbers: Numbers) -> bytes:
    """A record of a container and four tests, of which two to five have events."""
    lines = [f"E|{numbers.below(3)}|{key}|{numbers.below(100)}|{tail}" for key, tail in tails(numbers, 2 + numbers.below(4))]
    return (HEADER + "".join(line + "\n" for line in NODES + lines)).encode()


def word(numbers: Numbers) -> str:
    """Mostly a condition of starts, sometimes any condition."""
    return condition_text(numbers, 2) if numbers.below(8) == 0 else numbers.one_of(CONDITIONS)


def exclusive(numbers: Numbers, *question: str) -> Tuple[List[str], bytes]:
    """A record, asked with one condition or two."""
    return ["ask", *question, *(word(numbers) for _ in range(1 + numbers.below(2)))], record_of(numbers)


NAMES = ["db", "net", "global", "a\\pb", "é", "Z"]
TREES = [
    ["[engine:e]", "[engine:e]/[t:1]", "[engine:e]/[t:2]", "[engine:e]/[t:3]"],
    ["[engine:e]", "[engine:e]/[c:1]", "[engine:e]/[c:1]/[t:2]", "[engine:e]/[c:1]/[t:2]/[t:3]", "[engine:e]/[t:10]"],
    ["[t:1]", "[t:2]", "[t:1]/[t:2]", "[t:2]/[t:1]", "[t:10]"],
]
SPOILS = ["a lock moved", "a lock doubled", "an unknown key", "no name", "another version", "an event before", "a descriptor after"]
LOCK_ANSWERS = ["yes", "no pair", *(f"no {pair} {name}" for pair in ("0 1", "1 2") for name in ("db", "global", "Z")), "no 0 2 db"]


def lock_lines(numbers: Numbers, keys: int) -> List[str]:
    """The lines of the locks of keys, in their order: of a name that most of them hold, and of others."""
    most, others = numbers.one_of(NAMES), numbers.some_of(NAMES, 3)
    held = {(key, most) for key in range(keys) if numbers.below(4)} | {(numbers.below(keys), name) for name in others}
    ordered = sorted(held, key=lambda lock: (lock[0], lock[1].replace("\\p", "|").encode()))
    return [f"L|{key}|{numbers.one_of('RWW')}|{name}" for key, name in ordered]


def spoil(numbers: Numbers, locks: List[str], events: List[str]) -> int:
    """Spoils lock lines in one way, and returns the version of the text."""
    shape, at = numbers.one_of(SPOILS), numbers.below(len(locks))
    if shape == "a lock moved":
        locks.append(locks.pop(at))
    elif shape == "a lock doubled":
        locks.insert(at, locks[at].replace("|W|", "|R|"))
    elif shape == "an unknown key":
        locks.append(f"L|{numbers.one_of((8, form.MAX_DESCRIPTORS))}|R|z")
    elif shape == "no name":
        locks[at] = locks[at].rpartition("|")[0] + "|"
    elif shape == "an event before":
        events.append(locks.pop())
    elif shape == "a descriptor after":
        locks.append("N|T|[z:z]|z")
    return numbers.one_of(form.VERSIONS) if shape == "another version" else form.LOCK_VERSION


def text_of(numbers: Numbers) -> bytes:
    """A record of a few descriptors, of which some hold locks, and one that is registered now and then."""
    tree = numbers.one_of(TREES)
    nodes = [f"N|{numbers.one_of('CTTTB')}|{it}|n{key}" for key, it in enumerate(tree)]
    locks = lock_lines(numbers, len(tree))
    ran = tails(numbers, len(tree) + 1)
    made = {len(tree): form.MAX_DESCRIPTORS}
    events = [f"E|1|{made[len(tree)]}|0|dynamic|T|{numbers.one_of(tree)}/[d:1]|d"] if numbers.below(3) == 0 else []
    events += [f"E|1|{made.get(key, key)}|{stamp}|{tail}" for stamp, (key, tail) in enumerate(ran) if key < len(tree) or events]
    version = spoil(numbers, locks, events) if locks and numbers.below(8) == 0 else form.LOCK_VERSION
    end = [f"Z|{len(events)}"] * (version == form.LOCK_VERSION)
    return "".join(line + "\n" for line in [f"testkit-record|{version}", *nodes, *locks, *events, *end]).encode()


def locks(numbers: Numbers, *question: str) -> Tuple[List[str], bytes]:
    return ["ask", *question], text_of(numbers)


def cases() -> Cases:
    of_exclusive = lambda case: [case.output.decode()[:-1]]
    of_locks = lambda case: [case.output.decode()[:-1] or case.error.decode().split()[-1]]
    return [
        *met_series("generated exclusive", 57, 3_000, lambda numbers: exclusive(numbers, "exclusive"), of_exclusive, EXCLUSIVE_ANSWERS, 5),
        *met_series("generated locks", 67, 2_000, lambda numbers: locks(numbers, "locks"), of_locks, [*LOCK_ANSWERS, "bad"], 5),
    ]
