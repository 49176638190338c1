"""What `ask locks` and `ask explain locks` answer: whether executions that conflict over a lock kept away from each other."""

from itertools import combinations
from typing import Dict, List

from model.lifecycle import known_keys
from model.questions import Answer, spans
from model.records import Record
from model.rows import overlap_rows
from model.texts import write_field

GLOBAL = b"global"
"""The lock over which who holds it for writing conflicts with each test that has no child."""


def locks_of(record: Record, key: int) -> Dict[bytes, str]:
    """The locks of a key: how it holds each, by its name."""
    return {name: mode for (holder, name), mode in record.locks.items() if holder == key}


def is_test_without_child(record: Record, key: int) -> bool:
    """Whether a key is of a test of which no descriptor is a child."""
    descriptor = record.descriptor(key)
    ids = known_keys([entry.event for entry in record.entries], record)
    return descriptor.is_test() and all(other[:-1] != descriptor.id for other in ids)


def are_apart(record: Record, first: int, second: int) -> bool:
    """Whether the id of neither of two keys begins with that of the other."""
    one, other = record.descriptor(first).id, record.descriptor(second).id
    return one[: len(other)] != other and other[: len(one)] != one


def conflicts(record: Record, first: int, second: int) -> List[bytes]:
    """The names over which the executions of two keys conflict, in byte order."""
    if not are_apart(record, first, second):
        return []
    one, other = locks_of(record, first), locks_of(record, second)
    names = {name for name in one if name in other and "W" in (one[name], other[name])}
    for held, beside in ((one, second), (other, first)):
        if held.get(GLOBAL) == "W" and is_test_without_child(record, beside):
            names.add(GLOBAL)
    return sorted(names)


def locks(record: Record) -> Answer:
    """Whether two executions conflict and no two such overlap; else the first two that do, and the least name."""
    ends = spans(record)
    keys = {start: record.entries[start].event.key for start in ends}
    pairs = {(second, first): conflicts(record, keys[first], keys[second]) for first, second in combinations(sorted(ends), 2)}
    met = [pair for pair in pairs if pairs[pair] and pair[0] < ends[pair[1]]]
    if met:
        second, first = min(met)
        return f"no {first} {second} {write_field(pairs[second, first][0].decode())}\n", False
    return ("yes\n", True) if any(pairs.values()) else ("no pair\n", False)


def explain_locks(record: Record) -> Answer:
    answer, is_yes = locks(record)
    if is_yes:
        return answer, True
    if answer == "no pair\n":
        holders = [start for start in spans(record) if locks_of(record, record.entries[start].event.key)]
        return f"{answer}{len(holders)} executions hold a lock\n", False
    _, first, second, name = answer[:-1].split(" ", 3)
    return answer + overlap_rows(record, spans(record), [int(first), int(second)], f", over {name}"), False
