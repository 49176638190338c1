"""Whether a record keeps the lifecycle of its descriptors: each rule by what it says, looked up in the whole record."""

from typing import Callable, Dict, List, Tuple

from model.records import Event, Record
from model.texts import Id

Rule = Callable[[List[Event], Record, Event], bool]
"""Whether an event breaks a rule after the events before it."""


def known_keys(before: List[Event], record: Record) -> Dict[Id, int]:
    """The keys of the static descriptors, and of those registered before, by their ids; of one id the first."""
    registered = [(event.key, event.descriptor) for event in before if event.kind == "dynamic"]
    return {descriptor.id: key for key, descriptor in reversed([*enumerate(record.table), *registered])}


def runs(before: List[Event], key: int) -> bool:
    """Whether a key has a start and no finish after it."""
    marks = [event.kind for event in before if event.key == key and event.kind in ("start", "finish")]
    return bool(marks) and marks[-1] == "start"


def id_known(before: List[Event], record: Record, event: Event) -> bool:
    return event.kind == "dynamic" and event.descriptor.id in known_keys(before, record)


def parent_unknown(before: List[Event], record: Record, event: Event) -> bool:
    return event.kind == "dynamic" and len(event.descriptor.id) > 1 and event.descriptor.id[:-1] not in known_keys(before, record)


def parent_not_running(before: List[Event], record: Record, event: Event) -> bool:
    id_of_key = record.descriptor(event.key).id
    return len(id_of_key) > 1 and not runs(before, known_keys(before, record)[id_of_key[:-1]])


def ran_already(before: List[Event], record: Record, event: Event) -> bool:
    earlier = [it for it in before if it.key == event.key and it.kind in ("start", "skip")]
    return event.kind in ("start", "skip") and bool(earlier)


def not_running(before: List[Event], record: Record, event: Event) -> bool:
    return event.kind == "finish" and not runs(before, event.key)


def child_running(before: List[Event], record: Record, event: Event) -> bool:
    own = record.descriptor(event.key).id
    children = [key for child, key in known_keys(before, record).items() if child[:-1] == own]
    return event.kind == "finish" and any(runs(before, key) for key in children)


RULES: List[Rule] = [id_known, parent_unknown, parent_not_running, ran_already, not_running, child_running]
"""The rules, named as in the answer, in the order in which the first that is broken is answered."""


def never_ran(events: List[Event], record: Record, key: int) -> bool:
    """Whether a static key neither starts nor is skipped, though it has no parent, or its parent finishes successfully."""
    above = record.table[key].id[:-1]
    parent = known_keys(events, record).get(above)
    is_due = not above or any(it.key == parent and it.kind == "finish" and it.status == "ok" for it in events)
    return is_due and not any(it.key == key and it.kind in ("start", "skip") for it in events)


def lifecycle(record: Record) -> Tuple[str, bool]:
    """The answer of `ask lifecycle`."""
    events = [entry.event for entry in record.entries]
    for position, event in enumerate(events):
        broken = next((rule for rule in RULES if rule(events[:position], record, event)), None)
        if broken:
            return f"no {position} {broken.__name__.replace('_', '-')}\n", False
    running = sorted({event.key for event in events if runs(events, event.key)})
    if running:
        return f"no end {running[0]}\n", False
    idle = next((key for key in range(len(record.table)) if never_ran(events, record, key)), None)
    return ("yes\n", True) if idle is None else (f"no start {idle}\n", False)
