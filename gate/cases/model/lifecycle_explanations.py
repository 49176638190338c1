"""What `ask explain lifecycle` answers: a sentence on what breaks the rule, and the events that it speaks of."""

from typing import List, Sequence, Tuple

from model.lifecycle import known_keys, lifecycle, runs
from model.records import Event, Record
from model.rows import described, event_row
from model.texts import write_field, write_id

Why = Tuple[str, List[int]]
"""What is said of a descriptor after its id and name, and the positions of the events that this speaks of."""

MARKS = ("start", "skip", "finish")

DID = {"dynamic": "was registered", "skip": "was skipped", "report": "published entries", "file": "published a file"}
"""What an event did, by its kind; of a start and a finish the kind says it."""


def did(events: List[Event], position: int) -> str:
    kind = events[position].kind
    return f"{DID.get(kind, f'{kind}ed')} at {position}"


def positions_of(events: List[Event], key: int, kinds: Sequence[str] = MARKS) -> List[int]:
    return [position for position, event in enumerate(events) if event.key == key and event.kind in kinds]


def with_name(record: Record, key: int) -> str:
    return f'with the name "{write_field(record.descriptor(key).name)}"'


def why_id_known(before: List[Event], record: Record, event: Event) -> Why:
    known = known_keys(before, record)[event.descriptor.id]
    if known < len(record.table):
        return f"a static descriptor has its id, {with_name(record, known)}", []
    position = positions_of(before, known, ["dynamic"])[0]
    return f"its id was registered at {position}, {with_name(record, known)}", [position]


def why_parent_unknown(before: List[Event], record: Record, event: Event) -> Why:
    return f"no descriptor before has the id of its parent, {write_field(write_id(event.descriptor.id[:-1]))}", []


def why_parent_not_running(before: List[Event], record: Record, event: Event) -> Why:
    parent = known_keys(before, record)[record.descriptor(event.key).id[:-1]]
    last = positions_of(before, parent)[-1:]
    return f"its parent {described(record, parent)} {did(before, last[0]) if last else 'had not started'}", last


def why_ran_already(before: List[Event], record: Record, event: Event) -> Why:
    first = positions_of(before, event.key, ["start", "skip"])[0]
    return f"{did(before, first)} already", [first]


def why_not_running(before: List[Event], record: Record, event: Event) -> Why:
    last = positions_of(before, event.key)[-1:]
    return f"{did(before, last[0])} already" if last else "had not started", last


def why_child_running(before: List[Event], record: Record, event: Event) -> Why:
    own = record.descriptor(event.key).id
    starts = [position for position, it in enumerate(before) if it.kind == "start" and runs(before, it.key)]
    first = [position for position in starts if record.descriptor(before[position].key).id[:-1] == own][0]
    return f"its child {described(record, before[first].key)}, which started at {first}, still ran", [first]


def why_broken(events: List[Event], record: Record, position: int, rule: str) -> Why:
    """What the event that breaks a rule did, and why this breaks it."""
    why, positions = globals()[f"why_{rule.replace('-', '_')}"](events[:position], record, events[position])
    return f"{did(events, position)}, but {why}", [*positions, position]


def why_unfinished(events: List[Event], key: int) -> Why:
    start = positions_of(events, key, ["start"])[-1]
    return f"started at {start} and never finished", [start]


def why_never_ran(events: List[Event], record: Record, key: int) -> Why:
    above, idle = record.table[key].id[:-1], "neither started nor was skipped"
    if not above:
        return idle, []
    parent = known_keys(events, record)[above]
    end = [position for position in positions_of(events, parent, ["finish"]) if events[position].status == "ok"][0]
    return f"{idle}, but its parent {described(record, parent)} succeeded at {end}", [end]


def explain_lifecycle(record: Record) -> Tuple[str, bool]:
    answer, is_yes = lifecycle(record)
    if is_yes:
        return answer, True
    events = [entry.event for entry in record.entries]
    _, where, of = answer.split()
    if where == "end":
        key, (why, positions) = int(of), why_unfinished(events, int(of))
    elif where == "start":
        key, (why, positions) = int(of), why_never_ran(events, record, int(of))
    else:
        key, (why, positions) = events[int(where)].key, why_broken(events, record, int(where), of)
    rows = "".join(event_row(record, position) for position in positions)
    return f"{answer}{described(record, key)} {why}\n{rows}", False
