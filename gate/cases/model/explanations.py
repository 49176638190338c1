"""What `ask explain` answers: the answer of a question, and below it what explains it."""

from typing import Callable, Dict, List, Sequence

from model.conditions import Condition, holds, write_condition
from model.questions import Answer, Events, executions, exclusive, first_positions, holds_at, list_events
from model.questions import match_exactly, match_in_order, match_loosely, mismatches, spans, statistics_text
from model.records import Descriptor, Event, Record
from model.rows import described, event_row, overlap_rows
from model.texts import write_field, write_id

NONE_LEFT = "    no event is left\n"

MOST_NEAREST = 3

MOST_COUNTED = 20

NOBODY: Condition = ("any", ())
"""The readers where no condition names them."""

Part = Callable[[Event, Descriptor], bool]
"""Whether an event, whose key has this descriptor, has a part of what a condition asks for."""


def members(condition: Condition) -> List[Condition]:
    """The members of `all(..)` are those of its conditions; any other condition is its own member."""
    return [member for inner in condition[1] for member in members(inner)] if condition[0] == "all" else [condition]


def meets(condition: Condition) -> Part:
    return lambda event, descriptor: holds(condition, event, descriptor)


def is_kind(kind: str) -> Part:
    return meets(("kind", kind))


def has_key(key: str) -> Part:
    return lambda event, _: key in [its_key for its_key, _ in event.pairs]


def text_parts(word: str, text: str) -> List[Part]:
    """The parts of an atom with a text, besides itself."""
    if word in ("failed", "aborted"):
        return [is_kind("finish"), meets((word,)), lambda event, _: event.message is not None and text in event.message]
    if word == "skipped":
        return [is_kind("skip"), lambda event, _: event.kind == "skip" and text in event.reason]
    if word == "file":
        return [is_kind("file"), lambda event, _: event.kind == "file" and text in event.path]
    if word == "message":
        return [is_kind("finish")]
    return [lambda _, descriptor: text in descriptor.name] if word == "name" else []


def parts(member: Condition) -> List[Part]:
    """What a member asks for, one by one."""
    word = member[0]
    if word == "entry":
        return [is_kind("report"), *(has_key(key) for key, _ in member[1]), meets(member)]
    if word in ("failed", "aborted", "succeeded") and len(member) == 1:
        return [is_kind("finish"), meets(member)]
    return (text_parts(word, member[1]) if len(member) > 1 else []) + [meets(member)]


def distance(record: Record, condition: Condition, position: int) -> int:
    """How many parts of a condition the event at a position lacks: of `any(..)` as many as of its nearest member."""
    if condition[0] == "all":
        return sum(distance(record, member, position) for member in condition[1])
    if condition[0] == "any":
        return min((distance(record, member, position) for member in condition[1]), default=1)
    event = record.entries[position].event
    return len([part for part in parts(condition) if not part(event, record.descriptor(event.key))])


def nearest(asked: Events, condition: Condition, first: int) -> List[int]:
    """The positions from `first` on of the events that lack the fewest parts of a condition; of as many the lower ones."""
    positions = [position for position in asked.positions if position >= first]
    return sorted(positions, key=lambda position: (distance(asked.record, condition, position), position))[:MOST_NEAREST]


def condition_row(conditions: List[Condition], number: int) -> str:
    return f"{number} {write_condition(conditions[number])}\n"


def lacking_row(record: Record, condition: Condition, position: int) -> str:
    """The row of an event, and the members of a condition that don't hold of it."""
    lacking = [write_condition(member) for member in members(condition) if not holds_at(record, member, position)]
    return event_row(record, position, f"   does not hold: {', '.join(lacking)}")


def nearest_rows(asked: Events, condition: Condition, first: int) -> str:
    """The rows of the nearest events from `first` on, with what they lack."""
    return "".join(lacking_row(asked.record, condition, position) for position in nearest(asked, condition, first)) or NONE_LEFT


def found_rows(record: Record, conditions: List[Condition], positions: Sequence[int]) -> str:
    """The row of each condition, and that of the event that was found for it."""
    return "".join(condition_row(conditions, number) + event_row(record, position) for number, position in enumerate(positions))


def wrong_count(asked: Events, conditions: List[Condition]) -> str:
    """Both counts, and the first condition that doesn't hold in its place, or else the first that is left over."""
    record, positions = asked.record, asked.positions
    both = min(len(conditions), len(positions))
    counts = f"{len(conditions)} conditions, {len(positions)} events\n"
    unlike = [number for number in range(both) if not holds_at(record, conditions[number], positions[number])]
    if unlike:
        number = unlike[0]
        return counts + condition_row(conditions, number) + lacking_row(record, conditions[number], positions[number])
    return counts + (event_row(record, positions[both]) if len(positions) > both else condition_row(conditions, both) + NONE_LEFT)


def explain_exactly(asked: Events, conditions: List[Condition]) -> Answer:
    answer, is_yes = match_exactly(asked, conditions)
    if is_yes:
        return answer + found_rows(asked.record, conditions, asked.positions), True
    if answer == "wrong-count\n":
        return answer + wrong_count(asked, conditions), False
    number = int(answer.split()[1])
    lacking = lacking_row(asked.record, conditions[number], asked.positions[number])
    return answer + condition_row(conditions, number) + lacking, False


def explain_loosely(asked: Events, conditions: List[Condition]) -> Answer:
    answer, is_yes = match_loosely(asked, conditions)
    if is_yes:
        first = [next(it for it in asked.positions if holds_at(asked.record, condition, it)) for condition in conditions]
        return answer + found_rows(asked.record, conditions, first), True
    number = int(answer.split()[1])
    return answer + condition_row(conditions, number) + nearest_rows(asked, conditions[number], 0), False


def explain_in_order(asked: Events, conditions: List[Condition]) -> Answer:
    answer, is_yes = match_in_order(asked, conditions)
    number = len(conditions) if is_yes else int(answer.split()[1])
    found = list(first_positions(asked, conditions[:number]))
    rows = answer + found_rows(asked.record, conditions, found)
    if is_yes:
        return rows, True
    rows += condition_row(conditions, number)
    after = found[-1] + 1 if found else 0
    early = [it for it in asked.positions if it < after and holds_at(asked.record, conditions[number], it)]
    if early:
        rows += event_row(asked.record, early[-1], f"   holds, but is not after {found[-1]}")
    return rows + nearest_rows(asked, conditions[number], after), False


def explain_stats(asked: Events, expected: Dict[str, int]) -> Answer:
    """The statistics, and below each line of a mismatch the first of the events that were counted."""
    found = mismatches(asked, expected)
    rows = ""
    for name, line in found:
        counted = asked.pick(name).positions
        rows += line + "".join(event_row(asked.record, position) for position in counted[:MOST_COUNTED])
        if len(counted) > MOST_COUNTED:
            rows += f"    and {len(counted) - MOST_COUNTED} more\n"
    return statistics_text(asked) + rows, not found


def holders(record: Record, conditions: List[Condition]) -> str:
    """The row of each condition, and of how many executions it holds at the start."""
    counts = [len([start for start in spans(record) if holds_at(record, condition, start)]) for condition in conditions]
    return "".join(condition_row(conditions, number) + f"    {count} executions\n" for number, count in enumerate(counts))


def explain_exclusive(record: Record, writers: Condition, readers: Condition) -> Answer:
    answer, is_yes = exclusive(record, writers, readers)
    if is_yes:
        return answer, True
    if answer == "no pair\n":
        return answer + holders(record, [writers] + [readers] * (readers != NOBODY)), False
    starts = [int(text) for text in answer.split()[1:]]
    written = [name for name, start in zip(("first", "second"), starts) if holds_at(record, writers, start)]
    who = ", both as writers" if len(written) == 2 else f", the {written[0]} as a writer"
    return answer + overlap_rows(record, spans(record), starts, who * (readers != NOBODY)), False


def explain_list(record: Record, name: str, conditions: List[Condition]) -> Answer:
    lines = list_events(record, name, conditions)[0].split("\n")[:-1]
    keys = [record.entries[int(line.split()[0])].event.key for line in lines]
    return "".join(f"{line}   {described(record, key)}\n" for line, key in zip(lines, keys)), True


def explain_executions(asked: Events) -> Answer:
    lines = executions(asked)[0].split("\n")[:-1]
    ids = [write_field(write_id(asked.record.descriptor(int(line.split()[0])).id)) for line in lines]
    return "".join(f"{line} {id_text}\n" for line, id_text in zip(lines, ids)), True
