"""The rows of explanations that show events and descriptors."""

from typing import Dict, List

from model.records import Record
from model.texts import write_field, write_id


def described(record: Record, key: int) -> str:
    """The id of a key's descriptor, and its display name in double quotes."""
    descriptor = record.descriptor(key)
    return f'{write_field(write_id(descriptor.id))} "{write_field(descriptor.name)}"'


def event_row(record: Record, position: int, more: str = "") -> str:
    """The event at a position, its descriptor, and what more is said of it."""
    entry = record.entries[position]
    return f"    {position}: {entry.line()}   {described(record, entry.event.key)}{more}\n"


def overlap_rows(record: Record, ends: Dict[int, int], starts: List[int], more: str) -> str:
    """That the executions of two starts overlap, with what more is said of them, and the rows of their starts and finishes."""
    finishes = [ends[start] for start in starts if ends[start] < len(record.entries)]
    words = {start: str(ends[start]) if ends[start] in finishes else "the end" for start in starts}
    one, other = [f"{described(record, record.entries[start].event.key)} ({start} to {words[start]})" for start in starts]
    return f"{one} and {other} overlap{more}\n" + "".join(event_row(record, position) for position in sorted(starts + finishes))
