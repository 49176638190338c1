"""Record texts as tests compare them: without stamps, or without threads too."""

import re
from collections import Counter, defaultdict
from dataclasses import dataclass
from itertools import zip_longest
from typing import Dict, List, Optional, Sequence, Tuple

HEADER = "testkit-record|3"
ENTRY = re.compile(r"E\|([0-9]+)\|([0-9]+)\|([0-9]+)\|(.*)", re.DOTALL)
LOCK = re.compile(r"L\|([0-9]+)\|([RW]\|.+)")
FIRST_KEYS = 65_536
"""How many keys there are of static descriptors, and of each worker's registrations."""
MOST_COLUMNS = 300


@dataclass(frozen=True)
class Entry:
    worker: int
    key: int
    stamp: int
    tail: str


def entries(lines: Sequence[str]) -> List[Entry]:
    found = filter(None, map(ENTRY.fullmatch, lines))
    return [Entry(int(it[1]), int(it[2]), int(it[3]), it[4]) for it in found]


def ended(lines: Sequence[str]) -> List[str]:
    """The lines with the last one of a record that wasn't cut off."""
    return [*lines, f"Z|{len(entries(lines))}"]


SLACK = 100_000
"""By how many microseconds the clock of the system, which may be set, is let be another than the monotonic one."""


def check_stamps(lines: Sequence[str], run: Optional[Tuple[int, int]] = None) -> None:
    """Fails where stamps that are times fall, or aren't of a run that began and ended at these microseconds since 1970."""
    stamps = [it.stamp for it in entries(lines)]
    assert stamps == sorted(stamps), f"a stamp falls: {stamps[:MOST_COLUMNS]}"
    is_in_time = not run or not stamps or run[0] - SLACK <= stamps[0] and stamps[-1] <= run[1] + SLACK
    assert is_in_time, f"the stamps {stamps[:1]} to {stamps[-1:]} aren't of the run from {run}"


def by_id(lines: Sequence[str]) -> List[str]:
    """The lines without threads and stamps: those of the static descriptors, sorted, then for each id its events in order."""
    statics = [line for line in lines if line.startswith("N|")]
    ids = {key: line.split("|")[2] for key, line in enumerate(statics)}
    registered: Dict[int, int] = Counter()
    events: Dict[str, List[str]] = defaultdict(list)
    others = [line for line in lines if not line.startswith("N|") and not ENTRY.fullmatch(line)]
    for entry in entries(lines):
        if entry.tail.startswith("dynamic|"):
            wanted = FIRST_KEYS * entry.worker + registered[entry.worker]
            registered[entry.worker] += 1
            ids[entry.key] = entry.tail.split("|")[2] if entry.key == wanted else f"key {entry.key} in place of {wanted}"
        events[ids.get(entry.key, f"unknown key {entry.key}")].append(f"  {entry.tail}")
    return others + sorted(statics) + [line for it in sorted(events) for line in (it, *events[it])]


def locks_by_id(lines: Sequence[str]) -> Dict[str, List[str]]:
    """The locks of each descriptor that has some, each its mode and its name; they have to stand in order behind the descriptors."""
    statics = [line for line in lines if line.startswith("N|")]
    locks = [line for line in lines if line.startswith("L|")]
    assert list(lines[1 : 1 + len(statics) + len(locks)]) == statics + locks, "a lock stands elsewhere"
    parts = [LOCK.fullmatch(line) for line in locks]
    order = [(int(it[1]), it[2][2:].encode()) for it in parts]
    assert order == sorted(order), f"the locks have another order: {order}"
    found: Dict[str, List[str]] = defaultdict(list)
    for it in parts:
        found[statics[int(it[1])].split("|")[2]].append(it[2])
    return found


def check_lines(came: Sequence[str], wanted: Sequence[str]) -> None:
    """Fails where two lists of lines differ, and shows where first; a wanted line that ends with `..` may go on."""
    for number, (one, other) in enumerate(zip_longest(came, wanted), 1):
        if one != other and not (one and other and other.endswith("..") and one.startswith(other[:-2])):
            shown = [it if it is None else it[:MOST_COLUMNS] for it in (one, other)]
            raise AssertionError(f"line {number} is {shown[0]!r}, wanted {shown[1]!r}")


def check_record(text: str, wanted: Sequence[str], run: Optional[Tuple[int, int]] = None) -> None:
    """Fails where the text isn't this record; where all wanted stamps are 0 those of the text are times, and may not fall."""
    lines = text.split("\n")
    if not any(it.stamp for it in entries(wanted)):
        check_stamps(lines, run)
        lines = [ENTRY.sub(r"E|\1|\2|0|\4", line) for line in lines]
    check_lines(lines, [*wanted, ""])
