"""Draws runs as a page: `tools/timeline [--unit UNIT] < RECORD > run.html`, or `tools/timeline [--unit UNIT] RECORD .. > run.html`.

Several records lie beside each other on one axis, as those of the processes of a build; each has lanes of its own.

UNIT is what a stamp counts, as `microseconds` of the listener for JUnit; without it durations are numbers of stamps. Stamps are times where
two of them differ, none falls in a worker, and no execution's last stamp is below its first. Else positions in the record stand for them,
and the page says so. Events of one stamp stand side by side, in the order of the record, so that no bar hides another.

The page needs nothing from outside and may fetch nothing. It has a lane for each worker and in it a bar for each execution that
`./testkit ask executions` answers (the environment variable PROGRAM names another program to ask), and for each start without a finish, up
to the next mark of its key or the end of the record. An execution of a container is a frame round those below it that its own worker ran
within it. A gap is the time from a worker's event to the start or skip that is its next event, while no test of this worker runs.

A record that is cut off is drawn as far as it goes, and the head of the page says so. Where the program refuses a record for another
reason, its line and its status are handed on, and no page is written. The status is 2 after bad words, and
70, with one line on standard error, where the script itself fails.
"""

import argparse
import base64
import gc
import hashlib
import json
import os
import re
import sys
import tempfile
from collections import Counter, defaultdict
from dataclasses import dataclass, field
from heapq import heappop, heappush
from pathlib import Path
from typing import Dict, Iterator, List, NamedTuple, Optional, Sequence, Tuple

HERE = os.path.dirname(os.path.realpath(__file__))
sys.path.insert(0, HERE)
sys.dont_write_bytecode = True

from asking import PROGRAM, Failed, Refused, ask, call, run_script

UNITS = {"nanoseconds": 1, "microseconds": 1_000, "milliseconds": 1_000_000, "seconds": 1_000_000_000}
TYPES = {"C": "container", "T": "test", "B": "container and test"}
MOST_OF_NAME = 40
"""How many letters of a thread's name a lane has."""
MOST_LISTED = 50
UNFINISHED = "unfinished"
ENDINGS = {"ok": "succeeded", "abort": "aborted", "fail": "failed"}
"""The endings of a finish by the word of its tail."""
LETTERS = {"succeeded": "s", "failed": "f", "aborted": "a", "skipped": "k", UNFINISHED: "u"}
"""The endings as the page has them."""
NUMBERS = 1 << 32
"""How many keys, and more than how many workers, a record has: those of several records differ by multiples of it."""
CUT_OFF = re.compile(rb"testkit: record is (cut off after line \d+)\n")
"""What the program says of a record that is cut off."""
MOST_EXACT = 1 << 53
"""Up to here JavaScript has each number."""
ESCAPES = {"<": "\\u003c", ">": "\\u003e", "&": "\\u0026"}
"""Letters that JSON may have in its texts and that a page could take for markup."""


class Descriptor(NamedTuple):
    """A descriptor: its type (`C`, `T` or `B`), id and display name, whether an event registered it, and its locks, as `W db`."""

    type: str
    id: str
    name: str
    is_dynamic: bool
    locks: List[str]


class Event(NamedTuple):
    """An event: its worker, its key, its stamp, its kind, the fields after it, and its position in its record."""

    worker: int
    key: int
    stamp: int
    kind: str
    fields: Sequence[str]
    position: int


@dataclass
class Execution:
    """An execution: the positions of its two events, and where it is drawn.

    Of an unfinished one `last` is the position of its key's next mark, or nothing where there is none.
    """

    key: int
    ending: str
    first: int
    last: Optional[int]
    begin: float = 0
    end: float = 0
    row: int = 0
    height: int = 1
    entries: List[Sequence[str]] = field(default_factory=list)
    inner: List["Execution"] = field(default_factory=list)


def fields_of(line: str) -> List[str]:
    """The fields of a line of a record text, without their escapes."""
    letters = {"\\\\": "\\", "\\p": "|", "\\n": "\n"}
    parts = line.split("|")
    return [re.sub(r"\\[\\pn]", lambda found: letters[found[0]], it) for it in parts] if "\\" in line else parts


class Record:
    """The descriptors of a record by their keys, its events, and its executions: finished ones in the order of their ends, then the others."""

    def __init__(self, *texts: bytes) -> None:
        self.descriptors: Dict[int, Descriptor] = {}
        self.events: List[Event] = []
        for number, text in enumerate(texts):
            self._read(text.decode(), number * NUMBERS)
        # (where the stamps of a record are no times, all stay in their order)
        stamps = [[it.stamp for it in self.events if it.key // NUMBERS == number] for number in range(len(texts))]
        if all(it == sorted(it) for it in stamps):
            self.events.sort(key=lambda it: it.stamp)
        self.executions = list(self._executions())
        self.has_times = self._has_times()
        self.stamps = [event.stamp if self.has_times else position for position, event in enumerate(self.events)]

    def _read(self, text: str, first: int) -> None:
        """Reads a text, whose keys and workers begin at this number."""
        key = position = 0
        for line in text.split("\n")[1:-1]:
            mark, *fields = fields_of(line)
            if mark == "E":
                worker, of, stamp, kind, *rest = fields
                self.events.append(Event(first + int(worker), first + int(of), int(stamp), kind, rest, position))
                position += 1
                if kind == "dynamic":
                    self.descriptors[first + int(of)] = Descriptor(*rest, is_dynamic=True, locks=[])
            elif mark == "N":
                self.descriptors[first + key] = Descriptor(*fields, is_dynamic=False, locks=[])
                key += 1
            elif mark == "L":
                self.descriptors[first + int(fields[0])].locks.append(" ".join(fields[1:]))

    def _executions(self) -> Iterator[Execution]:
        unfinished = []
        starts: Dict[int, int] = {}
        entries: Dict[int, List[Sequence[str]]] = defaultdict(list)
        for position, event in enumerate(self.events):
            if event.kind == "report":
                entries[event.key].append(event.fields)
            first = starts.pop(event.key, None) if event.kind in ("start", "skip", "finish") else None
            if event.kind == "skip":
                yield Execution(event.key, "skipped", position, position)
            elif event.kind == "finish" and first is not None:
                yield Execution(event.key, ENDINGS[event.fields[0]], first, position, entries=entries.pop(event.key, []))
            if event.kind != "finish" and first is not None:
                unfinished.append(Execution(event.key, UNFINISHED, first, position, entries=entries.pop(event.key, [])))
            if event.kind == "start":
                starts[event.key] = position
        left = (Execution(key, UNFINISHED, first, None, entries=entries.pop(key, [])) for key, first in starts.items())
        yield from [*unfinished, *left]

    def _has_times(self) -> bool:
        latest: Dict[int, int] = {}
        for event in self.events:
            if event.stamp < latest.get(event.worker, 0):
                return False
            latest[event.worker] = event.stamp
        stamps = [event.stamp for event in self.events]
        return len(set(stamps)) > 1 and all(it.last is None or stamps[it.first] <= stamps[it.last] for it in self.executions)

    def is_test(self, it: Execution) -> bool:
        return self.descriptors[it.key].type in "TB"

    def answer(self) -> bytes:
        """What `ask executions` has to answer."""
        finished = [it for it in self.executions if it.ending != UNFINISHED]
        return "".join(f"{it.key % NUMBERS} {it.ending} {self.events[it.first].stamp} {self.events[it.last].stamp}\n" for it in finished).encode()


def places_of(record: Record) -> List[float]:
    """Where each event stands: at its time after the first, or at its position. Events of one stamp divide its unit among them."""
    origin, counts, seen = min(record.stamps, default=0), Counter(record.stamps), Counter()
    places = []
    for stamp in record.stamps:
        places.append(stamp - origin + seen[stamp] / counts[stamp])
        seen[stamp] += 1
    return places


def parents_of(record: Record) -> Dict[int, int]:
    """The key of the descriptor whose id is that of another without its last segment, by the key of the other; -1 where there is none."""
    keys: Dict[Tuple[int, str], int] = {}
    for key, descriptor in record.descriptors.items():
        keys.setdefault((key // NUMBERS, descriptor.id), key)
    # (in a segment of an id `/` is an escape)
    return {key: keys.get((key // NUMBERS, it.id.rpartition("/")[0]), -1) for key, it in record.descriptors.items()}


def roots_of_lanes(record: Record, parents: Dict[int, int]) -> Dict[int, List[Execution]]:
    """The executions of each worker that stand in no frame. The others are put into the nearest frame that covers them."""
    runs: Dict[int, Execution] = {}
    roots: Dict[int, List[Execution]] = defaultdict(list)
    for it in sorted(record.executions, key=lambda it: it.first):
        worker, key, frame = record.events[it.first].worker, parents[it.key], None
        while key >= 0 and not frame:
            above = runs.get(key)
            if above and record.events[above.first].worker == worker and above.begin <= it.begin and it.end <= above.end:
                frame = above
            key = parents[key]
        (frame.inner if frame else roots[worker]).append(it)
        runs[it.key] = it
    return roots


def pack(executions: Sequence[Execution], first: int) -> int:
    """Gives each execution its rows, from this first one on, and returns how many they need.

    They are of one worker and in the order of its events, so none begins before an earlier one. Each gets the first slot that is free,
    and a slot is as high as the highest execution in it.
    """
    slots: List[List[Execution]] = []
    taken: List[Tuple[float, int]] = []
    free: List[int] = []
    for it in executions:
        while taken and taken[0][0] <= it.begin:
            heappush(free, heappop(taken)[1])
        if not free:
            heappush(free, len(slots))
            slots.append([])
        slot = heappop(free)
        slots[slot].append(it)
        heappush(taken, (it.end, slot))
    rows = 0
    for slot_of in slots:
        for it in slot_of:
            it.row = first + rows
            it.height = 1 + pack(it.inner, it.row + 1)
        rows += max(it.height for it in slot_of)
    return rows


def threads_of(record: Record) -> Dict[int, str]:
    """The name of each worker's first thread, where entries tell names, as those of the listener for JUnit; `..` stands for its others."""
    names: Dict[int, Dict[str, bool]] = defaultdict(dict)
    for event in record.events:
        if event.kind == "report" and event.fields[:1] == ["thread"] and len(event.fields) == 2:
            names[event.worker][event.fields[1]] = True
    return {worker: next(iter(found))[:MOST_OF_NAME] + " .." * (len(found) > 1) for worker, found in names.items()}


def lanes_of(record: Record, parents: Dict[int, int], places: Sequence[float], end: float) -> List[Dict[str, object]]:
    """Gives each execution its place on the page, and returns the lanes: of each worker its number, its first row, and how many it has."""
    threads = threads_of(record)
    for it in record.executions:
        it.begin, it.end = places[it.first], end if it.last is None else places[it.last]
    lanes, row = [], 0
    for worker, roots in sorted(roots_of_lanes(record, parents).items()):
        rows = pack(roots, row)
        lanes.append({"record": worker // NUMBERS, "worker": worker % NUMBERS, "row": row, "rows": rows, "thread": threads.get(worker, "")})
        row += rows
    return lanes


def lengths_of_tests(record: Record) -> List[Tuple[int, int]]:
    """The tests that ran: the position of each start, and the length; of an unfinished one up to the last stamp that the record has."""
    stamps, latest = record.stamps, max(record.stamps, default=0)
    tests = (it for it in record.executions if record.is_test(it) and it.ending != "skipped")
    return [(it.first, (latest if it.last is None else stamps[it.last]) - stamps[it.first]) for it in tests]


def gaps_of(record: Record) -> List[Tuple[int, int]]:
    """The gaps: the position of the start or skip after each, and its length."""
    begins = {it.first: it for it in record.executions}
    ends: Dict[Optional[int], List[Execution]] = defaultdict(list)
    for it in record.executions:
        ends[it.last].append(it)
    latest: Dict[int, int] = {}
    running: Counter = Counter()
    gaps = []
    for position, (event, stamp) in enumerate(zip(record.events, record.stamps)):
        begun, worker = begins.get(position), event.worker
        if begun and not running[worker] and stamp > latest.get(worker, stamp):
            gaps.append((position, stamp - latest[worker]))
        latest[worker] = stamp
        for it in ends.get(position, ()):
            running[record.events[it.first].worker] -= record.is_test(it)
        running[worker] += begun is not None and record.is_test(begun)
    return gaps


def differences(numbers: Sequence[int]) -> List[int]:
    """What each number is more than the one before it, which takes fewer letters."""
    return [number - before for before, number in zip([0, *numbers], numbers)]


def descriptors_of(record: Record, keys: Sequence[int], parents: Dict[int, int]) -> Dict[str, object]:
    """What the page has of the descriptors with these keys.

    An id is its last segment where the one above it is among them, so many places before it. A name that the id ends with is 0.
    """
    numbers = {key: number for number, key in enumerate(keys)}
    above = [number - numbers.get(parents[key], number) for key, number in numbers.items()]
    found = [record.descriptors[key] for key in keys]
    return {
        "type": "".join(it.type for it in found),
        "above": above,
        "segment": [it.id.rpartition("/")[2] if back else it.id for it, back in zip(found, above)],
        "name": [0 if it.id.endswith(f":{it.name}]") else it.name for it in found],
        "dynamic": [number for number, it in enumerate(found) if it.is_dynamic],
        "locks": {number: it.locks for number, it in enumerate(found) if it.locks},
    }


def executions_of(record: Record, order: Sequence[Execution], descriptors: Dict[int, int]) -> Dict[str, object]:
    """What the page has of the executions: columns of numbers, and what only some have.

    Stamps, less the least one, are the whole parts of where an execution begins and ends, unless they are columns of texts.
    """
    events, origin = record.events, min((event.stamp for event in record.events), default=0)
    stops = [None if it.last is None or it.ending == UNFINISHED else events[it.last] for it in order]
    begins, ends = [int(it.begin) for it in order], [int(it.end) for it in order]
    firsts = [events[it.first] for it in order]
    # (the reason of a skip, or the message of a finish)
    messages = [list(stop.fields[stop.kind == "finish" :][:1]) if stop else [] for stop in stops]
    parts = [[round(it.begin - begin, 6), round(it.end - end, 6)] for it, begin, end in zip(order, begins, ends)]
    found = {
        "descriptor": differences([descriptors[it.key] for it in order]),
        "ending": "".join(LETTERS[it.ending] for it in order),
        "first": differences([start.position for start in firsts]),
        "events": [stop.position - start.position if stop else 0 for start, stop in zip(firsts, stops)],
        "begin": differences(begins),
        "length": [end - begin for begin, end in zip(begins, ends)],
        "row": differences([it.row for it in order]),
        "height": {number: it.height for number, it in enumerate(order) if it.height > 1},
        "parts": {number: it for number, it in enumerate(parts) if any(it)},
        "worker_of_end": {number: it.worker % NUMBERS for number, it in enumerate(stops) if it and it.worker != firsts[number].worker},
        "message": {number: it[0] for number, it in enumerate(messages) if it},
        "entries": {number: it.entries for number, it in enumerate(order) if it.entries},
    }
    if not record.has_times or max(ends, default=0) >= MOST_EXACT:
        found["start"] = [str(it.stamp - origin) for it in firsts]
        found["stop"] = [str(it.stamp - origin) if it else "" for it in stops]
    return found


def data_of(record: Record, unit: int, names: Sequence[str], cuts: Sequence[str]) -> Dict[str, object]:
    places, parents = places_of(record), parents_of(record)
    end = float(int(max(places, default=0)) + 1)
    lanes = lanes_of(record, parents, places, end)
    order = sorted(record.executions, key=lambda it: (it.begin, it.row))
    descriptors = {key: number for number, key in enumerate(dict.fromkeys(it.key for it in order))}
    numbers = {it.first: number for number, it in enumerate(order)}

    def longest(lengths: Sequence[Tuple[int, int]]) -> List[List[object]]:
        """The greatest of these lengths, each with the number of its execution."""
        return [[numbers[first], str(length)] for first, length in sorted(lengths, key=lambda it: (-it[1], it[0]))[:MOST_LISTED]]

    return {
        "times": record.has_times,
        "unit": unit,
        "records": names,
        "cuts": cuts,
        "origin": str(min((event.stamp for event in record.events), default=0)),
        "end": end,
        "events": len(record.events),
        "not_run": len(record.descriptors) - len(descriptors),
        "lanes": lanes,
        "descriptors": descriptors_of(record, list(descriptors), parents),
        "executions": executions_of(record, order, descriptors),
        "slowest": longest(lengths_of_tests(record)),
        "gaps": longest(gaps_of(record)),
    }


def page_of(data: Dict[str, object]) -> str:
    """The page, in ASCII letters: in its block of data no letter can end the block or begin markup."""
    parts, sources = {}, {}
    for kind in ("html", "css", "js"):
        parts[kind] = Path(f"{HERE}/timeline.{kind}").read_text(encoding="ascii")
        # (how a policy names a text that may stand in the page)
        sources[kind] = f"'sha256-{base64.b64encode(hashlib.sha256(parts[kind].encode()).digest()).decode()}'"
    allowed = f"script-src {sources['js']}; style-src {sources['css']}"
    text = json.dumps(data, separators=(",", ":"))
    for letter, escape in ESCAPES.items():
        text = text.replace(letter, escape)
    fillings = {
        "POLICY": f"default-src 'none'; {allowed}; base-uri 'none'; form-action 'none'",
        "STYLE": parts["css"],
        "SCRIPT": parts["js"],
        "DATA": text,
    }
    return re.sub(r"\{\{(\w+)\}\}", lambda found: fillings[found[1]], parts["html"])


def whole_part(text: bytes) -> Tuple[bytes, str, Record]:
    """A text as far as the program reads it, where it is cut off, and its record; or a fault where the program refuses it."""
    with tempfile.TemporaryFile() as file:
        file.write(text)
        try:
            answered = ask(file, b"executions")
        except Refused as fault:
            cut_off = CUT_OFF.fullmatch(fault.args[1])
            if not cut_off:
                raise
            text = call(file, b"recover").stdout
            return text, cut_off[1].decode(), Record(text)
    record = Record(text)
    if answered != (0, record.answer()):
        raise Failed(f"{PROGRAM} answers {answered[1][:80]!r} with status {answered[0]}")
    return text, "", record


def read_records(paths: Sequence[str]) -> Tuple[Record, List[str], List[str]]:
    """The record in these files, or in standard input where there are none, the files' names, and where each is cut off, if it is."""
    if sys.stdin is None or sys.stdout is None:
        raise Failed("standard input or output is closed")
    # (what is read stays to the end, so that there is nothing to collect)
    gc.disable()
    parts = []
    for path in paths or [""]:
        with open(path, "rb") if path else open(sys.stdin.fileno(), "rb", closefd=False) as file:
            parts.append(whole_part(file.read()))
    record = parts[0][2] if len(parts) == 1 else Record(*(text for text, _, _ in parts))
    return record, [os.path.basename(path) for path in paths], [cut for _, cut, _ in parts]


def read_words(words: Sequence[str], name: str, description: str) -> argparse.Namespace:
    """The words of the script with this name, `--unit` and records."""
    parser = argparse.ArgumentParser(prog=name, description=description)
    parser.add_argument("--unit", choices=UNITS, help="what a stamp counts: microseconds in a record of the listener for JUnit")
    parser.add_argument("records", metavar="RECORD", nargs="*", help="a record text; without one standard input is read")
    return parser.parse_args(words)


def main(words: Sequence[str]) -> int:
    read = read_words(words, "tools/timeline", "Draws runs as a page: tools/timeline [RECORD ..] > run.html.")
    record, names, cuts = read_records(read.records)
    print(page_of(data_of(record, UNITS.get(read.unit, 0), names, cuts)), end="", flush=True)
    return 0


if __name__ == "__main__":
    run_script("tools/timeline", main)
