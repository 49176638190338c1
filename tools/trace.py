"""Writes runs as a trace: `tools/trace [--unit UNIT] < RECORD > run.json`, or `tools/trace [--unit UNIT] RECORD .. > run.json`.

The trace is in Chrome's format, which Perfetto (ui.perfetto.dev) opens. It has a process for each record and a thread for each worker, all
on one axis that begins at the least stamp. An execution is a slice, whose arguments have the id, the ending, the message, the locks and the entries;
one that never finishes has no end, and a skip is an instant. Executions of a worker that overlap without one being within the other, as
of threads that share it, stand in threads of their own. UNIT is what a stamp counts, microseconds where it isn't given; where stamps are
no times, positions in the records stand for microseconds.

The program is asked as by `tools/timeline`, with the same statuses. Of a record that is cut off the name of the process says so.
"""

import json
import os
import sys
from bisect import bisect_left, insort
from collections import defaultdict
from heapq import heappop, heappush
from typing import Dict, Iterator, List, Sequence, Tuple

sys.path.insert(0, os.path.dirname(os.path.realpath(__file__)))
sys.dont_write_bytecode = True

from asking import run_script
from timeline import NUMBERS, TYPES, UNFINISHED, UNITS, Execution, Record, read_records, read_words

MICROSECOND = 1_000
"""How many nanoseconds it has: a trace counts microseconds."""

MOST_WORKERS = 16
"""The first number of a thread beside that of a worker is greater by this."""


def arguments_of(record: Record, it: Execution) -> Dict[str, object]:
    """What is shown of an execution that is chosen."""
    descriptor, start, stop = record.descriptors[it.key], record.events[it.first], it.last is not None and record.events[it.last]
    found: Dict[str, object] = {"id": descriptor.id, "type": TYPES[descriptor.type], "ending": it.ending, "event": start.position}
    if stop and it.ending != UNFINISHED:
        message = stop.fields[0 if stop.kind == "skip" else 1 :]
        found.update({"last event": stop.position, **({"reason" if stop.kind == "skip" else "message": message[0]} if message else {})})
        found.update({"finished by worker": stop.worker % NUMBERS} if stop.worker != start.worker else {})
    if descriptor.locks:
        found["locks"] = descriptor.locks
    if it.entries:
        found["entries"] = [dict(zip(pairs[::2], pairs[1::2])) for pairs in it.entries]
    return found


class Threads:
    """The threads of a worker, each with the ends of its slices that are open, of which each covers the next."""

    def __init__(self) -> None:
        self.ends: List[List[int]] = []
        self.free: List[int] = []
        self.inner: List[Tuple[int, int]] = []
        """The innermost end of each thread that has one, in increasing order, with the thread's number."""

    def take(self, begin: int, end: int) -> int:
        """The thread for a slice, none of which began later: that of the slice that covers it most closely, or the first one that is free."""
        while self.inner and self.inner[0][0] <= begin:
            number = self.inner.pop(0)[1]
            self.ends[number].pop()
            self._leave(number)
        at = bisect_left(self.inner, (end, -1))
        if at < len(self.inner):
            number = self.inner.pop(at)[1]
        elif self.free:
            number = heappop(self.free)
        else:
            number = len(self.ends)
            self.ends.append([])
        self.ends[number].append(end)
        insort(self.inner, (end, number))
        return number

    def _leave(self, number: int) -> None:
        if self.ends[number]:
            insort(self.inner, (self.ends[number][-1], number))
        else:
            heappush(self.free, number)


def slices_of(record: Record, nanoseconds: int) -> Iterator[Dict[str, object]]:
    """The executions, those of each worker in the order of their begins and an outer one before those within it."""
    origin, latest = min(record.stamps, default=0), max(record.stamps, default=0)
    threads: Dict[int, Threads] = defaultdict(Threads)
    spans = [(it, record.stamps[it.first], latest if it.last is None else record.stamps[it.last]) for it in record.executions]
    for it, begin, end in sorted(spans, key=lambda span: (span[1], -span[2], span[0].first)):
        worker = record.events[it.first].worker
        beside = threads[worker].take(begin, end)
        descriptor = record.descriptors[it.key]
        found = {"name": descriptor.name or descriptor.id, "cat": it.ending, "pid": worker // NUMBERS, "tid": worker % NUMBERS + MOST_WORKERS * beside}
        found["ts"] = (begin - origin) * nanoseconds / MICROSECOND
        if it.ending == "skipped":
            found.update({"ph": "i", "s": "t"})
        elif it.ending == UNFINISHED:
            found["ph"] = "B"
        else:
            found.update({"ph": "X", "dur": (end - begin) * nanoseconds / MICROSECOND})
        yield {**found, "args": arguments_of(record, it)}


def trace_of(record: Record, names: Sequence[str], nanoseconds: int) -> List[Dict[str, object]]:
    """The events of the trace: the names of processes and threads, then the executions."""
    slices = list(slices_of(record, nanoseconds if record.has_times else MICROSECOND))
    found = [{"ph": "M", "name": "process_name", "pid": number, "tid": 0, "args": {"name": name}} for number, name in enumerate(names)]
    for process, thread in sorted({(it["pid"], it["tid"]) for it in slices}):
        beside, worker = divmod(thread, MOST_WORKERS)
        name = f"worker {worker}" + (f", beside it {beside}" if beside else "")
        found.append({"ph": "M", "name": "thread_name", "pid": process, "tid": thread, "args": {"name": name}})
    return found + slices


def main(words: Sequence[str]) -> int:
    read = read_words(words, "tools/trace", "Writes runs as a trace of Chrome: tools/trace RECORD .. > run.json.")
    record, names, cuts = read_records(read.records)
    processes = [f"{name} ({cut})" if cut else name for name, cut in zip(names or ["record"], cuts)]
    lines = map(json.dumps, trace_of(record, processes, UNITS.get(read.unit, MICROSECOND)))
    print('{"traceEvents":[\n' + ",\n".join(lines) + "\n]}", flush=True)
    return 0


if __name__ == "__main__":
    run_script("tools/trace", main)
