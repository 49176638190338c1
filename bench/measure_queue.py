#!/usr/bin/env -S python3 -B
"""Measures events a second through one session of tk_queue_session with 1, 2, 4 and 8 senders and capacity 64, beside plain bounded queues.

The plain queues (queue/plain.rs, rustc -O) have the same push into a record at their end. It wants rt and rustc, and leaves nothing behind.
The program (queue/main.rt.in) is proved and built in a copy.

Each line: senders; millions of events a second, medians of 15 rounds in turn: of the session; of the plain queue, the better of waiting at
condition variables and of spinning and yielding, with the ratio ours / plain; and of a plain queue whose receiver takes all that is there
at once and sleeps until the queue is half full.
"""

import statistics
from collections import defaultdict
from typing import Dict, List, Tuple

import building

LINE = "queue_bench: tk_queue_session tk_record tk_events tk_ids tk_waiting"
EVENTS_OF_A_SENDER = 50_000


def measure(folder: str) -> None:
    ours, plain = building.build_program(folder, LINE, "queue/main.rt.in"), building.compile_plain(folder, "queue/plain.rs")
    commands = {"ours": [ours], **{waiting: [plain, waiting] for waiting in ("sleep", "yield", "batch")}}
    rates: Dict[Tuple[str, int], List[float]] = defaultdict(list)
    # (each run prints three rounds)
    for _ in range(building.ROUNDS):
        for name, command in commands.items():
            for line in building.call(command).splitlines():
                senders, events, microseconds = map(int, line.split())
                if events != senders * EVENTS_OF_A_SENDER:
                    raise building.Failed(f"{events} events of {senders} senders came")
                rates[name, senders].append(events / microseconds)
    for senders in sorted(senders for name, senders in rates if name == "ours"):
        session, sleeping, yielding, batches = (statistics.median(rates[name, senders]) for name in commands)
        better = max(sleeping, yielding)
        print(
            f"{senders} senders: session {session:.2f}, plain queue {better:.2f} (sleeping {sleeping:.2f}, yielding {yielding:.2f}),"
            f" ratio {session / better:.2f}; plain queue in batches {batches:.2f}"
        )


if __name__ == "__main__":
    building.main(measure, __doc__)
