"""Generated replay texts."""

from typing import List

import form
from generated.numbers import Cases, Numbers, met_series
from generated.recordings import NAMES, NODES, PARENTS, TAILS
from harness import Case
from tables.building import REPLAY_HEADER


def script_lines(numbers: Numbers, workers: int) -> List[str]:
    """Up to twelve entries. A worker registers descriptors under its next keys; any entry may be of these."""
    keys = list(range(len(NODES)))
    registered = [0] * (workers + 1)
    lines = []
    for _ in range(numbers.below(13)):
        worker = 1 + numbers.below(workers)
        key = form.MAX_DESCRIPTORS * worker + registered[worker]
        if numbers.below(6) == 0:
            registered[worker] += 1
            keys.append(key)
            tail = f"dynamic|{numbers.one_of('CTB')}|{numbers.one_of(PARENTS)}/[d:{key}]|{numbers.one_of(NAMES)}"
        elif numbers.below(20) == 0:
            tail = "report|b|1|a|2"
        else:
            tail = numbers.one_of(TAILS)
        if not tail.startswith("dynamic"):
            key = numbers.one_of(keys)
        lines.append(f"E|{worker}|{key}|{numbers.below(1_000)}|{tail}")
    return lines


def steps_line(numbers: Numbers, workers: int, lines: List[str]) -> str:
    """Steps of any workers and takes; mostly none of a worker that has nothing left."""
    left = [0] + [1 + len([line for line in lines if line.startswith(f"E|{worker}|")]) for worker in range(1, workers + 1)]
    steps = ""
    for _ in range(numbers.below(40)):
        worker = numbers.below(workers + 1)
        if worker > 0 and left[worker] == 0 and numbers.below(8) > 0:
            worker = 0
        left[worker] -= 1
        steps += f"|{worker}" if worker > 0 else "|t"
    return "S" + steps


def replay_text(numbers: Numbers) -> bytes:
    workers = 1 + numbers.below(form.MAX_WORKERS if numbers.below(4) == 0 else 3)
    lines = script_lines(numbers, workers)
    lines = [f"W|{workers}", *NODES, *lines, steps_line(numbers, workers, lines)]
    return (REPLAY_HEADER + "".join(line + "\n" for line in lines)).encode()


def kind_of_outcome(case: Case) -> str:
    """Which fault it is, or how much was taken."""
    return case.error.decode().split(" ", 3)[3].strip() if case.status else "some" if b"\nE|" in case.output else "none"


def cases() -> Cases:
    outcomes = ["some", "none", "comes after the end mark", "has an unknown key", "is unlawful"]
    asked = lambda numbers: (["replay"], replay_text(numbers))
    return met_series("generated replay", 21, 300, asked, lambda case: [kind_of_outcome(case)], outcomes, 5)
