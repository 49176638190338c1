"""Asks of each record whether the run kept the lifecycle and its locks: `tools/check-records FILE ..`.

It prints a line for each record, with the program's two answers, below it why one of them is a no, and a sum last. So a build can end with
it. The status is

- 0 where all answers are `yes`, or `no pair` for the locks
- 1 where one is a no
- 2 where a record is cut off, bad, or not there, or none was given; all others are asked too
- 70 where the script can't do its work, as without the program
"""

import sys
from collections import Counter
from typing import List

sys.dont_write_bytecode = True

from asking import Refused, Words, ask, run_script

QUESTIONS = ("lifecycle", "locks")
KEPT, BROKEN, REFUSED = 0, 1, 2


def check(path: str) -> int:
    """Prints what the program answers about a record, and returns the status."""
    try:
        # (without a buffer, whose place the program wouldn't begin at)
        file = open(path, "rb", buffering=0)
        file.read(1)
    except OSError as fault:
        print(f"{path}: {fault.strerror}")
        return REFUSED
    try:
        with file:
            answers = [ask(file, b"explain", it.encode())[1].decode().splitlines() for it in QUESTIONS]
    except Refused as fault:
        status, line = fault.args
        if status not in (2, 3):
            raise
        print(f"{path}: {line.decode().strip()}")
        return REFUSED
    print(f"{path}: " + ", ".join(f"{question} {answer[0]}" for question, answer in zip(QUESTIONS, answers)))
    broken = [answer for answer in answers if answer[0] not in ("yes", "no pair")]
    for line in [line for answer in broken for line in answer[1:]]:
        print(f"    {line}")
    return BROKEN if broken else KEPT


def main(words: List[str]) -> int:
    parser = Words("tools/check-records", __doc__)
    parser.add_argument("records", metavar="FILE", nargs="*")
    statuses = Counter(check(path) for path in parser.parse_args(words).records)
    print(f"{sum(statuses.values())} records: {statuses[KEPT]} kept, {statuses[BROKEN]} broken, {statuses[REFUSED]} refused")
    sys.stdout.flush()
    return max(statuses, default=REFUSED)


if __name__ == "__main__":
    run_script("tools/check-records", main)
