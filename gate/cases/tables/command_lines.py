"""Command lines: what is refused before any input is read, and the forms of `run`."""

import form
from tables.building import answer, fault, rows, stats
from tables.texts import DEEP, DEMO_NODES, DEMO_PLAN, EMPTY, ONE_START, ONE_TEST_PLAN, SMALL_REPLAY, TWO_TESTS

BAD = "bad command line"
UNKNOWN = "unknown question"
WORKERS = f"workers must be 1 to {form.MAX_WORKERS}"
NO_WORD = ()
ONE_TOO_MANY = str(form.MAX_WORKERS + 1)

ONE_TEST_REPORT = stats(started=1, finished=1, succeeded=1) + "[engine:e]\n  start\n  finish|ok\n"
DEMO_REPORT = stats(skipped=1, started=7, finished=7, succeeded=6, failed=1, dynamic=1) + DEMO_NODES

BAD_NUMBERS = [*"09 00 256 1000 18446744073709551617 -1 +1 1.0 1e0 1,2 1; 1_0 one 0x1 ١".split(), "1\n", "", " 1", "1 "]

CASES = rows(__file__, globals()) + [
    *[fault(f"workers/{text!r}", ["run", "--workers", text], ONE_TEST_PLAN, BAD) for text in BAD_NUMBERS],
]
for number in range(1, form.MAX_WORKERS + 1):
    CASES.append(answer(f"run/demo plan, {number} workers", f"run --workers {number}", DEMO_PLAN, DEMO_REPORT))
    CASES.append(answer(f"run/one test, ={number} workers", f"run --workers={number}", ONE_TEST_PLAN, ONE_TEST_REPORT))
