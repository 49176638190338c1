"""Runs by many threads: how many there are, and a thousand runs of one plan, which have in each schedule the same report."""

import form
from harness import Case, ThreadCount
from tables.building import TEXTS, answer, as_words, stats
from tables.large_plans import CONCURRENT, nodes, plan, report_of
from tables.plan_texts import children, dynamic, node, plan_of

RUNS = 1000

GROUPS = 20
"""How many concurrent containers the plan has; each has a lock, two tests and a dynamic test."""

KEYS = 3
"""How many locks they share; every fifth container reads its lock, the others write it."""


def group(number: int) -> str:
    locks = f',"locks":[{{"key":"k{number % KEYS}","mode":"{"read" if number % 5 == 0 else "read_write"}"}}]'
    below = children(node("test", "t", "1"), node("test", "t", "2", ',"skip":"off"')) + dynamic(node("test", "d", "1", ',"files":["log"]'))
    return node("container", "c", f"{number:02}", ',"mode":"concurrent"' + locks + below)


PLAN = plan_of(node("container", "engine", "e", children(*map(group, range(GROUPS)))), "2")

REPORT = (
    stats(skipped=GROUPS, started=1 + 3 * GROUPS, finished=1 + 3 * GROUPS, succeeded=1 + 3 * GROUPS, dynamic=GROUPS, files=GROUPS)
    + "[engine:e]\n  start\n  finish|ok\n"
    + "".join(TEXTS["REPORT_OF_A_GROUP"].replace("NUMBER", f"{number:02}") for number in range(GROUPS))
)


def many_units() -> bytes:
    """A plan of 10,000 units: enough for all workers to have started before the first one is done."""
    return plan(nodes("children", 10_000, CONCURRENT))


THREADS = [
    ThreadCount(Case(f"threads/{words}", as_words(words), many_units, lambda: report_of(10_000)), workers + 1)
    for words, workers in [("run", 1), ("run --workers=2", 2), *((f"run --workers {it}", it) for it in range(1, form.MAX_WORKERS + 1))]
]
"""A run has a thread for each worker beside the one that it starts with."""

CASES = THREADS + [answer(f"schedules/{number}", f"run --workers {form.MAX_WORKERS}", PLAN, REPORT) for number in range(1, RUNS + 1)]
