"""Each prefix of a record and of a plan."""

from harness import Case
from tables.building import HEADER, answer, fault
from tables.texts import DEMO_PLAN, TWO_TESTS

STATISTICS_BY_LINES = 4 * ["stats"] + """stats started=1; stats started=2; stats started=2 finished=1 failed=1;
stats skipped=1 started=2 finished=1 failed=1; stats skipped=1 started=2 finished=2 succeeded=1 failed=1""".replace("\n", " ").split("; ")
"""The statistics of the first 1, 2, .. lines of the record of two tests."""


def record_prefix(length: int) -> Case:
    """A prefix of the record of two tests: without a header it is refused, and so is one whose last line is cut."""
    prefix = TWO_TESTS[:length]
    name = f"prefix of two tests/{length} bytes"
    if length < len(HEADER):
        return fault(name, "ask stats", prefix, "no header")
    lines = prefix.count("\n")
    if prefix.endswith("\n"):
        return answer(name, "ask stats", prefix, STATISTICS_BY_LINES[lines - 1])
    return fault(name, "ask stats", prefix, f"line {lines + 1} is bad")


def plan_prefix(length: int) -> Case:
    return fault(f"prefix of the demo plan/{length} bytes", "run --workers 2", DEMO_PLAN[:length], "plan is not JSON")


CASES = [record_prefix(length) for length in range(len(TWO_TESTS) + 1)] + [plan_prefix(length) for length in range(len(DEMO_PLAN))]
