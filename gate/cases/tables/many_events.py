"""Questions about records of 300,000 and of 100 events."""

import form
from tables.building import HEADER, answer, no, rows, stats

NODE = "N|T|[engine:e]|e\n"

ROUNDS = 50_000
"""How many rounds of six events the record of 300,000 events has."""


def rounds(lines: str) -> str:
    """These lines for each round, in which `{0}` to `{5}` are the positions of its events."""
    return "".join(lines.format(*range(first, first + 6)) for first in range(0, 6 * ROUNDS, 6))


NODES = "N|C|[engine:e]|e\n" + "".join(f"N|T|[engine:e]/[t:{key}]|t{key}\n" for key in (1, 2, 3))
TESTS = "E|1|1|{0}|start\nE|1|1|{1}|report|k|v\nE|1|1|{2}|finish|ok\nE|2|2|{3}|start\nE|2|2|{4}|finish|fail|boom\n"
EVENTS = lambda: (HEADER + NODES + rounds(TESTS + "E|3|3|{5}|skip|off\n")).encode()
"""A record of 300,000 events, each of which has its position as its stamp."""

EXECUTIONS = lambda: rounds("1 succeeded {0} {2}\n2 failed {3} {4}\n3 skipped {5} {5}\n").encode()
EXPLAINED_EXECUTIONS = lambda: rounds(
    "1 succeeded {0} {2} [engine:e]/[t:1]\n2 failed {3} {4} [engine:e]/[t:2]\n3 skipped {5} {5} [engine:e]/[t:3]\n"
).encode()
SKIPS = lambda: rounds("{5} E|3|3|{5}|skip|off\n").encode()
EXPLAINED_SKIPS = lambda: rounds('{5} E|3|3|{5}|skip|off   [engine:e]/[t:3] "t3"\n').encode()
"""The list of the skips, without and with their descriptor."""

MANY_NUMBERS = dict(all=6 * ROUNDS, tests=6 * ROUNDS, started=2 * ROUNDS, finished=2 * ROUNDS)
MANY_NUMBERS.update(skipped=ROUNDS, succeeded=ROUNDS, failed=ROUNDS, reporting=ROUNDS)
MANY_STATS = stats(**{name: number for name, number in MANY_NUMBERS.items() if name in form.STATISTICS})

TEN_CONDITIONS = (
    "started test not(container) entry(k,v) all(test,succeeded) any(aborted,failed(boom)) id([t:3]) name(t2) kind(report)"
    " not(any(started,engine,all(failed,aborted)))"
).split()
"""Conditions of which each holds of some of the 300,000 events."""

HUNDRED, NINETY_NINE = " ".join(TEN_CONDITIONS * 10), " ".join((TEN_CONDITIONS * 10)[:-1])
NEVER_STARTED, ALL_SKIPPED, ALL_TEST, ALL_ALL, ALL_FAILED, ALL_ABORTED = (
    " ".join([it] * 100) for it in ("not(started)", "skipped(off)", "test", "all()", "failed(x)", "aborted")
)
MOST_SKIPPED = " ".join(["skipped(off)"] * 99)

EACH_ROUND, EACH_EVENT = ("yes " + " ".join(str(first + step * number) for number in range(100)) for step, first in ((6, 5), (1, 0)))
SKIP = '    {0}: E|3|3|{0}|skip|off   [engine:e]/[t:3] "t3"\n'
FOUND_SKIPS = "no 99\n" + "".join(f"{at} skipped(off)\n{SKIP.format(5 + 6 * at)}" for at in range(99))
COUNTED_SKIPS = stats(skipped=ROUNDS) + f"mismatch skipped expected 0 actual {ROUNDS}\n" + "".join(SKIP.format(at) for at in range(5, 125, 6))
COUNTED_SKIPS += f"    and {ROUNDS - 20} more\n"


def hundred_events() -> bytes:
    lines = [f"E|1|0|{stamp}|" + ("start\n" if stamp % 2 == 0 else "finish|ok\n") for stamp in range(100)]
    return (HEADER + NODE + "".join(lines)).encode()


OF_HUNDRED = "".join(f"0 succeeded {stamp} {stamp + 1}\n" for stamp in range(0, 100, 2))

CASES = rows(__file__, globals()) + [
    *[answer(f"300,000 events/count {name}", f"ask count {name}", EVENTS, str(MANY_NUMBERS.get(name, 0))) for name in form.SELECTIONS],
]
