"""Generated records: every kind of event, all workers, and ids of one to four segments."""

import form
from generated.numbers import Numbers
from tables.building import HEADER

NODES = """N|C|[engine:e]|e N|B|[engine:e]/[class:A]|A N|T|[engine:e]/[class:A]/[t:m]|one N|T|[engine:e]/[t:a%2Fb]|a(b),c%
N|C|[suite:s]| N|B|[suite:s]/[engine:x]|two""".split()

TAILS = r"""
start start start start finish|ok finish|ok finish|fail finish|fail| finish|fail|boom finish|fail|booms
finish|abort finish|abort|boom finish|abort|a(b),%\pc\n skip|off skip| skip|spät
report report|k|v report|k|w report|k|v|l|w report|k|v|l|w|m| report|a(|b),% file|out/log.txt file|a(b),%
""".split()
"""What stands after the stamp of an event that isn't a registration."""

PARENTS = ["[engine:e]", "[engine:e]/[class:A]/[t:m]", "[suite:s]/[engine:x]"]
NAMES = ["one", "more", ""]


def entry_lines(numbers: Numbers, events: int, nodes: int) -> list:
    """The lines of `events` events of the first `nodes` nodes; about one in ten is a registration."""
    keys = list(range(nodes))
    registered = [0] * (form.MAX_WORKERS + 1)
    lines = []
    for _ in range(events):
        stamp = numbers.below(1_000)
        if numbers.below(10) == 0:
            worker = 1 + numbers.below(form.MAX_WORKERS)
            key = form.MAX_DESCRIPTORS * worker + registered[worker]
            registered[worker] += 1
            keys.append(key)
            described = f"{numbers.one_of('CTB')}|{numbers.one_of(PARENTS)}/[d:{key}]|{numbers.one_of(NAMES)}"
            lines.append(f"E|{worker}|{key}|{stamp}|dynamic|{described}")
        else:
            worker = numbers.below(form.MAX_WORKERS + 1)
            lines.append(f"E|{worker}|{numbers.one_of(keys)}|{stamp}|{numbers.one_of(TAILS)}")
    return lines


def record_text(numbers: Numbers, events: int, nodes: int = len(NODES)) -> bytes:
    """The text of a record of `events` events."""
    lines = NODES + entry_lines(numbers, events, nodes)
    return (HEADER + "".join(line + "\n" for line in lines)).encode()


def short_record(numbers: Numbers) -> bytes:
    """The text of a record of at most eight events, of at most three nodes."""
    return record_text(numbers, numbers.below(9), 1 + numbers.below(3))
