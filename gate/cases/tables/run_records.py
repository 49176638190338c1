"""`run --record`: the record of a run, known to the byte where one worker runs the plan, and read again where more do."""

import form
from harness import RecordedRun
from tables.building import answer, fault, lines_of, rows, whole_record
from tables.command_lines import DEMO_REPORT, ONE_TEST_REPORT, ONE_TOO_MANY, WORKERS
from tables.large_plans import nodes, plan, report_of
from tables.plan_texts import children, dynamic, node, root
from tables.schedules import PLAN, REPORT
from tables.texts import DEMO_PLAN, ONE_TEST_PLAN

DEMO_RECORD = whole_record(*lines_of("DEMO_RECORD"))

ONE_TEST_RECORD = whole_record("N|T|[engine:e]|e", "E|1|0|0|start", "E|1|0|1|finish|ok")

BELOW_A_SKIP = root(children(node("container", "c", "1", ',"skip":"off"' + children(node("test", "t", "1"))), node("test", "t", "2")))
BELOW_A_SKIP_RECORD = whole_record(*lines_of("BELOW_A_SKIP_RECORD"))
"""One unit, of which a container is skipped: what is below it has a key and no event."""

CONCURRENT = ',"mode":"concurrent"'
INNER = node("container", "c", "1", CONCURRENT + ',"entries":[[["k","v"]]]' + children(node("test", "t", "1", CONCURRENT)))
SPINE = root(',"entries":[[]]' + children(INNER, node("test", "t", "2", CONCURRENT + dynamic(node("test", "d", "1"), node("test", "d", "2")))))
SPINE_RECORD = whole_record(*lines_of("SPINE_RECORD"))
"""A container on the spine within the root: its finish comes after all units, with its own stamp."""


def locks(*words: str) -> str:
    """The member with these locks, each a mode and a key."""
    listed = (word.partition(" ") for word in words)
    return ',"locks":[' + ",".join(f'{{"mode":"{mode}","key":"{key}"}}' for mode, _, key in listed) + "]"


LOCKED = root(
    locks("read é", "read_write z", "read a|")
    + children(
        node("test", "t", "1", locks("read db", "read_write db", "read db", "read net", "read net")),
        node("test", "t", "2", ',"isolated":true' + locks("read global", "read db")),
        node("test", "t", "3", ',"isolated":false' + locks("read global", "read_write ")),
        node("test", "t", "4", ',"skip":"off","isolated":true'),
        node("container", "c", "5", ',"skip":"off"' + children(node("test", "t", "6", locks("read_write below")))),
        node("test", "t", "7", ',"locks":[{"key":"db"}]' + dynamic(node("test", "d", "1"))),
        node("test", "t", "8", locks("read_write ")),
    )
)
LOCKED_RECORD = whole_record(*lines_of("LOCKED_RECORD"))
"""The stronger of two locks of a node; `isolated` with `global` and alone; a lock without a name; names in byte order."""

WITHOUT_A_LOCK = ONE_TEST_PLAN.replace('"name"', '"locks":[{"key":""}],"name"')

ON_ONE_KEY = plan(nodes("children", 200, CONCURRENT, locks("read_write db")))
"""Two hundred tests that all write one resource."""

WORKERS_OF = range(1, form.MAX_WORKERS + 1)

CASES = rows(__file__, globals()) + [
    *[RecordedRun(f"run record/demo plan, {it} workers", DEMO_PLAN.encode(), it, DEMO_REPORT.encode()) for it in WORKERS_OF],
    *[RecordedRun(f"run record/twenty units with locks, {it} workers", PLAN.encode(), it, REPORT.encode()) for it in WORKERS_OF],
    RecordedRun("run record/many tests on one key", ON_ONE_KEY, form.MAX_WORKERS, report_of(200)),
    RecordedRun("run record/more workers than units", ONE_TEST_PLAN.encode(), form.MAX_WORKERS, ONE_TEST_REPORT.encode()),
]
