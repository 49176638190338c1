"""Reports of plans: what each member does, how a plan is cut into units, and the order of ids."""

from typing import List

import form
from tables.building import answer, rows, stats
from tables.large_plans import CONCURRENT
from tables.plan_texts import children, node, plan_of, root


def reported(name: str, text: str, report: str) -> List:
    """The plan has this report, for any number of workers."""
    return [answer(f"{name}, {workers} workers", f"run --workers {workers}", text, report) for workers in (1, 2, form.MAX_WORKERS)]


def of_root(name: str, members: str, report: str) -> List:
    return reported(name, root(members), report)


PASSED = "stats started=1 finished=1 succeeded=1\n{}\n  start\n  finish|ok"
ESCAPED = r'{"type":"test","segment":["\u0061","\ud83e\udd80\/\b"],"name":"\t"}'
BLANKS = ' {\t"type" :\r\n "test", "segment":[ "a" ,"b" ] , "name":"n" }\n'


def concurrent(*values: str, members: str = "") -> str:
    """The member with concurrent tests of these values, each with these members, in which `{}` is the test's number from 0 on."""
    return children(*[node("test", "t", value, CONCURRENT + members.replace("{}", str(at))) for at, value in enumerate(values)])


ONE_CHILD = children(node("test", "t", "1"))
ONE_CONCURRENT = concurrent("1")
AMONG_CONCURRENT = children(node("test", "t", "1", CONCURRENT), node("test", "t", "2", ',"mode":"same_thread","skip":"off"'))
ODD_ORDER = children(*[node("test", it[0], it[1:], CONCURRENT) for it in ("t10", "t9", "t1", "T1", "é1", "t]", "az", "t1 ")])
SPINE = (
    children(
        node("test", "t", "2", CONCURRENT),
        node("container", "c", "1", ',"mode":"concurrent","entries":[[["k","v"]]],"result":{"status":"aborted"}'
             + concurrent("1", members=',"locks":[{"key":"db","mode":"read"}]')),
        node("test", "t", "1", ',"mode":"concurrent","isolated":true,"result":{"status":"failed","message":"boom"}'),
    )
    + ',"entries":[[["a","1"]],[["b","2"]]],"result":{"status":"failed"}'
)


def all_pass(name: str, members: str, *values: str):
    """Concurrent tests of these values, each with these members, all succeed."""
    lines = "".join(f"[engine:e]{below}\n  start\n  finish|ok\n" for below in ("", *(f"/[t:{value}]" for value in values)))
    count = 1 + len(values)
    return of_root(f"report/{name}", concurrent(*values, members=members), stats(started=count, finished=count, succeeded=count) + lines)


FIFTEEN = [f"{number:02}" for number in range(15)]

CASES = rows(__file__, globals()) + [
    *reported("report/texts with JSON's escapes", plan_of(ESCAPED), PASSED.format("[a:🦀%2F\b]")),
    *reported("report/blanks between the parts", plan_of(BLANKS) + " \n\t\r\n", PASSED.format("[a:b]")),
    *all_pass("units that all write one resource", ',"locks":[{"key":"db"}]', *"012345678"),
    *all_pass("units that are all isolated", ',"isolated":true', *"012345678"),
    *all_pass(
        "units that each write one of fifteen resources and global",
        *(',"locks":[{"key":"k{}"},{"key":"global","mode":"read"}]', *FIFTEEN),
    ),
]
