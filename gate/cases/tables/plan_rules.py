"""Plans whose members are good and whose nodes are refused."""

from tables.building import answer, fault, rows, stats
from tables.plan_texts import CHILD, ONE_START, plan_of, refused, rooted


def locks(keys) -> str:
    return ',"locks":[' + ",".join(f'{{"key":"{key}","mode":"read"}}' for key in keys) + "]"


def rule(name: str, plan: str, line: str):
    return fault(name, "run --workers 2", plan, line)


def rule_of_root(name: str, members: str, line: str):
    return rule(name, rooted(members), line)


FIFTEEN = [f"k{number}" for number in range(15)]
SIXTEENTH = CHILD[:-1] + locks(["x"]) + "}"
"""A child with another lock key."""


def chain(levels: int, innermost: str = "", member: str = "children") -> str:
    """A chain of `levels` levels, with these members at the innermost node."""
    node = '{"type":"both","segment":["s","x"],"name":"n"'
    return plan_of(f'{node},"{member}":[' * (levels - 1) + node + innermost + "}" + "]}" * (levels - 1))


def chain_report(levels: int, is_dynamic: bool = False) -> str:
    """The report of a chain, of which the root alone is static where it is dynamic."""
    ids = ["/".join(["[s:x]"] * level) for level in range(1, levels + 1)]
    registered = ["", *(f"  dynamic|B|{it}|n\n" * is_dynamic for it in ids[1:])]
    lines = "".join(f"{it}\n{line}  start\n  finish|ok\n" for it, line in zip(ids, registered))
    return stats(started=levels, finished=levels, succeeded=levels, dynamic=is_dynamic * (levels - 1)) + lines


def long_id(piece: str, count: int, members: str = "") -> str:
    """A plan whose root's id is `[s:]` with `piece` written `count` times before its last bracket."""
    return plan_of('{"type":"both","segment":["s","' + piece * count + '"],"name":"n"' + members + "}")


def long_id_report(escaped: str, count: int) -> str:
    return stats(started=1, finished=1, succeeded=1) + f"[s:{escaped * count}]\n  start\n  finish|ok\n"


LOWER = ',"children":[{"type":"test","segment":["c","y"],"name":"m"}]'
LOWER_OF_DYNAMIC = LOWER.replace("children", "dynamic")
LONG = "[s:" + "x" * 4_086 + "]"


def two_passed(dynamic: int, registered: str) -> str:
    """The report of a root with a long id and the test `[c:y]` below it."""
    root, test = f"{LONG}\n  start\n  finish|ok\n", f"{LONG}/[c:y]\n{registered}  start\n  finish|ok\n"
    return stats(started=2, finished=2, succeeded=2, dynamic=dynamic) + root + test


CASES = rows(__file__, globals())
