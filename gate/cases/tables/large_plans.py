"""Plans with as many nodes and events as there may be, and one more."""

import form
from tables.building import answer, fault, rows, stats


def node(kind: str, tag: str, value: str, members: str = "") -> str:
    return f'{{"type":"{kind}","segment":["{tag}","{value}"],"name":"n"{members}}}'


def plan(members: str) -> bytes:
    return ('{"version":1,"root":' + node("both", "engine", "e", members) + "}").encode()


def nodes(member: str, count: int, mode: str = "", below: str = "") -> str:
    tests = [node("test", member, str(number), mode + below) for number in range(count)]
    return f',"{member}":[' + ",".join(tests) + "]"


CONCURRENT = ',"mode":"concurrent"'


def sorted_lines(tag: str, count: int, tails: str) -> str:
    """The lines of `count` nodes below the root, each with these tails, in the order of their ids."""
    ids = sorted(f"[engine:e]/[{tag}:{number}]" for number in range(count))
    return "".join(id_text + "\n" + tails.replace("ID", id_text) for id_text in ids)


BEGIN_AND_END = "  start\n  finish|ok\n"
REGISTERED = "  dynamic|T|ID|n\n" + BEGIN_AND_END


def report_of(children: int, dynamic: int = 0, entries: int = 0, tails: str = BEGIN_AND_END, registered: str = REGISTERED) -> bytes:
    """The report of a plan whose root has so many entries, and so many tests of each kind below it, all with these tails."""
    total, reporting = 1 + children + dynamic, entries + children * tails.count("  report|")
    numbers = stats(started=total, finished=total, succeeded=total, dynamic=dynamic, reporting=reporting)
    root = "[engine:e]\n  start\n" + "  report\n" * entries + "  finish|ok\n"
    return (numbers + root + sorted_lines("children", children, tails) + sorted_lines("dynamic", dynamic, registered)).encode()


def entries(count: int) -> str:
    return ',"entries":[' + ",".join(["[]"] * count) + "]"


FORTY_ENTRIES = ',"entries":[' + ",".join(f'[["k","{number}"],["a","x"]]' for number in range(40)) + "]"
FORTY_TAILS = "  start\n" + "".join(f"  report|a|x|k|{number}\n" for number in range(40)) + "  finish|ok\n"
SPINE_ENTRIES = ',"entries":[' + ",".join(f'[["k","{number}"]]' for number in range(50)) + "]"
SPINE_TAILS = "  start\n" + "".join(f"  report|k|{number}\n" for number in range(50)) + "  finish|ok\n"


def spine_plan(levels: int) -> bytes:
    """A chain of spine nodes with entries, and a test at its end."""
    text = node("test", "s", "x", CONCURRENT)
    for _ in range(levels - 1):
        text = node("container", "s", "x", CONCURRENT + SPINE_ENTRIES + f',"children":[{text}]')
    return f'{{"version":1,"root":{text}}}'.encode()


def spine_report(levels: int) -> bytes:
    numbers = stats(started=levels, finished=levels, succeeded=levels, reporting=50 * (levels - 1))
    ids = ["/".join(["[s:x]"] * level) for level in range(1, levels + 1)]
    lines = [id_text + "\n" + SPINE_TAILS for id_text in ids[:-1]] + [ids[-1] + "\n" + BEGIN_AND_END]
    return (numbers + "".join(lines)).encode()


LONG_NAME = "n" * 1_000_000
NAMED = REGISTERED.replace("|n\n", f"|{LONG_NAME}\n")
MOST = f"run --workers {form.MAX_WORKERS}"
FORTY = lambda mode: plan(nodes("children", 1_000, mode, FORTY_ENTRIES))
FORTY_REPORT = lambda: report_of(1_000, tails=FORTY_TAILS)

CASES = rows(__file__, globals())
