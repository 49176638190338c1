"""Record texts: the header, each field of each line, unique ids, and what the record refuses."""

import form
from tables.building import HEADER, LOCK_HEADER, Text, answer, fault, no, record, rows, stats, whole_record
from tables.texts import CUT, EMPTY, TWO_TESTS

NODE = "N|T|[engine:e]|e"
STATS = "ask stats"


def refused(name: str, text: Text, line: str):
    return fault(name, STATS, text, line)


def no_header(name: str, text: Text):
    """A text without a header; where it is one line, a line feed ends it."""
    is_line = isinstance(text, str) and text.startswith("testkit-") and not text.endswith("\n")
    return refused(name, text + "\n" if is_line else text, "no header")


def third_line(line: str, wanted: str):
    """A record of one test whose third line is this one."""
    return refused(f"entry line/{line!r}", record(NODE, line), f"line 3 {wanted}")


def good_line(line: str, statistics: str):
    """A record of one test with this entry is read, and has these statistics."""
    return answer(f"entry line/{line!r}", STATS, record(NODE, line), statistics)


def second_line(line: str):
    """A record whose second line is this one is bad."""
    return refused(f"node line/{line!r}", record(line), "line 2 is bad")


def good_node(line: str):
    """A record of this descriptor is read."""
    return answer(f"node line/{line!r}", STATS, record(line), stats())


def bad_nodes(lines: str):
    return list(map(second_line, lines.split(" ")))


def bad_entries(lines: str):
    return [third_line(line, "is bad") for line in lines.split(" ")]


def bad_locks(lines: str):
    return [refused(f"lock line/{line!r}", record(NODE, line), "line 3 is bad") for line in lines.split(" ")]


def no_text(name: str, line: bytes):
    """A descriptor is line 2, and an event line 3 below the one of a node."""
    above = [NODE] if line.startswith(b"E") else []
    return refused(name, record(*above).encode() + line + b"\n", f"line {2 + len(above)} is bad")


def any_question(name: str):
    """Each question refuses an unknown key."""
    return fault(name, f"ask {name.partition('/')[2]}", record(NODE, "E|1|5|0|start"), "line 3 has an unknown key")


def out_of_order(name: str, *lines: str):
    """The last of two lines is bad."""
    return refused(name, LOCK_HEADER + record(NODE, *lines).partition("\n")[2], "line 4 is bad")


def good(name: str, text: str):
    """A descriptor with this id is read; the id stands in a registration, which needs no parent."""
    return answer(name, "ask stats", registration(text), stats(dynamic=1))


def bad(name: str, text: str):
    return fault(name, "ask stats", registration(text), "line 2 is bad")


def registration(text: str) -> str:
    return record(f"E|1|65536|0|dynamic|T|{text}|name")


def chain(segments: int) -> str:
    return "/".join(["[a:b]"] * segments)


def below_one_another(count: int) -> str:
    return record(*[f"N|C|{chain(it)}|name" for it in range(1, count + 1)])


ESCAPED = record("N|C|[engine:e]|e", "N|T|[engine:e]/[t:a%2Fb%3Ac%25]|one", "E|1|1|0|start")

BAD_NODES = ["|", " N|T|[engine:e]|e", "N|T |[engine:e]|e", "N|T|[engine:e]|e\\"]

BAD_ENTRIES = ["", " ", "E|1|0|0|start ", "E|1|0|0|start\r", "E|1|0|0| start", "E| 1|0|0|start", "E|1 |0|0|start"]
BAD_ENTRIES += ["E|1|0|0|finish|fail|\\", "E|1|0|0|report|k|\\", "E|1|65536|0|dynamic|T|[engine:e]/[d:1]|\\"]
BAD_ENTRIES += ["E|9|7|0|finish|ok|a form that is bad comes before an unknown key"]

UNKNOWN_KEYS = f"""
E|1|5|0|start E|1|1|0|start E|0|1|0|start E|1|65536|0|start E|1|4294967295|0|skip|off E|255|5|0|start E|1|5|0|report|b|1|a|2
{" ".join(f"E|{key}|0|dynamic|T|[engine:e]/[d:1]|one" for key in "1|0 1|1 1|65537 1|65535 2|65536 1|131072 0|0 0|65536 17|1114112".split())}
E|{form.MAX_WORKERS + 1}|{65536 * (form.MAX_WORKERS + 1)}|0|dynamic|T|[engine:e]/[d:1]|one
""".split()
UNLAWFUL = f"""
E|{form.MAX_WORKERS + 1}|0|0|start E|17|0|0|start E|255|0|0|start E|17|0|0|report|b|1|a|2 E|1|0|0|report|b|1|a|2
E|1|0|0|report|a|1|a|1 E|1|0|0|report|a|1|b|2|b|3 E|1|0|0|report|a|1||2 E|1|0|0|report|ab|1|a|2 E|1|0|0|report|a|1|B|2
E|1|0|0|report|é|1|z|2
""".split()

FIRST, SECOND, OTHER = (f"E|{key}|0|dynamic|T|[engine:e]/[d:1]|one" for key in ("1|65536", "1|65537", "2|131072"))
LAST = f"E|{form.MAX_WORKERS}|{65536 * form.MAX_WORKERS}|0|dynamic|T|[engine:e]/[d:1]|one"
TWO = record(NODE, FIRST, SECOND, OTHER, "E|3|65537|0|start", "E|0|131072|0|skip|off")
FALLING = record(NODE, FIRST, "E|1|65536|1|start", "E|1|0|2|report|b|1|a|2")
THREE_NODES = f"{NODE} ; N|T|[engine:e]/[t:1]|1 ; N|T|[engine:e]/[t:2]|2"
LOCK_LINES = r"L|0|R|a L|0|W|ab L|0|W|b L|2|W|\n L|2|R|A L|2|W|\\\p L|2|R|global L|2|W|z L|2|R|é".split()

CASES = rows(__file__, globals()) + [
    *[answer(f"header/version {version}", STATS, f"testkit-record|{version}\n", stats()) for version in form.VERSIONS],
    *map(second_line, BAD_NODES),
    *map(good_node, ["N|C|[a:b]| ", "N|T|[a:b]|carriage\rreturn", "N|T|[a:b]|nul\0 and spät and 🦀"]),
    *[third_line(line, "is bad") for line in BAD_ENTRIES],
    *[third_line(line, "has an unknown key") for line in UNKNOWN_KEYS],
    *[third_line(line, "is unlawful") for line in UNLAWFUL],
    *[refused(f"lock lines/in version {it}", f"testkit-record|{it}\n{NODE}\nL|0|W|db\n", "line 3 is bad") for it in form.VERSIONS],
]
