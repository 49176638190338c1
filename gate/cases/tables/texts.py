"""The worked texts: records, a replay and plans."""

from tables.building import lines_of, record, replay

EMPTY = record()

TWO_TESTS = record(*lines_of("TWO_TESTS"))

BOTH_KINDS = record("N|B|[engine:e]|e", "E|1|0|0|start", "E|1|0|1|finish|ok")

ONE_START = record("N|T|[engine:e]|e", "E|1|0|0|start")

REGISTERED_TEST = record("N|C|[engine:e]|e", "E|1|65536|0|dynamic|T|[engine:e]/[d:1]|one", "E|1|65536|1|start")

SMALL_SCRIPT = ("W|2", "N|T|[engine:e]|e", "E|1|0|10|start", "E|1|0|11|finish|ok", "E|2|0|20|report|k|v")

SMALL_REPLAY = replay(*SMALL_SCRIPT, "S|1|2|1|t|1|2|t|t|t|t")

TWO_TESTS_1 = "testkit-record|1\n" + TWO_TESTS.partition("\n")[2]
"""The same of version 1."""

CUT = TWO_TESTS[:-3]
"""A record whose last line, line 9, is cut."""

DEEP = "not(" * 33
"""More open brackets than a condition may have."""

ONE_TEST_PLAN = '{"version":1,"root":{"type":"test","segment":["engine","e"],"name":"e"}}'

DEMO_PLAN = "\n".join(lines_of("DEMO_PLAN"))
DEMO_NODES = "\n".join(lines_of("DEMO_NODES")) + "\n"
"""The report of the demo plan after its statistics."""
