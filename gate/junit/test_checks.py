"""Tests of what the modules beside this one compare: what is right passes, and what is wrong in one way doesn't."""

import tempfile
import unittest

import cases
import records
import samples
from cases import Case
from fixtures import parameterized, write
from rows import row, rows

STARTED = [records.HEADER, "N|C|[engine:e]|engine", "E|1|0|0|start", "E|1|0|0|finish|ok"]
TEXT = "".join(f"{line}\n" for line in [*STARTED[:2], "E|1|0|500000|start", "E|1|0|700000|finish|ok"])
CASE = Case("case", ["whole true"], ["testkit: FOLDER/a", "testkit: one .."], records={"record": STARTED})
RUN, TOOK = (500_000, 700_000), "microseconds 500000 700000"
"""When the run of the text began and ended, in microseconds since 1970, and the line of a case that says it."""
BY_ID = ["N|C|[e:e]|e", "E|1|0|0|start", "E|2|131072|1|dynamic|T|[e:e]/[d:1]|d", "E|2|131072|2|start", "E|1|0|3|finish|ok"]
LOCKS = ["L|0|R|b", "L|1|W|a", "L|1|R|b"]


def check_text(old="", new=""):
    """The text above with a change, beside the record that is wanted."""
    records.check_record(TEXT.replace(old, new), STARTED, RUN)


def check_case(old="", new="", messages="testkit: FOLDER/a\ntestkit: one that goes on\n", other="record", facts=("whole true", TOOK)):
    """A case that said these messages and facts, left the text with a change, and left another file."""
    with tempfile.TemporaryDirectory() as folder:
        write(f"{folder}/case.{other}", TEXT)
        write(f"{folder}/case.record", TEXT.replace(old, new))
        write(f"{folder}/case.messages", messages.replace("FOLDER", folder))
        cases.check_case(CASE, folder, facts)


def check_ids(*numbers):
    """The lines above in the order of these numbers, threads and stamps apart."""
    records.check_lines(records.by_id([BY_ID[it] for it in numbers]), records.by_id(BY_ID))


def check_workers(workers, begin=1, end=1):
    """Threads that have these workers while they all run, and one after the first has ended at a worker."""
    lines = [f"E|1|{65_536 + at}|0|dynamic|B|[e:e]/[d:{at}]|d" for at in range(len(workers) + 1)]
    lines += [f"E|{worker}|{65_536 + at}|0|start" for at, worker in enumerate(workers)]
    lines += [f"E|{end}|65536|0|finish|ok", f"E|{begin}|{65_536 + len(workers)}|0|start"]
    samples.check_workers(lines)


def check_crowd(first=range(samples.REPORTS)):
    """The threads of the case `crowd` one after another, of which the first reports these numbers."""
    lines, calls = [records.HEADER, "N|C|[engine:e]|engine"], []
    for at in range(samples.CROWD):
        worker, test = at % 15 + 1, f"[engine:e]/[t:{at}]"
        lines.append(f"N|B|{test}|thread {at}")
        numbers = enumerate(range(samples.REPORTS) if at else first, 65_536 * worker + at // 15 * samples.REPORTS)
        tails = [(key, tail) for key, it in numbers for tail in (f"dynamic|T|{test}/[d:{it}]|report {it}", f"report|number|{it}")]
        calls += [(worker, *call) for call in [(at + 1, "start"), *tails, (at + 1, "finish|ok")]]
    lines += [f"E|{worker}|{key}|{stamp}|{tail}" for stamp, (worker, key, tail) in enumerate(calls)]
    samples.check_crowd([*lines, f"Z|{len(calls)}"], [samples.CROWDED])


def check_locks(*lines):
    """Lines behind those of two descriptors, of which some are those of the locks above."""
    found = records.locks_by_id([records.HEADER, *STARTED[1:2], "N|T|[engine:e]/[t:1]|one", *lines, *STARTED[2:]])
    assert found == {"[engine:e]": ["R|b"], "[engine:e]/[t:1]": ["W|a", "R|b"]}


CHECKS = rows(__file__, globals())
"""What is wrong, the comparison, and what it is given: something right, and that."""


class OfChecks(unittest.TestCase):
    @parameterized(CHECKS)
    def test_check(self, check, right, wrong):
        check(*right)
        self.assertRaises(AssertionError, check, *wrong)
