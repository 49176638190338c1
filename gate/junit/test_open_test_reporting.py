"""Tests of `tools/from-open-test-reporting`: a report that JUnit 5.9.1 wrote, and what a report can have besides.

open-test-reporting.xml is JUnit's but for the later frames of its stack traces, and the test that fails has a control character in its
message, as JUnit writes it. open-test-reporting.record was worked out from it by hand.
"""

import os
import resource
import unittest
from pathlib import Path

import cases
import fixtures
from fixtures import TOP, ask, parameterized, run
from rows import rows

HEAD = '<e:events xmlns="https://schemas.opentest4j.org/reporting/core/0.1.0" xmlns:e="https://schemas.opentest4j.org/reporting/events/0.1.0">'
TAIL = "</e:events>"


def started(number, id, name="n", kind="TEST", seconds="00.000001"):
    metadata = f"<metadata><uniqueId>{id}</uniqueId><type>{kind}</type></metadata>"
    return f'<e:started id="{number}" name="{name}" time="1970-01-01T00:00:{seconds}Z">{metadata}</e:started>'


def finished(number, status="SUCCESSFUL", more="", seconds="00.000002999"):
    return f'<e:finished id="{number}" time="1970-01-01T00:00:{seconds}Z"><result status="{status}">{more}</result></e:finished>'


def failed(said, type="a.B"):
    return HEAD + started(1, "[e:e]") + finished(1, "FAILED", f'<throwable type="{type}">{said}</throwable>') + TAIL


def entries(*keys):
    data = "".join(f'<entry key="{key}">1</entry>' for key in keys)
    return f'<e:reported id="1" time="1970-01-01T00:00:00Z"><attachments><data>{data}</data></attachments></e:reported>'


STARTED, FINISHED, START = started(1, "[e:e]"), finished(1), "E|1|0|1|start"
SKIPPED, WRONG_STATUS = finished(1, "SKIPPED"), finished(1, "ERRORED")
STARTED_AT_5, FINISHED_AT_4 = started(1, "[e:e]", seconds="05"), finished(1, seconds="04.5")
BELOW, BARS = started(1, "[e:e]/[c:x%2Fy]/[t:1]"), started(1, "[e:e|]", "n|", "CONTAINER_AND_TEST")
NO_ID, NO_TIME, NO_SECOND = started(1, ""), started(1, "[e:e]", seconds="x"), started(1, "[e:e]", seconds="62")
BEFORE_1970 = STARTED.replace("1970-01", "1969-12")
OTHER_ESCAPES, NONE, REPLACED = (started(it, id) for it, id in enumerate(("[e:a%2fb+%25c]", "[e:e]x", "[replaced-id:0]"), 1))
TWO_KEYS = ("N|T|[e:e]|n", START, f"E|1|0|1|report|{'k' * 65_536} .. (65537 bytes)|1")
DEEP = "/".join(f"[e:{it}]" for it in range(65))
ENTITY = f'<?xml version="1.0"?>\n<!-- <a> --><!DOCTYPE e [<!ENTITY x SYSTEM "file:///etc/hostname">]>{failed("a.B: &x;")}'


def right(name, report, *lines):
    """A report, and the lines of its record after the header."""
    return name, report.encode(), 0, text([*lines, f"Z|{sum(line.startswith('E') for line in lines)}"]), ""


def message(name, said, tail):
    """The message of a test that fails, and what stands after `fail` in its record."""
    return right(name, failed(said.replace("␉", "\t")), "N|T|[e:e]|n", START, f"E|1|0|2|finish|fail{tail}")


def part(name, report, why, *lines):
    """A report that isn't recorded to its end, why not, and the lines of its record."""
    return name, report.encode(), 1, text(lines), f"tools/from-open-test-reporting: {why}, so the record has what stands before that\n"


def wrong(name, report, line):
    """A report, and how the line of its refusal begins."""
    return name, report.encode(), 2, "", f"tools/from-open-test-reporting: {line}"


def text(lines):
    return "".join(f"{line}\n" for line in ["testkit-record|3", *lines])


def many():
    """A report of more descriptors, and one of more bytes, than a record has."""
    ids = range(1, 65_538)
    lines = [*(f"N|T|[e:{it}]|n" for it in ids[:-1]), *(f"E|1|{it - 1}|1|start" for it in ids[:-1])]
    yield part("more descriptors", HEAD + "".join(started(it, f"[e:{it}]") for it in ids) + TAIL, "a record has at most 65536 descriptors", *lines)
    lines = ["N|T|[e:e]|n", START, *[f"E|1|0|1|report|{'k' * 65_536}|1"] * 255]
    yield part("more bytes", HEAD + STARTED + entries("k" * 65_536) * 256 + TAIL, "a record has at most 16777216 bytes", *lines)


ROWS = rows(__file__, globals()) + [
    right(
        *("an id of 64 segments", HEAD + started(1, DEEP[: -len("/[e:64]")]) + TAIL),
        *(f"N|{'CT'[it == 63]}|{DEEP[: DEEP.index(f'{it}]') + len(f'{it}]')]}|{'n' if it == 63 else it}" for it in range(64)),
        "E|1|63|1|start",
    ),
    right("keys that are one text where they are cut", HEAD + STARTED + entries("k" * 65_537, "k" * 65_536 + "l") + TAIL, *TWO_KEYS),
    *many(),
]


def convert(data, **how):
    return run([f"{TOP}/tools/from-open-test-reporting"], data, **how)


class OfReports(unittest.TestCase):
    def test_report_of_junit(self):
        ran = convert(Path(f"{cases.HERE}/open-test-reporting.xml").read_bytes())
        self.assertEqual((ran.status, ran.output.decode(), ran.error), (0, cases.read(f"{cases.HERE}/open-test-reporting.record"), b""))

    @parameterized(ROWS)
    def test_reports(self, report, status, output, line):
        ran = convert(report, seconds=60)
        self.assertEqual((ran.status, ran.error.count(b"\n")), (status, status > 0), ran.error)
        self.assertTrue(ran.output.decode() == output and ran.error.decode().startswith(line), ran)

    def test_full_disk(self):
        """No part of a record is taken for a whole one."""
        report = HEAD + "".join(started(it, f"[e:{it}]") for it in range(100)) + TAIL
        how = {"preexec_fn": lambda: resource.setrlimit(resource.RLIMIT_FSIZE, (1_000, 1_000)), "env": {**os.environ, "PYTHONUNBUFFERED": "1"}}
        with open(f"{fixtures.folder(self)}/run.record", "wb") as file:
            ran = convert(report.encode(), stdout=file, **how)
        self.assertEqual((ran.status, ran.error.count(b"\n")), (70, 1), ran)


class OfProgram(fixtures.WithProgram):
    def test_lifecycle(self):
        """The record of JUnit's report keeps the lifecycle."""
        ran = ask(["ask", "lifecycle"], cases.read(f"{cases.HERE}/open-test-reporting.record").encode())
        self.assertEqual((ran.status, ran.output), (0, b"yes\n"), ran)
