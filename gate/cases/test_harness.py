"""How a case is run, with a script in place of the program: what is right passes, and of what differs it is said what."""

import sys
import unittest
from unittest import mock

import harness
from fixtures import TOP, folder, parameterized, write
from harness import Case, Check, Input, Output, ThreadCount
from rows import row, rows, texts

TEXTS = texts(f"{TOP}/gate/cases/harness.texts")
PROGRAM, LARGE = TEXTS["program"].replace("PYTHON", sys.executable), b"x" * 3_000_000


def failing(name, data=b"a", **how):
    return Case(name, [b"copy"], data, error=b"testkit: device failed\n", status=3, **how)


ROWS = rows(__file__, globals())


class OfCases(unittest.TestCase):
    def fault(self, case):
        path = f"{folder(self)}/program"
        write(path, PROGRAM, 0o755)
        with mock.patch.object(harness, "SECONDS_WITH_OPEN_INPUT", 3):
            return case.run(path)

    @parameterized([row for row in ROWS if len(row) == 1], name=lambda row: row[0].name)
    def test_right(self, row):
        self.assertIsNone(self.fault(row[0]))

    @parameterized([row for row in ROWS if len(row) == 2], name=lambda row: row[0].name)
    def test_wrong(self, row):
        self.assertIn(row[1], self.fault(row[0]) or "nothing")


class OfRows(unittest.TestCase):
    def made(self, table):
        path = f"{folder(self)}/table"
        write(f"{path}.rows", table)
        return rows(f"{path}.py", {"TEXT": "text\n", "pair": lambda *fields: fields, "single": lambda field: [field, field]})

    def test_right(self):
        wanted = [("title, one", "a b", "text\nmore␊lines"), ("title, two", "", "a|b text\n c"), ("title, three", "text\ntext\n", ["TEXT"])]
        self.assertEqual([*wanted, "X; y", "X; y"], self.made(TEXTS["table"]))
