"""Tests of `tools/check-records`: records that keep both, that don't, and that can't be asked."""

import os
import signal

from fixtures import PROGRAM, TOP, WithProgram, folder, parameterized, run, write
from rows import row, rows, texts

RECORDS = texts(f"{TOP}/gate/junit/check-records.texts")
OVERLAP, UNFINISHED = RECORDS.pop("overlap"), RECORDS.pop("unfinished run")
"""Records by their names, and what is said of two of them."""

BOTH = "kept: lifecycle yes, locks yes\nno-locks: lifecycle yes, locks no pair\n"
NOWHERE = "nowhere: No such file or directory\n"
CALLS = rows(__file__, globals())


class OfCheckRecords(WithProgram):
    @parameterized(CALLS)
    def test_call(self, files, status, printed):
        at = folder(self)
        for name, text in RECORDS.items():
            write(f"{at}/{name}", text)
        ran = run([f"{TOP}/tools/check-records", *files.split()], cwd=at, env={**os.environ, "PROGRAM": PROGRAM})
        self.assertEqual((ran.status, ran.output.decode(), ran.error), (status, printed, b""))

    @parameterized([("a device that fails", "exit 3", 2), ("no answer", "exit 70", 70), ("an interrupt", "kill -INT $PPID; exec sleep 9", 130)])
    def test_status(self, line, status):
        program = f"{folder(self)}/program"
        write(program, f"#!/bin/sh\n{line}\n", 0o755)
        how = {"env": {**os.environ, "PROGRAM": program}, "preexec_fn": lambda: signal.signal(signal.SIGINT, signal.SIG_DFL)}
        self.assertEqual(run([f"{TOP}/tools/check-records", f"{TOP}/examples/two_tests.record"], **how).status, status)

    def test_no_program(self):
        ran = run([f"{TOP}/tools/check-records", f"{TOP}/examples/two_tests.record"], env={**os.environ, "PROGRAM": "/nowhere"})
        self.assertEqual((ran.status, ran.output, ran.error.count(b"\n")), (70, b"", 1), ran)
