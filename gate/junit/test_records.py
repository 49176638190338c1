"""Tests of the program: it reads each record that is wanted of the listener, and examples/jupiter.record is one of the sample tests."""

import cases
import samples
from fixtures import TOP, WithProgram, ask, parameterized
from records import ended, entries


def text(record):
    return "".join(f"{line}\n" for line in record).encode()


class OfRecords(WithProgram):
    """The records that are wanted, and the one that is stored."""

    @parameterized([case for case in cases.all_cases() if case.records])
    def test_wanted_records(self, case):
        for record in case.records.values():
            if record[-1].startswith("Z|"):
                self.check_answer(record, ["count", "all"], f"{len(entries(record))}\n")
            else:
                ran = ask(["ask", "count", "all"], text(record))
                self.assertEqual((ran.status, ran.output, ran.error), (2, b"", f"testkit: record is cut off after line {len(record)}\n".encode()))
        if case.lifecycle:
            record = case.records["record"]
            self.check_answer(record if record[-1].startswith("Z|") else ended(record), ["lifecycle"], f"{case.lifecycle}\n")

    def test_stored_record(self):
        lines = cases.read(f"{TOP}/examples/jupiter.record").split("\n")[:-1]
        samples.check_stored(lines)
        self.check_answer(lines, ["lifecycle"], "yes\n")

    def check_answer(self, record, words, answer):
        """Fails where the program doesn't give this answer about a record."""
        ran = ask(["ask", *words], text(record))
        self.assertEqual((ran.status, ran.output.decode(), ran.error), (int(answer.startswith("no ")), answer, b""))
