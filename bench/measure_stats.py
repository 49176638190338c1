#!/usr/bin/env -S python3 -B
"""Times answers beside a plain Rust reader of the same record text.

It wants rustc, and leaves nothing behind. Each line: a question about a record, and whether the answers agree; seconds of processor time
and by the clock, medians of five runs in turn; the ratios plain / ours (above 1 we are faster); the most memory of each over the size of
the record.
"""

import filecmp
import os

import building
import inputs

QUESTIONS = [
    ("one_segment", ["stats"]),
    ("two_segments", ["stats"]),
    ("many_tests", ["stats"]),
    ("large", ["executions"]),
    ("large", ["list", "all"]),
    ("large", ["match", "in-order", *(f"failed(step {number})" for number in range(inputs.STEPS))]),
    ("large", ["match", "loosely", "failed(the last event)"]),
]


def measure(folder: str, program: str) -> None:
    plain = building.compile_plain(folder, "stats/plain.rs")
    for name, question in QUESTIONS:
        path = f"{folder}/{name}"
        building.apart(inputs.write_record, path, name)
        size = os.path.getsize(path) / 2**20
        ours, theirs = building.take([[program, "ask", *question], [plain, *question]], path, folder)
        agree = filecmp.cmp(ours.output, theirs.output, shallow=False)
        print(
            f"{' '.join(question[:2])}, {name}, {size:.1f} MiB: answers {'agree' if agree else 'DIFFER'};"
            f" {building.beside(ours, theirs)} (goal: at least 4);"
            f" memory over input {ours.memory / size:.1f} (goal: at most 2), plain {theirs.memory / size:.1f}",
            flush=True,
        )


if __name__ == "__main__":
    building.main(measure, __doc__, takes_program=True)
