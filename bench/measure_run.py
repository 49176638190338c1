#!/usr/bin/env -S python3 -B
"""Times `run` with 1, 2 and 4 workers on three plans beside a plain Rust program that does the same.

It wants cargo and Debian's librust-serde-json-dev, and leaves nothing behind. The reports of both have to be the same. Each line: workers;
seconds of processor time and by the clock, medians of five runs in turn; the ratios plain / ours (above 1 we are faster); the most memory.
"""

import filecmp
import os
from typing import Any, Callable, Dict, List

import building
import inputs
from inputs import Node, container, test

WORKERS = [1, 2, 4]


def tests(number: int, **members: Any) -> List[Node]:
    return [test("method", f"method{it}()", f"method{it}()", mode="concurrent", **members) for it in range(number)]


def groups(**members: Any) -> List[Node]:
    return [container("class", f"Class{it}", tests(66, **members), mode="concurrent") for it in range(300)]


PLANS: Dict[str, Callable[[], Node]] = {
    "groups": lambda: dict(mode="concurrent", children=groups()),
    "entries": lambda: dict(mode="concurrent", children=groups(entries=[[[f"k{entry}", "v"]] for entry in range(40)])),
    "chain": lambda: dict(mode="concurrent", children=inputs.chain(57, tests(65_000), mode="concurrent")),
}
"""The members of the root of each plan."""


def measure(folder: str, program: str) -> None:
    plain = building.compile_on_serde(folder, "run/plain.rs")
    for name, members in PLANS.items():
        plan = f"{folder}/{name}"
        building.apart(inputs.write_plan, plan, members)
        print(f"{name}: {os.path.getsize(plan) / 1e6:.1f} MB of JSON")
        for workers in WORKERS:
            of_run = ["run", "--workers", str(workers)]
            ours, theirs = building.take([[program, *of_run], [plain, *of_run]], plan, folder)
            if not filecmp.cmp(ours.output, theirs.output, shallow=False):
                raise building.Failed(f"{name}: the reports differ")
            memory = f"memory {ours.memory:.0f} MiB, plain {theirs.memory:.0f} MiB"
            print(f"  {workers} workers: {building.beside(ours, theirs)}; {memory}", flush=True)


if __name__ == "__main__":
    building.main(measure, __doc__, takes_program=True)
