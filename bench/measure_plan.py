#!/usr/bin/env -S python3 -B
"""Measures how long `read_plan` takes for plans of several shapes, most near 16 MiB, beside serde_json's reading.

It wants rt, and leaves nothing behind. The program (plan/main.rt.in) is proved and built in a copy, since it is no part of the product;
each reading has a process of its own, as a plan has in use.

Each line: the shape, seconds by the clock (medians of five readings in turn), and the ratio of `read_plan` to serde_json's reading, and to
its reading and dropping the value, which `read_plan` does too.
"""

import os
import statistics
from typing import Callable, Dict, List

import building
import inputs
from inputs import Node, test

LINE = "plan_bench: tk_plan_reading tk_plan tk_locks tk_events tk_ids serde_json indexmap"


def classes() -> Node:
    methods = [test("method", f"method{it}()", "n" * 150, mode="concurrent", locks=[]) for it in range(99)]
    return dict(children=[inputs.container("class", f"class{it}", methods, mode="concurrent") for it in range(655)])


SHAPES: Dict[str, Callable[[], Node]] = {
    "static-small": lambda: dict(children=[test("t", str(it)) for it in range(65_535)]),
    "static": classes,
    "dynamic": lambda: dict(dynamic=[test("row", str(it), "n" * 160, result=dict(status="successful")) for it in range(65_536)]),
    "deep": lambda: dict(children=inputs.chain(57, [test("m", str(it), "n" * 180) for it in range(65_000)])),
    "entries": lambda: dict(children=[test("t", str(it), entries=[[["key", "value"], ["other", "value"]]] * 10) for it in range(34_000)]),
    "strings": lambda: dict(children=[test("t", str(it), "n" * 8_000) for it in range(2_000)]),
}


def seconds(command: List[str], path: str) -> List[float]:
    """What the program prints of one reading: microseconds, or those of serde_json without and with dropping the value."""
    with open(path, "rb") as file:
        return [int(word) / 1e6 for word in building.call(command, stdin=file).split()]


def measure(folder: str) -> None:
    for shape, members in SHAPES.items():
        building.apart(inputs.write_plan, f"{folder}/{shape}", members)
    program = building.build_program(folder, LINE, "plan/main.rt.in", f"{folder}/static-small")
    for shape in SHAPES:
        path = f"{folder}/{shape}"
        rounds = [seconds([program, "json"], path) + seconds([program], path) for _ in range(building.ROUNDS)]
        alone, both, plan = map(statistics.median, zip(*rounds))
        print(
            f"{shape}: {os.path.getsize(path) / 2**20:.1f} MiB: serde_json {alone:.3f} s (with dropping the value"
            f" {both:.3f} s), read_plan {plan:.3f} s, ratio {plan / alone:.2f} (goal: at most 2.5), with dropping the value {plan / both:.2f}",
            flush=True,
        )


if __name__ == "__main__":
    building.main(measure, __doc__)
