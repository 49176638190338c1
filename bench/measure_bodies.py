#!/usr/bin/env -S python3 -B
"""Times a run of 20,000 empty tests, with bodies in code (`Hierarchical`) and as scripted (`Scripted`).

It wants rt, and leaves nothing behind. Both sides read the same plan, and have to record as many events. Each line: the plan's shape;
seconds of processor time and by the clock, medians of five runs in turn; the ratio bodies / scripted.
"""

import building
import inputs

TESTS = 20_000
LINE = "bodies_bench may_wait=3: tk_engine_hierarchical tk_engine_unit_events tk_engine_scripted tk_engine_execute tk_plan_reading tk_plan tk_record tk_ids"
MODES = {"each a unit": "concurrent", "one unit": "same_thread"}


def measure(folder: str) -> None:
    for mode in MODES.values():
        members = lambda mode=mode: dict(children=[inputs.test("t", str(it), mode=mode) for it in range(TESTS)])
        building.apart(inputs.write_plan, f"{folder}/{mode}", members)
    program = building.build_program(folder, LINE, "bodies/main.rt.in", f"{folder}/concurrent")
    for shape, mode in MODES.items():
        bodies, scripted = building.take([[program, "bodies"], [program]], f"{folder}/{mode}", folder)
        if bodies.begins() != scripted.begins():
            raise building.Failed("the runs have different numbers of events")
        print(
            f"{TESTS} tests, {shape}: bodies processor {bodies.processor:.3f} s, clock {bodies.clock:.3f} s,"
            f" scripted {scripted.processor:.3f} s, {scripted.clock:.3f} s, ratio {bodies.over(scripted)}",
            flush=True,
        )


if __name__ == "__main__":
    building.main(measure, __doc__)
