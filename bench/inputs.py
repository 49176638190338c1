"""What is measured: plans as JSON, and large records, each as the pieces of its text."""

import json
from typing import Any, Callable, Dict, Iterator, List

Node = Dict[str, Any]
"""A node as JSON has it."""


def test(tag: str, value: str, name: str = "n", **members: Any) -> Node:
    return dict(type="test", segment=[tag, value], name=name, **members)


def container(tag: str, value: str, children: List[Node], **members: Any) -> Node:
    return dict(type="container", segment=[tag, value], name=value, children=children, **members)


def chain(levels: int, children: List[Node], **members: Any) -> List[Node]:
    """One container below the other, and these children below the last."""
    for _ in range(levels):
        children = [container("s", "x", children, **members)]
    return children


def write_plan(path: str, members: Callable[[], Node]) -> None:
    """Writes a plan whose root has these members."""
    root = dict(type="container", segment=["engine", "bench"], name="bench", **members())
    with open(path, "w", encoding="utf-8") as file:
        json.dump(dict(version=1, root=root), file, separators=(",", ":"))


EVENTS = 640_000
TESTS = 2_000
STEPS = 1_000
"""How many events of `large` carry a message of their own, spread evenly."""


def large() -> Iterator[str]:
    """Starts and finishes in turn. Each 640th event fails with a message of its own, and so does the last."""
    yield "testkit-record|2\n"
    yield from (f"N|T|[m:test{key}]|test {key}\n" for key in range(TESTS))
    for position in range(EVENTS):
        ending = "finish|ok" if position % 2 else "start"
        if position % (EVENTS // STEPS) == 1:
            ending = f"finish|fail|step {position // (EVENTS // STEPS)}"
        if position == EVENTS - 1:
            ending = "finish|fail|the last event"
        yield f"E|1|{position // 2 % TESTS}|{position}|{ending}\n"


def many_events(above: str) -> Iterator[str]:
    """As many events as go into 15.9 MiB, of tests below a container or, where there is none, of ids of one segment."""
    endings = ["finish|ok", "finish|ok", "finish|fail|expected: <1> but was: <2>", "finish|abort|no host"]
    lines = ["testkit-record|2\n"] + [f"N|C|{above}|engine\n"] * bool(above)
    lines += [f"N|T|{above}/[method:test{it}()]|test {it}\n" if above else f"N|T|[m:test{it}]|test {it}\n" for it in range(TESTS)]
    size, number = sum(map(len, lines)), 0
    while size < 15.9 * 2**20 - 200:
        key, worker = number % TESTS + bool(above), 1 + number % 8
        ending = endings[number % 4] if number % 9 else endings[0]
        lines.append(f"E|{worker}|{key}|{10 * number}|start\nE|{worker}|{key}|{10 * number + 7}|{ending}\n")
        size, number = size + len(lines[-1]), number + 1
    return iter(lines)


def many_tests() -> Iterator[str]:
    """650 classes of 99 tests, each of which starts and finishes."""
    yield "testkit-record|2\nN|C|[engine:e]|engine\n"
    for group in range(650):
        above = f"[engine:e]/[class:org.example.Class{group}Tests]"
        yield f"N|C|{above}|Class{group}Tests\n"
        yield from (f"N|T|{above}/[method:test{test}()]|test{test}()\n" for test in range(99))
    tests = (key for key in range(1, 65_001) if key % 100 != 1)
    yield from (f"E|1|{key}|{2 * number}|start\nE|1|{key}|{2 * number + 1}|finish|ok\n" for number, key in enumerate(tests))


RECORDS: Dict[str, Callable[[], Iterator[str]]] = {
    "large": large,
    "one_segment": lambda: many_events(""),
    "two_segments": lambda: many_events("[engine:e]"),
    "many_tests": many_tests,
}


def write_record(path: str, name: str) -> None:
    with open(path, "w", encoding="utf-8") as file:
        file.writelines(RECORDS[name]())
