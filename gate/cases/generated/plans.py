"""Generated plans, and plans of which one value was replaced."""

import copy
import json
from typing import Dict, List, Tuple

import form
from generated.numbers import Cases, Numbers, each_is_met, met_series, modelled
from harness import Case, RecordedRun

SEGMENTS = [["t", "1"], ["t", "2"], ["t", "10"], ["c", "a/b"], ["c", "%"], ["T", "|"], ["é", "x y"], ["t", "\n"], ["d", "[1]"]]
TEXTS = ["", "off", "boom", "a|b", "back\\slash", "line\nfeed", "spät 🦀", "\t"]
LOCK_KEYS = ["global", "db", "a", "b", "", "é"]
MANY_KEYS = ["global", *(f"k{number}" for number in range(form.MAX_LOCK_KEYS))]
KEYS = ["", "a", "b", "aa", "B", "é", "k|", "k\\"]

Value = Dict[str, object]


def entry(numbers: Numbers) -> list:
    """An entry; rarely with a key twice."""
    keys = numbers.some_of(KEYS, 4)
    if numbers.below(40) > 0:
        keys = list(dict.fromkeys(keys))
    return [[key, numbers.one_of(TEXTS)] for key in keys]


def lock(numbers: Numbers) -> Value:
    made: Value = {"key": numbers.one_of(LOCK_KEYS)}
    mode = numbers.one_of(["read", "read_write", None])
    return made if mode is None else {**made, "mode": mode}


def result(numbers: Numbers) -> Value:
    status = numbers.one_of(["successful", "failed", "aborted"])
    has_message = status != "successful" and numbers.below(2) == 0
    return {"status": status, "message": numbers.one_of(TEXTS)} if has_message else {"status": status}


def node(numbers: Numbers, segment: list, levels: int, is_static: bool) -> Value:
    """A node with at most `levels` levels of nodes, its own among them."""
    made: Value = {"type": numbers.one_of(["container", "container", "test", "both"]), "segment": list(segment)}
    made["name"] = numbers.one_of(TEXTS)
    if is_static and numbers.below(4) > 0:
        made["mode"] = numbers.one_of(["concurrent", "concurrent", "concurrent", "same_thread"])
    if is_static and numbers.below(10) == 0:
        made["isolated"] = numbers.one_of([True, False])
    if is_static and numbers.below(6) == 0:
        made["locks"] = [lock(numbers) for _ in range(numbers.below(3))]
    if numbers.below(10) == 0:
        made["skip"] = numbers.one_of(TEXTS)
    if numbers.below(3) == 0:
        made["result"] = result(numbers)
    if numbers.below(3) == 0:
        made["entries"] = [entry(numbers) for _ in range(numbers.below(4))]
    if numbers.below(4) == 0:
        made["files"] = numbers.some_of(["a", "a|b", "out/log.txt"], 2)
    add_below(numbers, made, levels, is_static)
    return made


def add_below(numbers: Numbers, made: Value, levels: int, is_static: bool) -> None:
    """Adds children and dynamic nodes; rarely two with one segment."""
    if levels == 1:
        return
    segments = numbers.some_of(SEGMENTS, 5)
    if numbers.below(40) > 0:
        segments = [list(segment) for segment in dict.fromkeys(tuple(segment) for segment in segments)]
    for segment in segments:
        is_child = is_static and numbers.below(4) > 0
        below = made.setdefault("children" if is_child else "dynamic", [])
        below.append(node(numbers, segment, levels - 1, is_child))


def plan(numbers: Numbers) -> Value:
    segment = numbers.one_of([["engine", "e"], ["engine", "e"], ["suite", "s:1"]])
    return {"version": form.LATEST, "root": node(numbers, segment, 1 + numbers.below(5), True)}


def locked(numbers: Numbers, segment: list) -> Value:
    """A node with locks, and with entries, so that it takes a while."""
    made = node(numbers, segment, 1, True)
    held = [{**lock(numbers), "key": numbers.one_of(MANY_KEYS)} for _ in range(numbers.below(4))]
    return {**made, "locks": held, "isolated": numbers.below(20) == 0, "entries": 20 * [[]]}


def plan_of_locks(numbers: Numbers) -> Value:
    """A plan of thirty concurrent nodes, each with one below it, and all with locks."""
    nodes = [{**locked(numbers, ["n", str(number)]), "mode": "concurrent", "children": [locked(numbers, ["t", "1"])]} for number in range(30)]
    return {"version": form.LATEST, "root": {"type": "container", "segment": ["engine", "e"], "name": "", "children": nodes}}


def plan_text(numbers: Numbers, value: Value) -> bytes:
    """A plan as JSON, laid out in one of several ways."""
    indent = numbers.one_of([None, None, 1])
    return json.dumps(value, ensure_ascii=numbers.below(2) == 0, indent=indent).encode()


STRANGE = [None, True, False, 0, 1, -1, 1.5, 10**30, 10**308, 10**309, "", "x", "a/~b|", [], [[]], {}, {"key": "k"}, ["a", "b"], ["a", 1]]
"""What stands in place of a value."""

NAMES = ["type", "name", "mode", "key", "status", "message", "a/b", "~", "", "Z", "é", "files", "dynamic"]
"""What stands in place of the name of a member."""


def places(value: object) -> list:
    """Each place below a value: the object or array, and the name or index."""
    steps = list(value) if isinstance(value, dict) else range(len(value)) if isinstance(value, list) else []
    found = [(value, step) for step in steps]
    return found + [place for step in steps for place in places(value[step])]


def spoil(numbers: Numbers, value: Value) -> None:
    """Replaces, drops or renames one value of a plan."""
    holder, step = numbers.one_of(places(value))
    shape = numbers.below(4)
    if shape == 0:
        del holder[step]
    elif shape == 1 and isinstance(holder, dict):
        holder[numbers.one_of(NAMES)] = holder.pop(step)
    else:
        holder[step] = copy.deepcopy(numbers.one_of(STRANGE))


def kind_of_outcome(case: Case) -> str:
    """Done, or the first words of the fault line."""
    return "done" if case.status == 0 else " ".join(case.error.decode().split()[1:3])


def runs() -> Cases:
    """Plans, each run by one worker for its report and for its record, and by more for one of the two."""
    numbers = Numbers(31)
    made: List[Case] = []
    recorded: Cases = []
    for number in range(150):
        name, text = f"generated plan/{number}", plan_text(numbers, plan(numbers))
        made += [modelled(name, ["run"], text), modelled(f"{name}, recorded", ["run", "--record"], text)]
        workers = numbers.one_of([2, 3, 4, form.MAX_WORKERS])
        if number % 2 or made[-1].status:
            made.append(modelled(f"{name}, {workers} workers", ["run", "--workers", str(workers)], text))
        else:
            recorded.append(RecordedRun(f"{name}, recorded, {workers} workers", text, workers, made[-2].output))
    met = [kind_of_outcome(case) for case in made]
    return made + recorded + [each_is_met("generated plan", met, ["done", "entry key", "plan table"], 3)]


def runs_with_locks() -> Cases:
    """The records of plans with many locks, each run by four workers and by the most: no two executions that conflict overlap."""
    numbers = Numbers(69)
    plans = [modelled(f"generated plan of locks/{number}", ["run"], plan_text(numbers, plan_of_locks(numbers))) for number in range(20)]
    return [
        RecordedRun(f"{it.name}, recorded, {workers} workers", it.input, workers, it.output) for it in plans for workers in (4, form.MAX_WORKERS)
    ]


def spoiled(numbers: Numbers) -> Tuple[List[str], bytes]:
    value = plan(numbers)
    spoil(numbers, value)
    return ["run", "--workers=2"], plan_text(numbers, value)


def cases() -> Cases:
    made = met_series("generated spoiled plan", 32, 300, spoiled, lambda case: [kind_of_outcome(case)], ["done", "plan member"], 20)
    return [*runs(), *runs_with_locks(), *made]
