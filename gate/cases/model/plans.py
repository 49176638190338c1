"""Plans: reading them with their faults, the report of a run, and its record where one worker runs it."""

import json
import math
import re
from dataclasses import dataclass, field, replace
from itertools import accumulate
from typing import Callable, Dict, Iterator, List, Optional, Set, Tuple

import form
from model.questions import report
from model.records import Descriptor, Entry, Event, Record, Refused
from model.texts import Id, Segment, is_within_limits, write_field

MAX_NESTING = 127
"""How deep arrays and objects may be nested: `serde_json` reads no deeper."""

NODE_TYPES = {"container": "C", "test": "T", "both": "B"}
LOCK_MODES = {"read": "R", "read_write": "W"}
NODE_STATUSES = {"successful": "ok", "aborted": "abort", "failed": "fail"}


class Wrong(Exception):
    """The value at a path is wrong; the path is the first argument."""


@dataclass(frozen=True)
class Number:
    """A number of a JSON text, as it is written."""

    text: str


@dataclass
class Node:
    letter: str
    segment: Segment
    name: str
    skip: Optional[str] = None
    result: Tuple[str, Optional[str]] = ("ok", None)
    is_concurrent: bool = False
    is_isolated: bool = False
    locks: List[Tuple[str, str]] = field(default_factory=list)
    entries: List[List[Tuple[str, str]]] = field(default_factory=list)
    files: List[str] = field(default_factory=list)
    children: List["Node"] = field(default_factory=list)
    dynamic: List["Node"] = field(default_factory=list)


def read_json(data: bytes) -> object:
    """The value of a JSON text, numbers as `Number`s, or `Refused`; of two members of one name the last stays."""
    try:
        text = data.decode()
        value = json.loads(text, object_pairs_hook=members, parse_int=number, parse_float=number, parse_constant=refuse_constant)
        texts_of(value)
    except (ValueError, RecursionError):
        raise Refused("plan is not JSON")
    brackets = re.sub(r'"(\\.|[^"\\])*"|[^][{}]', "", text)
    if max(accumulate((1 if it in "[{" else -1 for it in brackets), initial=0)) > MAX_NESTING:
        raise Refused("plan is not JSON")
    return value


def members(pairs: List[Tuple[str, object]]) -> Dict[str, object]:
    """An object; also what is written again has to have texts that UTF-8 can have."""
    texts_of(pairs)
    return dict(pairs)


def texts_of(value: object) -> bytes:
    return json.dumps(value, ensure_ascii=False, default=lambda found: found.text).encode()


def number(text: str) -> Number:
    """A number; one that is out of the range of a float is no JSON."""
    if math.isinf(float(text)):
        raise ValueError(text)
    return Number(text)


def refuse_constant(text: str) -> object:
    raise ValueError(text)


def pointer(path: str, step: object) -> str:
    """The JSON Pointer of a member or an item below a path."""
    return path + "/" + str(step).replace("~", "~0").replace("/", "~1")


def check_text(value: object, path: str) -> str:
    if not isinstance(value, str):
        raise Wrong(path)
    return value


def check_word(value: object, path: str, words) -> str:
    if not isinstance(value, str) or value not in words:
        raise Wrong(path)
    return value


def check_array(value: object, path: str, length: Optional[int] = None) -> List[Tuple[object, str]]:
    """The items of an array, each with its path."""
    if not isinstance(value, list) or (length is not None and len(value) != length):
        raise Wrong(path)
    return [(item, pointer(path, index)) for index, item in enumerate(value)]


def check_members(value: object, path: str, names: List[str], needed: List[str]) -> Iterator[Tuple[str, object, str]]:
    """The members of an object in the order of these names: name, value and path of each that is there.

    First the members without a meaning are refused. Where a needed one is missing, its path is wrong.
    """
    if not isinstance(value, dict):
        raise Wrong(path)
    strange = sorted((name for name in value if name not in names), key=lambda name: name.encode())
    if strange:
        raise Wrong(pointer(path, strange[0]))
    for name in names:
        if name in value:
            yield name, value[name], pointer(path, name)
        elif name in needed:
            raise Wrong(pointer(path, name))


def check_pair(value: object, path: str) -> Tuple[str, str]:
    first, second = [check_text(item, item_path) for item, item_path in check_array(value, path, 2)]
    return first, second


def check_lock(value: object, path: str) -> Tuple[str, str]:
    """The key of a lock, and how it is held, `R` or `W`."""
    key, mode = "", "W"
    for name, member, member_path in check_members(value, path, ["key", "mode"], ["key"]):
        if name == "key":
            key = check_text(member, member_path)
        else:
            mode = LOCK_MODES[check_word(member, member_path, LOCK_MODES)]
    return key, mode


def check_result(value: object, path: str) -> Tuple[str, Optional[str]]:
    status, message = "", None
    for name, member, member_path in check_members(value, path, ["status", "message"], ["status"]):
        if name == "status":
            status = NODE_STATUSES[check_word(member, member_path, NODE_STATUSES)]
        elif status == "ok":
            raise Wrong(member_path)
        else:
            message = check_text(member, member_path)
    return status, message


def check_node(value: object, path: str, is_static: bool, version: int) -> Node:
    """The node of a JSON object, without the nodes below it, or `Wrong`. Its members are checked in the order of `MEMBERS`."""
    node = Node("", ("", ""), "")
    unknown = ([] if is_static else OF_STATIC_NODES) + ["files"] * (version < form.FILE_VERSION)
    names = [name for name in MEMBERS if name not in unknown]
    for name, member, member_path in check_members(value, path, names, ["type", "segment", "name"]):
        field_name, check = MEMBERS[name]
        setattr(node, field_name, check(member, member_path))
    return node


def check_flag(value: object, path: str) -> bool:
    if not isinstance(value, bool):
        raise Wrong(path)
    return value


def check_file(value: object, path: str) -> str:
    if check_text(value, path) == "":
        raise Wrong(path)
    return value


def each(check: Callable) -> Callable[[object, str], List]:
    """Checks each item of an array."""
    return lambda value, path: [check(item, item_path) for item, item_path in check_array(value, path)]


MEMBERS: Dict[str, Tuple[str, Callable[[object, str], object]]] = {
    "type": ("letter", lambda value, path: NODE_TYPES[check_word(value, path, NODE_TYPES)]),
    "segment": ("segment", check_pair),
    "name": ("name", check_text),
    "mode": ("is_concurrent", lambda value, path: check_word(value, path, ["same_thread", "concurrent"]) == "concurrent"),
    "isolated": ("is_isolated", check_flag),
    "locks": ("locks", each(check_lock)),
    "skip": ("skip", check_text),
    "result": ("result", check_result),
    "entries": ("entries", each(each(check_pair))),
    "files": ("files", each(check_file)),
    "children": ("children", lambda value, path: check_array(value, path)[:0]),
    "dynamic": ("dynamic", lambda value, path: check_array(value, path)[:0]),
}
"""What each member of a node says of it; the nodes below it are read later."""
OF_STATIC_NODES = ["mode", "isolated", "locks", "children"]


@dataclass
class PlanReader:
    """What was met of a plan so far: how many dynamic and static nodes, and its lock keys."""

    version: int = 1
    nodes: List[int] = field(default_factory=lambda: [0, 0])
    lock_keys: List[str] = field(default_factory=list)

    def read(self, value: object, path: str, level: int, above: Id, is_static: bool, siblings: Set[Segment]) -> Node:
        """A node and those below it. `above` is the id of its parent, `siblings` their segments so far."""
        if level > form.MAX_LEVELS:
            raise Refused("plan too deep")
        try:
            node = check_node(value, path, is_static, self.version)
        except Wrong as fault:
            raise Refused("plan member " + write_field(fault.args[0]) + " is bad")
        self.check_rules(node, above, is_static, siblings)
        siblings.add(node.segment)
        below = above + (node.segment,)
        segments: Set[Segment] = set()
        for name, nodes in (("children", node.children), ("dynamic", node.dynamic)):
            for index, item in enumerate(value.get(name, [])):
                nodes.append(self.read(item, f"{path}/{name}/{index}", level + 1, below, name == "children", segments))
        return node

    def check_rules(self, node: Node, above: Id, is_static: bool, siblings: Set[Segment]) -> None:
        """The rules that come after those of a node's members, in their order."""
        for pairs in node.entries:
            keys = [key for key, _ in pairs]
            if len(set(keys)) < len(keys):
                raise Refused("entry key twice")
        if "" in node.segment or not is_within_limits(above + (node.segment,)):
            raise Refused("plan id is bad")
        self.nodes[is_static] += 1
        if node.segment in siblings or self.nodes[is_static] > form.MAX_DESCRIPTORS:
            raise Refused("plan table is refused")
        for key, _ in node.locks:
            if key != "global" and key not in self.lock_keys:
                self.lock_keys.append(key)
        if len(self.lock_keys) > form.MAX_LOCK_KEYS:
            raise Refused("too many resources")


def read_plan(data: bytes) -> Node:
    """The root of a plan, or `Refused`."""
    reader = PlanReader()
    try:
        for name, value, path in check_members(read_json(data), "", ["version", "root"], ["version", "root"]):
            if name == "root":
                root = reader.read(value, path, 1, (), True, set())
            elif value not in [Number(str(version)) for version in form.VERSIONS]:
                raise Wrong(path)
            else:
                reader.version = int(value.text)
    except Wrong as fault:
        raise Refused("plan member " + write_field(fault.args[0]) + " is bad")
    if count_events(root) > form.MAX_PLAN_EVENTS:
        raise Refused("too many events")
    return root


def count_events(node: Node) -> int:
    if node.skip is not None:
        return 1
    below = sum(count_events(child) for child in node.children)
    below += sum(1 + count_events(child) for child in node.dynamic)
    return 2 + len(node.entries) + len(node.files) + below


def script(node: Node, above: Id = ()) -> Iterator[Tuple[Descriptor, Event]]:
    """The events of a node and of those below it, each with its descriptor."""
    descriptor = Descriptor(node.letter, above + (node.segment,), node.name)
    if node.skip is not None:
        yield descriptor, Event("skip", reason=node.skip)
        return
    yield descriptor, Event("start")
    for pairs in node.entries:
        yield descriptor, Event("report", pairs=tuple(sorted(pairs, key=lambda pair: pair[0].encode())))
    for path in node.files:
        yield descriptor, Event("file", path=path)
    for child in node.children:
        yield from script(child, descriptor.id)
    for child in node.dynamic:
        registered = Descriptor(child.letter, descriptor.id + (child.segment,), child.name)
        yield registered, Event("dynamic", descriptor=registered)
        yield from script(child, descriptor.id)
    status, message = node.result
    yield descriptor, Event("finish", status=status, message=message)


def static_nodes(node: Node, above: Id = ()) -> Iterator[Tuple[Descriptor, Node]]:
    """The static nodes in preorder, each with its descriptor: their numbers are their keys."""
    descriptor = Descriptor(node.letter, above + (node.segment,), node.name)
    yield descriptor, node
    for child in node.children:
        yield from static_nodes(child, descriptor.id)


def declared_locks(node: Node) -> Dict[bytes, str]:
    """How a node holds each of its locks, by its name: of two of one name the stronger stays, and `isolated` is `global` for writing."""
    locks = node.locks + [("global", "W")] * node.is_isolated
    return {name.encode(): "W" if (name, "W") in locks else "R" for name, _ in locks if name}


def spine(node: Node, above: Id = (), is_root: bool = True) -> Iterator[Id]:
    """The ids of the nodes whose children are units, or stand on the spine themselves."""
    may_be = is_root or (node.is_concurrent and node.letter in "CB")
    is_plain = node.skip is None and not (node.locks or node.is_isolated or node.dynamic)
    if may_be and is_plain and node.children and all(child.is_concurrent for child in node.children):
        yield above + (node.segment,)
        for child in node.children:
            yield from spine(child, above + (node.segment,), False)


def record_of_one_worker(root: Node) -> Record:
    """The record of a run by one worker: the starts and entries of the spine, the units in their order, the finishes of the spine."""
    nodes = list(static_nodes(root))
    record = Record([descriptor for descriptor, _ in nodes])
    record.locks.update(((key, name), mode) for key, (_, node) in enumerate(nodes) for name, mode in declared_locks(node).items())
    above = set(spine(root))
    keys = {descriptor.id: key for key, descriptor in enumerate(record.table)}

    def turn(stamped: Tuple[int, Tuple[Descriptor, Event]]) -> int:
        """0 before the units, 1 in a unit, 2 after the units."""
        descriptor, event = stamped[1]
        return 1 if descriptor.id not in above else 2 if event.kind == "finish" else 0

    for stamped in sorted(enumerate(script(root)), key=turn):
        stamp, (descriptor, event) = stamped
        if event.kind == "dynamic":
            keys[descriptor.id] = form.MAX_DESCRIPTORS + record.registered_by(1)
        record.entries.append(Entry(turn(stamped) % 2, replace(event, key=keys[descriptor.id], stamp=stamp)))
    return record


def run(data: bytes, workers: int, is_recorded: bool = False) -> str:
    """What `run` writes, or `Refused`: the plan's faults come before that of the workers.

    The report is that of each run, whatever the number of workers. The record is that of a run by one worker.
    """
    root = read_plan(data)
    if not 1 <= workers <= form.MAX_WORKERS:
        raise Refused(f"workers must be 1 to {form.MAX_WORKERS}")
    record = record_of_one_worker(root)
    return record.text(form.LOCK_VERSION) if is_recorded else report(record)[0]
