"""What has to come of each case of the classes *Cases, as expected.txt says it, and at the limits of a record."""

import glob
import os
import re
from dataclasses import dataclass, field
from itertools import accumulate
from pathlib import Path
from typing import Dict, List, Sequence

from records import HEADER, check_lines, check_record, ended

HERE = os.path.dirname(os.path.realpath(__file__))
MIB = 1 << 20


@dataclass
class Case:
    name: str
    facts: List[str] = field(default_factory=list)
    messages: List[str] = field(default_factory=list)
    lifecycle: str = ""
    records: Dict[str, List[str]] = field(default_factory=dict)
    """The lines of each record that it leaves, by what stands after its name."""


def read(path: str) -> str:
    """The text of a file; what isn't UTF-8 differs from any text that is wanted."""
    return Path(path).read_bytes().decode(errors="surrogateescape")


def unfolded(line: str) -> str:
    """A line of expected.txt without its abbreviations."""
    line = re.sub(r"\{x(\d+)\}", lambda found: "x" * int(found[1]), line)
    return re.sub(r"\{u([0-9a-f]{4})\}", lambda found: chr(int(found[1], 16)), line)


def expected() -> Dict[str, List[Case]]:
    """The cases of expected.txt by their group, which a line `## GROUP: ..` begins."""
    found: Dict[str, List[Case]] = {}
    for line in map(unfolded, read(f"{HERE}/expected.txt").split("\n")):
        sign, _, text = line.partition(" ")
        if sign == "##":
            cases = found.setdefault(text.split(":")[0], [])
        elif sign == "=":
            case = Case(text)
            cases.append(case)
        elif sign == ">":
            lines = case.records.setdefault(text, [HEADER])
        elif sign == "-" and text.startswith("lifecycle: "):
            case.lifecycle = text[len("lifecycle: ") :]
        elif sign == "-":
            (case.messages if text.startswith("testkit: ") else case.facts).append(text)
        elif sign not in ("", "#"):
            lines.append(line)
    return found


def limits() -> List[Case]:
    engine = [HEADER, "N|C|[engine:e]|engine"]
    one_test = [*engine, "N|T|[engine:e]/[t:1]|one"]
    static = [*engine, *(f"N|T|[engine:e]/[t:{at}]|t{at}" for at in range(1, 65_536))]
    last = ["E|1|0|0|start", "E|1|65535|0|skip|last", "E|1|65536|0|dynamic|T|[engine:e]/[d:1]|dynamic"]
    last += ["E|1|65536|0|start", "E|1|65536|0|finish|ok"]
    registered = [*one_test, "E|1|0|0|start", "E|2|131072|0|dynamic|T|[engine:e]/[d:other]|other"]
    registered += [f"E|1|{65_536 + at}|0|dynamic|T|[engine:e]/[d:{at}]|d{at}" for at in range(65_536)]
    # (where worker 1 has no key left, a registration is of the first worker that has one)
    more = ["E|2|131073|0|dynamic|T|[engine:e]/[d:65536]|d65536", "E|2|131074|0|dynamic|T|[engine:e]/[d:third]|third"]
    first = [*one_test, "E|1|0|0|start", f"E|1|0|1|report{pairs_of(10 * MIB)}"]
    rest = 16 * MIB - size(first) - size(["E|1|0|2|report", "E|1|0|3|finish|ok", "Z|4"])
    names = [*engine, *(f"N|T|[engine:e]/[t:{at}]|{'x' * 65_536}" for at in range(255)), f"N|T|[engine:e]/[t:255]|{'x' * 57_463}"]
    locks = [HEADER, engine[1], "N|B|[engine:e]/[t:1]|locks"]
    locks += [f"N|T|[engine:e]/[t:{at}]|{'x' * 65_536}" for at in range(2, 257)]
    locks += [f"N|T|[engine:e]/[t:257]|{'x' * 59_422}", "L|1|R|a"]
    too_long = "the text would be longer than 16777216 bytes"
    return [
        at_limit("most-static", static + last, lifecycle="no end 0"),
        at_limit("too-many-static", static, "the run has more than 65536 static descriptors"),
        at_limit("most-registered", [*registered, "E|2|131073|0|dynamic|T|[engine:e]/[d:third]|third"]),
        at_limit("too-many-registered", [*registered, *more]),
        at_limit("most-bytes", [*first, f"E|1|0|2|report{pairs_of(rest)}", "E|1|0|3|finish|ok"]),
        at_limit("too-many-bytes", [*first, f"E|1|0|2|report{pairs_of(rest + 1)}", "E|1|0|3|finish|ok"], too_long),
        at_limit("too-many-static-bytes", names, too_long),
        at_limit("locks-at-the-limit", locks, too_long),
        waiting(),
        at_limit("long-texts", [*one_test, *long_texts()]),
        at_limit("huge-texts", [*engine, *huge_texts()]),
        many_segments(),
    ]


def size(lines: Sequence[str]) -> int:
    return sum(len(line) + 1 for line in lines)


def pairs_of(count: int) -> str:
    """The pairs of an entry, in as many letters."""
    found = ""
    for left in range(count // 65_000 + 1, 0, -1):
        found += f"|{9_999 - left}|{'x' * ((count - len(found)) // left - 6)}"
    return found


def long_texts() -> List[str]:
    """Texts as long as may be, and longer ones, which are cut."""
    most, cut = "x" * 65_536, f"{'x' * 65_535} .. (65538 bytes)"
    failures = [f"E|1|1|0|finish|fail|{most} .. (1048576 bytes)"] * 20
    reports = [f"E|1|0|0|report|{most}|{cut}", f"E|1|0|0|report|{cut}|{most}"]
    skip, end = f"E|1|1|0|skip|{cut}", f"E|1|0|0|finish|abort|{cut}"
    letters = [(letter, 65_536 // size, size) for size, letter in ((2, "\x80"), (3, "\u0800"), (4, "\U00010000"))]
    least = [f"E|1|1|0|skip|{letter * most} .. ({(most + 1) * size} bytes)" for letter, most, size in letters]
    return [f"N|T|[engine:e]/[t:2]|{cut}", "E|1|0|0|start", *reports, skip, *failures, *least, end]


def huge_texts() -> List[str]:
    names = [f"N|T|[engine:e]/[t:{at}]|{'x' * 65_536} .. ({MIB} bytes)" for at in range(17)]
    return [*names, f"E|1|0|0|finish|fail|{'x' * 65_536} .. (30000000 bytes)"]


def waiting() -> Case:
    """Entries that wait for a message until there are more than a record can have, and the next run."""
    begin = [HEADER, "N|C|[engine:e]|engine", "N|T|[engine:e]/[t:1]|one"]
    lines = [*begin, "E|1|0|0|start", "E|2|1|0|finish|fail"]
    entry = f"E|1|0|0|report|k|{'x' * 60_000}"
    # (each stamp has sixteen digits in place of one)
    entries = (16 * MIB - size(lines) - 2 * 15) // (size([entry]) + 15)
    path = "FOLDER/many-waiting"
    too_long = f"the text would be longer than {16 * MIB} bytes"
    said = ["a message isn't recorded: its getMessage takes too long", f"the recording of {path}.record ends here: {too_long}"]
    beside = "has had a run of this process, so runs stand beside it too, the first in"
    said.append(f"{path}.record {beside} {path}.1.record; with %n they are numbered")
    records = {"1.record": [*lines, *[entry] * entries], "record": ended([*begin, "E|1|0|0|skip|after"])}
    return Case("many-waiting", ["whole false", "whole true"], [f"testkit: {it}" for it in said], "", records)


def many_segments() -> Case:
    ids = list(accumulate((f"/[n:{number}]" for number in range(2, 67)), initial="[engine:e]"))
    said = [f"testkit: [replaced-id:64] stands for an id that no record can have: {ids[64]}"]
    ids[64:] = ["[replaced-id:64]", "[replaced-id:64]/[n:66]"]
    lines = [HEADER, "N|C|[engine:e]|engine", *(f"N|C|{it}|level {level}" for level, it in enumerate(ids[1:], 2))]
    return Case("most-segments", ["whole true"], said, "", {"record": ended([*lines, "E|1|0|0|start", "E|1|0|0|finish|ok"])})


def at_limit(name: str, record: List[str], why: str = "", lifecycle: str = "") -> Case:
    """A case whose recording ends early for this reason, if there is one."""
    messages = [f"testkit: the recording of FOLDER/{name}.record ends here: {why}"] if why else []
    return Case(name, [f"whole {'false' if why else 'true'}"], messages, lifecycle, {"record": record if why else ended(record)})


def all_cases() -> List[Case]:
    return [case for group in (*expected().values(), limits()) for case in group]


def check_case(case: Case, folder: str, facts: Sequence[str]) -> None:
    """Fails where a case left something else in the folder, or said something else."""
    took = [(int(fact.split(" ")[1]), int(fact.split(" ")[2])) for fact in facts if fact.startswith("microseconds ")]
    assert len(took) == 1, "it didn't come to its end"
    check_lines([fact for fact in facts if not fact.startswith("microseconds ")], case.facts)
    files = {path[len(f"{folder}/{case.name}.") :] for path in glob.glob(f"{folder}/{case.name}.*") if not os.path.isdir(path)}
    assert files == {*case.records, "messages"}, f"it left {sorted(files)}"
    for ending, lines in case.records.items():
        check_record(read(f"{folder}/{case.name}.{ending}"), lines, took[0])
    check_lines(read(f"{folder}/{case.name}.messages").replace(folder, "FOLDER").split("\n"), [*case.messages, ""])
