"""Texts of all kinds with a byte changed, dropped or doubled, and texts made of loose parts."""

import re
from typing import List, Sequence, Tuple

import form
from generated import overlaps
from generated.conditions import condition_text
from generated.numbers import Cases, Numbers, modelled, series
from generated.plans import plan, plan_text
from generated.recordings import NODES, record_text, short_record
from generated.replays import replay_text
from harness import Case
from tables.building import HEADER, REPLAY_HEADER, Word
from tables.questions import EVERY_KIND
from tables.texts import DEMO_PLAN, SMALL_REPLAY, TWO_TESTS

Start = Tuple[Sequence[Word], bytes]

BYTES = b'|\\\n/[]:%.,()"{}- 0123456789tnpeEfNSWCTB\x00\xc3\xa9\xff'
"""What stands in place of a byte."""


def change(numbers: Numbers, text: bytes) -> bytes:
    """The text with one byte changed, dropped or doubled."""
    at = numbers.below(len(text))
    shape = numbers.below(4)
    if shape == 0:
        return text[:at] + text[at + 1 :]
    if shape == 1:
        return text[: at + 1] + text[at:]
    if shape == 2:
        return text[:at] + bytes([numbers.one_of(BYTES)]) + text[at + 1 :]
    return text[:at] + bytes([text[numbers.below(len(text))]]) + text[at + 1 :]


def question(numbers: Numbers) -> List[str]:
    """Any question, so that each of them is asked of faulty records."""
    texts = """
stats; stats started=1 failed=1; explain stats SELECTION started=1 failed=1; executions SELECTION; count SELECTION; executions; lifecycle
locks; explain locks; report; exclusive CONDITION CONDITION; list SELECTION CONDITION; match loosely CONDITION; match exactly CONDITION
match in-order CONDITION CONDITION
"""
    made = {"SELECTION": lambda: numbers.one_of(form.SELECTIONS), "CONDITION": lambda: condition_text(numbers, 1 + numbers.below(2))}
    words = numbers.one_of(re.split("; |\n", texts.strip())).split()
    return ["ask", *(made[word]() if word in made else word for word in words)]


def changed_record(numbers: Numbers) -> Start:
    text = numbers.one_of([TWO_TESTS.encode(), EVERY_KIND.encode(), record_text(numbers, 12), overlaps.text_of(numbers)])
    return question(numbers), change(numbers, text)


def changed_replay(numbers: Numbers) -> Start:
    return ["replay"], change(numbers, numbers.one_of([SMALL_REPLAY.encode(), replay_text(numbers), replay_text(numbers)]))


def changed_plan(numbers: Numbers) -> Start:
    return ["run", "--workers", "2"], change(numbers, numbers.one_of([DEMO_PLAN.encode(), plan_text(numbers, plan(numbers))]))


def changed_condition(numbers: Numbers) -> Start:
    """A changed condition; a word can't have a byte 0."""
    text = change(numbers, condition_text(numbers, 4).encode()).replace(b"\0", b"")
    return ["ask", "match", "loosely", "all()", text], short_record(numbers)


PARTS = "all( any( not( test started failed failed( id( name( segment( message( entry( kind( start skip ) ) ) , , a é %28 %2 % (".split()


def loose_word(numbers: Numbers) -> str:
    return "".join(numbers.one_of(PARTS) for _ in range(1 + numbers.below(8)))


FIELDS = [
    ["E", "E", "E", "E", "E", "E", "E", "N", "S", ""],
    ["0", "1", "2", str(form.MAX_WORKERS), str(form.MAX_WORKERS + 1), "01", "256", "", "x"],
    ["0", "1", "5", "6", "65536", "131072", "00", "4294967296"],
    ["0", "7", "18446744073709551615", "18446744073709551616", "07"],
]
TAIL_FIELDS = ["start", "finish", "skip", "report", "dynamic", "ok", "fail", "abort", "a", "b", "", "T", "[d:1]", "\\p", "\\", "é"]


def loose_line(numbers: Numbers) -> Start:
    fields = [numbers.one_of(choice[: 1 + numbers.below(len(choice))]) for choice in FIELDS]
    fields += [numbers.one_of(TAIL_FIELDS[: 5 + 11 * numbers.below(2)])] + numbers.some_of(TAIL_FIELDS, 3)
    text = HEADER + "".join(line + "\n" for line in NODES) + "|".join(fields) + "\n"
    return ["ask", "stats"], text.encode()


NODE_IDS = ["[a:1]", "[a:1]/[b:1]", "[a:1]/[b:2]", "[a:1]/[b:1]/[c:1]", "[b:1]", "[b:1]/[c:1]", "[a:1%2F]", "[a:1]/[b:]"]
REPORT_KEYS = ["", "a", "a", "b", "aa", "B", "é", "\\p"]


def loose_tables() -> List[Case]:
    """Records, and replays with no step, of descriptors in any order, with an entry between them now and then."""
    numbers = Numbers(47)
    made = []
    for number in range(100):
        ids = NODE_IDS[:3] + numbers.some_of(NODE_IDS, 3) if numbers.below(2) == 0 else numbers.some_of(NODE_IDS, 4)
        lines = [f"N|{numbers.one_of('CTB')}|{id_text}|{numbers.below(3)}" for id_text in ids]
        lines.insert(numbers.below(2 * len(lines) + 1), "E|1|0|0|start")
        text = "".join(line + "\n" for line in lines)
        made.append(modelled(f"loose table/{number}", ["ask", "count", "tests"], (HEADER + text).encode()))
        replay = REPLAY_HEADER + "W|1\n" + text + "S\n"
        made.append(modelled(f"loose table/{number}, replay", ["replay"], replay.encode()))
    return made


def loose_report(numbers: Numbers) -> Start:
    """A record with a report of up to four pairs, whose keys mostly don't increase."""
    pairs = "".join(f"|{key}|v" for key in numbers.some_of(REPORT_KEYS, 4))
    worker, key = numbers.below(form.MAX_WORKERS + 3), numbers.below(3) // 2
    return ["ask", "count", "reporting"], f"{HEADER}{NODES[0]}\nE|{worker}|{key}|0|report{pairs}\n".encode()


def cases() -> Cases:
    numbers = Numbers(45)
    text = record_text(numbers, 6)
    return [
        *series("changed record", Numbers(41), 300, changed_record),
        *series("changed replay", Numbers(42), 250, changed_replay),
        *series("changed plan", Numbers(43), 250, changed_plan),
        *series("changed condition", Numbers(44), 250, changed_condition),
        *series("loose condition", numbers, 250, lambda numbers: (["ask", "match", "loosely", loose_word(numbers)], text)),
        *series("loose line", Numbers(46), 250, loose_line),
        *loose_tables(),
        *series("loose report", Numbers(48), 100, loose_report),
    ]
