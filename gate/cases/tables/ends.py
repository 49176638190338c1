"""Where a record of version 3 ends, and what `recover` writes of one that is cut off or bad."""

from typing import List

from harness import Case
from tables.building import LOCK_HEADER, TEXTS, answer, as_bytes, as_words, fault, record, rows, whole_record
from tables.texts import CUT, EMPTY, TWO_TESTS, TWO_TESTS_1

NODE, START, FINISH = "N|C|[e:e]|e", "E|0|0|0|start", "E|0|0|9|finish|ok"
QUESTIONS = ["stats", "count all", "list all", "executions", "match loosely", "lifecycle", "exclusive all()", "locks", "report", "explain lifecycle"]


def begun(lines: str) -> str:
    """A text of version 3 with one container: lines apart by ` ; `, the last one without its line feed where it ends with `~`."""
    text = LOCK_HEADER + "".join(line + "\n" for line in [NODE, *filter(None, lines.split(" ; "))])
    return text[:-2] if text.endswith("~\n") else text


def counted(name: str, lines: str, count: str):
    return answer(name, "ask count all", begun(lines), count)


def refused(name: str, lines: str, line: str) -> List[Case]:
    """A question refuses the text, and `recover` says the same of it."""
    return [fault(name, "ask count all", begun(lines), line)]


def cut_off(question: str):
    return fault(f"{question} of a record that is cut off", f"ask {question}", begun(START), "record is cut off after line 3")


def recovered(name: str, text: str, *lines: str):
    """A whole record is written in version 3."""
    return answer(name, "recover", text, whole_record(*lines))


def in_part(name: str, lines: str, count: str, line: str) -> Case:
    """`recover` writes the record of the container and the first lines, and says what is missing."""
    written = whole_record(NODE, *lines.split(" ; ")[: int(count)]) if count != "0" else whole_record(NODE)
    return Case(name, as_words("recover"), as_bytes(begun(lines)), as_bytes(written), f"testkit: {line}\n".encode(), 1)


def unrecovered(name: str, text: str, line: str):
    return fault(name, "recover", text, line)


CASES = rows(__file__, globals()) + list(map(cut_off, QUESTIONS)) + [
    fault("end/an end line in version 2", "ask count all", record(NODE, START, "Z|1"), "line 4 is bad"),
    recovered("recover/version 1", TWO_TESTS_1, *TWO_TESTS.split("\n")[1:-1]),
    recovered("recover/version 2", TWO_TESTS, *TWO_TESTS.split("\n")[1:-1]),
    recovered("recover/version 3", whole_record(NODE, START), NODE, START),
    recovered("recover/no line", EMPTY),
    recovered("recover/locks", whole_record(NODE, "L|0|W|db", START), NODE, "L|0|W|db", START),
    Case("recover/version 2 without its last line feed", as_words("recover"), as_bytes(record(NODE, START)[:-1]), as_bytes(whole_record(NODE)), b"testkit: line 3 is bad\n", 1),
    Case("recover/header alone", as_words("recover"), as_bytes(LOCK_HEADER), as_bytes(whole_record()), b"testkit: record is cut off after line 1\n", 1),
    Case("recover/a half descriptor", as_words("recover"), as_bytes(LOCK_HEADER + "N|C|[e"), as_bytes(whole_record()), b"testkit: record is cut off after line 1\n", 1),
    unrecovered("recover/no text", "", "no header"),
    unrecovered("recover/half a header", LOCK_HEADER[:-1], "no header"),
]
