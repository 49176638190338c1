"""Standard streams of each kind, those that fail and those that stay open among them, and runs with little memory."""

from typing import Callable, List

import form
from harness import Case, Input, Output
from tables.building import Text, answer, as_bytes, as_words, fault, record, rows, stats
from tables.texts import DEEP, DEMO_NODES, DEMO_PLAN, EMPTY, ONE_START, ONE_TEST_PLAN, SMALL_REPLAY, TWO_TESTS

DEVICE_FAILED = ("device failed", 3)
CUT_START, CUT_REPLAY = ONE_START[:-1], SMALL_REPLAY[:-1]

FAILING_INPUTS = [Input.CLOSED, Input.FOLDER]
FAILING_OUTPUTS = [Output.FULL, Output.CLOSED, Output.BROKEN_PIPE]


def reading(words: str) -> List[Case]:
    return [fault(f"input/{kind.name}, {words}", words, b"", *DEVICE_FAILED, standard_input=kind) for kind in FAILING_INPUTS]


def writing(words: str, text: str) -> List[Case]:
    return [fault(f"output/{kind.name}, {words}", words, text, *DEVICE_FAILED, standard_output=kind) for kind in FAILING_OUTPUTS]


def bad_words(words: str, line: str) -> List[Case]:
    """The fault of the words comes before that of an input, and while somebody may still write the input."""
    texts = {"nothing written": "", "a text written": ONE_START, "half a line": ONE_TEST_PLAN[:40]}
    failing = [fault(f"input/{kind.name}, {words} comes first", words, b"", line, standard_input=kind) for kind in FAILING_INPUTS]
    return failing + [fault(f"open input/{it}, {words}", words, text, line, standard_input=Input.OPEN) for it, text in texts.items()]


def nothing_written(name: str, words: str, text: str, line: str = "") -> List[Case]:
    error = {"error": f"testkit: {line}\n".encode(), "status": 2} if line else {}
    return [Case(f"output/{it.name}, {name}", as_words(words), as_bytes(text), standard_output=it, **error) for it in FAILING_OUTPUTS]


def error_fails(name: str, words: str, text: str) -> List[Case]:
    return [Case(f"error/{it.name}, {name}", as_words(words), as_bytes(text), status=2, standard_error=it) for it in FAILING_OUTPUTS]


DEMO_REPORT = as_bytes(stats(skipped=1, started=7, finished=7, succeeded=6, failed=1, dynamic=1) + DEMO_NODES)


def good(words: str, data: str, output: Text) -> List[Case]:
    return [answer(f"input/{it.name}, {words}", words, data, output, standard_input=it) for it in (Input.FILE, Input.PIECES)]


def before_the_workers(words: str) -> List[Case]:
    name = "comes before the number of workers"
    return [fault(f"input/{kind.name} {name}", words, b"", *DEVICE_FAILED, standard_input=kind) for kind in FAILING_INPUTS]


def too_large(words: str, text: str) -> Case:
    """A text that is too large is refused at its first byte that is too many."""
    filled = lambda: text.encode().ljust(form.MAX_TEXT + 1)
    return fault(f"open input/16 MiB and a byte, {words}", words, filled, "input too large", standard_input=Input.OPEN)


def sixteen_mebibytes(before: bytes, after: bytes) -> Callable[[], bytes]:
    """A text of 16 MiB: these bytes, letters, and those bytes."""
    return lambda: before + b"x" * (form.MAX_TEXT - len(before) - len(after)) + after


def little_memory(words: str, header: bytes, rest: bytes) -> Case:
    """16 MiB of text don't fit into 16,000 KiB, and a program without it does."""
    return fault(f"little memory/{words} of 16 MiB", words, sixteen_mebibytes(header, rest), "out of memory", 3, memory=16_000)


NO_THREAD = [fault(f"no thread/{it}", it, DEMO_PLAN, "no thread", 3, memory=9_000) for it in ["run", f"run --workers {form.MAX_WORKERS}"]]
"""A thread's stack of 8,192 KiB doesn't fit into 9,000 KiB beside a program, and a program without threads does."""

CASES = rows(__file__, globals()) + NO_THREAD
