"""The outcome of a command line and an input: what is written, and the status."""

from dataclasses import dataclass
from typing import List, Optional, Tuple

import form
from model.plans import run
from model.records import Refused, read_record_so_far
from model.replays import replay
from model.texts import read_number
from model.words import ask


@dataclass(frozen=True)
class Outcome:
    """What the program writes on standard output and standard error, and its status."""

    output: bytes
    error: bytes
    status: int


def outcome(words: List[bytes], data: bytes) -> Outcome:
    """The outcome of the words after the program's name."""
    try:
        output, is_yes, fault = perform([word.decode() for word in words], data)
    except (UnicodeDecodeError, Refused) as fault:
        line = "bad command line" if isinstance(fault, UnicodeDecodeError) else fault.args[0]
        return Outcome(b"", f"testkit: {line}\n".encode(), 2)
    return Outcome(output.encode(), f"testkit: {fault}\n".encode() if fault else b"", 0 if is_yes else 1)


def perform(words: List[str], data: bytes) -> Tuple[str, bool, Optional[str]]:
    """What is written, whether it is a yes, and the fault that stands beside what was recovered; or `Refused`."""
    if words[:1] == ["ask"]:
        return *ask(words[1:], data), None
    if words[1:] and words[-1] == "--":
        # (the end of the options, after which a word would be one too many)
        words = words[:-1]
    if words == ["replay"]:
        return replay(data), True, None
    if words == ["recover"]:
        record, fault = read_record_so_far(data)
        return record.text(form.LOCK_VERSION), fault is None, fault
    workers, is_recorded = read_run(words)
    if workers is None:
        raise Refused("bad command line")
    return run(data, workers, is_recorded), True, None


def read_run(words: List[str]) -> Tuple[Optional[int], bool]:
    """The number of workers of `run [--workers N] [--record]`, if it is one, and whether the record is asked for."""
    numbers: List[str] = []
    flags, left = [], words[1:]
    while left and words[0] == "run":
        word = left.pop(0)
        name, is_joined, number = word.partition("=")
        if name == "--workers" and (is_joined or left):
            numbers.append(number if is_joined else left.pop(0))
        else:
            flags.append(word)
    if words[:1] != ["run"] or len(numbers) > 1 or flags not in ([], ["--record"]):
        return None, False
    return read_number((numbers or ["1"])[0], 8), bool(flags)
