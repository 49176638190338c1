"""The words after `ask`: which question they ask, or why they are refused."""

from typing import Callable, Dict, List, Tuple

import form
from model import explanations, questions
from model.conditions import BadAtom, Condition, Deep, read_condition
from model.lifecycle import lifecycle
from model.lifecycle_explanations import explain_lifecycle
from model.locks import explain_locks, locks
from model.questions import Answer, Events, all_events
from model.records import Record, Refused, read_record
from model.texts import read_number

Question = Callable[[Record], Answer]


def read_question(words: List[str]) -> Question:
    """The question of the words after `ask`, or `Refused`."""
    readers = {
        "stats": lambda words: read_stats(words, 0, questions.stats),
        "count": read_count,
        "match": lambda words: read_match(words, "match"),
        "list": lambda words: read_list(words, 0, questions.list_events),
        "exclusive": lambda words: read_exclusive(words, 0, questions.exclusive),
        "executions": lambda words: read_executions(words, 0, questions.executions),
        "lifecycle": lambda words: read_no_word(words, 0, lifecycle),
        "locks": lambda words: read_no_word(words, 0, locks),
        "report": lambda words: read_no_word(words, 0, questions.report),
        "explain": read_explain,
    }
    if not words or words[0] not in readers:
        raise Refused("unknown question")
    return readers[words[0]](words[1:])


def read_explain(words: List[str]) -> Question:
    """The words of `match`, or a question whose first word has the number 1 here."""
    readers = {
        "stats": lambda words: read_stats(words, 1, explanations.explain_stats),
        "list": lambda words: read_list(words, 1, explanations.explain_list),
        "exclusive": lambda words: read_exclusive(words, 1, explanations.explain_exclusive),
        "executions": lambda words: read_executions(words, 1, explanations.explain_executions),
        "lifecycle": lambda words: read_no_word(words, 1, explain_lifecycle),
        "locks": lambda words: read_no_word(words, 1, explain_locks),
    }
    return readers[words[0]](words[1:]) if words and words[0] in readers else read_match(words, "explain")


def read_selection(words: List[str], first: int) -> Tuple[str, List[str], int]:
    """The selection whose events are asked, all where none is named; the words after it, and the number of the first of them."""
    if words and words[0] in form.SELECTIONS:
        return words[0], words[1:], first + 1
    return "all", words, first


def read_stats(words: List[str], first: int, answer: Callable[[Events, Dict[str, int]], Answer]) -> Question:
    """Statistics of a selection's events, and what is expected of them."""
    selection, words, first = read_selection(words, first)
    expected: Dict[str, int] = {}
    for number, word in enumerate(words, start=first):
        name, _, text = word.partition("=")
        value = read_number(text, 64)
        if name not in form.STATISTICS or name in expected or value is None:
            raise Refused(f"bad word {number}")
        expected[name] = value
    return lambda record: answer(all_events(record).pick(selection), expected)


def read_count(words: List[str]) -> Question:
    if not words or words[0] not in form.SELECTIONS:
        raise Refused("bad word 0")
    if len(words) > 1:
        raise Refused("bad word 1")
    return lambda record: (f"{questions.count(all_events(record), words[0])}\n", True)


def read_conditions(words: List[str], first: int) -> List[Condition]:
    """The conditions of the words, of which the first has this number."""
    conditions = []
    for number, word in enumerate(words, start=first):
        try:
            conditions.append(read_condition(word))
        except BadAtom as fault:
            raise Refused(f"condition {number} is bad at {fault.args[0]}")
        except Deep:
            raise Refused(f"condition {number} is too deep")
    return conditions


def read_match(words: List[str], question: str) -> Question:
    """A match of a selection's events: a mode and conditions."""
    selection, words, first = read_selection(words, 0)
    if not words or words[0] not in ("exactly", "loosely", "in-order"):
        raise Refused(f"bad word {first}")
    conditions = read_conditions(words[1:], first + 1)
    matcher = getattr(explanations if question == "explain" else questions, f"{question}_{words[0].replace('-', '_')}")
    return lambda record: matcher(all_events(record).pick(selection), conditions)


def read_executions(words: List[str], first: int, answer: Callable[[Events], Answer]) -> Question:
    selection, words, first = read_selection(words, first)
    return read_no_word(words, first, lambda record: answer(all_events(record).pick(selection)))


def read_list(words: List[str], first: int, answer: Callable[[Record, str, List[Condition]], Answer]) -> Question:
    """A selection, whose word has the number `first`, and conditions."""
    if not words or words[0] not in form.SELECTIONS:
        raise Refused(f"bad word {first}")
    conditions = read_conditions(words[1:], first + 1)
    return lambda record: answer(record, words[0], conditions)


def read_exclusive(words: List[str], first: int, answer: Callable[[Record, Condition, Condition], Answer]) -> Question:
    """One condition or two, of which the first has the number `first`."""
    if not words:
        raise Refused(f"bad word {first}")
    if len(words) > 2:
        raise Refused(f"bad word {first + 2}")
    conditions = read_conditions(words, first)
    return lambda record: answer(record, conditions[0], (conditions + [explanations.NOBODY])[1])


def read_no_word(words: List[str], first: int, question: Question) -> Question:
    if words:
        raise Refused(f"bad word {first}")
    return question


def ask(words: List[str], data: bytes) -> Answer:
    question = read_question(words)
    return question(read_record(data))
