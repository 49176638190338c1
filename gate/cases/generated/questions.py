"""Selections, statistics, conditions, matches, lists, executions and reports of generated records."""

from itertools import product
from typing import List, Tuple

import form
from generated.conditions import ATOMS, brackets_of, condition
from generated.numbers import Cases, Numbers, each_is_met, met_series, modelled
from generated.recordings import record_text, short_record
from harness import Case, Check
from model.conditions import Condition, write_condition
from model.questions import Events, all_events, holds_at
from model.records import Record, read_record

SIZES = [0, 1, 2, 63, 64, 65, 127, 128, 129, 255, 256, 257, 300]


def selections() -> Cases:
    """Each selection, and the statistics of all events and of those of a selection, of records of up to 300 events."""
    numbers = Numbers(7)
    cases: Cases = []
    for size in SIZES:
        text = record_text(numbers, size)
        cases.append(modelled(f"generated stats/{size} events", ["ask", "stats"], text))
        cases.append(modelled(f"generated stats/{size} events of a selection", ["ask", "stats", numbers.one_of(form.SELECTIONS)], text))
        for name in form.SELECTIONS:
            cases.append(modelled(f"generated count/{size} events, {name}", ["ask", "count", name], text))
    return cases


def selection(numbers: Numbers) -> List[str]:
    """Mostly none; else one, mostly of tests or containers, whose executions are whole."""
    names = ("tests", "tests", "containers", "containers") + form.SELECTIONS
    return [numbers.one_of(names)] if numbers.below(3) == 0 else []


def expected(numbers: Numbers, most: int) -> Tuple[List[str], bytes]:
    """Some expected numbers of a record of up to `most` events, of which about half are met."""
    text = record_text(numbers, numbers.below(most))
    asked = ["stats", *selection(numbers)]
    lines = modelled("", ["ask", *asked], text).output.decode().split("\n")
    words = {}
    for line in numbers.some_of(lines[:-1], 5):
        name, count = line.split(" ")
        words[name] = f"{name}={int(count) + max(0, numbers.below(4) - 2)}"
    return [*asked, *words.values()], text


def expectations() -> Cases:
    """Expectations, and as many that are explained."""
    numbers = Numbers(11)
    cases: Cases = []
    for number in range(60):
        words, text = expected(numbers, 40)
        cases.append(modelled(f"generated expectations/{number}", ["ask", *words], text))
        words, text = expected(numbers, 300)
        cases.append(modelled(f"generated expectations/{number}, explained", ["ask", "explain", *words], text))
    shown = [part for case in cases for part in ("\n    ", "    and ") if part in case.output.decode()]
    cases.append(each_is_met("generated expectations, explained", shown, ["\n    ", "    and "], 5))
    return cases + [each_is_met("generated expectations", [str(case.status) for case in cases[:-1]], ["0", "1"], 15)]


def where_it_holds(name: str, asked: Condition, text: bytes, record: Record) -> Case:
    """Asks for each event whether the condition holds of it, or else its opposite: always a yes."""
    word = write_condition(asked)
    held = [holds_at(record, asked, position) for position in range(len(record.entries))]
    words = [word if is_held else f"not({word})" for is_held in held]
    return Case(name, [item.encode() for item in ["ask", "match", "exactly", *words]], text, b"yes\n")


def is_parted(asked: Condition, record: Record) -> bool:
    """Whether the condition holds of some events, and not of all."""
    held = [holds_at(record, asked, position) for position in range(len(record.entries))]
    return any(held) and not all(held)


def atoms() -> Cases:
    """Each atom holds of some of 130 events and not of others, and of which it holds."""
    text = record_text(Numbers(2), 130)
    record = read_record(text)
    cases: Cases = [where_it_holds(f"generated atom/{write_condition(atom)!r}", atom, text, record) for atom in ATOMS]
    idle = [atom for atom in ATOMS if not is_parted(atom, record)]
    return cases + [Check("generated atom/each holds somewhere", idle, [])]


PLAIN = [("name", "one"), ("id", "[t:"), ("kind", "report"), ("skipped", "off")]
PLAIN += [(word,) for word in ("test", "container", "engine", "started", "failed")]


def one_of_two() -> Cases:
    """For each two atoms the condition that one of them holds and not the other one."""
    text = record_text(Numbers(13), 130)
    record, cases = read_record(text), []
    for first, second in product(PLAIN, repeat=2):
        name = f"generated one of two/{write_condition(first)}, {write_condition(second)}"
        asked = ("any", (("all", (first, ("not", second))), ("all", (second, ("not", first)))))
        cases.append(where_it_holds(name, asked, text, record))
    return cases


def deep_conditions() -> Cases:
    numbers = Numbers(3)
    text = record_text(numbers, 130)
    record = read_record(text)
    cases: Cases = []
    met = []
    for number in range(400):
        asked = condition(numbers, 5)
        cases.append(where_it_holds(f"generated condition/{number}", asked, text, record))
        if brackets_of(asked) >= 4 and is_parted(asked, record):
            met.append("deep")
    return cases + [each_is_met("generated condition", met, ["deep"], 100)]


def fitting(numbers: Numbers, asked: Events, number: int) -> str:
    """The text of a condition that mostly holds of an event, by its number among those asked."""
    made = condition(numbers, 2)
    for _ in range(numbers.below(12)):
        if number < len(asked.positions) and holds_at(asked.record, made, asked.positions[number]):
            break
        made = condition(numbers, 2)
    return write_condition(made)


def events_of(text: bytes, selected: List[str]) -> Events:
    """The events of a record text that a selection picks; all where there is none."""
    return all_events(read_record(text)).pick((selected + ["all"])[0])


def conditions_in_turn(numbers: Numbers, asked: Events) -> List[str]:
    """Up to four conditions, most of which hold of events one after the other."""
    return [fitting(numbers, asked, 2 * step + numbers.below(2)) for step in range(numbers.below(5))]


def conditions_of_events(numbers: Numbers, asked: Events) -> List[str]:
    """A condition for each event; every fourth time any number of conditions."""
    if numbers.below(4) == 0:
        return [write_condition(condition(numbers, 2)) for _ in range(numbers.below(5))]
    return [fitting(numbers, asked, number) for number in range(len(asked.positions))]


def matches(mode: str, seed: int, conditions_for, answers: List[str]) -> Cases:
    """Three hundred matches of records of at most eight events."""

    def asked(numbers: Numbers) -> Tuple[List[str], bytes]:
        text, selected = short_record(numbers), selection(numbers)
        return ["ask", "match", *selected, mode, *conditions_for(numbers, events_of(text, selected))], text

    return met_series(f"generated {mode}", seed, 300, asked, lambda case: [kind_of_answer(case.output.decode())], answers, 4)


def kind_of_answer(output: str) -> str:
    """A no with its number, or a yes with how many positions it has."""
    parts = output.split()
    return f"yes of {len(parts) - 1}" if parts[0] == "yes" and len(parts) > 1 else output[:-1]


def lists() -> Cases:
    """Lists of events by a selection and up to three conditions, of few events and of up to 300."""
    numbers = Numbers(53)
    texts = [short_record(numbers) for _ in range(200)] + [record_text(numbers, size) for size in SIZES for _ in range(4)]
    cases: Cases = []
    for number, text in enumerate(texts):
        name = numbers.one_of(("all",) * 9 + form.SELECTIONS)
        words = [write_condition(condition(numbers, 2)) for _ in range(numbers.below(4))]
        cases.append(modelled(f"generated list/{number}", ["ask", "list", name, *words], text))
    met = [min(case.output.decode().count("\n"), 3) for case in cases]
    return cases + [each_is_met("generated list", [f"{count} lines" for count in met], [f"{count} lines" for count in range(4)], 10)]


def executions() -> Cases:
    numbers = Numbers(8)
    texts = [short_record(numbers) for _ in range(300)]
    texts += [record_text(numbers, 100, nodes) for nodes in range(1, 7) for _ in range(4)]
    words = [["ask", "executions", *selection(numbers)] for _ in texts]
    cases: Cases = [modelled(f"generated executions/{number}", *it) for number, it in enumerate(zip(words, texts))]
    met = [line.split()[1] for case in cases for line in case.output.decode().split("\n")[:-1]]
    return cases + [each_is_met("generated executions", met, ["skipped", "aborted", "succeeded", "failed"], 30)]


def reports() -> Cases:
    numbers = Numbers(52)
    texts = [short_record(numbers) for _ in range(100)] + [record_text(numbers, 100) for _ in range(20)]
    return [modelled(f"generated report/{number}", ["ask", "report"], text) for number, text in enumerate(texts)]


def cases() -> Cases:
    in_order = ["yes", "yes of 1", "yes of 2", "yes of 3", "yes of 4", "no 0", "no 1", "no 2", "no 3"]
    return [
        *[case for some in (selections, expectations, atoms, one_of_two, deep_conditions) for case in some()],
        *matches("in-order", 5, conditions_in_turn, in_order),
        *matches("exactly", 6, conditions_of_events, ["yes", "wrong-count", "no 0", "no 1", "no 2"]),
        *matches("loosely", 9, conditions_of_events, ["yes", "no 0", "no 1", "no 2"]),
        *[case for some in (lists, executions, reports) for case in some()],
    ]
