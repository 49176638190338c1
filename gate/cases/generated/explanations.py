"""Explanations of generated records: of matches, lifecycles, executions that overlap or hold locks, lists and executions."""

from typing import Callable, List, Sequence, Tuple

import form
from generated import lifecycles, overlaps
from generated.conditions import ATOMS, condition_text
from generated.numbers import Cases, Numbers, met_series, modelled, parts_of
from generated.questions import conditions_in_turn, conditions_of_events, events_of, fitting, selection
from generated.recordings import record_text, short_record
from model.conditions import write_condition
from model.questions import Events

Words = Callable[[Numbers, Events], List[str]]


def of_atoms(numbers: Numbers) -> str:
    """A condition that joins two to five atoms, a few of which hold of one event."""
    members = tuple(numbers.one_of(ATOMS) for _ in range(2 + numbers.below(4)))
    inner = members if numbers.below(4) else (("all", members[:2]), *members[2:])
    return write_condition(("all", inner))


def in_turn(numbers: Numbers, asked: Events) -> List[str]:
    """Up to four conditions, most of which hold of events one after the other, or of the same events in another turn."""
    words = conditions_in_turn(numbers, asked)
    if numbers.below(3) == 0 and words:
        words += [numbers.one_of(words)]
    return words if numbers.below(4) else words + [of_atoms(numbers)]


def of_events(numbers: Numbers, asked: Events) -> List[str]:
    """A condition for each event, of which one may be of atoms, and then some too few or too many."""
    words = conditions_of_events(numbers, asked)
    if words and numbers.below(2) == 0:
        words[numbers.below(len(words))] = of_atoms(numbers)
    extra = numbers.below(6)
    return words[:-1] if extra == 0 else words + ["test"] if extra == 1 else words


def of_some(numbers: Numbers, asked: Events) -> List[str]:
    """Up to three conditions that mostly hold of an event, and mostly one of atoms after them."""
    words = [fitting(numbers, asked, numbers.below(1 + len(asked.positions))) for _ in range(numbers.below(4))]
    return words if numbers.below(4) == 0 else words + [of_atoms(numbers)]


def forms_of(output: str) -> List[str]:
    """The forms that stand in the explanation of a match."""
    lines = output.split("\n")[:-1]
    shown = [form_of(line) for line in lines[1:]]
    return [lines[0].split()[0], *shown, *([f"no and {shown.count('nearest')} nearest"] if lines[0].startswith("no") else [])]


def form_of(line: str) -> str:
    forms = {"   does not hold: ": "nearest", "   holds, but is not after ": "too early", "no event is left": "none left"}
    named = [name for part, name in forms.items() if part in line]
    return named[0] if named else "event" if line.startswith("    ") else "condition"


def matches(mode: str, seed: int, count: int, most: int, words_for: Words, wanted: Sequence[str]) -> Cases:

    def asked(numbers: Numbers) -> Tuple[List[str], bytes]:
        text = short_record(numbers) if numbers.below(2) else record_text(numbers, numbers.below(most))
        selected = selection(numbers)
        return ["ask", "explain", *selected, mode, *words_for(numbers, events_of(text, selected))], text

    return met_series(f"generated explanation, {mode}", seed, count, asked, lambda case: set(forms_of(case.output.decode())), wanted, 10)


TAILS = ["start", "start", "skip|off", "finish|ok", "finish|fail|boom", "report|k|v", "file|out/log.txt"]
IDS = ["[engine:e]/[d:1]", "[engine:e]/[d:1]/[d:2]", "[engine:e]/[d:1]", "[engine:e]/[class:A]", "[f:%2F\\p]", "[f:%2F\\p]/[d:1]", "[g:1]/[d:1]"]


def loose_lines(numbers: Numbers) -> List[str]:
    """The lines of some events that a run begins with, and of a few of any kind after them."""
    keys, registered = list(range(len(lifecycles.STATIC))), 0
    lines = [f"E|1|{key}|{key}|start" for key in range(numbers.below(3))]
    for stamp in range(1 + numbers.below(6)):
        if numbers.below(3) == 0:
            keys.append(form.MAX_DESCRIPTORS + registered)
            registered += 1
            lines.append(f"E|1|{keys[-1]}|{stamp}|dynamic|{numbers.one_of('CTB')}|{numbers.one_of(IDS)}|d\\n{keys[-1]}")
        else:
            lines.append(f"E|1|{numbers.one_of(keys)}|{stamp}|{numbers.one_of(TAILS)}")
    return lines


SENTENCES = """and never finished; neither started nor was skipped; but a static descriptor has its id; but its id was registered at;
but no descriptor before has the id of its parent; had not started; " started at; " was skipped at; " was registered at;
" published entries at; but its parent; but its child; already""".replace("\n", " ").split("; ")
"""What sentences of the lifecycle have in them."""


def broken(numbers: Numbers) -> Tuple[List[str], bytes]:
    lines = loose_lines(numbers) if numbers.below(3) == 0 else lifecycles.spoiled(numbers, lifecycles.kept_lines(numbers))
    return ["ask", "explain", "lifecycle"], lifecycles.text_of(lines)


OVERLAPS = ["yes", "no pair", "overlap\n", "the first as a writer", "the second as a writer", "both as writers"]
LOCKED = ["yes", "no pair\n0 ", "no pair\n2 ", "overlap, over global\n", "overlap, over db\n", "overlap, over a\\pb\n"]


def explained(name: str, seed: int, count: int, make: Callable, shown: Sequence[str]) -> Cases:
    return met_series(f"generated explanation, {name}", seed, count, make, parts_of(shown), shown, 3)


def of_lists() -> Cases:
    numbers = Numbers(63)
    cases: Cases = []
    for number in range(150):
        text = record_text(numbers, numbers.below(100))
        words = [numbers.one_of(("all",) * 9 + form.SELECTIONS), *(condition_text(numbers, 2) for _ in range(numbers.below(3)))]
        cases.append(modelled(f"generated explanation, list/{number}", ["ask", "explain", "list", *words], text))
        cases.append(modelled(f"generated explanation, executions/{number}", ["ask", "explain", "executions", *selection(numbers)], text))
    return cases


def cases() -> Cases:
    some, shown = [f"no and {it} nearest" for it in range(4)], ["yes", "condition", "event", "none left"]
    return [
        *matches("in-order", 58, 300, 13, in_turn, [*shown, "too early", *some]),
        *matches("exactly", 59, 300, 9, of_events, [*shown, "wrong-count", "nearest", some[1]]),
        *matches("loosely", 60, 300, 60, of_some, [*shown, *some]),
        *explained("lifecycle", 61, 700, broken, SENTENCES),
        *explained("exclusive", 62, 300, lambda numbers: overlaps.exclusive(numbers, "explain", "exclusive"), OVERLAPS),
        *explained("locks", 68, 300, lambda numbers: overlaps.locks(numbers, "explain", "locks"), LOCKED),
        *of_lists(),
    ]
