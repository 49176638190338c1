"""Numbers that follow from one another, and what each generator needs."""

from collections import Counter
from typing import Callable, List, Sequence, Tuple, TypeVar, Union

from harness import Case, Check, RecordedRun
from model.program import outcome
from tables.building import Word, as_words

Item = TypeVar("Item")
Cases = List[Union[Case, Check, RecordedRun]]


class Numbers:
    """A linear congruence, whose upper bits are the numbers: the same ones for the same seed."""

    def __init__(self, seed: int):
        self.last = seed

    def below(self, limit: int) -> int:
        """The next number, below a limit."""
        self.last = (self.last * 6_364_136_223_846_793_005 + 1_442_695_040_888_963_407) % 2**64
        return (self.last >> 33) % limit

    def one_of(self, items: Sequence[Item]) -> Item:
        return items[self.below(len(items))]

    def some_of(self, items: Sequence[Item], most: int) -> List[Item]:
        """Up to `most` of the items, in any order, also one twice."""
        return [self.one_of(items) for _ in range(self.below(most + 1))]


def modelled(name: str, words: Sequence[Word], data: bytes) -> Case:
    """A start of the program of which has to come what the model says."""
    wanted = outcome(as_words(words), data)
    return Case(name, as_words(words), data, wanted.output, wanted.error, wanted.status)


def series(name: str, numbers: Numbers, count: int, make: Callable[[Numbers], Tuple[Sequence[Word], bytes]]) -> List[Case]:
    """Starts of the program with the words and the input that `make` draws."""
    return [modelled(f"{name}/{number}", *make(numbers)) for number in range(count)]


def each_is_met(name: str, met: Sequence[str], wanted: Sequence[str], least: int) -> Check:
    """Each of the `wanted` answers is met at least `least` times: a generator that no longer makes one fails."""
    counts = Counter(met)
    rare = [answer for answer in wanted if counts[answer] < least]
    return Check(f"{name}/each answer is met {least} times", rare, [])


def met_series(name: str, seed: int, count: int, make: Callable, kinds_of: Callable, wanted: Sequence[str], least: int) -> Cases:
    """A series of which each of the `wanted` answers is met; `kinds_of` says which of them a case has."""
    cases = series(name, Numbers(seed), count, make)
    return [*cases, each_is_met(name, [kind for case in cases for kind in kinds_of(case)], wanted, least)]


def parts_of(wanted: Sequence[str]) -> Callable[[Case], Sequence[str]]:
    """Which of some texts stand in the output of a case."""
    return lambda case: [part for part in wanted if part in case.output.decode()]
