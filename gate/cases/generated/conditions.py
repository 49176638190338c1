"""Generated conditions."""

from generated.numbers import Numbers
from model.conditions import Condition, read_condition, write_condition

ATOMS = [
    read_condition(text.replace("␊", "\n"))
    for text in """
test container engine id(e]) id([engine:) id(]/[t:) id(%252F) id([engine:e]/[class:A]/[t:m]/[d:)
segment(t,m) segment(class,A) segment(t,a/b) segment(engine,x) name() name(one) name(a%28b%29%2Cc%25)
kind(dynamic) kind(skip) kind(start) kind(finish) kind(report) skipped() skipped(off) skipped(spät)
started succeeded failed aborted failed() failed(boom) failed(booms) aborted(boom) aborted(a%28b%29%2C%25|c␊)
message() message(oom) message(%28b%29%2C) entry() entry(k,v) entry(k,v,k,v) entry(k,v,l,w) entry(l,w,k,v)
entry(m,,l,w,k,v) entry(a%28,b%29%2C%25) entry(k,w) kind(file) file(out/log.txt) file(a%28b%29%2C%25)
""".split()
]
"""Every form of an atom, most of them with several texts."""


def condition(numbers: Numbers, brackets: int) -> Condition:
    """A condition of at most `brackets` brackets within one another."""
    shape = numbers.below(8)
    if brackets == 0 or shape == 0:
        return numbers.one_of(ATOMS)
    if shape < 3:
        return ("not", condition(numbers, brackets - 1))
    members = [condition(numbers, brackets - 1) for _ in range(3 - numbers.below(10) // 3)]
    return ("all" if shape < 5 else "any", tuple(members))


def brackets_of(asked: Condition) -> int:
    """How many brackets of `all(`, `any(` and `not(` stand within one another."""
    if asked[0] == "not":
        return 1 + brackets_of(asked[1])
    return 1 + max(map(brackets_of, asked[1]), default=0) if asked[0] in ("all", "any") else 0


def condition_text(numbers: Numbers, brackets: int) -> str:
    return write_condition(condition(numbers, brackets))
