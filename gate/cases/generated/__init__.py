"""Cases that a generator makes, always the same ones. The plain model says what has to come of each."""

from typing import List

from generated import changes, explanations, lifecycles, overlaps, plans, questions, replays


def cases() -> List:
    """All generated cases, in their order."""
    return [case for module in (questions, lifecycles, overlaps, explanations, replays, plans, changes) for case in module.cases()]
