"""Checks the repository's sources by the rules of `rules.py`."""

import unittest

from fixtures import TOP, parameterized
from rules import Limits, rules_of
from tree import Tree

LIMITS = Limits(
    handles="Handles allowed: Threads, Wait.\n",
    # (an author needs no clause to make an engine of tests; no clause can say what another thread does)
    without_clause=[
        "crates/tk_waiting/src/meetings.rt wait",
        "crates/example_engine/src/by_hand/broken.rt broken_engine",
        *("crates/example_engine/src/case_tests.rt case_engine", "crates/example_engine/src/desk.rt desk_engine"),
        "crates/example_engine/src/evens.rt even_numbers",
    ],
    fewest_wrong_bodies=104,
    fewest_tests=146,
    most_restated=3,
)


class Sources(unittest.TestCase):
    @parameterized(lambda: rules_of(Tree(TOP), LIMITS).items())
    def test_rules(self, rule):
        self.assertEqual(rule(), [])
