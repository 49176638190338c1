"""Holds each rule for sources against small trees that are right, or wrong in one way; the repository itself shows what else is right."""

from fixtures import parameterized
from rules import Limits, rules_of
from small_tree import SmallTree, rows_of
from tree import Tree

LIMITS = Limits("Handles allowed: Threads, Wait.\n", ["crates/tk_low/src/lanes.rt spare"], fewest_wrong_bodies=2, fewest_tests=2)


class Rules(SmallTree):
    def faults(self, top):
        return [fault for rule in rules_of(Tree(top), LIMITS).values() for fault in rule()]

    @parameterized(rows_of(__file__))
    def test_rules(self, fault, files):
        self.check(fault, files)
