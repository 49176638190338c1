"""Holds the checks of commands, names and quotes against small trees that are right, or wrong in one way."""

from commands import examples_of
from documents import documents_of
from fixtures import parameterized, write
from rules import quotes_of, rules_of
from small_tree import SmallTree, rows_of
from tree import Tree

PROGRAM = "#!/bin/sh\nprintf 'one\\ntwo\\nthree\\n'\n"
LISTED = ["README.md", "docs/SPEED.md", "docs/USE.md"]


class Rules(SmallTree):
    def faults(self, top):
        write(f"{top}/program", PROGRAM, 0o755)
        tree, documents = Tree(top), documents_of(top)
        found = [fault for rule in rules_of(tree, documents, LISTED).values() for fault in rule()]
        for document in documents:
            found += [f"{place}: {fault}" for place, fault in quotes_of(tree, document).items() if fault]
            examples = [(it, it.fault(top, f"{top}/program")) for it in examples_of(document)]
            found += [f"{it.place}: {it.command}: {fault}" for it, fault in examples if fault]
        return found

    @parameterized(rows_of(__file__))
    def test_rules(self, fault, files):
        self.check(fault, files)
