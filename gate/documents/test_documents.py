"""Checks README.md, docs/*.md and crates/*/README.md: their commands, their quotes, and the rules of `rules.py`."""

import re
import unittest

from commands import examples_of
from documents import documents_of
from fixtures import PROGRAM, TOP, WithProgram, needs, parameterized, run
from rules import quotes_of, rules_of
from tree import Tree

LISTED = ["README.md", *(f"docs/{it}.md" for it in "API ARCHITECTURE DECISIONS ENGINES FORMATS INSTALL JUNIT PROVED REFERENCE SPEED TESTING".split())]
"""The documents besides the crates' READMEs."""

TREE = Tree(TOP)
DOCUMENTS = documents_of(TOP)
EXAMPLES = [example for document in DOCUMENTS for example in examples_of(document)]


class Documents(unittest.TestCase):
    @parameterized(lambda: rules_of(TREE, DOCUMENTS, LISTED).items())
    def test_rules(self, rule):
        self.assertEqual(rule(), [])

    @parameterized(lambda: [quote for document in DOCUMENTS for quote in quotes_of(TREE, document).items()])
    def test_quotes(self, fault):
        self.assertEqual(fault, "")

    def test_api(self):
        """`tools/api > docs/API.md` renews the page."""
        ran = run([f"{TOP}/tools/api"])
        self.assertEqual((ran.status, ran.output.decode(), ran.error), (0, TREE.text("docs/API.md"), b""))

    @needs("rt")
    def test_kit(self):
        """docs/PROVED.md names a kit with the logic of the one here. (Kits with one logic differ in what stands around the prover.)"""
        kit = run(["rt", "version"]).output.decode().splitlines()[0]
        logic = kit.partition(" ")[2]
        self.assertEqual(re.findall(r"`rattle-kit\S* (logic [^`]*)`", TREE.text("docs/PROVED.md")), [logic])


class Commands(WithProgram):
    @parameterized(EXAMPLES, name=lambda it: f"{it.place}: {it.command}")
    def test_commands(self, example):
        self.assertEqual(example.fault(TOP, PROGRAM), "")
