"""Lemmas that stand twice: one statement under two names in proofs/ of the crates, but for the names of what it binds and white space."""

import re
from collections import defaultdict
from typing import Dict, List

from definitions import NAME, NO_NAME, Module
from tree import Tree

LEMMA = re.compile(r"^(?:pub )?(\S+) : (.*(?:\n +.*)*)", re.MULTILINE)
"""A signature at the begin of a line, and the indented lines after it. (What begins `abbrev` is a definition.)"""
BINDER = re.compile(r"[({]([^(){}:]+) : |λ ([^.]+)\.")


def statement_of(module: Module, text: str) -> str:
    """A statement with numbers for what it binds, and with whole paths for the names that the file imports or defines."""
    text = NO_NAME.sub("", text)
    bound = dict.fromkeys(name for groups in BINDER.findall(text) for names in groups for name in names.split())
    numbers = {name: f"#{number}" for number, name in enumerate(bound)}

    def meant(found: "re.Match[str]") -> str:
        first, dot, rest = found[0].partition(".")
        paths = sorted(module.scope.items.get(first, {module.scope.modules.get(first, first)}))
        return numbers.get(first, "|".join(paths)) + dot + rest

    return " ".join(NAME.sub(meant, text).split())


def restated(tree: Tree, most: int) -> List[str]:
    """Each statement that has two names or more, with the places of its lemmas; nothing where there are no more of these than may be."""
    places: Dict[str, Dict[str, str]] = defaultdict(dict)
    for path in [it for it in tree.files if re.fullmatch(r"crates/\w+/proofs/.*\.antt", it)]:
        text = tree.text(path)
        module = Module(path, text)
        for found in LEMMA.finditer(text):
            places[statement_of(module, found[2])][f"{path}: {found[1]}"] = " ".join(found[2].split())
    twice = [f"{' and '.join(found)} say the same: {list(found.values())[0]}" for found in places.values() if len(found) > 1]
    return twice if len(twice) > most else []
