"""The files of the crates' src: their code without comments and without what stands in quotes, their clauses, their functions."""

import re
from dataclasses import dataclass
from typing import Iterator, List, Set

from tree import Tree

NO_CODE = re.compile(r"""//[^\n]*|'(?:\\.|[^'\\\n])'|"(?:\\.|[^"\\])*\"""", re.DOTALL)
"""A comment, a letter in quotes, or a text in quotes, which may have several lines."""
CLAUSE = re.compile(r"\s*(requires|ensures)\b")
"""How a clause begins. It ends with the brace that closes it."""
NO_CALL = re.compile(r"^\s*(pub )?(ghost )?(use [^;]*|mod \w+);", re.MULTILINE)
"""Items that name functions and call none."""
ITEM = re.compile(r"^impl(?:<.*?>)? (\w+)|^( *)pub (?:const )?fn (\w+)[^(]*\(\s*(&?(?:mut )?self\b)?", re.MULTILINE)
"""Where the functions of a type begin, or a public function does. (An impl of a trait has no public function.)"""
HEAD_END = re.compile(r"\{\}?$|;$|^\s*(?:pub(?:\(\w+\))? )?(?:const )?fn ", re.MULTILINE)
"""How the head of a function ends: with its body, or at the latest with another function."""


@dataclass(frozen=True)
class Function:
    """A public function: its file, its type if it has one, its name, whether it is a method, whether a clause says what it does, and its head."""

    path: str
    type: str
    name: str
    is_method: bool
    has_clause: bool
    head: str

    def __str__(self) -> str:
        return f"{self.type}::{self.name}" if self.type else self.name


def blank(found: "re.Match[str]") -> str:
    """What stands in the code for a comment or for what is in quotes, in as many lines."""
    text = found[0]
    return "" if text.startswith("//") else text[0] + "\n" * text.count("\n") + text[-1]


class Source:
    """A file of a crate's src."""

    def __init__(self, path: str, text: str) -> None:
        self.path, self.crate, self.lines = path, path.split("/")[1], text.split("\n")
        self.is_test = self.crate.startswith("test_")
        self.code = [line.rstrip() for line in NO_CODE.sub(blank, text).split("\n")]
        self.clause_lines = self._clause_lines()
        self.clauses = [line for number, line in enumerate(self.code, 1) if number in self.clause_lines]
        others = [line for number, line in enumerate(self.code, 1) if number not in self.clause_lines]
        self.body = NO_CALL.sub("", "\n".join(others))

    def _clause_lines(self) -> Set[int]:
        """The numbers of the lines that clauses have, counted from 1."""
        found, depth = set(), 0
        for number, line in enumerate(self.code, 1):
            if depth > 0 or CLAUSE.match(line):
                found.add(number)
                depth += line.count("{") - line.count("}")
        return found

    def functions(self) -> Iterator[Function]:
        code, type_name = "\n".join(self.code), ""
        for found in ITEM.finditer(code):
            new_type, indent, name, receiver = found.groups()
            if new_type:
                type_name = new_type
            else:
                end = HEAD_END.search(code, found.end())
                head = code[found.end() : end.start() if end else None]
                has_clause = re.search(r"^\s*ensures\b", head, re.MULTILINE) is not None
                yield Function(self.path, type_name if indent else "", name, receiver is not None, has_clause, head)


def sources_of(tree: Tree) -> List[Source]:
    return [Source(path, tree.text(path)) for path in tree.files if re.fullmatch(r"crates/\w+/src/.*\.rt", path)]
