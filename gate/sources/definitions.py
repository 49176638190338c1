"""The files of the crates' specs: their definitions, and what the names in them stand for."""

import re
from collections import defaultdict
from dataclasses import dataclass
from typing import Dict, Iterator, List, Sequence, Set

from tree import Tree

USE = re.compile(r"^ *(?:pub |ghost )*use ([^\s{;]+?)(?:\.\{([^}]*)\})?(?: as (\w+))?;?$", re.MULTILINE)
"""A line of imports: a path, and items of it or another name for it."""
NO_NAME = re.compile(r"--.*|\"[^\"]*\"")
NAME = re.compile(r"[^\s(){};,.λ]+(?:\.[^\s(){};,.λ]+)*")
"""A name, or a path with dots."""
BEGINS = re.compile(r"(?:abbrev|unfoldable|data|record|mutual|module|pub (?!use |mod ))\b")
"""How a definition begins, or a block of them."""
BLOCK = re.compile(r"(?:abbrev )?(?:mutual|module)\b")
DECLARED = re.compile(r"(?:(?:abbrev|unfoldable|pub|data|record) )+(\S+)")


class Scope:
    """What the names of a text stand for: items, and modules."""

    def __init__(self, text: str) -> None:
        self.items: Dict[str, Set[str]] = defaultdict(set)
        self.modules: Dict[str, str] = {}
        for path, items, alias in USE.findall(text):
            for item in filter(None, map(str.strip, items.split(","))):
                name, _, other = item.partition(" as ")
                self.add(other or name, f"{path}.{name}")
            if not items:
                self.modules[alias or path.split(".")[-1]] = path

    def add(self, name: str, item: str) -> None:
        """Adds a name of an item. A text has an operator by its parts."""
        self.items[name.strip("◌").split("◌")[0]].add(item)

    def named(self, text: str) -> Set[str]:
        """The items that a text names, each by its whole path."""
        found: Set[str] = set()
        for first, _, rest in (it.partition(".") for it in NAME.findall(NO_NAME.sub("", text))):
            found |= self.items.get(first, set())
            if first in self.modules and rest:
                found.add(f"{self.modules[first]}.{rest}")
        return found


@dataclass(frozen=True)
class Definition:
    """A definition, or a block of them: their names, and the text without the comment above."""

    names: Sequence[str]
    text: str


class Module:
    """A file of a crate's specs."""

    def __init__(self, path: str, text: str) -> None:
        self.path, self.crate, self.lines = path, path.split("/")[1], text.split("\n")
        self.is_of_steps = re.search(r"/specs/steps[./]", path) is not None
        self.name = re.sub(r"\.Lib$", "", ".".join(["Rattle", *path[: -len(".antt")].split("/")[1:]]))
        self.scope = Scope(text)
        self.definitions = list(self._definitions())
        for name in [name for it in self.definitions for name in it.names]:
            self.scope.add(name, f"{self.name}.{name}")

    def _definitions(self) -> Iterator[Definition]:
        starts = [at for at, line in enumerate(self.lines) if BEGINS.match(line)]
        for start, end in zip(starts, [*starts[1:], len(self.lines)]):
            while not self.lines[end - 1] or self.lines[end - 1].startswith(("--", "infix")):
                end -= 1
            yield Definition(names_of(self.lines[start:end]), "\n".join(self.lines[start:end]))


def names_of(lines: Sequence[str]) -> List[str]:
    """The names that a definition declares: its own, those in its block, and the constructors of data, but no fields."""
    found, depth, is_data = [], 0, False
    for line in lines:
        text, indent = line.lstrip(), len(line) - len(line.lstrip())
        declared, constructor = DECLARED.match(text), re.match(r"(\S+) :", text)
        if BLOCK.match(text):
            depth = indent + 2
        elif declared and indent <= depth:
            found.append(declared[1])
            depth, is_data = indent, " data " in f" {text}"
        elif constructor and is_data and indent == depth + 2:
            found.append(constructor[1])
    return found


def modules_of(tree: Tree) -> List[Module]:
    """The files of the crates' specs."""
    return [Module(path, tree.text(path)) for path in tree.files if re.fullmatch(r"crates/\w+/specs/.*\.antt", path)]
