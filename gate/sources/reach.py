"""Which definitions a reader of the public contracts has to believe: those that the contracts reach.

A contract has clauses and ghost members. Those of a public function, trait or type count, those of an impl whose trait and types are public,
and all of an example, which shows what authors write. They reach what they name; a definition reaches what its text names, and a type its
`Model` and the types of its fields. What no contract reaches stands in `specs/steps` of its crate, a file or a folder, and nothing else does.
"""

import re
from collections import defaultdict
from dataclasses import dataclass
from typing import Dict, Iterator, List, Mapping, Optional, Sequence, Set

from definitions import Definition, Module, Scope, modules_of
from facade import uses_of
from sources import Source, sources_of
from tree import Tree

ITEM = re.compile(r"(pub )?(?:pub\(\w+\) )?(?:const )?(fn|struct|enum|trait|impl)\b(?:<.*?>)? *(\w*)")
METHOD = re.compile(r"    (pub )?(?:pub\(\w+\) )?(?:const )?fn ")
CONTRACT = re.compile(r"(?:    |        )(?:ghost (?!use\b)|requires\b|ensures\b)")
"""How a clause or a ghost member begins: no deeper than a method's clauses."""


@dataclass(frozen=True)
class Item:
    """An item at the top of a file: its file, whether it says `pub`, its kind, its name (of an impl the trait's), and its lines."""

    path: str
    is_pub: bool
    kind: str
    name: str
    lines: Sequence[str]

    def head(self) -> str:
        """What stands before its body; all of a type."""
        text = "\n".join(self.lines)
        return text if self.kind in ("struct", "enum") else re.split(r"\{$", text, 1, re.MULTILINE)[0]

    def is_given(self, names: Optional[Set[str]]) -> bool:
        """Whether it is one of the names that a crate gives out; of an example all count."""
        return names is None or self.is_pub and self.name in names

    def contracts(self) -> str:
        """Its clauses and ghost members; of an impl without a trait those of public methods."""
        is_own = self.kind == "impl" and not re.search(r"\bfor ", self.head())
        found, is_open, depth, within = [], True, 0, False
        for line in self.lines:
            method = METHOD.match(line)
            if method:
                is_open = not is_own or method[1] is not None
            if within or CONTRACT.match(line):
                found += [line] if is_open else []
                depth += line.count("{") - line.count("}")
                within = depth > 0 or not line.endswith(("}", ";", ","))
        return "\n".join(found)


def items_of(source: Source) -> Iterator[Item]:
    """The items at the top of a file."""
    starts = [(at, found) for at, line in enumerate(source.code) for found in [ITEM.match(line)] if found]
    for (start, found), end in zip(starts, [*(at for at, _ in starts[1:]), len(source.code)]):
        yield Item(source.path, found[1] is not None, found[2], found[3], source.code[start:end])


def public_names(sources: Mapping[str, Source], path: str) -> Set[str]:
    """The names that a file gives out, and its public modules."""
    source, folder = sources[path], re.sub(r"(/lib)?\.rt$", "", path)
    names = set(uses_of(source)) | {it.name for it in items_of(source) if it.is_pub}
    below = re.findall(r"^pub mod (\w+);", "\n".join(source.code), re.MULTILINE)
    return names.union(*(public_names(sources, f"{folder}/{it}.rt") for it in below))


def words(text: str) -> Set[str]:
    return set(re.findall(r"\w+", text))


class Reach:
    """What the public contracts of a repository reach: its definitions by their whole paths, and its types as `crate::Type`."""

    def __init__(self, tree: Tree) -> None:
        self.modules = {it.name: it for it in modules_of(tree)}
        self.named: Dict[str, Set[str]] = defaultdict(set)
        """What each definition, each type and each public item names, by its paths."""
        for module in self.modules.values():
            for definition in module.definitions:
                for name in definition.names:
                    self.named[f"{module.name}.{name}"] = module.scope.named(definition.text)
        sources = {it.path: it for it in sources_of(tree) if not it.is_test}
        found = [it for crate in tree.crates if f"crates/{crate}/src/lib.rt" in sources for it in self._roots_of(crate, sources)]
        self.reached = dict.fromkeys(found, "")
        """What is reached, each with what it is first reached from."""
        for name in found:
            new = {it for path in self.named[name] for it in self.meant(path)} - set(self.reached)
            self.reached.update(dict.fromkeys(new, name))
            found += sorted(new)

    def _roots_of(self, crate: str, sources: Mapping[str, Source]) -> List[str]:
        """The public types and the other public items of a crate; what they name is noted."""
        given = None if crate.startswith("example_") else public_names(sources, f"crates/{crate}/src/lib.rt")
        items = [(it, Scope("\n".join(source.lines))) for source in sources.values() if source.crate == crate for it in items_of(source)]
        own = {it.name for it, _ in items if it.kind in ("struct", "enum", "trait")}
        public = {it.name for it, _ in items if it.is_given(given)}
        roots = []
        for it, scope in items:
            types, text = own & words(it.head()), it.contracts()
            named = scope.named(text) | {f"{crate}::{name}" for name in own & words(text)}
            holders = [f"{it.path}: {it.lines[0]}"]
            if it.kind in ("struct", "enum"):
                holders, named = [f"{crate}::{it.name}"], named | {f"{crate}::{name}" for name in types}
            elif it.kind == "impl" and types - public:
                holders = [f"{crate}::{name}" for name in types - public]
            for holder in holders:
                self.named[holder] |= named
            roots += holders if (types <= public if it.kind == "impl" else it.is_given(given)) else []
        return roots

    def meant(self, path: str) -> Set[str]:
        """The definition or the types that a path stands for; nothing where they are of no crate of the repository."""
        module, _, name = path.rpartition(".")
        above, _, last = module.rpartition(".")
        if path in self.named:
            return {path}
        if ".declared." in path:
            crate = path.split(".")[1]
            return {f"{crate}::{part}" for part in path.split(".")} & set(self.named)
        if module in self.modules and name in self.modules[module].scope.items:
            return set().union(*map(self.meant, self.modules[module].scope.items[name]))
        if above in self.modules and last in self.modules[above].scope.modules:
            return self.meant(f"{self.modules[above].scope.modules[last]}.{name}")
        return self.meant(module) if above else set()

    def reaching(self, module: Module, definition: Definition) -> List[str]:
        """What reaches a definition of this file, or one of a block; nothing where no contract does."""
        return [self.reached[name] for name in (f"{module.name}.{it}" for it in definition.names) if name in self.reached]


def reach_faults(tree: Tree) -> List[str]:
    """Definitions that stand in the wrong folder."""
    reach = Reach(tree)
    faults = []
    for module, it in [(module, it) for module in reach.modules.values() for it in module.definitions]:
        found = reach.reaching(module, it)
        if module.is_of_steps and found:
            faults.append(f"{module.path}: {it.names[0]}: a public contract reaches it, by {found[0]}")
        elif not module.is_of_steps and not found:
            faults.append(f"{module.path}: {it.names[0]}: no public contract reaches it, and it isn't in specs/steps")
    return faults
