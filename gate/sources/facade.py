"""The names that one library gives out to authors of engines: each is used, and each word of their clauses can be named there."""

import re
from typing import Dict, Iterator, List, Sequence, Set

from definitions import Scope, modules_of
from sources import Source
from tree import Tree

FACADE = "engine_testkit"
DOCUMENTS = ("README.md", "docs/ENGINES.md", "docs/JUNIT.md", "docs/REFERENCE.md")
USE = re.compile(r"^pub use ([^;]*);", re.MULTILINE)
MODULE = re.compile(r"^pub mod (\w+);", re.MULTILINE)
QUOTED = re.compile(r"```.*?```|`[^`]*`|^    .*", re.DOTALL | re.MULTILINE)
OF_RUST = (".declared.", ".proofs.", ".steps.")
"""Parts of paths that stand for types, constants, lemmas and words of private clauses, not for words that readers need."""


def uses_of(source: Source) -> Dict[str, str]:
    """The names that a file's `pub use` items give out, each with the first word of its path."""
    found = {}
    for path in (" ".join(path.split()) for path in USE.findall("\n".join(source.code))):
        items = [item.strip() for item in re.split("[{},]", path)]
        names = [item.split(" as ")[-1].split("::")[-1] for item in items if item and not item.endswith("::")]
        found.update(dict.fromkeys(names, path.split("::")[0]))
    return found


def given_names(sources: Sequence[Source]) -> Dict[str, str]:
    """The names that the facade's public modules give out, but for its laws, each with the library that has it."""
    files = {it.path: it for it in sources if it.crate == FACADE}
    modules = MODULE.findall("\n".join(files[f"crates/{FACADE}/src/lib.rt"].code))
    found: Dict[str, str] = {}
    for module in modules:
        found.update({} if module == "laws" else uses_of(files[f"crates/{FACADE}/src/{module}.rt"]))
    return found


def unused_names(tree: Tree, sources: Sequence[Source]) -> List[str]:
    """Names that the facade gives out, and that no example, no test of one and no document uses."""
    code = [line for it in sources if "example_" in it.crate for line in it.code]
    quoted = [text for it in DOCUMENTS if it in tree.files for text in QUOTED.findall(tree.text(it))]
    used = set(re.findall(r"\w+", "\n".join(code + quoted)))
    return [f"{FACADE} gives out {name}, which no example and no document uses" for name in sorted(set(given_names(sources)) - used)]


def clause_words(sources: Sequence[Source], given: Dict[str, str]) -> Iterator[str]:
    """The words of `specs/`, by their whole paths, that clauses of what is given out name."""
    for source in (it for it in sources if it.crate in given.values() and not it.is_test):
        scope, names = Scope("\n".join(source.lines)), {name for name, crate in given.items() if crate == source.crate}
        for function in (it for it in source.functions() if (it.type or it.name) in names):
            yield from scope.named(function.head)


def unnamed_words(tree: Tree, sources: Sequence[Source]) -> List[str]:
    """Words of clauses of what the facade gives out that its own `specs/` doesn't give out."""
    own = [it for it in modules_of(tree) if it.crate == FACADE]
    modules = {path for it in own for path in it.scope.modules.values()}
    items = {path for it in own for paths in it.scope.items.values() for path in paths}
    found: Set[str] = set()
    for path in clause_words(sources, given_names(sources)):
        crate = path.split(".")[1] if path.startswith("Rattle.") else ""
        if crate in tree.crates and not any(part in path for part in OF_RUST):
            if path not in items and path.rpartition(".")[0] not in modules:
                found.add(f"{path} stands in a clause of what {FACADE} gives out, and its specs don't give it out")
    return sorted(found)
