"""The rules for sources: what would break silently. `rt ci` doesn't refuse these things itself."""

import re
from dataclasses import dataclass
from typing import Callable, Dict, Iterable, List, Sequence, Set

from definitions import modules_of
from facade import unnamed_words, unused_names
from reach import reach_faults
from restated import restated
from sources import Function, Source, sources_of
from tree import Tree

MOST_COLUMNS = 100
"""How many columns a line of a clause and of specs/ may have."""

HEADLINE = "testkit_headline"
THEOREMS = ("Headline", "Witnesses")
"""The files whose records are theorems: what they alone name is read by nobody else."""


@dataclass(frozen=True)
class Limits:
    """What is asked of a tree: its exceptions, and how much there has to be."""

    handles: str
    without_clause: Sequence[str] = ()
    """Public functions without a clause, by file and name."""
    fewest_wrong_bodies: int = 0
    fewest_tests: int = 0
    most_restated: int = 0
    """How many statements may be those of two lemmas."""


Rule = Callable[[], List[str]]


def rules_of(tree: Tree, limits: Limits) -> Dict[str, Rule]:
    """The rules by their names: each is a function that answers what breaks it."""
    sources = sources_of(tree)
    tests = [line for it in sources if it.is_test for line in it.code if line.strip() == "#[test]"]
    wrong_bodies = [path for path in tree.files if re.fullmatch(r"crates/\w+/must-fail/\w+\.edit", path)]
    return {
        "each public function is called": lambda: uncalled(sources),
        "each public function has a clause": lambda: without_clause(sources, limits.without_clause),
        "each name that is given out to authors is used": lambda: unused_names(tree, sources),
        "each word of their clauses can be named": lambda: unnamed_words(tree, sources),
        "no fewer wrong bodies than there were": lambda: fewer("wrong bodies", len(wrong_bodies), limits.fewest_wrong_bodies),
        "no fewer tests than there were": lambda: fewer("tests", len(tests), limits.fewest_tests),
        "no code is unsafe or foreign": lambda: unsafe(sources),
        "lines of clauses and definitions can be read": lambda: long_lines(tree, sources),
        "specs/steps has what no public contract reaches, and nothing else": lambda: reach_faults(tree),
        "no more lemmas say the same than did": lambda: restated(tree, limits.most_restated),
        "each word of the headline is read": lambda: unread_words(tree, sources),
        "HANDLES is unchanged": lambda: [] if tree.text("HANDLES") == limits.handles else [f"HANDLES differs from {limits.handles!r}"],
    }


def fewer(what: str, count: int, least: int) -> List[str]:
    return [f"there are {count} {what}, and have to be {least}"] if count < least else []


def unsafe(sources: Sequence[Source]) -> List[str]:
    """Lines of code that are unsafe or foreign."""
    lines = [(f"{it.path}:{number}", line) for it in sources for number, line in enumerate(it.code, 1)]
    return [f"{place}: {found[0]}" for place, line in lines for found in [re.search(r"\bunsafe\b|\bextern\b", line)] if found]


def long_lines(tree: Tree, sources: Sequence[Source]) -> List[str]:
    """Lines of clauses and definitions that are too long to read; a line of imports may be long."""
    lines = [(f"{it.path}:{at}", it.lines[at - 1]) for it in sources for at in sorted(it.clause_lines)]
    for path in [it for it in tree.files if re.fullmatch(r"crates/\w+/specs/.*\.antt", it)]:
        lines += [(f"{path}:{at}", line) for at, line in enumerate(tree.text(path).split("\n"), 1) if not line.startswith("use ")]
    return [f"{place} has {len(line)} columns" for place, line in lines if len(line) > MOST_COLUMNS]


def unread_words(tree: Tree, sources: Sequence[Source]) -> List[str]:
    """Definitions of the headline's crate that no witness, no clause of a call and no definition that is read names."""
    modules = [it for it in modules_of(tree) if it.crate == HEADLINE]
    own = [(it.path, definition) for it in modules if it.name.split(".")[-1] not in THEOREMS for definition in it.definitions]
    texts = [definition.text for it in modules if it.name.endswith(".Witnesses") for definition in it.definitions]
    texts += [line for it in sources if it.crate == HEADLINE for line in it.clauses]
    read, count = set(re.findall(r"\w+", "\n".join(texts))), -1
    while len(read) > count:
        count = len(read)
        read |= {word for _, it in own if read & set(it.names) for word in re.findall(r"\w+", it.text)}
    return [f"{path}: nothing but the headline reads {it.names[0]}" for path, it in own if not read & set(it.names)]


def ways_to_call(it: Function) -> Set[str]:
    """How code may call a function.

    A method is called where `.name(` or `Type::name` stands in code, another function of a type where `Type::name` does (`Self::name` in
    the file of the type), a function of no type where its name does. Clauses, `use` items and names of modules call nothing.
    """
    if not it.type:
        return {it.name}
    return {f"{it.type}::{it.name}", f"{it.path} Self::{it.name}", *([f".{it.name}("] if it.is_method else [])}


def calls_in(source: Source) -> Set[str]:
    """What the code of a file calls, or may call."""
    paths = {f"{first}::{last}" for first, last in re.findall(r"\b(\w+)(?=::(\w+))", source.body)}
    names = {found[2] for found in re.finditer(r"\b(fn )?(\w+)\b", source.body) if not found[1]}
    return paths | names | set(re.findall(r"\.\w+\(", source.body)) | {f"{source.path} {it}" for it in paths if it.startswith("Self::")}


def uncalled(sources: Sequence[Source]) -> List[str]:
    """Public functions that nothing calls. (A law is a theorem: nobody has to call it.)"""
    libraries = [it for it in sources if not it.is_test and not it.path.endswith("/laws.rt")]
    called = set().union(*map(calls_in, sources))
    found = [it for source in libraries for it in source.functions() if not ways_to_call(it) & called]
    return [f"{it} is public, and no test and no other code calls it" for it in found]


def without_clause(sources: Sequence[Source], exceptions: Iterable[str]) -> List[str]:
    """Public functions of libraries that have no clause, each with its file, and the exceptions that are none."""
    found = [f"{it.path} {it.name}" for source in sources if not source.is_test for it in source.functions() if not it.has_clause]
    needless = [f"{name} is an exception that is not needed" for name in exceptions if name not in found]
    return [f"{name} is public and has no clause: any body passes" for name in found if name not in exceptions] + needless
