"""The rules for documents: which there are, which names and files they point at, and what the headline says."""

import os
import re
import textwrap
from typing import Callable, Dict, List, Sequence

from documents import Document
from names import name_faults
from tree import Tree

BLOCK = re.compile(r"(?:^From `?(\S+?)`?:\n\n)?^```rust\n(.*?)^```$", re.MULTILINE | re.DOTALL)
"""A block of Rust, and above it the line that says whose code it is: `From crates/NAME/src/FILE.rt:`."""

HEADLINE = "crates/testkit_headline/specs/Headline.antt"
"""The theorem, whose fields have the parts of README.md's headline as their comments."""


def rules_of(tree: Tree, documents: Sequence[Document], listed: Sequence[str]) -> Dict[str, Callable[[], List[str]]]:
    """The rules by their names: each is a function that answers what breaks it. Listed are the documents besides the crates' READMEs."""
    return {
        "each document is there, and in the list": lambda: missing_faults(tree, documents, listed),
        "each name in backquotes is there": lambda: name_faults(tree, documents),
        "each picture is there": lambda: [fault for it in documents for fault in picture_faults(tree, it)],
        "the headline of README.md is that of the theorem": lambda: headline_faults(tree),
        "each backquote and each fence has an end": lambda: [fault for it in documents for fault in form_faults(it)],
    }


def missing_faults(tree: Tree, documents: Sequence[Document], listed: Sequence[str]) -> List[str]:
    """Documents of the list and READMEs of crates that are missing, and documents of no list. A crate of tests needs no README."""
    found, readmes = [it.path for it in documents], {crate: f"crates/{crate}/README.md" for crate in tree.crates}
    wanted = [*listed, *(path for crate, path in readmes.items() if not crate.startswith("test_"))]
    faults = [f"{path} is missing" for path in wanted if path not in found]
    return faults + [f"{path} is in no list of documents" for path in found if path not in [*listed, *readmes.values()]]


def picture_faults(tree: Tree, document: Document) -> List[str]:
    """Pictures, and other files in round brackets, that are no files beside the document or below it."""
    targets = [(number, path) for number, line in document.prose() for path in re.findall(r"\]\(([^)]+)\)", line)]
    folder = os.path.dirname(document.path)
    return [f"{document.path}:{number}: there is no {path}" for number, path in targets if os.path.join(folder, path) not in tree.files]


def form_faults(document: Document) -> List[str]:
    """Backquotes and fences without an end, behind which names and commands are not read."""
    odd = [f"{document.path}:{number}: a backquote has no second one in its line" for number, line in document.prose() if line.count("`") % 2]
    is_open = sum(kind == "fence" for _, _, kind in document.parts()) % 2
    return odd + [f"{document.path}: a fence has no end"] * is_open


def headline_faults(tree: Tree) -> List[str]:
    """Parts of README.md's headline, in italics, that the comments of the theorem's fields don't say, and fields whose names aren't in theirs."""
    fields = re.findall(r"((?:^  -- .*\n)*)  pub (\w+)", tree.text(HEADLINE), re.MULTILINE)
    parts = [(" ".join(comment.replace("--", "").split()), name) for comment, name in fields]
    headline = " ".join(part for part, _ in parts)
    faults = [] if parts and f"\n*{headline}*\n" in tree.text("README.md") else [f"README.md doesn't say in italics: {headline}"]
    unsaid = [name for part, name in parts if not re.search(r"\b.*\b".join(name.split("_")), part.replace("'", ""), re.IGNORECASE)]
    return faults + [f"{HEADLINE}: its part of the headline doesn't say {name}" for name in unsaid]


def is_quote(text: str, code: str) -> bool:
    """Whether this code stands in a text, indented there as it may be."""
    lines = textwrap.dedent(code)
    return any("\n" + textwrap.indent(lines, " " * indent) in "\n" + text for indent in range(0, 40, 4))


def fault_of(tree: Tree, path: str, code: str) -> str:
    """Why a block is no quote of a file of a crate that is proved; nothing where it is one."""
    if not path:
        return "no line 'From crates/..:' says whose code this is"
    found = re.fullmatch(r"crates/(\w+)/src/[\w/]+\.rt", path)
    if not found or found[1] not in tree.crates or path not in tree.files:
        return f"{path} is no file of a crate of crates.txt"
    return "" if code.strip() and is_quote(tree.text(path), code) else f"the block is no quote of {path}"


def quotes_of(tree: Tree, document: Document) -> Dict[str, str]:
    """What is wrong with each block of Rust in a document, or nothing, by its place."""
    found = {}
    for block in BLOCK.finditer(document.text):
        number = document.text[: block.start()].count("\n") + 1
        found[f"{document.path}:{number}"] = fault_of(tree, *block.groups())
    return found
