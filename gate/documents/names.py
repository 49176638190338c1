"""Names in backquotes, which have to be names of the tree.

The names of the tree are the words of its code (comments aside), of its scripts, of crates.txt and of the names of its files. A name in
backquotes looks like code where it stands alone, as `Record` or `Book::acquire`, or where it has an underscore or a capital within.
Names of others, as JUnit's, stand in `other_names.txt`.
"""

import os
import re
from typing import Dict, List, Sequence, Set

from documents import Document
from tree import Tree

FOLDERS = ("bench", "crates", "docs", "examples", "gate", "tools", ".ci")
OTHERS = "gate/documents/other_names.txt"
COMMENTS = {".rt": "//", ".antt": "--"}
"""How a comment begins, by the end of a file's name."""
WORD = re.compile(r"[^\W\d]\w*")
ALONE = re.compile(r"[\w:.()?&<>]+")
"""A span that is one name, one with its type or its crate, or a call."""


def names_of(tree: Tree) -> Set[str]:
    """The names of a tree."""
    found: Set[str] = set()
    for path in [it for it in tree.files if not it.endswith(".md") and it != OTHERS]:
        mark = COMMENTS.get(os.path.splitext(path)[1])
        code = [line.partition(mark)[0] if mark else line for line in tree.text(path).split("\n")]
        found.update(WORD.findall(path), *map(WORD.findall, code))
    return found


def unknown_of(tree: Tree, known: Set[str], document: Document) -> Dict[str, int]:
    """The names in backquotes that are not known, each with the number of its first line."""
    found: Dict[str, int] = {}
    for number, span in document.spans():
        if is_path(span):
            # (what a build makes is no file of the repository, built or not)
            is_there = os.path.exists(os.path.join(tree.top, span)) and "out" not in span.split("/")
            unknown = [] if is_there else [span]
        else:
            unknown = [word for word in names_in(span) if word not in known]
        for name in unknown:
            found.setdefault(name, number)
    return found


def is_path(span: str) -> bool:
    """Whether a span is the path of a file or folder, without a place to be filled in, as NAME."""
    return re.fullmatch(r"[\w./-]+", span) is not None and span.split("/")[0] in FOLDERS and "NAME" not in span and "/" in span


def names_in(span: str) -> List[str]:
    """The names in a span that look like code."""
    words = WORD.findall(span)
    if ALONE.fullmatch(span):
        return [word for word in words if len(word) > 1]
    return [word for word in words if "_" in word.strip("_") or re.search("[a-z0-9][A-Z]", word)]


def name_faults(tree: Tree, documents: Sequence[Document]) -> List[str]:
    """The names in backquotes that are not there, and the names of others that no document needs."""
    known, needed = names_of(tree), set()
    others = [name for line in tree.text(OTHERS).split("\n") for name in line.partition("#")[0].split()]
    faults = []
    for document in documents:
        unknown = unknown_of(tree, known, document)
        needed |= set(unknown)
        faults += [f"{document.path}:{number}: there is no {name}" for name, number in unknown.items() if name not in others]
    return faults + [f"other_names.txt: no document needs {name}" for name in others if name not in needed]
