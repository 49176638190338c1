"""A document and its parts: lines of text, spans of code in backquotes, lines of code."""

import glob
import os
import re
from dataclasses import dataclass
from pathlib import Path
from typing import Iterator, List, Tuple

INDENT = " " * 4


@dataclass(frozen=True)
class Document:
    """A document: its path below the top of the repository, and its text."""

    path: str
    text: str

    def parts(self) -> Iterator[Tuple[int, str, str]]:
        """Each line with its number from 1 on, and what it is: `text`, `indented`, `fenced` or a `fence`."""
        is_fenced = False
        for number, line in enumerate(self.text.split("\n"), 1):
            if line.startswith("```"):
                is_fenced = not is_fenced
                yield number, line, "fence"
            else:
                yield number, line, "fenced" if is_fenced else "indented" if line.startswith(INDENT) else "text"

    def prose(self) -> List[Tuple[int, str]]:
        """The lines that are no code, with their numbers."""
        return [(number, line) for number, line, kind in self.parts() if kind == "text"]

    def spans(self) -> List[Tuple[int, str]]:
        """What stands in backquotes outside blocks of code, with the number of its line."""
        return [(number, span) for number, line in self.prose() for span in re.findall(r"`([^`]+)`", line)]


def documents_of(top: str) -> List[Document]:
    """README.md, docs/*.md and crates/*/README.md, as far as they are there."""
    paths = [f"{top}/README.md", *sorted(glob.glob(f"{top}/docs/*.md")), *sorted(glob.glob(f"{top}/crates/*/README.md"))]
    return [Document(os.path.relpath(path, top), Path(path).read_text(encoding="utf-8")) for path in filter(os.path.isfile, paths)]
