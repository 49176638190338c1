"""The files of a repository and the crates of its crates.txt, for the modules that check sources and documents."""

import os
from pathlib import Path
from typing import Dict, List

NOT_READ = (".git", "out", "__pycache__")
"""Folders of git, of what is built, and of what Python keeps."""


class Tree:
    """A repository: the paths of its files, and of each crate the libraries of the repository that it names."""

    def __init__(self, top: str) -> None:
        self.top = top
        self.files: List[str] = []
        for folder, folders, names in os.walk(top):
            folders[:] = sorted(it for it in folders if it not in NOT_READ)
            self.files += [os.path.relpath(os.path.join(folder, it), top) for it in sorted(names) if not it.endswith(".pyc")]
        lines = [line.partition("#")[0].partition(":") for line in self.text("crates.txt").split("\n")]
        named = {name.split()[0]: libraries.split() for name, _, libraries in lines if name.strip()}
        self.crates: Dict[str, List[str]] = {name: [it for it in libraries if it in named] for name, libraries in named.items()}

    def text(self, path: str) -> str:
        """The text of a file; nothing where there is none."""
        found = Path(f"{self.top}/{path}")
        return found.read_text(encoding="utf-8", errors="replace") if found.exists() else ""
