"""Tests of rules on a small tree, which is the file `right.tree` beside their module, and on trees that differ from it in one way.

These are rows of the file `NAME.rows`: a name, a part of the one fault that is found (nothing where the tree is right), and changes, each a
path, a text and what stands in its place. Where the text is empty, the whole file is changed; `gone` stands for no file.
"""

import os
import unittest
from typing import Dict, List, Optional, Tuple

from fixtures import folder, write
from rows import rows, texts

Row = Tuple[str, str, Dict[str, Optional[str]]]
"""A name, a fault, and all files of the tree."""


def rows_of(path: str) -> List[Row]:
    """The rows of a module."""
    right = texts(f"{os.path.dirname(path)}/right.tree")

    def row(name: str, fault: str, *changes: str) -> Row:
        files = dict(right)
        for at, old, new in zip(changes[::3], changes[1::3], changes[2::3]):
            assert old in files.get(at, ""), (at, old)
            files[at] = files[at].replace(old, new, 1) if old else None if new == "gone" else new
        return name, fault, files

    return rows(path, {"row": row, "HANDLES": "HANDLES"})


class SmallTree(unittest.TestCase):
    def faults(self, top: str) -> List[str]:
        """What the rules find wrong with a tree."""
        raise NotImplementedError

    def check(self, fault: str, files: Dict[str, Optional[str]]) -> None:
        top = folder(self)
        for path, text in files.items():
            if text is not None:
                write(f"{top}/{path}", text, 0o755)
        found = self.faults(top)
        self.assertEqual((len(found), [it for it in found if fault not in it]), (int(fault != ""), []), found)
