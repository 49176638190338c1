"""The commands that documents show, and what each has to print.

In an indented block a line that begins with `$ ` is a command, and the lines up to the next command or the end of the block are what it
has to print, on standard output and standard error. A line `..` stands for any lines, one at least. A comment `# status N` after the
command says its status, which is 0 elsewhere. The proved program stands for `./testkit`, also in the scripts that take it from PROGRAM.
"""

import os
import re
import shlex
import subprocess
from dataclasses import dataclass, field
from typing import List, Sequence

from documents import INDENT, Document
from fixtures import run


@dataclass
class Example:
    """A command of a document, and what it has to print."""

    place: str
    command: str
    lines: List[str] = field(default_factory=list)

    def fault(self, top: str, program: str) -> str:
        """What the command does that the document does not show; nothing where they agree."""
        command = re.sub(r"(?<!\S)\./testkit(?!\S)", lambda _: shlex.quote(program), self.command)
        shown = re.search(r"\s# status (\d+)", self.command)
        environment = {**os.environ, "PROGRAM": program}
        ran = run(["sh", "-c", command], cwd=top, env=environment, stdin=subprocess.DEVNULL, stderr=subprocess.STDOUT)
        status, printed = int(shown[1]) if shown else 0, ran.output.decode(errors="replace").splitlines()
        if ran.status != status:
            return f"its status is {ran.status}, and not {status}; it prints {printed}"
        return "" if is_shown(printed, self.lines) else f"it prints {printed}, and not {self.lines}"


def is_shown(printed: Sequence[str], shown: Sequence[str]) -> bool:
    """Whether these lines were printed, where a line `..` stands for one line or more."""
    pattern = "".join(r"(?:[^\n]*\n)+?" if line == ".." else re.escape(line) + r"\n" for line in shown)
    return re.fullmatch(pattern, "".join(f"{line}\n" for line in printed)) is not None


def examples_of(document: Document) -> List[Example]:
    found: List[Example] = []
    is_open = False
    for number, line, kind in document.parts():
        is_command = kind == "indented" and line.startswith(f"{INDENT}$ ")
        is_open = is_command or is_open and kind == "indented"
        if is_command:
            found.append(Example(f"{document.path}:{number}", line[len(f"{INDENT}$ ") :]))
        elif is_open:
            found[-1].lines.append(line[len(INDENT) :])
    return found
