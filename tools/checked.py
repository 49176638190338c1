"""What a run of `./check` that passed leaves behind: `./check` writes it where nothing failed and the work tree was clean.

`tools/package` makes no package without it.
"""

import contextlib
import hashlib
import json
import os
import subprocess
from dataclasses import asdict, dataclass
from pathlib import Path
from typing import Optional

PROGRAM = "crates/testkit/out/testkit"
RUN = "crates/testkit/out/checked"
"""Where the file stands. Git ignores the folder."""


class Unknown(Exception):
    """Git doesn't say what the tree is."""


class Changed(Unknown):
    """A file of the work tree isn't as it was committed."""


@dataclass(frozen=True)
class State:
    """The commit that is checked out, and its tree."""

    commit: str
    tree: str


@dataclass(frozen=True)
class Run:
    """A run of the gate in which nothing failed; `program` is the hash of the program's file."""

    tree: str
    kit: str
    program: str
    passed: int


def git(top: str, *words: str, given: bytes = b"") -> bytes:
    """Answers what git prints of the tree at `top`, where it is given this to read."""
    # (variables as GIT_DIR would have git answer about another tree)
    environment = {name: value for name, value in os.environ.items() if not name.startswith("GIT_")}
    try:
        return subprocess.run(["git", "-C", top, *words], env=environment, input=given, capture_output=True, check=True).stdout
    except OSError as fault:
        raise Unknown(f"git can't be run: {fault}") from fault
    except subprocess.CalledProcessError as fault:
        raise Unknown(" ".join(fault.stderr.decode(errors="replace").split()) or f"git {words[0]} failed") from fault


def state_of(top: str) -> State:
    """Reads the state of a clean work tree; files that git doesn't ignore count as changes."""
    status = git(top, "-c", "core.fileMode=true", "status", "--porcelain", "--untracked-files=all").decode(errors="replace")
    for line in status.splitlines():
        raise Changed(f"{line[3:]} is not as it was committed")
    return State(*git(top, "rev-parse", "HEAD", "HEAD^{tree}").decode().split())


def hash_of(path: str) -> str:
    return hashlib.sha256(Path(path).read_bytes()).hexdigest()


def write(top: str, run: Run) -> None:
    Path(f"{top}/{RUN}").write_text(json.dumps(asdict(run)), encoding="utf-8")


def read(top: str) -> Optional[Run]:
    """Reads the run that the gate left, if it left one and it is whole."""
    with contextlib.suppress(OSError, ValueError, TypeError):
        run = Run(**json.loads(Path(f"{top}/{RUN}").read_text(encoding="utf-8")))
        return run if run.passed > 0 and all(asdict(run).values()) else None
    return None


def remove(top: str) -> None:
    with contextlib.suppress(FileNotFoundError):
        os.remove(f"{top}/{RUN}")
