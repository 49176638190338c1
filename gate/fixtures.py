"""What the modules of the gate share: the proved program, commands, a folder, and tables.

A module `test_NAME.py` has classes of `unittest.TestCase`. `gate/run` counts its tests: `@parameterized` makes one of each row.
"""

import contextlib
import functools
import os
import shutil
import signal
import subprocess
import tempfile
import unittest
from dataclasses import dataclass
from pathlib import Path
from typing import Callable, Iterable, Iterator, Optional, Sequence, Tuple, Union

TOP = os.path.dirname(os.path.dirname(os.path.realpath(__file__)))

PROGRAM = os.environ.get("TESTKIT_PROGRAM") or f"{TOP}/crates/testkit/out/testkit"
"""The proved program, or the one that `gate/run --program` names."""
TRIED = [["test_runs"], ["test_example_engine", "test_hierarchical"], ["test_records", "test_questions"], ["test_sessions", "test_plans"]]
"""The crates of tests, those that are tried as one crate beside each other; what takes longest comes first."""
TEST_CRATES = [crate for crates in TRIED for crate in crates]
SECONDS = 300
NO_PROGRAM = "no proved program"
"""The reason with which a test is skipped that needs the program."""
NOT_QUICK = "left to the full gate"
"""How the reason begins with which `gate/run --quick` skips a test that costs much and that others show as well."""
IS_QUICK = "TESTKIT_QUICK" in os.environ
SHARED = [int(it) for it in os.environ.get("TESTKIT_PROCESSORS", "").split()]
"""Both ends of the pipe that `./check quick` has for the processors, with a byte for each that is free."""


unittest.TestCase.maxDiff = None
"""What differs is shown whole."""


class WithProgram(unittest.TestCase):
    """Tests of the proved program, which are skipped where there is none."""

    @classmethod
    def setUpClass(cls) -> None:
        if not os.access(PROGRAM, os.X_OK):
            raise unittest.SkipTest(NO_PROGRAM)
        super().setUpClass()


@contextlib.contextmanager
def processor() -> Iterator[None]:
    """Takes one of the processors that are shared, once it is free; where none are shared nothing is waited for."""
    taken = SHARED and os.read(SHARED[0], 1)
    try:
        yield
    finally:
        if taken:
            os.write(SHARED[1], taken)


def share_processors() -> None:
    """Shares the processors among the jobs of this process and of those that inherit the pipe."""
    SHARED[:] = os.pipe()
    os.write(SHARED[1], b"." * len(os.sched_getaffinity(0)))
    os.environ["TESTKIT_PROCESSORS"] = " ".join(map(str, SHARED))


def needs(command: str) -> Callable:
    """Skips a test, or a class of tests, where this command isn't on the path."""
    return unittest.skipUnless(shutil.which(command), f"no {command}")


@dataclass
class parameterized:
    """Makes a test of each row of a table, or of what a function makes: its name is that of the method, a blank and that of the row.

    A tuple has its name first, and the method takes its other items; another row has a name, or is one. Where `name` says it, the method
    takes the row as it is.
    """

    table: Union[Sequence, Callable[[], Sequence]]
    name: Optional[Callable[[object], str]] = None

    def __call__(self, method: Callable) -> "parameterized":
        self.method = method
        return self

    def named(self, row: object) -> Tuple[str, Sequence]:
        """The name of a row, and what the method takes of it."""
        if isinstance(row, tuple) and not self.name:
            return row[0], row[1:]
        return self.name(row) if self.name else getattr(row, "name", row), (row,)

    def __set_name__(self, owner: type, name: str) -> None:
        rows = [self.named(row) for row in (self.table() if callable(self.table) else self.table)]
        tests = {f"{name} {row_name}": functools.partialmethod(self.method, *items) for row_name, items in rows}
        assert rows, f"the table of {name} has no row"
        assert len(tests) == len(rows), f"rows of {name} have one name"
        delattr(owner, name)
        for name_of_row, test in tests.items():
            setattr(owner, name_of_row, test)


def folder(test: unittest.TestCase) -> str:
    """Makes a folder that goes when the test ends."""
    made = tempfile.TemporaryDirectory(prefix="gate-")
    test.addCleanup(made.cleanup)
    return made.name


def write(path: str, text: str, mode: int = 0o644) -> None:
    os.makedirs(os.path.dirname(path), exist_ok=True)
    Path(path).write_text(text, encoding="utf-8")
    os.chmod(path, mode)


@dataclass(frozen=True)
class Ran:
    """How a command ended: its status, less than zero for a signal, and what it wrote."""

    status: int
    output: bytes
    error: bytes


def run(words: Iterable[Union[str, bytes]], input: bytes = b"", seconds: float = SECONDS, look: Callable = lambda _: None, **how) -> Ran:
    """Runs a command; `how` goes to `Popen`, and the process to `look`.

    Where its time is over it is killed with all that it started, and the status is -9.
    """
    pipes = {"stdin": subprocess.PIPE, "stdout": subprocess.PIPE, "stderr": subprocess.PIPE, **how}
    with subprocess.Popen(list(words), start_new_session=True, **pipes) as started:
        try:
            look(started)
            output, error = started.communicate(input if pipes["stdin"] == subprocess.PIPE else None, timeout=seconds)
        except subprocess.TimeoutExpired:
            os.killpg(started.pid, signal.SIGKILL)
            output, error = started.communicate()
        except BaseException:
            os.killpg(started.pid, signal.SIGKILL)
            raise
    return Ran(started.returncode, output or b"", error or b"")


def ask(words: Iterable[Union[str, bytes]], input: bytes = b"", **how) -> Ran:
    return run([PROGRAM, *words], input, **how)
