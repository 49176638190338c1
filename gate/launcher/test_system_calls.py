"""What the program asks the system for, as `strace` sees it: whoever runs a program that somebody else built may want to know.

It reads standard input, writes on standard output and standard error, and starts threads. It opens no file, no socket and no process; the C
library's loader opens the library before it begins, and the library may look how many processors there are.
"""

import re
import shutil
import unittest
from pathlib import Path
from typing import List

from fixtures import PROGRAM, TOP, WithProgram, folder, parameterized, run
from rows import row, rows, texts

TRACED = "trace=%file,%network,%process,write,writev,pwrite64,pwritev,pwritev2,sendfile,splice,tee,vmsplice,io_uring_setup,ptrace"
"""The calls that are looked at: of files, sockets, processes and threads, and what writes."""

STRACE = ("strace", "-f", "-qq", "-e", TRACED, "-o")
CAN_TRACE = shutil.which("strace") is not None and run([*STRACE, "/dev/null", "true"]).status == 0

ALLOWED = re.compile(
    r"""exit(_group)?\(.*
    |writev?\([12],.*
    |clone3?\(.*CLONE_THREAD.*
    |(access|openat|newfstatat|stat|readlink)\([^"]*"(|/etc/ld\.so\.\w+|(/usr)?/lib[^"]*|/sys/devices/system/cpu/\w+)".*""",
    re.VERBOSE,
)
"""What is allowed after the call by which the program begins. (A place without a name is of what is open already.)"""


def others(trace: str) -> List[str]:
    """The calls of a trace that aren't allowed."""
    calls = [found[1] for found in re.finditer(r"^\d+ +(\w+\(.*)", trace, re.MULTILINE)]
    if not calls or not calls[0].startswith("execve("):
        return ["nothing was traced"]
    return [it for it in calls[1:] if not ALLOWED.fullmatch(it)]


CALLS = rows(__file__, globals())
"""Words, an input, the status, and how the output begins."""


@unittest.skipUnless(CAN_TRACE, "no strace")
class Calls(WithProgram):
    @parameterized([(words, words, *more) for words, *more in CALLS])
    def test_program(self, words, name, status, output) -> None:
        trace = f"{folder(self)}/trace"
        ran = run([*STRACE, trace, PROGRAM, *words.split()], Path(f"{TOP}/{name}").read_bytes())
        self.assertEqual((ran.status, ran.output[: len(output)]), (status, output), ran)
        self.assertEqual(others(Path(trace).read_text(encoding="utf-8", errors="replace")), [])


STARTED = '7 execve("/a/testkit", ["testkit"], 0x7ffe /* 2 vars */) = 0\n'
TEXTS = texts(f"{TOP}/gate/launcher/traces.texts")


class Traces(unittest.TestCase):
    def test_right(self) -> None:
        self.assertEqual(others(STARTED + TEXTS["right"]), [])
        self.assertEqual(others(TEXTS["right"]), ["nothing was traced"])

    @parameterized(TEXTS["wrong"].splitlines(keepends=True))
    def test_wrong(self, line: str) -> None:
        self.assertEqual(others(STARTED + TEXTS["right"] + line), [line[2:-1]])
