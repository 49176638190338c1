"""Cases, and how one is run on the program.

A `Case` is one start of the program: its words and its input, and what has to come on standard output, on
standard error and as status. A `ThreadCount` also counts the threads of its runs, and the record of a
`RecordedRun` is read again. A `Check` compares two values without the program.
"""

import contextlib
import io
import os
import subprocess
import tempfile
import threading
import time
from concurrent.futures import ThreadPoolExecutor
from dataclasses import dataclass, replace
from enum import Enum
from pathlib import Path
from typing import BinaryIO, Callable, List, Optional, Sequence, Tuple, Union

from fixtures import Ran, run
from model.program import outcome

Bytes = Union[bytes, Callable[[], bytes]]
"""Bytes, or a function that makes them when they are needed (for large ones)."""

USAGE = os.path.join(os.path.dirname(os.path.realpath(__file__)), "../../crates/testkit/usage.txt")

TIME_LIMIT = 600
"""How many seconds a run may take: far more than any needs, so that a slow machine fails no case."""

SECONDS_WITH_OPEN_INPUT = 60
"""How many seconds a run may take whose input stays open: one that waits for its end would never end."""

STACK = 8_192
"""How many KiB the stack of a thread has where memory is limited."""

MOST_RUNS = 10
"""How many runs there are at most until one is seen with all its threads."""

CUT = 4_096
"""How many bytes are read of an output that is cut."""


READING, BROKEN_PIPE = os.pipe()
os.close(READING)
"""It is made before there are threads: a program that another thread starts shares its reading end for a while."""


class Input(Enum):
    BYTES = "a pipe with the bytes of the case"
    FILE = "a file with the bytes of the case"
    PIECES = "a pipe into which the bytes of the case are written one by one"
    OPEN = "a pipe with the bytes of the case, which stays open until the program has ended"
    CLOSED = "closed"
    FOLDER = "a folder, which can't be read"


class Output(Enum):
    KEPT = "what is written is compared"
    CLOSED = "closed"
    FULL = "a full device"
    BROKEN_PIPE = "a pipe that nobody reads"
    CUT_PIPE = "a pipe that is closed after a few bytes were read; standard input is a file"


def with_usage(line: bytes) -> bytes:
    """What is written on standard error with a fault line: where no command or no question is named, the page of usage stands below it."""
    return line + Path(USAGE).read_bytes() * (line in (b"testkit: bad command line\n", b"testkit: unknown question\n"))


@dataclass(frozen=True)
class Case:
    """One start of the program, and what has to come of it: of what is written on a pipe that is cut, the first bytes."""

    name: str
    words: Sequence[bytes]
    input: Bytes
    output: Bytes = b""
    error: bytes = b""
    status: int = 0
    standard_input: Input = Input.BYTES
    standard_output: Output = Output.KEPT
    standard_error: Output = Output.KEPT
    memory: Optional[int] = None
    """How many KiB of memory the program may have, if that is limited; the stack of a thread then has `STACK`."""

    def run(self, program: str, look: Callable = lambda _: None) -> Optional[str]:
        """What differs, or None where the case passes."""
        ran = start(self, program, look)
        status, output, error = ran.status, ran.output, ran.error
        wanted = made(self.output)[:CUT] if self.standard_output == Output.CUT_PIPE else made(self.output)
        differences = []
        if status != self.status:
            differences.append(f"status {status}, wanted {self.status}")
        if self.standard_output in (Output.KEPT, Output.CUT_PIPE) and output != wanted:
            differences.append("output " + difference(output, wanted))
        line = with_usage(self.error)
        if self.standard_error == Output.KEPT and error != line:
            differences.append("error " + difference(error, line))
        return "; ".join(differences) or None


@dataclass(frozen=True)
class Check:
    """A value beside the one that is wanted."""

    name: str
    got: object
    wanted: object

    def run(self, program: str) -> Optional[str]:
        return None if self.got == self.wanted else f"{self.got!r}, wanted {self.wanted!r}"


@dataclass(frozen=True)
class ThreadCount:
    """A case, and how many threads its run has.

    Each run may be seen with fewer, where it ended before somebody looked, and none with more. So the case
    is run until it is seen with all of them, at most `MOST_RUNS` times.
    """

    case: Case
    threads: int

    @property
    def name(self) -> str:
        return self.case.name

    def run(self, program: str) -> Optional[str]:
        seen = [0]

        def count(process: subprocess.Popen) -> None:
            with contextlib.suppress(FileNotFoundError, ProcessLookupError):
                while process.returncode is None:
                    seen.append(len(os.listdir(f"/proc/{process.pid}/task")))
                    time.sleep(0.001)

        for _ in range(MOST_RUNS):
            fault = self.case.run(program, lambda process: threading.Thread(target=count, args=(process,)).start())
            if fault is not None:
                return fault
            if max(seen) >= self.threads:
                break
        return None if max(seen) == self.threads else f"{max(seen)} threads, wanted {self.threads}"


@dataclass(frozen=True)
class RecordedRun:
    """`run --record` of a plan by some workers. The record is not known but its answers are: the plan's report, a kept lifecycle, kept locks."""

    name: str
    plan: bytes
    workers: int
    report: bytes

    def run(self, program: str) -> Optional[str]:
        """What differs, or None where the case passes."""
        words = [b"run", b"--record", b"--workers", str(self.workers).encode()]
        ran = start(Case(self.name, words, self.plan), program)
        if ran.status != 0 or ran.error:
            return f"status {ran.status}, error {ran.error!r}"
        for question, answers in ((b"report", [self.report]), (b"lifecycle", [b"yes\n"]), (b"locks", [b"yes\n", b"no pair\n"])):
            modelled = outcome([b"ask", question], ran.output)
            if modelled.output not in answers or modelled.error:
                return f"the model answers {modelled!r} to {question!r} of {ran.output!r}"
            fault = Case(self.name, [b"ask", question], ran.output, modelled.output, status=modelled.status).run(program)
            if fault:
                return f"{question!r} of {ran.output!r}: {fault}"
        return None


def start(case: Case, program: str, look: Callable = lambda _: None) -> Ran:
    """Runs the program on a case. It is killed, and its status is -9, where the time limit passes."""
    seconds = SECONDS_WITH_OPEN_INPUT if case.standard_input == Input.OPEN else TIME_LIMIT
    with contextlib.ExitStack() as opened:
        how = {"stdout": output_of(case.standard_output, opened), "stderr": output_of(case.standard_error, opened)}
        how["stdin"], first = input_of(case, opened), None
        if case.standard_output == Output.CUT_PIPE:
            reading, how["stdout"] = pipe(opened)
            first = ThreadPoolExecutor().submit(read_first, reading)
        given = made(case.input) if how["stdin"] == subprocess.PIPE else b""
        ran = run(command_of(case, program), given, seconds, look, bufsize=0, **how)
    return replace(ran, output=first.result()) if first else ran


def pipe(opened: contextlib.ExitStack) -> Tuple[BinaryIO, BinaryIO]:
    """Both ends of a pipe, of which the writing end is closed first."""
    reading, writing = (os.fdopen(end, how, buffering=0) for end, how in zip(os.pipe(), ("rb", "wb")))
    opened.callback(writing.close)
    return reading, writing


def read_first(source: BinaryIO) -> bytes:
    """Reads `CUT` bytes, or all where there are fewer, and closes the pipe."""
    with io.BufferedReader(source) as buffered:
        return buffered.read(CUT)


def write_pieces(target: BinaryIO, data: bytes, kind: Input) -> None:
    """Writes bytes as long as they are read: one by one, and then closes the pipe; or many at once, and leaves it open."""
    size = 1 if kind == Input.PIECES else 1 << 16
    with contextlib.suppress(BrokenPipeError):
        for at in range(0, len(data), size):
            target.write(data[at : at + size])
    if kind == Input.PIECES:
        target.close()


def input_of(case: Case, opened: contextlib.ExitStack) -> Union[int, BinaryIO]:
    """What is standard input until all that is opened is closed."""
    if case.standard_input == Input.FILE or case.standard_output == Output.CUT_PIPE:
        file = opened.enter_context(tempfile.TemporaryFile())
        file.write(made(case.input))
        file.seek(0)
        return file
    if case.standard_input in (Input.CLOSED, Input.FOLDER):
        folder = os.open("/", os.O_RDONLY)
        opened.callback(os.close, folder)
        return folder
    if case.standard_input in (Input.OPEN, Input.PIECES):
        reading, writing = pipe(opened)
        thread = threading.Thread(target=write_pieces, args=(writing, made(case.input), case.standard_input))
        thread.start()
        # (a writer that waits is let go by the end of the pipe's other end)
        opened.callback(thread.join)
        opened.callback(reading.close)
        return reading
    return subprocess.PIPE


def output_of(output: Output, opened: contextlib.ExitStack) -> Union[int, BinaryIO]:
    """What is standard output, or standard error."""
    if output == Output.FULL:
        return opened.enter_context(open("/dev/full", "wb"))
    return BROKEN_PIPE if output == Output.BROKEN_PIPE else subprocess.PIPE


def command_of(case: Case, program: str) -> List[bytes]:
    """The command line, started by a shell that closes streams and limits memory where that is asked."""
    command = [program.encode()] + list(case.words)
    closed = b" <&-" * (case.standard_input == Input.CLOSED)
    closed += b" >&-" * (case.standard_output == Output.CLOSED) + b" 2>&-" * (case.standard_error == Output.CLOSED)
    limit = b"" if case.memory is None else f"ulimit -s {STACK}; ulimit -v {case.memory}; ".encode()
    return [b"sh", b"-c", limit + b'exec "$@"' + closed, b"sh"] + command if closed or limit else command


def made(data: Bytes) -> bytes:
    return data if isinstance(data, bytes) else data()


def difference(got: bytes, wanted: bytes) -> str:
    """Both, or where they are long the bytes around the first that differs."""
    if len(got) + len(wanted) <= 2_000:
        return f"{got!r}, wanted {wanted!r}"
    at = len(os.path.commonprefix([got, wanted]))
    parts = [text[max(0, at - 60) : at + 60] for text in (got, wanted)]
    return f"{len(got)} bytes, wanted {len(wanted)}; they part at byte {at}: {parts[0]!r}, wanted {parts[1]!r}"
