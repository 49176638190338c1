"""Builds and times what the scripts measure: programs over the repository's crates in a scratch folder, and plain Rust programs."""

import multiprocessing
import os
import shutil
import subprocess
import sys
import tempfile
import time
from dataclasses import dataclass, field
from pathlib import Path
from statistics import median
from typing import Callable, List, Sequence

BENCH = os.path.dirname(os.path.realpath(__file__))
ROOT = os.path.dirname(BENCH)
sys.path.insert(0, f"{ROOT}/tools")

from asking import Failed, Words, run_script


def main(measure: Callable[..., None], description: str, takes_program: bool = False) -> None:
    """Calls `measure` with a scratch folder, and with the path of the program where it takes one."""
    parser = Words(os.path.relpath(sys.argv[0], ROOT), description)
    if takes_program:
        parser.add_argument("program", metavar="PROGRAM", type=os.path.realpath)

    def measured(words: List[str]) -> int:
        with tempfile.TemporaryDirectory(prefix="bench-") as folder:
            measure(folder, **vars(parser.parse_args(words)))
        return 0

    run_script(parser.prog, measured)


def call(command: Sequence[str], folder: str = ".", **how) -> bytes:
    """Runs a command and returns what it prints; where it fails, the last lines of what it said are shown."""
    ran = subprocess.run(command, cwd=folder, stdout=subprocess.PIPE, stderr=subprocess.PIPE, check=False, **how)
    if ran.returncode:
        lines = (ran.stdout + ran.stderr).decode(errors="replace").splitlines(True)
        sys.stderr.write("".join(lines[-20:]))
        raise Failed(f"{' '.join(command[:2])} ended with status {ran.returncode}")
    return ran.stdout


def apart(function: Callable[..., None], *words) -> None:
    """Calls a function in a process of its own: the system counts the memory of this one with that of each program that it starts."""
    process = multiprocessing.get_context("fork").Process(target=function, args=words)
    process.start()
    process.join()
    if process.exitcode:
        raise Failed("an input was not written")


def build_program(folder: str, line: str, source: str, input_path: str = os.devnull) -> str:
    """Copies the crates, adds a program with this line of crates.txt and this source, proves, builds and runs it; returns its path.

    It begins with the libraries that `rt` has kept of these sources on this machine.
    """
    shutil.copytree(f"{ROOT}/crates", f"{folder}/crates", ignore=shutil.ignore_patterns("out", "must-fail"))
    for name in ("HANDLES", "crates.txt"):
        shutil.copy(f"{ROOT}/{name}", folder)
    with open(f"{folder}/crates.txt", "a", encoding="utf-8") as file:
        file.write(line + "\n")
    name = line.partition(":")[0].split()[0]
    os.makedirs(f"{folder}/crates/{name}/src")
    shutil.copy(f"{BENCH}/{source}", f"{folder}/crates/{name}/src/main.rt")
    with open(input_path, "rb") as file:
        call(["rt", "run"], f"{folder}/crates/{name}", stdin=file)
    return f"{folder}/crates/{name}/out/{name}"


MANIFEST = """package = {name = "plain", version = "0.0.0", edition = "2021"}
dependencies = {serde = {version = "1", features = ["derive"]}, serde_json = "1"}
"""
SOURCE = '{crates-io = {replace-with = "debian"}, debian = {directory = "/usr/share/cargo/registry"}}'
"""Where Debian's package librust-serde-json-dev has its crates."""


def compile_on_serde(folder: str, source: str) -> str:
    """Compiles a plain Rust program of `bench/` on serde_json as Debian has it; returns its path."""
    for path, text in (("Cargo.toml", MANIFEST), (".cargo/config.toml", f"source = {SOURCE}")):
        os.makedirs(os.path.dirname(f"{folder}/plain/{path}"), exist_ok=True)
        Path(f"{folder}/plain/{path}").write_text(text, encoding="utf-8")
    os.makedirs(f"{folder}/plain/src")
    shutil.copy(f"{BENCH}/{source}", f"{folder}/plain/src/main.rs")
    call(["cargo", "build", "--release", "--offline"], f"{folder}/plain")
    return f"{folder}/plain/target/release/plain"


def compile_plain(folder: str, source: str) -> str:
    """Compiles a plain Rust program of `bench/`; returns its path."""
    call(["rustc", "--edition", "2021", "-O", f"{BENCH}/{source}", "-o", f"{folder}/plain"])
    return f"{folder}/plain"


ROUNDS = 5
"""How often each command is run, in turn with the others, so that all meet the same load."""


@dataclass
class Taken:
    """What a command took: the seconds of each run, the most memory in MiB, and the file with what it wrote last.

    The system counts the memory of the process that starts a command too, so small numbers are this program's own.
    """

    output: str
    processors: List[float] = field(default_factory=list)
    clocks: List[float] = field(default_factory=list)
    memory: float = 0

    @property
    def processor(self) -> float:
        return median(self.processors)

    @property
    def clock(self) -> float:
        return median(self.clocks)

    def add_run(self, command: Sequence[str], input_path: str) -> None:
        with open(input_path, "rb") as given, open(self.output, "wb") as written:
            begun = time.monotonic()
            child = subprocess.Popen(command, stdin=given, stdout=written)
            _, child.returncode, usage = os.wait4(child.pid, 0)
        if child.returncode:
            raise Failed(f"{' '.join(command[:3])} failed")
        self.clocks.append(time.monotonic() - begun)
        self.processors.append(usage.ru_utime + usage.ru_stime)
        self.memory = max(self.memory, usage.ru_maxrss / 1024)

    def begins(self) -> str:
        with open(self.output, encoding="utf-8") as file:
            return file.read(100)

    def over(self, other: "Taken") -> str:
        """The ratio of the processor times, and the least and the greatest of a round."""
        ratios = [mine / its for mine, its in zip(self.processors, other.processors)]
        return f"{self.processor / other.processor:.2f} ({min(ratios):.2f} to {max(ratios):.2f})"


def take(commands: Sequence[Sequence[str]], input_path: str, folder: str) -> List[Taken]:
    """What each of these commands takes on an input. What they write last is left in files of the folder."""
    taken = [Taken(f"{folder}/output{number}") for number in range(len(commands))]
    for _ in range(ROUNDS):
        for command, it in zip(commands, taken):
            it.add_run(command, input_path)
    return taken


def beside(ours: Taken, plain: Taken) -> str:
    """The seconds of ours and of a plain program, with the ratios plain / ours: above 1 we are faster."""
    return (
        f"processor {ours.processor:.3f} s, plain {plain.processor:.3f} s, ratio {plain.over(ours)};"
        f" clock {ours.clock:.3f} s, plain {plain.clock:.3f} s, ratio {plain.clock / ours.clock:.2f}"
    )
