"""Compiles what is in examples/junit and here with Debian's JUnit, and runs it."""

import functools
import glob
import os
import shutil
import sys
import tempfile
import unittest
from dataclasses import dataclass
from typing import Callable, Sequence

import fixtures
import listener

LIBRARY = "/usr/share/java"
CONSOLE = f"{LIBRARY}/junit-platform-console-standalone.jar"
OTHERS = ("junit-jupiter-api", "junit-jupiter-engine", "junit-jupiter-params", "univocity-parsers")
JARS = [*listener.JARS, *(f"{LIBRARY}/{name}.jar" for name in OTHERS)]
EXAMPLES, HERE = f"{fixtures.TOP}/examples/junit", os.path.dirname(os.path.realpath(__file__))
KIT = os.environ.get("KIT", "")
"""The class path of JUnit's EngineTestKit with what it needs. Without it the classes in kit/ stand for it, as Debian has none."""
SECONDS = 1_200
"""How many seconds a compiler, a process of cases or a build may take: far more than any needs."""
ROOM = tempfile.TemporaryDirectory(prefix="classes-")
COMMAND = ("java", "-XX:TieredStopAtLevel=1", "-XX:-UsePerfData")


def needs_junit(tests: Callable) -> Callable:
    """Skips tests where no JDK or no JUnit is there."""
    has_jars = all(map(os.path.exists, (*JARS, CONSOLE)))
    return fixtures.needs("javac")(unittest.skipUnless(has_jars, "no junit5")(tests))


@dataclass(frozen=True)
class Classes:
    """Compiled classes, in a folder."""

    folder: str

    @property
    def path(self) -> str:
        """The class path: these and JUnit's."""
        return ":".join([self.folder, *JARS, *([KIT] if KIT else [])])

    def compile(self, sources: Sequence[str], *words: str) -> None:
        """Compiles these files beside what is compiled already."""
        command = ["javac", "-encoding", "UTF-8", "-proc:none", "-nowarn", "-Xlint:-options", *words, "-d", self.folder, "-cp", self.path]
        ran = fixtures.run([*command, *sources], seconds=SECONDS)
        if ran.status:
            raise OSError(f"these classes can't be compiled: {ran.error.decode(errors='replace')}")

    def command(self, main: str, *words: str) -> Sequence[str]:
        """The words of a process of a class."""
        return [*COMMAND, "-cp", self.path, f"testkit.{main}", *words]

    def run(self, main: str, *words: str, **how) -> str:
        """What a process of a class writes, which has to succeed."""
        ran = fixtures.run(self.command(main, *words), seconds=SECONDS, **how)
        if ran.status:
            raise OSError(f"{main} ends with status {ran.status}: {ran.error.decode(errors='replace')[-2_000:]}")
        # (the messages of a process that isn't a case's stay visible)
        sys.stderr.write(ran.error.decode(errors="replace"))
        return ran.output.decode()


@functools.lru_cache(maxsize=None)
def compiled() -> Classes:
    """Compiles, once in a process, the listener and what stands beside it, as Java 8, and tests of it."""
    classes = Classes(ROOM.name)
    stand_in = [] if KIT else glob.glob(f"{EXAMPLES}/kit/**/*.java", recursive=True)
    classes.compile([*stand_in, *(f"{EXAMPLES}/testkit/{name}.java" for name in listener.LISTENER)], "--release", "8", "-parameters")
    classes.compile([f"{EXAMPLES}/testkit/SampleTests.java", *glob.glob(f"{HERE}/testkit/*.java")])
    return classes


def with_service(classes: Classes, folder: str) -> None:
    """Puts the listener into a folder as a build has it: its classes, and the files by which JUnit finds them."""
    os.makedirs(f"{folder}/testkit")
    for path in [path for it in listener.RECORDING for path in glob.glob(f"{classes.folder}/testkit/{it}*.class")]:
        shutil.copy(path, f"{folder}/testkit")
    for name, text in listener.SERVICES.items():
        fixtures.write(f"{folder}/{name}", text.decode())
