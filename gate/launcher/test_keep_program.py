"""Tests `tools/keep_program` on a small repository, in which a script stands for the proved program, and a JDK makes the jar."""

import os
import shutil
import sys
import unittest
import zipfile
from pathlib import Path
from typing import Dict

import listener
from fixtures import TOP, Ran, folder, run
from test_launcher import PROGRAM, Repository

VERSION = Path(f"{TOP}/VERSION").read_text(encoding="utf-8").strip()
TOOLS = ("tools/asking.py", "tools/checked.py", "tools/keep_program", "tools/kept.py", "tools/listener.py", listener.POM, "LICENSE", "VERSION")
MAVEN = f"maven/testkit/testkit-listener/{VERSION}/testkit-listener-{VERSION}"


class Keeper(Repository):
    def __init__(self, test: unittest.TestCase) -> None:
        super().__init__(test)
        for name in TOOLS:
            os.makedirs(os.path.dirname(self.path(name)), exist_ok=True)
            shutil.copy(f"{TOP}/{name}", self.path(name))
        shutil.copytree(f"{TOP}/examples/junit", self.path("examples/junit"))
        self.write("commands/rt", "#!/bin/sh\necho a kit; echo more\n", 0o755)
        self.build()

    def build(self, program: str = PROGRAM) -> None:
        self.write("crates/testkit/out/testkit", program, 0o755)

    def renew(self, path: str = os.environ["PATH"]) -> Ran:
        return run([self.path("tools/keep_program")], env={**os.environ, "PATH": f"{self.commands}:{path}"})

    def read(self, name: str) -> bytes:
        return Path(self.path(f"bin/{name}")).read_bytes()

    def made(self) -> Dict[str, bytes]:
        names = [os.path.relpath(f"{at}/{name}", self.path("bin")) for at, _, found in os.walk(self.path("bin")) for name in found]
        return {name: self.read(name) for name in sorted(names)}


class Renewed(unittest.TestCase):
    def setUp(self) -> None:
        self.it = Keeper(self)

    @unittest.skipUnless(listener.can_be_made(), "no javac")
    def test_files(self) -> None:
        """It takes the program as it is; its files have the sums that they say, and `./testkit` answers by them."""
        self.it.write("bin/testkit-listener.jar", "of an earlier layout")
        ran = self.it.renew()
        self.assertEqual((ran.status, ran.error), (0, b""), ran)
        in_maven = sorted(f"{MAVEN}{ending}{sum}" for ending in ("-sources.jar", ".jar", ".pom") for sum in ("", ".md5", ".sha1"))
        names = ["PROVED-WITH", *in_maven, "testkit-x86_64-linux"]
        printed = sorted(line.split(b": ")[0].decode() for line in ran.output.splitlines())
        self.assertEqual((list(self.it.made()), printed), (names, sorted(f"bin/{it}" for it in (*names, "testkit-listener.jar"))))
        self.assertEqual((self.it.read(names[-1]), os.access(self.it.path(f"bin/{names[-1]}"), os.X_OK)), (PROGRAM.encode(), True))
        with zipfile.ZipFile(self.it.path(f"bin/{MAVEN}.jar")) as jar:
            self.assertIn("testkit/RecordListener.class", jar.namelist())
            self.assertEqual(jar.read(listener.PROGRAM), PROGRAM.encode())
        self.assertRegex(self.it.read(names[0]).decode(), r"\A# kit a kit\n# sources [0-9a-f]{64}\n# javac-\d+\n([0-9a-f]{64}  \S*\n){10}\Z")
        self.assertEqual(run(["sha256sum", "-c", "--strict", "PROVED-WITH"], cwd=self.it.path("bin")).status, 0)
        self.it.unprove()
        self.assertEqual(self.it.call("3", input=b"in").status, 3)

    @unittest.skipUnless(listener.can_be_made(), "no javac")
    def test_again(self) -> None:
        """What is as it was isn't written, also under another kit; another repository of the same files has the same bytes."""
        first = (self.it.renew(), self.it.made())
        self.it.write("commands/rt", "#!/bin/sh\necho another kit\n", 0o755)
        self.assertEqual((self.it.renew().output, self.it.made()), (b"bin/ is as it was\n", first[1]))
        other = Keeper(self)
        self.assertEqual((other.renew(), other.made()), first)

    def check_refused(self, status: int, line: bytes, path: str = os.environ["PATH"]) -> None:
        ran = self.it.renew(path)
        self.assertEqual((ran.status, ran.output, self.it.made(), ran.error.count(b"\n")), (status, b"", {}, 1), ran)
        self.assertIn(b"tools/keep_program: " + line, ran.error)

    @unittest.skipUnless(listener.can_be_made(), "no javac")
    def test_refused(self) -> None:
        """The program is older than a source, and then it doesn't say what the program says to no words."""
        self.it.write("crates/tk_low/specs/Lib.antt", "new\n")
        self.check_refused(1, b"there is no crates/testkit/out/testkit that is newer than its sources")
        self.it.build("#!/bin/sh\nexit 1\n")
        self.check_refused(70, b"crates/testkit/out/testkit ends with status 1, where it is given no words")

    def test_no_jdk(self) -> None:
        at = folder(self)
        for name, path in {"sh": "/bin/sh", "python3": sys.executable}.items():
            os.symlink(path, f"{at}/{name}")
        self.check_refused(70, b"without a JDK and JUnit", at)
