"""Tests of the listener in a build: Debian's Surefire, offline, with processes of its own, one for each class, and in Maven's process."""

import glob
import os
import re
import shutil
import tempfile
import unittest
from pathlib import Path

import fixtures
import java
import kept
import listener
from cases import read
from fixtures import parameterized
from records import entries, locks_by_id
from rows import row, rows

REPOSITORY = "/usr/share/maven-repo"
PLUGIN = "org.apache.maven.plugins:maven-surefire-plugin"
CLASSES = "ABCDEF"

DOCUMENTED = "run-%p-%n.record"
SETTINGS = rows(__file__, globals())
"""A setting's forks, whether they are used again, how often its goal runs, the path, and the records' names but for their digits."""


def version_of(name):
    """The version of an artifact in Debian's repository, if it is there."""
    found = [it for it in os.listdir(f"{REPOSITORY}/{name}") if it[0].isdigit()] if os.path.isdir(f"{REPOSITORY}/{name}") else []
    return max(found, key=lambda it: [int(part) for part in it.split(".")], default="")


def lines_of_document(element):
    """An element of a pom as docs/JUNIT.md shows it."""
    found = re.search(rf"^    <{element}>.*?</{element}>$", read(f"{fixtures.TOP}/docs/JUNIT.md"), re.MULTILINE | re.DOTALL)
    return found[0]


@java.needs_junit
@fixtures.needs("mvn")
@unittest.skipUnless(os.path.isdir(f"{REPOSITORY}/org/apache/maven/surefire/surefire-junit-platform"), "no libsurefire-java")
class OfSurefire(unittest.TestCase):
    """A build with the lines that docs/JUNIT.md shows, beside a clone in the folder testkit."""

    @classmethod
    def setUpClass(cls):
        super().setUpClass()
        cls.room = tempfile.TemporaryDirectory(prefix="surefire-")
        cls.top = os.path.realpath(cls.room.name)
        cls.addClassCleanup(cls.room.cleanup)
        sources = kept.sources_of(fixtures.TOP)
        for name, data in listener.in_maven(listener.make_jar(sources, b"#!/bin/sh\n"), sources).items():
            os.makedirs(os.path.dirname(f"{cls.top}/testkit/bin/maven/{name}"), exist_ok=True)
            Path(f"{cls.top}/testkit/bin/maven/{name}").write_bytes(data)
        os.makedirs(f"{cls.top}/target/test-classes")
        for name in CLASSES:
            fixtures.write(f"{cls.top}/{name}Test.java", read(f"{java.HERE}/surefire/Test.java").format(name))
        java.Classes(f"{cls.top}/target/test-classes").compile(glob.glob(f"{cls.top}/*.java"))
        # (Maven writes beside what it reads)
        shutil.copytree(REPOSITORY, f"{cls.top}/repository", copy_function=os.symlink)

    @parameterized(SETTINGS)
    def test_build(self, forks, is_reused, runs, path, names):
        if fixtures.IS_QUICK and not (forks and is_reused == "true"):
            self.skipTest(f"{fixtures.NOT_QUICK}: {forks} forks, {runs} runs")
        surefire = version_of("org/apache/maven/plugins/maven-surefire-plugin")
        versions = {
            "jupiter": version_of("org/junit/jupiter/junit-jupiter-engine"),
            "launcher": version_of("org/junit/platform/junit-platform-launcher"),
            "surefire": surefire,
        }
        lines = {it: lines_of_document(it) for it in ("repositories", "dependency", "systemPropertyVariables")}
        text = read(f"{java.HERE}/surefire/pom.xml").format(forks=forks, is_reused=is_reused, **lines, **versions)
        fixtures.write(f"{self.top}/pom.xml", text.replace(DOCUMENTED, path))
        for record in glob.glob(f"{self.top}/target/*.record"):
            os.remove(record)
        words = ["mvn", "-B", "-o", f"-Dmaven.repo.local={self.top}/repository", "-Daether.offline.protocols=file"]
        ran = fixtures.run([*words, *(f"{PLUGIN}:{surefire}:test@{run}" for run in range(runs))], seconds=java.SECONDS, cwd=self.top)
        said = ran.output.decode(errors="replace")
        self.assertEqual(ran.status, 0, said)
        self.assertEqual(said.count(f"Tests run: {2 * len(CLASSES)}, Failures: 0, Errors: {len(CLASSES)}"), runs, said)
        records = glob.glob(f"{self.top}/target/*.record")
        self.assertEqual(sorted(re.sub("[0-9]+", "#", os.path.basename(it)) for it in records), names)
        endings = sorted(ending for record in records for ending in self.endings_of(record))
        wanted = [ending for it in CLASSES for ending in ("finish|ok", f"finish|fail|boom {it}")]
        self.assertEqual(endings, sorted(runs * wanted))

    def endings_of(self, record):
        """How each test of a record ended, which has to have started before; its class has a lock."""
        lines = read(record).split("\n")
        statics = [line for line in lines if line.startswith("N|")]
        classes = [it for it in (line.split("|")[2] for line in statics) if it.count("/") == 1]
        self.assertEqual(lines[-2:], [f"Z|{len(entries(lines))}", ""])
        self.assertEqual(locks_by_id(lines), {it: ["W|db", "R|global"] for it in classes})
        for key in [key for key, line in enumerate(statics) if "/[method:" in line]:
            start, end = [it.tail for it in entries(lines) if it.key == key]
            self.assertEqual(start, "start")
            yield end
