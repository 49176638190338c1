"""Makes the jar of the listener for JUnit. The same sources, compiled by the same JDK, give the same bytes."""

import hashlib
import io
import os
import re
import shutil
import subprocess
import tempfile
import zipfile
from pathlib import Path
from typing import Dict

SOURCES = "examples/junit"
RECORDING = ("RecordListener", "RecordLocks", "RecordFile", "RecordDescriptors", "RecordWorkers", "RecordText", "RecordLog")
"""The listener, as it stands in a build without the jar."""
LISTENER = (*RECORDING, "ResultsWriter", "RecordAssert", "RecordSource", "RecordProgram", "ResultsAssert", "RecordKit", "RecordTree")
"""What the jar has: the listener, what writes the results of EngineTestKit, and the assertions of a record."""
SERVICES = {
    "META-INF/services/org.junit.platform.launcher.TestExecutionListener": b"testkit.RecordListener\n",
    "META-INF/services/org.junit.platform.launcher.PostDiscoveryFilter": b"testkit.RecordLocks\n",
}
"""The files by which JUnit finds the listener, and the filter that has the locks."""
GROUP, ARTIFACT = "testkit", "testkit-listener"
JAR = f"{ARTIFACT}.jar"
POM = "tools/packaging/pom.xml"
JUNIT = ("junit-platform-commons", "junit-platform-engine", "junit-platform-launcher", "opentest4j", "apiguardian-api")
JARS = [f"/usr/share/java/{it}.jar" for it in JUNIT]
"""What the listener is compiled with: jars of Debian's package `junit5`."""
MISSING = "without a JDK and JUnit (apt-get install junit5 default-jdk-headless) there is no jar"


PROGRAM = "testkit/testkit-x86_64-linux"
"""Where the jar has the program, beside which its sum stands."""


class NotCompiled(Exception):
    """The listener can't be compiled."""


def can_be_made() -> bool:
    return shutil.which("javac") is not None and all(map(os.path.exists, JARS))


def compiler() -> str:
    """Returns the name of the compiler, `javac-17` as an example: others may write other bytes."""
    said = subprocess.run(["javac", "-version"], stdout=subprocess.PIPE, stderr=subprocess.STDOUT, text=True, check=True).stdout
    return "javac-" + re.findall(r"javac (?:1\.)?(\d+)", said)[0]


def classes(files: Dict[str, bytes]) -> Dict[str, bytes]:
    """Compiles the listener, and returns its classes by their names in a jar; `files` has the files of `SOURCES`."""
    with tempfile.TemporaryDirectory(prefix="listener-") as room:
        for name in [it for it in files if it.startswith(f"{SOURCES}/")]:
            os.makedirs(os.path.dirname(f"{room}/{name}"), exist_ok=True)
            Path(f"{room}/{name}").write_bytes(files[name])
        words = ["javac", "-encoding", "UTF-8", "-proc:none", "--release", "8", "-cp", ":".join(JARS), "-d", "classes"]
        words += ["-sourcepath", f"{SOURCES}:{SOURCES}/kit", *(f"{SOURCES}/testkit/{it}.java" for it in LISTENER)]
        ran = subprocess.run(words, cwd=room, capture_output=True, text=True, check=False)
        if ran.returncode:
            raise NotCompiled(f"the listener can't be compiled: {ran.stderr}")
        # (what stands for JUnit's kit is compiled beside it, and is not ours to give)
        return {f"testkit/{it.name}": it.read_bytes() for it in sorted(Path(f"{room}/classes/testkit").iterdir())}


def packed(program: bytes) -> Dict[str, bytes]:
    """The program as a jar has it, with its sum."""
    return {PROGRAM: program, f"{PROGRAM}.sha256": f"{hashlib.sha256(program).hexdigest()}\n".encode()}


def make_jar(files: Dict[str, bytes], program: bytes) -> bytes:
    """Returns the jar with this program; `files` has the files of `SOURCES`, `LICENSE` and `VERSION`.

    Its entries have no times of their own, and aren't compressed: others may compress to other bytes.
    """
    version = files["VERSION"].decode().strip()
    manifest = ("Manifest-Version: 1.0", "Automatic-Module-Name: testkit", "Implementation-Title: testkit", f"Implementation-Version: {version}", "", "")
    entries = {
        "META-INF/MANIFEST.MF": "\r\n".join(manifest).encode(),
        "META-INF/LICENSE": files["LICENSE"],
        **SERVICES,
        **classes(files),
        **packed(program),
    }
    return archive(entries)


def archive(entries: Dict[str, bytes]) -> bytes:
    jar = io.BytesIO()
    with zipfile.ZipFile(jar, "w") as file:
        for name, data in entries.items():
            entry = zipfile.ZipInfo(name)
            entry.create_system, entry.external_attr = 3, 0o100644 << 16
            file.writestr(entry, data)
    return jar.getvalue()


def in_maven(jar: bytes, files: Dict[str, bytes]) -> Dict[str, bytes]:
    """Returns the files of a Maven repository that has the jar, with its sources and with what Maven wants beside them.

    The pom names no dependency: the JUnit of the build serves.
    """
    version = files["VERSION"].decode().strip()
    place = f"{GROUP}/{ARTIFACT}/{version}/{ARTIFACT}-{version}"
    sources = {f"testkit/{it}.java": files[f"{SOURCES}/testkit/{it}.java"] for it in LISTENER}
    pom = files[POM].decode().format(group=GROUP, artifact=ARTIFACT, version=version).encode()
    found = {f"{place}.jar": jar, f"{place}-sources.jar": archive({"META-INF/LICENSE": files["LICENSE"], **sources}), f"{place}.pom": pom}
    sums = {f"{name}.{kind}": hashlib.new(kind, data).hexdigest().encode() for name, data in found.items() for kind in ("md5", "sha1")}
    return {**found, **sums}
