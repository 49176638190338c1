"""Tests what `tools/package` makes: both packages, their bytes, the man page, and the jar of the listener for JUnit."""

import gzip
import hashlib
import io
import os
import re
import shutil
import sys
import tarfile
import tempfile
import unittest
import zipfile
from pathlib import Path
from typing import Dict

import checked
import listener
from checked import PROGRAM as BUILT, RUN
from fixtures import PROGRAM, TOP, Ran, WithProgram, ask, folder, needs, parameterized, run, write
from rows import row, rows

PARTS = (".gitignore", "LICENSE", "VERSION", "docs", "examples", "tools")
"""What the small repository has of the work tree."""

MOMENT = 1_767_323_044

STAND_IN = b"#!/bin/sh\n# GLIBC_2.17 GLIBC_2.34 GLIBC_2.4\n"
"""What is packed where there is no proved program."""

AUTHOR = {
    "GIT_AUTHOR_NAME": "Another author",
    "GIT_AUTHOR_EMAIL": "another@place.example",
    "GIT_COMMITTER_NAME": "An äuthor",
    "GIT_COMMITTER_EMAIL": "author@place.example",
    "GIT_AUTHOR_DATE": f"{MOMENT - 60} +0100",
    "GIT_COMMITTER_DATE": f"{MOMENT} +0100",
}
"""Who wrote the commits, and who made them, who is the package's maintainer."""


def read(path: str) -> bytes:
    return Path(path).read_bytes()


VERSION = read(f"{TOP}/VERSION").decode().strip()
INSIDE = f"testkit-{VERSION}"
TAR, DEB = f"{INSIDE}-x86_64-linux.tar.gz", f"testkit_{VERSION}_amd64.deb"
SCRIPTS = ("check-records", "from-open-test-reporting", "timeline", "trace")
COMMANDS = ("check", *SCRIPTS[1:])
TOOLS = {"asking.py", "python.sh", *SCRIPTS, *(f"{it}.py" for it in SCRIPTS), "timeline.css", "timeline.html", "timeline.js"}
"""The tools of which Debian's package makes commands."""
EXPLAIN = "usr/bin/testkit-explain"
SAID = [f"usr/share/{it}" for it in ("doc/testkit/changelog.gz", "doc/testkit/copyright", "lintian/overrides/testkit")]
MAVEN = f"maven/testkit/testkit-listener/{VERSION}/testkit-listener-{VERSION}"
JAR, LINK = f"{MAVEN}.jar", "usr/share/java/testkit-listener.jar"
IN_MAVEN = [f"{MAVEN}{kind}{sum}" for kind in (".jar", "-sources.jar", ".pom") for sum in ("", ".md5", ".sha1")]
DOCUMENTS = "usr/share/doc/testkit"
FORMATS = "docs/FORMATS.md"
CONSOLE = "/usr/share/java/junit-platform-console-standalone.jar"
HAS_JAVA = listener.can_be_made()
NO_JAR = f"tools/package: {listener.MISSING}\n".encode()


class Repository:
    """A clean clone in which the gate passed, with what `tools/package` packs."""

    def __init__(self, at: str) -> None:
        self.at = f"{at}/a folder"
        os.makedirs(self.path(os.path.dirname(checked.PROGRAM)))
        run(["cp", "-r", *(f"{TOP}/{part}" for part in PARTS), self.at])
        self.write(checked.PROGRAM, read(PROGRAM) if os.path.exists(PROGRAM) else STAND_IN)
        self.git("init", "-q")
        self.commit()

    def path(self, name: str) -> str:
        return f"{self.at}/{name}"

    def write(self, name: str, data: bytes) -> None:
        Path(self.path(name)).write_bytes(data)

    def git(self, *words: str) -> str:
        settings = ("-c", "commit.gpgSign=false", "-c", "core.hooksPath=/dev/null")
        ran = run(["git", "-C", self.at, *settings, *words], env={**os.environ, **AUTHOR})
        assert ran.status == 0, (words, ran.error)
        return ran.output.decode().strip()

    def commit(self) -> None:
        """Commits all, and leaves what a run of `./check` leaves that passed."""
        self.git("add", "-A")
        self.git("commit", "-q", "--allow-empty", "-m", "all")
        program = checked.hash_of(self.path(checked.PROGRAM))
        checked.write(self.at, checked.Run(self.git("rev-parse", "HEAD^{tree}"), "rattle-kit-0", program, 12))

    def package(self, *words: str, **environment: str) -> Ran:
        """Calls `tools/package`, with variables changed."""
        return run([self.path("tools/package"), *words], env={**os.environ, **environment})

    def made(self, folder: str = "out") -> Dict[str, bytes]:
        """The files of a folder, which are the packages."""
        at = self.path(folder)
        return {name: read(f"{at}/{name}") for name in sorted(os.listdir(at))} if os.path.isdir(at) else {}


def files_below(at):
    return sorted(os.path.relpath(os.path.join(place, name), at) for place, _, names in os.walk(at) for name in names)


def without_jdk(test):
    """A path of commands that has what `tools/package` needs, and no JDK."""
    at = folder(test)
    for name, path in {"git": shutil.which("git"), "sh": "/bin/sh", "python3": sys.executable}.items():
        os.symlink(path, f"{at}/{name}")
    return at


@needs("git")
@needs("dpkg-deb")
class Made(unittest.TestCase):
    """Both packages of a repository, unpacked; `packed` are its files that are packed, `programs` those that can be run."""

    @classmethod
    def setUpClass(cls):
        cls.room = tempfile.TemporaryDirectory(prefix="package-")
        cls.addClassCleanup(cls.room.cleanup)
        cls.of = Repository(cls.room.name)
        cls.ran = cls.of.package()
        assert cls.ran.status == 0, cls.ran
        with tarfile.open(cls.of.path(f"out/{TAR}")) as files:
            cls.in_tar = files.getmembers()
            files.extractall(cls.of.path("tar"))
        with tarfile.open(fileobj=io.BytesIO(run(["dpkg-deb", "--fsys-tarfile", cls.of.path(f"out/{DEB}")]).output)) as files:
            cls.in_deb = files.getmembers()
        run(["dpkg-deb", "-R", cls.of.path(f"out/{DEB}"), cls.of.path("deb")])
        os.rename(cls.of.path("deb/DEBIAN"), cls.of.path("control"))
        cls.tar, cls.deb = cls.of.path(f"tar/{INSIDE}"), cls.of.path("deb")
        cls.packed = ["LICENSE", FORMATS, "docs/JUNIT.md", "docs/testkit.1"]
        cls.packed += [f"examples/{name}" for name in files_below(cls.of.path("examples"))]
        cls.packed += [f"tools/{it}" for it in files_below(cls.of.path("tools")) if it in TOOLS]
        cls.programs = {name for name in cls.packed if os.access(cls.of.path(name), os.X_OK)}

    def test_archive(self):
        """It has the files of the repository with fixed owners, times and modes, sorted, and no name and no time of its own."""
        printed = "".join(f"{self.of.path('out')}/{it}\n" for it in (TAR, DEB))
        self.assertEqual((self.ran.output.decode(), self.ran.error), (printed, b"" if HAS_JAVA else NO_JAR))
        self.assertEqual(files_below(self.tar), sorted([*self.packed, "PROVED-WITH", "testkit", *(IN_MAVEN if HAS_JAVA else [])]))
        self.assertEqual([it for it in self.packed if read(f"{self.tar}/{it}") != read(self.of.path(it))], [])
        self.assertEqual(read(f"{self.tar}/testkit"), read(self.of.path(BUILT)))
        names = [it.name for it in self.in_tar]
        programs = {f"{INSIDE}/{it}" for it in ("testkit", *self.programs)}
        self.assertEqual(names, sorted(names))
        self.assertEqual([it.name for it in self.in_tar if it.mode != (0o755 if it.name in programs else 0o644)], [])
        owners = {(it.uid, it.gid, it.uname, it.gname, it.mtime, it.isfile()) for it in self.in_tar}
        self.assertEqual(owners, {(0, 0, "root", "root", MOMENT, True)})
        self.assertEqual(read(self.of.path(f"out/{TAR}"))[3:8], b"\0" * 5)

    def test_proved_with(self):
        commit, tree = self.of.git("rev-parse", "HEAD", "HEAD^{tree}").split()
        program = hashlib.sha256(read(self.of.path(BUILT))).hexdigest()
        wanted = f"testkit {VERSION}\ncommit {commit}\ntree {tree}\nkit rattle-kit-0\nprogram sha256 {program}\n"
        self.assertEqual(read(f"{self.tar}/PROVED-WITH").decode(), f"{wanted}gate ./check of this tree: 12 passed, 0 failed\n")

    def place(self, name):
        """Where Debian has a file of the archive."""
        places = {"docs/testkit.1": "usr/share/man/man1/testkit.1.gz"}
        if name.startswith("tools/") or name == "testkit":
            return f"usr/lib/testkit/{name}"
        if name.startswith("maven/"):
            return f"usr/share/testkit/{name}"
        return places.get(name) or f"{DOCUMENTS}/{name[5:] if name.startswith('docs/') else name}"

    def test_files_in_debian(self):
        """It has the files of the archive in other places, links, and a command."""
        links = ["usr/bin/testkit", *(f"usr/bin/testkit-{it}" for it in COMMANDS)]
        links += [f"usr/share/man/man1/testkit-{it}.1.gz" for it in ("explain", *COMMANDS)]
        links += [LINK] * HAS_JAVA
        names = [it for it in files_below(self.tar) if it != "LICENSE"]
        self.assertEqual(files_below(self.deb), sorted([*map(self.place, names), *links, EXPLAIN, *SAID]))
        self.assertEqual([it for it in links if not os.path.islink(f"{self.deb}/{it}") or not os.path.exists(f"{self.deb}/{it}")], [])
        for name in names:
            data = read(f"{self.deb}/{self.place(name)}")
            self.assertEqual(gzip.decompress(data) if name == "docs/testkit.1" else data, read(f"{self.tar}/{name}"), name)
        owners = {(it.uid, it.gid, it.uname, it.gname, it.mtime) for it in self.in_deb}
        modes = {it.name: it.mode for it in self.in_deb if it.isfile()}
        programs = {f"./{EXPLAIN}", *(f"./{self.place(it)}" for it in ("testkit", *self.programs))}
        self.assertEqual(owners, {(0, 0, "root", "root", MOMENT)})
        self.assertEqual({it.mode for it in self.in_deb if it.isdir()}, {0o755})
        self.assertEqual(modes, {name: 0o755 if name in programs else 0o644 for name in modes})

    def test_what_debian_is_told(self):
        fields = dict(re.findall(r"^([\w-]+): (.*)$", read(self.of.path("control/control")).decode(), re.MULTILINE))
        libc = max(int(it) for it in re.findall(rb"GLIBC_2\.(\d+)", read(self.of.path(BUILT))))
        size = sum(os.lstat(f"{self.deb}/{it}").st_size for it in files_below(self.deb)) // 1024
        self.assertIn(int(fields.pop("Installed-Size")), range(size, size + 200))
        wanted = {"Version": VERSION, "Maintainer": "An äuthor <author@place.example>", "Depends": f"libc6 (>= 2.{libc}), python3 (>= 3.7)"}
        self.assertEqual({name: fields[name] for name in wanted}, wanted)
        files = [it for it in files_below(self.deb) if not os.path.islink(f"{self.deb}/{it}")]
        sums = "".join(f"{hashlib.md5(read(f'{self.deb}/{it}')).hexdigest()}  {it}\n" for it in files)
        self.assertEqual(read(self.of.path("control/md5sums")).decode(), sums)
        parts = re.findall(rb"([\w.-]+)/? +\d+ +0 +0 +100644 ", read(self.of.path(f"out/{DEB}")))
        self.assertEqual(parts, [b"debian-binary", b"control.tar.gz", b"data.tar.gz"], "parts that each dpkg can unpack")

    @needs("lintian")
    def test_lintian(self):
        """Debian's own check finds no fault but that the program isn't stripped, and the package says why."""
        ran = run(["lintian", "--allow-root", self.of.path(f"out/{DEB}")])
        self.assertEqual((ran.status, re.findall(rb"(?m)^[EW]: .*", ran.output)), (0, []), ran)

    def test_answers(self):
        """The unpacked program and its tools answer."""
        if not os.path.exists(PROGRAM):
            self.skipTest("no proved program")
        environment = {"PATH": f"{self.deb}/usr/bin:{os.environ['PATH']}"}
        record, report = read(f"{self.tar}/examples/two_tests.record"), read(f"{TOP}/gate/junit/open-test-reporting.xml")
        for program, tools in ((f"{self.tar}/testkit", f"{self.tar}/tools/"), ("testkit", f"{self.deb}/usr/bin/testkit-")):
            self.assertEqual(run([program, "ask", "count", "all"], record, env=environment).output, b"5\n")
            for tool, begin in (("timeline", b"<!doctype html>"), ("trace", b'{"traceEvents":[')):
                drawn = run([tools + tool], record, env=environment)
                self.assertTrue(drawn.output.startswith(begin) and b"[t:1]" in drawn.output, drawn.error)
            made = run([f"{tools}from-open-test-reporting"], report, env=environment)
            self.assertEqual(made.output, read(f"{TOP}/gate/junit/open-test-reporting.record"), made.error)
            name = "check" if tools.endswith("-") else "check-records"
            ran = run([tools + name, f"{self.tar}/examples/two_tests.record"], env=environment)
            self.assertEqual((ran.status, ran.output.count(b"\n")), (0, 2), ran)
        explained = run([f"{self.deb}/{EXPLAIN}", "list", "failed", "not(name(a b))"], record)
        self.assertEqual(explained.output, b'2 E|1|1|2|finish|fail|boom   [engine:e]/[t:1] "one"\n', explained.error)

    @unittest.skipUnless(HAS_JAVA, "no javac")
    def test_jar(self):
        with zipfile.ZipFile(f"{self.tar}/{JAR}") as jar:
            found = {name: jar.read(name) for name in jar.namelist()}
            forms = {(it.create_system, it.external_attr >> 16, it.compress_type, it.date_time) for it in jar.infolist()}
        heads, packed = ["META-INF/MANIFEST.MF", "META-INF/LICENSE", *listener.SERVICES], listener.packed(read(f"{self.tar}/testkit"))
        classes = sorted(set(found) - set(heads) - set(packed))
        self.assertEqual(list(found), heads + classes + list(packed))
        self.assertEqual({name: found[name] for name in packed}, packed)
        self.assertEqual(forms, {(3, 0o100644, zipfile.ZIP_STORED, (1980, 1, 1, 0, 0, 0))})
        self.assertEqual({re.sub(r"(\$\w+)?\.class$", "", name) for name in classes}, {f"testkit/{it}" for it in listener.LISTENER})
        self.assertEqual({found[name][4:8] for name in classes}, {b"\0\0\0\x34"}, "Java 8")
        self.assertIn(f"\r\nImplementation-Version: {VERSION}\r\n".encode(), found[heads[0]])

    @unittest.skipUnless(HAS_JAVA, "no javac")
    def test_maven(self):
        """The jar stands in a repository of Maven, with its sources, its coordinates, and sums, as those who download it check."""
        self.assertEqual(read(f"{self.deb}/{LINK}"), read(f"{self.tar}/{JAR}"))
        with zipfile.ZipFile(f"{self.tar}/{MAVEN}-sources.jar") as sources:
            self.assertEqual(sorted(sources.namelist()), sorted(["META-INF/LICENSE", *(f"testkit/{it}.java" for it in listener.LISTENER)]))
        coordinates = re.findall(r"<(groupId|artifactId|version)>(.*)</", read(f"{self.tar}/{MAVEN}.pom").decode())
        self.assertEqual(coordinates, [("groupId", "testkit"), ("artifactId", "testkit-listener"), ("version", VERSION)])
        for name in IN_MAVEN[::3]:
            data = read(f"{self.tar}/{name}")
            sums = [hashlib.md5(data).hexdigest(), hashlib.sha1(data).hexdigest()]
            self.assertEqual([read(f"{self.tar}/{name}.{kind}").decode() for kind in ("md5", "sha1")], sums, name)

    @unittest.skipUnless(HAS_JAVA and os.path.exists(CONSOLE), "no javac")
    def test_jar_in_the_console(self):
        """The console finds the listener and the filter in the jar, which record a run with its locks; the program in the jar answers."""
        if not os.path.exists(PROGRAM):
            self.skipTest("no proved program")
        at = folder(self)
        one_test = f"{TOP}/gate/package/OneTest.java"
        compiled = run(["javac", "-nowarn", "-d", f"{at}/classes", "-cp", f"{CONSOLE}:{self.tar}/{JAR}", one_test])
        words = ["-cp", f"{at}/classes:{self.tar}/{JAR}", "--config", f"testkit.record={at}/run.record", "--select-class", "OneTest"]
        ran = run(["java", f"-Dexamples={self.tar}/examples", "-jar", CONSOLE, *words, "--disable-banner"], cwd=at)
        self.assertEqual((compiled.status, ran.status), (0, 0), (compiled, ran))
        self.assertRegex(read(f"{at}/run.record"), rb"(?s)^testkit-record\|3\n.*method:one\(\).*\nL\|\d\|W\|db\n.*\|finish\|ok\nZ\|\d+\n$")


def ignore_mode(it):
    it.git("config", "core.fileMode", "false")
    os.chmod(it.path(FORMATS), 0o755)


def committed(change):
    """A change that is committed, and for which the gate passed."""
    return lambda it: (change(it), it.commit())


NO_RUN, CHANGED = f"no run of ./check that passed has left {RUN}", f"{FORMATS} is not as it was committed"
REFUSED = rows(__file__, globals())
"""Where no package comes: the status, what is said, and what was done."""


@needs("git")
class Bytes(unittest.TestCase):
    def test_again(self):
        """The same bytes come of another clone, under other settings of git, other variables and another mask, beside another call."""
        it, other = Repository(folder(self)), Repository(f"{folder(self)}/much/deeper")
        other.write(".git/info/attributes", b"docs/JUNIT.md export-ignore\n")
        for name, value in {"core.autocrlf": "true", "i18n.logOutputEncoding": "ISO-8859-1"}.items():
            other.git("config", name, value)
        os.utime(other.path("LICENSE"), (1, 1))
        os.makedirs(other.path("out/made"))
        other.write(f"out/made/{TAR}", b"old")
        os.symlink(other.path("tools/package"), other.path("out/link"))
        variables = {"SOURCE_DATE_EPOCH": "1", "TZ": "Asia/Tokyo", "LC_ALL": "C", "GIT_DIR": "/none", "GIT_INDEX_FILE": "/none"}
        twice = ["sh", "-c", 'umask 077; "$0" made & "$0" made && wait $!', other.path("out/link")]
        ran = run(twice, cwd=other.path("out"), env={**os.environ, **variables})
        self.assertEqual((ran.status, it.package().status), (0, 0), ran)
        self.assertTrue(len(it.made()) == 2 and it.made() == other.made("out/made"), "the bytes differ")


@needs("git")
class Refusals(unittest.TestCase):
    @parameterized(REFUSED)
    def test_refused(self, status, line, change):
        it = Repository(folder(self))
        change(it)
        ran = it.package(PATH=without_jdk(self))
        self.assertEqual((ran.status, ran.output, it.made()), (status, b"", {}), ran)
        self.assertRegex(ran.error.replace(NO_JAR, b"").decode(), f"^tools/package: {re.escape(line)}.*\n$")

    def test_no_jdk(self):
        it = Repository(folder(self))
        ran = it.package(PATH=without_jdk(self))
        with tarfile.open(it.path(f"out/{TAR}")) as files:
            self.assertEqual((ran.status, ran.error, any("/maven/" in it for it in files.getnames())), (0, NO_JAR, False))

    @unittest.skipUnless(HAS_JAVA, "no javac")
    def test_no_java(self):
        """A listener that can't be compiled."""
        it = Repository(folder(self))
        it.write("examples/junit/testkit/RecordListener.java", b"class { int }\n")
        it.commit()
        ran = it.package()
        self.assertEqual((ran.status, it.made(), ran.error.count(b"\n")), (70, {}, 1), ran)
        self.assertIn(b"tools/package: the listener can't be compiled: ", ran.error)


USAGE = read(f"{TOP}/crates/testkit/usage.txt").decode()


class ManPage(unittest.TestCase):
    TEXT = re.sub(r"\\f[BIR]", "", read(f"{TOP}/docs/testkit.1").decode().replace("\\-", "-"))

    def test_forms(self):
        """It has the command lines that README.md and the page of usage have."""
        texts = (USAGE, read(f"{TOP}/README.md").decode(), self.TEXT.replace(" ...", " .."))
        forms = [re.findall(r"^ *(testkit .*?< [A-Z]+)", text, re.MULTILINE) for text in texts]
        page, *others = [[" ".join(it.split()) for it in found] for found in forms]
        self.assertGreaterEqual(len(page), 11)
        self.assertEqual([page, page], others)

    def test_words(self):
        """It has each word by which the page explains its command lines, and the commands of the package."""
        words = re.findall(r"[\w-]+", USAGE[USAGE.index("\n\n") : USAGE.index("docs/FORMATS.md")]) + [f"testkit-{it}" for it in COMMANDS]
        self.assertEqual([it for it in words if not re.search(rf"(?<!\w){it}(?!\w)", self.TEXT)], [])

    @needs("groff")
    def test_roff(self):
        ran = run(["groff", "-man", "-ww", "-z", "-Tutf8", f"{TOP}/docs/testkit.1"])
        self.assertEqual((ran.status, ran.output, ran.error), (0, b"", b""))


class Usage(WithProgram):
    @parameterized(re.findall(r"^  testkit ask (\w+)", USAGE, re.MULTILINE))
    def test_question(self, name):
        """The program knows each question of the page."""
        self.assertNotIn(b"unknown question", ask(["ask", name], b"testkit-record|2\n").error)
