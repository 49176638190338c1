"""Tests of RecordAssert: RecordAssertTests by JUnit's console, whose run the listener records as in a build."""

import os
import shutil

import fixtures
import java
import listener
from fixtures import parameterized
from records import entries
from test_listener import WithClasses as Compiled

TESTS = 36
"""How many tests RecordAssertTests and RecordKitTests have."""

REAL = fixtures.PROGRAM if os.access(fixtures.PROGRAM, os.X_OK) else ""
"""The program, if there is one."""

PACKED = "theProgramOfTheJarAnswers"
OF_PROGRAM = ["theProgramAnswers", "theProgramJudgesLocks", "theProgramAnswersAboutSomeEvents", "theProgramKnowsWhatIsBelowAnId"]
OF_PROGRAM += ["theProgramKnowsWhatOverlaps", "theProgramKnowsWhatExecutionsTake", "resultsWhoseRecordIsNotWholeAreRefused"]
MAY_ABORT = {"withoutAProgramATestIsAbortedUnlessOneIsRequired", PACKED, *([] if REAL else OF_PROGRAM)}
"""Tests that a program on the path, or no program, leaves out."""


@java.needs_junit
class OfRecordAssert(Compiled):
    """The tests; some again where Java can't hand over letters outside of ASCII, and where the jar has a program."""

    def play(self, name, locale, *words, folders=()):
        """Runs tests in a locale, with folders on the class path, and returns the tails of each test's events by its method."""
        scratch = f"{self.out}/{name}.tmp"
        os.mkdir(scratch)
        properties = {"java.io.tmpdir": scratch, "testkit.real": REAL, "testkit.record": f"{self.out}/{name}.record"}
        command = [*java.COMMAND, *(f"-D{key}={value}" for key, value in properties.items()), "-jar", java.CONSOLE, *words]
        classes = ":".join(filter(None, [self.classes.folder, self.service, java.KIT, *folders]))
        command += ["-cp", classes, "--disable-banner", "--disable-ansi-colors"]
        ran = fixtures.run(command, seconds=java.SECONDS, env={**os.environ, "LC_ALL": locale})
        self.assertIn(ran.status, (0, 1), ran.output.decode(errors="replace"))
        lines = self.lines(f"{name}.record")
        statics = [line.split("|") for line in lines if line.startswith("N|")]
        methods = {key: it[2].split("[method:")[1].split("(")[0] for key, it in enumerate(statics) if "[method:" in it[2]}
        found = {method: [it.tail for it in entries(lines) if it.key == key] for key, method in methods.items()}
        return found, os.listdir(scratch)

    def test_each(self):
        found, left = self.play("assert", "C.UTF-8", "--select-class", "testkit.RecordAssertTests", "--select-class", "testkit.RecordKitTests")
        self.assertGreaterEqual(len(found), TESTS)
        left_out = {it for it in MAY_ABORT if found[it][1].startswith("finish|abort|Assumption failed: ")}
        self.assertEqual({it: tails for it, tails in found.items() if it not in left_out and tails != ["start", "finish|ok"]}, {})
        names = sorted(name.split("-")[0] + name[name.rfind(".") :] for name in left)
        self.assertEqual(names, ["testkit.record"] * (4 if REAL else 3), "the files that stay are those that a message names")

    def test_letters_that_java_would_change(self):
        found, _ = self.play("ascii", "C", "--select-method", "testkit.RecordAssertTests#lettersAreHandedOverOrRefused")
        self.assertEqual(found, {"lettersAreHandedOverOrRefused": ["start", "finish|ok"]})

    @parameterized([("with its sum", True), ("with another sum", False)])
    def test_program_of_the_jar(self, is_right):
        folder, program = f"{self.out}/packed-{is_right}", b"#!/bin/sh\necho yes\n"
        for name, data in listener.packed(program if is_right else program[1:]).items():
            fixtures.write(f"{folder}/{name}", data.decode())
        fixtures.write(f"{folder}/{listener.PROGRAM}", program.decode())
        found, left = self.play(f"packed-{is_right}", "C.UTF-8", "--select-method", f"testkit.RecordAssertTests#{PACKED}", folders=[folder])
        tails = found[PACKED]
        self.assertEqual((tails == ["start", "finish|ok"], "isn't what the jar has, by its sum" in tails[1], left), (is_right, not is_right, []))

    def test_without_the_kit(self):
        """Who asks about a record in a file needs neither JUnit's kit nor its launcher."""
        at = fixtures.folder(self)
        shutil.copytree(f"{self.classes.folder}/testkit", f"{at}/classes/testkit")
        text = "class Asks {\n    public static void main(String[] words) {\n        testkit.RecordAssert.assertThat("
        text += "java.nio.file.Paths.get(words[0])).matchesLoosely(testkit.RecordAssert.Conditions.hasName(words[1]));\n    }\n}\n"
        fixtures.write(f"{at}/Asks.java", text)
        fixtures.write(f"{at}/program", "#!/bin/sh\necho yes\n", 0o755)
        path = f"{at}/classes:{java.LIBRARY}/opentest4j.jar"
        compiled = fixtures.run(["javac", "-d", f"{at}/classes", "-cp", path, f"{at}/Asks.java"])
        ran = fixtures.run([*java.COMMAND, "-cp", path, f"-Dtestkit.program={at}/program", "Asks", f"{at}/Asks.java", "a|b"])
        self.assertEqual((compiled.status, ran.status), (0, 0), (compiled, ran))
