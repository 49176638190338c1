"""Tests of the listener and of ResultsWriter: runs of small engines, of sample tests and of runs that are cut off, recorded and compared.

With the variable JUPITER_RECORD the record of the sample tests is copied to the path that it names, as examples/jupiter.record.
"""

import os
import resource
import shutil
import subprocess
import tempfile
import unittest

import cases
import fixtures
import java
import samples
from fixtures import parameterized
from records import HEADER, by_id, check_lines, check_stamps, entries, locks_by_id

LONGER = 1 << 12
"""How many lines a file has that is longer than any sample's record."""
FULL = 1 << 20
"""How many bytes a file may have in the case of a full disk."""
FORWARDING = 24
"""How many threads of the case `forwarded-errors` forward what they write."""
MOST_SECONDS = 60
"""How many seconds that case may take, which needs one or hangs."""
LIFECYCLES = {"sample": "yes", "odd": "yes", "halt": "no end 0", "exit": "no end 0", "memory": "no end 0"}
"""What `ask lifecycle` says of what there is of each sample run: the last three are cut off while the root runs."""


class WithClasses(unittest.TestCase):
    @classmethod
    def setUpClass(cls):
        super().setUpClass()
        cls.room = tempfile.TemporaryDirectory(prefix="junit-")
        cls.addClassCleanup(cls.room.cleanup)
        cls.out = f"{os.path.realpath(cls.room.name)}/out"
        os.mkdir(cls.out)
        cls.classes, cls.service = java.compiled(), f"{cls.room.name}/service"
        java.with_service(cls.classes, cls.service)

    def lines(self, name):
        text = cases.read(f"{self.out}/{name}")
        self.assertTrue(text.endswith("\n"), f"the last line of {name} has no end")
        return text.split("\n")[:-1]


@java.needs_junit
class OfCases(WithClasses):
    @classmethod
    def setUpClass(cls):
        super().setUpClass()
        cls.facts = {}
        groups = cases.expected()
        limits = [case.name for case in cases.limits()]
        in_threads = [name for name in limits if name in ("huge-texts", "many-waiting")]
        cls.play("TextCases", *(case.name for case in groups["texts"]))
        cls.play("ThreadCases", *(case.name for case in groups["threads"]), "crowd", "many-waiting")
        cls.play("ThreadCases", "huge-texts", memory="200m")
        cls.play("RunCases", *(case.name for case in groups["runs"]))
        cls.play("LimitCases", *(name for name in limits if name not in (*in_threads, "locks-at-the-limit")))
        cls.play("LockCases", *(case.name for case in groups["locks"]), "locks-at-the-limit")
        cls.play("KitCases", *(case.name for case in groups["kit"]))
        cls.play("LimitCases", "full-disk", most_bytes=FULL)
        cls.play("LimitCases", "full-at-once", most_bytes=len(HEADER) // 2)
        cls.play_beside_each_other()
        forwarding = cls.classes.command("ThreadCases", cls.out, "forwarded-errors")
        cls.forwarded = fixtures.run(forwarding, seconds=MOST_SECONDS)

    @classmethod
    def play(cls, main, *names, most_bytes=None, memory="1g"):
        """Runs cases in a process with so much memory, whose files may have so many bytes."""
        limit = most_bytes and (lambda: resource.setrlimit(resource.RLIMIT_FSIZE, (most_bytes, most_bytes)))
        cls.keep(cls.classes.run(main, cls.out, *names, preexec_fn=limit, env={**os.environ, "JDK_JAVA_OPTIONS": f"-Xmx{memory}"}))

    @classmethod
    def keep(cls, output):
        """Keeps what cases said, each line its case, a fact and its value."""
        for line in output.splitlines():
            name, _, fact = line.partition(" ")
            cls.facts.setdefault(name, []).append(fact)

    @classmethod
    def play_beside_each_other(cls):
        """Runs a case in a process of its own while the case `held` of another process writes the same record."""
        command = cls.classes.command("RunCases", cls.out, "held")
        with subprocess.Popen(command, stdin=subprocess.PIPE, stdout=subprocess.PIPE, text=True) as holder:
            try:
                first = holder.stdout.readline()
                cls.before = cases.read(f"{cls.out}/held.record")
                cls.play("RunCases", "other-process")
                cls.after = cases.read(f"{cls.out}/held.record")
                output, _ = holder.communicate("go on\n", java.SECONDS)
            finally:
                holder.kill()
        cls.keep(first + output)

    @parameterized(cases.all_cases)
    def test_case(self, case):
        cases.check_case(case, self.out, self.facts.get(case.name, []))

    def test_nothing_else_is_said(self):
        named = {case.name for case in cases.all_cases()}
        self.assertEqual(set(self.facts) - named, {"crowd", "full-at-once"})

    def test_crowd(self):
        self.assertIn("whole true", self.facts["crowd"])
        samples.check_crowd(self.lines("crowd.record"), self.lines("crowd.messages"))

    def test_no_part_of_a_header_stays(self):
        """An empty record is none, so the next run has its name."""
        self.assertEqual(self.facts["full-at-once"].count("whole false"), 2)
        self.assertEqual(cases.read(f"{self.out}/full-at-once.record"), "")
        self.assertFalse(os.path.exists(f"{self.out}/full-at-once.1.record"))

    def test_pause(self):
        samples.check_pause([it.stamp for it in entries(self.lines("times.record"))])
        # (the stamp of a finish is that of its call, and not that of its message)
        stamps = [it.stamp for it in entries(self.lines("slow-message.record"))]
        self.assertGreaterEqual(stamps[-1] - stamps[2], samples.PAUSE)

    def test_pause_in_results(self):
        """The clock of the day, by which the kit goes, may be slowed down."""
        first, last = [it.stamp for it in entries(self.lines("kit-times.record"))]
        self.assertGreaterEqual(last - first, samples.PAUSE * 9 // 10)

    def test_errors_that_go_to_the_listener(self):
        """Threads whose standard error goes to the listener, which says something there, come to their end."""
        self.assertEqual(self.forwarded.status, 0, self.forwarded)
        self.assertIn(b"forwarded-errors whole true\n", self.forwarded.output)
        tails = [it.tail for it in entries(self.lines("forwarded-errors.record"))]
        self.assertEqual([tails.count(f"report|letter|{letter}") for letter in "xy"], [1, FORWARDING])
        self.assertEqual(self.lines("forwarded-errors.messages"), [samples.CROWDED])

    def test_a_record_that_another_process_writes(self):
        self.assertEqual(self.before, self.after)
        self.assertEqual(self.before.count("\n"), 4)


@java.needs_junit
class OfSamples(WithClasses, fixtures.WithProgram):
    """The sample tests, beside what JUnit's SummaryGeneratingListener counts."""

    @parameterized(sorted(LIFECYCLES))
    def test_run(self, name):
        path = f"{self.out}/{name}.record"
        if name == "halt":
            # A longer record of an earlier process: a run that is cut off leaves nothing of it either.
            fixtures.write(path, f"{HEADER}\n" * LONGER)
        counts = self.classes.run("RunSamples", name, path).split()
        lines, record = self.lines(f"{name}.record"), cases.read(path).encode()
        is_whole = LIFECYCLES[name] == "yes"
        self.assertEqual([line for line in lines if line.startswith("Z|")], [f"Z|{len(entries(lines))}"] * is_whole)
        said = fixtures.ask(["recover"], record)
        self.assertEqual((said.status, bool(said.error)), (int(not is_whole), not is_whole), said)
        record = said.output
        # (no report and no file is counted)
        self.assertEqual(len(counts), 7)
        self.assertEqual(fixtures.ask(["ask", "stats", *counts], record).status, 0, counts)
        said = fixtures.ask(["ask", "lifecycle"], record)
        self.assertEqual((said.status, said.output.decode()), (int(not is_whole), f"{LIFECYCLES[name]}\n"))
        check_stamps(lines)
        if name == "sample":
            samples.check_stored(lines)
            if "JUPITER_RECORD" in os.environ:
                shutil.copy(path, os.environ["JUPITER_RECORD"])
        if name == "odd":
            check_lines(by_id(lines), samples.odd_run())
            samples.check_workers(lines)


@java.needs_junit
class OfConsole(WithClasses):
    """A run of JUnit's console, which finds the listener by its service and captures what tests write on standard error."""

    def play(self, name, folder, words, settings):
        """Runs tests whose classes are in a folder, and returns what is on standard error, and the lines of the record."""
        errors = self.run_console(folder, words, {"testkit.record": f"{self.out}/{name}.record", **settings})
        return errors, self.lines(f"{name}.record")

    def run_console(self, folder, words, settings, *options):
        """Runs tests with options of Java, and returns what is on standard error."""
        words = [*words, *(word for key, value in settings.items() for word in ("--config", f"{key}={value}"))]
        console = [*java.COMMAND, *options, "-jar", java.CONSOLE, "-cp", f"{folder}:{self.service}", "--details", "none"]
        ran = fixtures.run([*console, *words], seconds=java.SECONDS)
        self.assertEqual(ran.status, 0, ran)
        return ran.error

    def compile(self, name):
        """Compiles a class of `console/`, and returns the folder in which it is then."""
        java.Classes(f"{self.out}/tests").compile([f"{java.HERE}/console/{name}.java"])
        return f"{self.out}/tests"

    def test_logging_is_left_alone(self):
        """Where nothing is recorded a test's logging finds the stream of the test, and where something is, no handler of the configuration."""
        at = self.compile("LoggingTest")
        words = ["--select-class", "LoggingTest", "--config", "logs=true"]
        self.run_console(at, words, {})
        fixtures.write(f"{self.out}/logging", f"handlers=java.util.logging.FileHandler\njava.util.logging.FileHandler.pattern={self.out}/log\n")
        option = f"-Djava.util.logging.config.file={self.out}/logging"
        record = {"testkit.record": f"{self.out}/logging.record", "testkit.verbose": "true"}
        for settings, said in (({}, b""), (record, f"testkit: this run is recorded in {self.out}/logging.record\n".encode())):
            self.assertEqual(self.run_console(at, words[:2], settings, option), said)
            self.assertFalse(os.path.exists(f"{self.out}/log"))

    def test_captured_errors(self):
        """What the listener says in a test goes to the console, and not into an entry of the test."""
        at = self.compile("ErrorsTest")
        captured = {"junit.platform.output.capture.stderr": "true"}
        errors, lines = self.play("errors", at, ["--select-class", "ErrorsTest"], captured)
        self.assertIn(b"are one text, and the second is left out", errors)
        reports = [it.tail for it in entries(lines) if it.tail.startswith("report|")]
        self.assertEqual(reports, ["report|\ufffd|v", "report|stderr|of b\\n"])

    def test_locks(self):
        """The locks of Jupiter's tests, also of classes that a filter of tags excludes, and that stay for the sake of their tests."""
        classes = ["--select-class", "testkit.LockTests", "--select-class", "testkit.LockTests$AloneTests", "--include-tag", "chosen"]
        _, lines = self.play("locks", self.classes.folder, classes, samples.PARALLEL)
        self.assertEqual(locks_by_id(lines), samples.LOCKS)
        if not os.access(fixtures.PROGRAM, os.X_OK):
            self.skipTest(fixtures.NO_PROGRAM)
        ran = fixtures.ask(["ask", "locks"], "".join(f"{line}\n" for line in lines).encode())
        self.assertEqual((ran.status, ran.output, ran.error), (0, b"yes\n", b""))
