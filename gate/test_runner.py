"""The runner and `./check` meet what is wrong: modules, `rt`, and a program in whose place scripts stand."""

import hashlib
import json
import os
import shutil
import subprocess
import time
import unittest
from pathlib import Path
from typing import Dict, Sequence

import kept
import listener
from fixtures import TEST_CRATES, TOP, Ran, folder, parameterized, run, write
from rows import rows, texts

TEXTS = texts(f"{TOP}/gate/test_runner.texts")
"""Parts of modules, of which `MARKS` leaves a file after a second that `SEES_MARK` has to find, and tests of a crate."""


def module(text: str) -> str:
    """A module of these parts: `skip REASON` is a skipped test, `rows N ..` a test with these rows."""
    parts = text.split(" + ")
    for at, (word, _, rest) in enumerate(part.partition(" ") for part in parts):
        if word == "skip":
            parts[at] = f'    @unittest.skip("{rest}")\n    def test_skipped(self): pass\n'
        elif word == "rows":
            parts[at] = f"    @parameterized({rest.split()})\n    def test_rows(self, row): self.assertLess(int(row), 9)\n"
    return TEXTS["HEAD"] + "".join(parts)


def settings(words: Sequence[str], usual: Dict[str, str]) -> Dict[str, str]:
    """What is set by `name=value`; a name of this module stands for its text."""
    found = (word.partition("=") for word in words)
    return {**usual, **{name: TEXTS.get(value, globals().get(value, value)) for name, _, value in found}}


def runs(name: str, text: str, counted: str, *words: str) -> tuple:
    """A run of the runner: what it is given and says, and its modules."""
    given = settings(words, {"least": "a/test_a 1", "words": "", "says": ""})
    others = {it: TEXTS["HEAD"] + given.pop(it) for it in list(given) if "/" in it}
    return name, counted, given, {"a/test_a": module(text), **others}


def checks(name: str, counted: str, *words: str) -> tuple:
    """A run of `./check`: what stands in place of its commands, and what comes of it."""
    usual = {"words": "check", "says": "", "leaves": "", "before": "", "slow": "", "ci": GOOD, "tries": TRIED, "gate": GOOD, "testkit": ANSWERS}
    return name, counted, settings(words, usual)


def status_of(counted: str) -> int:
    return 70 if "passed" not in counted else 0 if counted.endswith(" 0 failed") else 1


def told(*lines: str, status: int = 1) -> str:
    return "; ".join(f"echo '{line}'" for line in lines) + f"; exit {status}"


GOOD = 'echo "a line"; echo "30 passed, 0 failed"'
KIT = "kit-7 logic 89ab"
PROGRAM = "crates/testkit/out/testkit"
RUN = "crates/testkit/out/checked"
SUM = f'. tools/sources.sh; sum_of_build {PROGRAM} "$(sum_of_sources)"'
BUILT = "#!/bin/sh\nexit 2\n"
KEPT, PROVED_WITH = "bin/testkit-x86_64-linux", "bin/PROVED-WITH"
ANSWERS = 'read -r line && [ "$* $line" = "ask count all a record" ] && echo 5'
COMMIT = "-c user.name=a -c user.email=a -c commit.gpgSign=false commit -q -m new"

TRIED = told("tests: 2", "test a::b ... ok", "test c ... ok", "run=ended proved=no", status=0)
LOOKS = f'grep -rq slower src && ! grep -rq "fn slow(" src || exit 9; {TRIED}'
SECOND_FAILS = told("tests: 2", "test a ... ok", "test c ... FAILED", "    checked: stopped", "run=stopped proved=no")
SECOND_IS_SLOW = told("tests: 2", "test a ... ok", "test c ... FAILED", "    checked: no-answer: the program did not end within the time limit")
ONE_OF_ELEVEN = told("tests: 11", "test a ... ok")
NOTHING_SAID = told("tests: 2", "test a ... ok", status=0)
ALL_PASS_WITH_1 = told("tests: 1", "test a ... ok", "run=ended proved=no")

ROWS = rows(__file__, {**globals(), **TEXTS})


def copy_of(*paths: str, to: str) -> str:
    for path in paths:
        os.makedirs(os.path.dirname(f"{to}/{path}"), exist_ok=True)
        shutil.copy(f"{TOP}/{path}", f"{to}/{path}")
    return to


class Runner(unittest.TestCase):
    @parameterized([row for row in ROWS if len(row) == 4])
    def test_says(self, counted, given, modules):
        at = copy_of("gate/run", "gate/fixtures.py", "tools/asking.py", to=folder(self))
        write(f"{at}/gate/least", given["least"] + "\n")
        for name, text in modules.items():
            write(f"{at}/gate/{name}.py", text)
        ran = run([f"{at}/gate/run", *(word.replace("␣", " ") for word in given["words"].split())])
        said = (ran.output + ran.error).decode()
        self.assertEqual(status_of(counted), ran.status, said)
        self.assertIn(given["says"], said)
        if ran.status == 70:
            self.assertEqual((1, True), (said.count("\n"), counted in said), said)
        else:
            self.assertEqual(counted, said.splitlines()[-1], said)


class Fixtures(unittest.TestCase):
    def test_a_command_without_an_end(self):
        """It is killed with what it started, which else keeps its output open."""
        begun = time.monotonic()
        self.assertEqual(Ran(-9, b"a\n", b""), run(["sh", "-c", "echo a; sleep 60 & wait"], seconds=0.5))
        self.assertLess(time.monotonic() - begun, 50)


class Check(unittest.TestCase):
    @parameterized([row for row in ROWS if len(row) == 3])
    def test_says(self, counted, given):
        at, words = self.repository(given), given["words"].split()
        environment = {**os.environ, "PATH": f"{at}/commands:{os.environ['PATH']}"}
        ran = run([f"{at}/{words[0]}", *words[1:]], cwd="/", stderr=subprocess.STDOUT, env=environment)
        said = ran.output.decode()
        self.assertEqual(status_of(counted), ran.status, said)
        self.assertIn(given["says"], said)
        if ran.status == 70:
            self.assertIn(counted, said.splitlines()[-1])
        else:
            self.assertEqual(counted, said.splitlines()[-1], said)
            self.assertRegex(said, r"\ncheck: \d+ minutes by the clock, \d+ of processor time, on \d+ processors\n")
        self.check_left(at, words[1:] != [], given["leaves"] != "")

    def check_left(self, at: str, is_quick: bool, leaves: bool) -> None:
        """What `tools/package` asks for is left where all passed; else nothing is, also of an earlier run, save where nothing was proved."""
        left = json.loads(Path(f"{at}/{RUN}").read_text(encoding="utf-8")) if os.path.exists(f"{at}/{RUN}") else None
        if is_quick:
            self.assertEqual("an older run", left)
        elif leaves:
            program = hashlib.sha256(BUILT.encode()).hexdigest()
            self.assertEqual(run(["sh", "-c", SUM], cwd=at).output.decode(), Path(f"{at}/{PROGRAM}.sum").read_text(encoding="utf-8"))
            self.assertEqual({"tree": git(at, "rev-parse", "HEAD^{tree}"), "kit": KIT, "program": program, "passed": 62}, left)
        else:
            self.assertIsNone(left)

    def repository(self, given: Dict[str, str]) -> str:
        """Makes a clean repository in which each command is a script; `rt` finds all but the slow test in each crate."""
        tools = [f"tools/{it}" for it in ("asking.py", "checked.py", "kept.py", "listener.py", "sources.sh")]
        at = copy_of("check", ".ci/run", ".gitignore", "gate/fixtures.py", "gate/slow.py", *tools, to=folder(self))
        rt = f'ci) {given["ci"]} ;;\nversion) echo "{KIT}"; echo more ;;\n"try --test --seconds 10") {given["tries"]} ;;'
        scripts = {"commands/rt": f'case "$*" in\n{rt}\nesac', "gate/run": given["gate"], "testkit": given["testkit"]}
        scripts["commands/javac"] = "echo javac 99"
        for path, text in scripts.items():
            write(f"{at}/{path}", f"#!/bin/sh\n{text}\n", 0o755)
        write(f"{at}/examples/two_tests.record", "a record\n")
        write(f"{at}/gate/slow_tests", f"{given['slow']}\n" if given["slow"] else "")
        write(f"{at}/crates.txt", "".join(f"{crate} tests_may=Wait:\n" for crate in ["testkit", *TEST_CRATES]))
        for crate in os.listdir(f"{TOP}/crates"):
            write(f"{at}/crates/{crate}/src/a/b.rt", TEXTS["OTHERS"] + TEXTS["SLOW_ONE"] * (crate == "test_runs"))
            write(f"{at}/crates/{crate}/src/lib.rt", "mod a;\n")
        write(f"{at}/{PROGRAM}", BUILT, 0o755)
        write(f"{at}/{KEPT}", BUILT, 0o755)
        # (the sources of the jar are those of the tree, and what stands for the jar is compared with nothing: no JDK is the one that made it)
        for name in ("LICENSE", "VERSION", listener.POM, *(f"{listener.SOURCES}/testkit/{it}.java" for it in listener.LISTENER)):
            write(f"{at}/{name}", Path(f"{TOP}/{name}").read_text(encoding="utf-8"))
        in_maven = kept.in_maven(at, b"a jar")
        for name, data in in_maven.items():
            os.makedirs(os.path.dirname(f"{at}/bin/{name}"), exist_ok=True)
            Path(f"{at}/bin/{name}").write_bytes(data)
        sources = run(["sh", "-c", ". tools/sources.sh; sum_of_sources"], cwd=at).output.decode().strip()
        sums = run(["sha256sum", *sorted([*in_maven, "testkit-x86_64-linux"])], cwd=f"{at}/bin").output.decode()
        write(f"{at}/{PROVED_WITH}", f"# kit {KIT}\n# sources {sources}\n# javac-0\n{sums}")
        write(f"{at}/{RUN}", '"an older run"')
        git(at, "init", "-q")
        git(at, "add", "-A")
        git(at, *COMMIT.split())
        run(["sh", "-c", given["before"]], cwd=at)
        return at


def git(at: str, *words: str) -> str:
    return subprocess.run(["git", "-C", at, *words], check=True, stdout=subprocess.PIPE, text=True).stdout.strip()
