"""Tests `./testkit` on a small repository, in which scripts stand for `rt` and for the proved program."""

import hashlib
import json
import os
import pty
import shutil
import signal
import sys
import time
import unittest
from pathlib import Path

from fixtures import TOP, Ran, folder, needs, parameterized, run, write
from rows import row, rows, texts

COMMANDS = "awk cat cut dirname find head mktemp readlink rm sed sha256sum sort tail xargs".split()
"""What the launcher calls besides `rt`."""

TEXTS = texts(f"{os.path.dirname(os.path.realpath(__file__))}/launcher.texts")
CRATES, PROGRAM, RT = TEXTS["crates.txt"], TEXTS["program"], TEXTS["rt"].replace("PYTHON", sys.executable)
"""What stands in `crates.txt`, for the program, and for `rt`. To no words the program says, as the real one, that they are bad."""

PARTS = "src/lib.rt src/parts/part.rt specs/Lib.antt proofs/Proof.antt must-fail/a.edit README.md out/rlib/stamp".split()
LAUNCHER = ("testkit", "tools/sources.sh")
WORDS = ["ask", "stats", "a word", "two\nlines", "--", "", "*", "$HOME \\n", "-n"]
BINARY = bytes(range(256)) * 65536
"""16 MiB."""

NOT_PROVED = "this build is not proved here"
OTHER_SOURCES = "the sources are not those of bin/"
OTHER_PROGRAM = "bin/testkit-x86_64-linux is not the program of bin/PROVED-WITH"
NOT_RUN = "bin/testkit-x86_64-linux can't be run here (README.md"
NO_MODE = "bin/testkit-x86_64-linux has lost its mode"


class Repository:
    """Two libraries, a program, a library that isn't below it and a crate of tests; beside the proved program is its sum."""

    def __init__(self, test: unittest.TestCase):
        self.at, self.temporary = f"{os.path.realpath(folder(test))}/a folder", folder(test)
        self.program, self.commands = self.path("crates/testkit/out/testkit"), self.path("commands")
        self.write("crates.txt", CRATES)
        for name in ("tk_low", "tk_high", "tk_other", "testkit", "test_high"):
            for part in PARTS:
                self.write(f"crates/{name}/{part}", "old\n")
        shutil.rmtree(self.path("crates/testkit/specs"))
        os.makedirs(self.path("tools"))
        for name in LAUNCHER:
            shutil.copy(f"{TOP}/{name}", self.path(name))
        self.write("commands/rt", RT, 0o755)
        for name in COMMANDS:
            os.symlink(shutil.which(name) or name, f"{self.commands}/{name}")
        self.write("crates/testkit/out/testkit", PROGRAM, 0o755)
        hour_ago = time.time() - 3600
        for at, folders, files in os.walk(self.at):
            for name in folders + files:
                os.utime(f"{at}/{name}", (hour_ago, hour_ago), follow_symlinks=False)
        os.utime(self.program, (hour_ago + 1, hour_ago + 1))
        self.sum()
        self.answers("5\n")

    def path(self, name: str) -> str:
        return f"{self.at}/{name}"

    def write(self, name: str, text: str, mode: int = 0o644) -> None:
        write(self.path(name), text, mode)

    def answers(self, output: str, line: str = "", status: int = 0, ended: str = "") -> None:
        """Says what `rt try` writes: the output and the line of the program, and what it says of the run, as of one that ended."""
        ended = ended or f"checked: ended status={status}\nraces: not looked for\nrun=ended status={status} runners=1 proved=no\n"
        self.write("answer", json.dumps([output, f"rt: a warning\n{line}{ended}", status]))

    def sh(self, line: str) -> str:
        """What a line of shell prints after `tools/sources.sh`."""
        return run(["sh", "-c", f". tools/sources.sh; {line}"], cwd=self.at).output.decode()

    def sum(self) -> None:
        """Leaves what `./check` leaves beside the proved program."""
        self.write("crates/testkit/out/testkit.sum", self.sh('sum_of_build crates/testkit/out/testkit "$(sum_of_sources)"'))

    def unprove(self) -> None:
        os.remove(self.program)

    def keep(self, program: str = PROGRAM, sources: str = "") -> None:
        """Puts a program into bin/ as one of these sources, and takes the proved one and `rt` away."""
        for path in (self.program, f"{self.commands}/rt"):
            if os.path.exists(path):
                os.remove(path)
        sources = sources or self.sh("sum_of_sources").strip()
        sum_of_program = hashlib.sha256(program.encode()).hexdigest()
        self.write("bin/testkit-x86_64-linux", program, 0o755)
        self.write("bin/PROVED-WITH", f"# kit a kit\n# sources {sources}\n{sum_of_program}  testkit-x86_64-linux\n")

    def call(self, *words: str, input: bytes = b"", streams: str = "", **how) -> Ran:
        """Calls `./testkit`, with these redirections of a shell."""
        environment = {"PATH": self.commands, "TMPDIR": self.temporary, "REPOSITORY": self.at}
        return run(["/bin/sh", "-c", f'exec "$@" {streams}', "sh", self.path("testkit"), *words], input, env=environment, **how)

    def given(self) -> bytes:
        return Path(self.path("input")).read_bytes()


LOW, PROOF = "crates/tk_low/src/lib.rt", "crates/tk_high/proofs/Proof.antt"
CHANGES = rows(__file__, globals())
"""Changes after which the proved program isn't that of the sources, and, with the reason, those after which that of bin/ doesn't answer."""

TRIED = [("5\n", "", 0), ("no 1\n", "", 1), ("", "testkit: bad word 0\n", 2), ("a\nb", "testkit: unit 1\ntwo\n", 3)]
NO_ANSWER = [
    ("main.rt:1:1: error: unknown name\nrun=none proved=no", 1),
    ("checked: no-answer: the program did not end within the time limit\nrun=no-answer proved=no", 6),
    ("checked: ended status=0\nrun=ended status=0 runners=1 proved=no", 2),
    ("run=ended status=0 runners=1 proved=no\nno more", 0),
]


class Launcher(unittest.TestCase):
    def setUp(self) -> None:
        self.it = Repository(self)

    def assert_tried(self, ran: Ran, output: str = "5\n", line: str = "", status: int = 0, why: str = NOT_PROVED) -> None:
        """Looks at what came of a call that `rt try` answered: one line more than the program has, which comes first."""
        first, _, rest = ran.error.decode().partition("\n")
        self.assertTrue(first.startswith(f"testkit: {why}") and ", so rt try " in first, ran)
        self.assertEqual((ran.output.decode(), rest, ran.status), (output, line, status))
        self.assertEqual(os.listdir(self.it.temporary), [])

    def assert_failed(self, ran: Ran, part: str, lines: int = 2) -> None:
        """Looks at what came of a call that the launcher ended: its status, and its last line."""
        said = ran.error.decode().splitlines()
        self.assertEqual((ran.status, ran.output, len(said)), (70, b"", lines))
        self.assertTrue(said[-1].startswith("testkit: ") and part in said[-1], ran)
        self.assertEqual(os.listdir(self.it.temporary), [])

    def assert_answered(self, *words: str, input: bytes = b"", status: int = 0) -> None:
        """The program gets the words and the input as they are, in the caller's folder, also where a link leads to the launcher."""
        elsewhere = os.path.realpath(folder(self))
        os.symlink(self.it.path("testkit"), f"{elsewhere}/link")
        ran = run([f"{elsewhere}/link", *words], input, cwd=elsewhere, env={"PATH": self.it.commands})
        wanted = f"{elsewhere}\n{''.join(f'<{it}>' for it in words)}".encode() + input
        self.assertEqual((ran.output == wanted, ran.error, ran.status), (True, b"testkit: it complains\n", status))

    def test_proved_program(self) -> None:
        self.assert_answered("3", *WORDS, input=BINARY, status=3)

    @parameterized([row for row in CHANGES if len(row) == 2])
    def test_changed_sources(self, change) -> None:
        change(self.it)
        self.assert_tried(self.it.call("ask", "stats"))

    def test_other_changes(self) -> None:
        for path in ("README.md", "must-fail/a.edit", "out/rlib/stamp", "out/new"):
            self.it.write(f"crates/tk_low/{path}", "new\n")
        os.utime(self.it.path(LOW))
        for path in ("tk_other/src/lib.rt", "test_high/src/lib.rt", "tk_unlisted/src/lib.rt"):
            self.it.write(f"crates/{path}", "new\n")
        self.assert_answered("2", status=2)

    @parameterized(TRIED, name=str)
    def test_tried_answer(self, row) -> None:
        """What `rt try` says of the run isn't shown, and statuses of the program aren't taken for those of `rt try`."""
        self.it.unprove()
        self.it.answers(*row)
        self.assert_tried(self.it.call(*WORDS, input=BINARY), *row)
        # (rt takes only what a pipe gives without a pause, so it is given a file)
        called = [self.it.path("crates/testkit"), ["try", "--seconds", "3600", "--", *WORDS], True]
        self.assertEqual(called, json.loads(Path(self.it.path("call")).read_text(encoding="utf-8")))
        self.assertTrue(self.it.given() == BINARY)

    def test_inputs(self) -> None:
        """One without an end is cut, and a terminal isn't read."""
        self.it.unprove()
        self.assert_tried(self.it.call("run", streams="</dev/zero"))
        self.assertGreater(len(self.it.given()), 16 << 20)
        terminal, end = pty.openpty()
        self.assert_tried(self.it.call("ask", "stats", stdin=end, seconds=30))
        self.assertEqual(self.it.given(), b"")
        os.close(terminal)
        os.close(end)

    @parameterized(["<&-", "<.", ">&-", ">/dev/full"])
    def test_streams(self, streams) -> None:
        self.it.unprove()
        self.assert_failed(self.it.call("run", streams=streams), f"standard {'in' if '<' in streams else 'out'}put can't be ")

    @parameterized([(ended, ended, status) for ended, status in NO_ANSWER])
    def test_no_answer(self, ended, status) -> None:
        """A status of `rt try` itself isn't taken for one of the program, nor is what it shows of one that didn't end."""
        self.it.unprove()
        self.it.answers("5\n", "testkit: bad word 0\n", status, f"{ended}\n")
        self.assert_failed(self.it.call("replay"), f"no answer by rt try ({ended.splitlines()[-1]}")

    def test_signal(self) -> None:
        """A signal that ends `rt try` is handed on."""
        self.it.unprove()
        self.it.write("commands/rt", "#!/bin/sh\nkill -TERM $$\n", 0o755)
        ran = self.it.call("run")
        self.assertEqual((ran.status, ran.output), (128 + signal.SIGTERM, b""), ran)
        self.assertNotIn(b"no answer", ran.error)

    @parameterized(COMMANDS)
    def test_missing(self, name) -> None:
        os.remove(f"{self.it.commands}/{name}")
        self.assert_failed(self.it.call("run"), f"there is no command {name}", lines=1)

    def test_no_toolchain(self) -> None:
        os.remove(f"{self.it.commands}/rt")
        self.assert_answered("1", status=1)
        self.it.unprove()
        self.assert_failed(self.it.call("run"), f"{NOT_PROVED}, and there is no command rt", lines=1)

    def test_kept_program(self) -> None:
        """The program of bin/ answers where no newer one was proved here, and where it was made of these sources, whatever their times."""
        self.it.keep()
        for path in ("README.md", "must-fail/a.edit", "out/new", "src/.lib.rt.swp", "src/lib.rt~"):
            self.it.write(f"crates/tk_low/{path}", "new\n")
        self.it.write("crates/tk_other/src/lib.rt", "new\n")
        self.it.write("crates/tk_high/src/lib.rt", "old\n")
        self.assert_answered("3", *WORDS, input=BINARY, status=3)

    def test_proved_before_kept(self) -> None:
        self.it.keep("#!/bin/sh\nexit 2\n")
        self.it.write("crates/testkit/out/testkit", PROGRAM, 0o755)
        self.it.sum()
        self.assert_answered("3", status=3)

    @parameterized([row for row in CHANGES if len(row) == 3])
    def test_not_kept(self, why, change) -> None:
        """Without `rt` there is no answer, for this reason; with it, `rt try` answers, and says so."""
        self.it.keep()
        change(self.it)
        self.assert_failed(self.it.call("run"), why, lines=1)
        self.it.write("commands/rt", RT, 0o755)
        self.assert_tried(self.it.call("run"), why=why)


@needs("rt")
class Toolchain(unittest.TestCase):
    def test_answer(self) -> None:
        """The toolchain's own `rt try` says of a small program what the launcher makes of it."""
        at = f"{folder(self)}/a folder"
        write(f"{at}/crates.txt", "testkit:\n")
        write(f"{at}/crates/testkit/src/main.rt", TEXTS["small program"])
        os.mkdir(f"{at}/tools")
        for name in LAUNCHER:
            shutil.copy(f"{TOP}/{name}", f"{at}/{name}")
        ran = run([f"{at}/testkit", "run"], b"")
        self.assertEqual((ran.status, ran.output), (3, b"a line\n"), ran)
        self.assertRegex(ran.error, rb"\Atestkit: [^\n]*\ntestkit: unit 1 failed\n\Z")
