"""tools/new_engine makes both kinds of engine: their crates are the pages of the example, under other names, and nothing else is made.

Nothing is compiled here, since a try of one engine costs more than a minute of processor time: its text is the example's, whose tests are
those of `test_example_engine`.
"""

import os
import shutil
import unittest
from pathlib import Path
from typing import Dict

from fixtures import TOP, folder, needs, parameterized, run, write
from rows import rows

ENGINE, TESTS = "crates/example_engine/src", "crates/test_example_engine/src"


def makes(words: str, page: str, given: str, *names: str) -> tuple:
    return words, words.split(" "), page, given, dict(name.split("=") for name in names)


def refuses(words: str, fault: str, status: str = "1") -> tuple:
    return repr(words), words.split(" "), fault, int(status)


ROWS = rows(__file__, globals())


def files(at: str) -> Dict[str, str]:
    paths = [f"{place}/{name}" for place, _, names in os.walk(at) for name in names]
    return {os.path.relpath(path, at): Path(path).read_text(encoding="utf-8") for path in paths}


@needs("rt")
class NewEngine(unittest.TestCase):
    def setUp(self) -> None:
        self.at = folder(self)
        for path in (ENGINE, TESTS, "tools"):
            shutil.copytree(f"{TOP}/{path}", f"{self.at}/{path}")
        write(f"{self.at}/crates.txt", "tk_low: indexmap  # the first\ntest_tested tests_may=Wait: tk_low")
        write(f"{self.at}/.gitignore", "out/\n")
        for crate in ("tk_low", "test_tested", "unlisted"):
            os.makedirs(f"{self.at}/crates/{crate}/src")
        self.before = files(self.at)

    @parameterized([row for row in ROWS if len(row) == 5])
    def test_makes(self, words, page, given, names):
        ran = run([f"{self.at}/tools/new_engine", *words])
        self.assertEqual((ran.status, ran.error), (0, b""))
        made = {path: text for path, text in files(self.at).items() if text != self.before.get(path)}
        lines = "front_desk: engine_testkit\ntest_front_desk tests_may=Threads+Wait: front_desk engine_testkit\n"
        self.assertEqual(made.pop("crates.txt"), self.before["crates.txt"] + "\n" + lines)
        self.assertIn("`crates/test_front_desk`", made.pop("crates/front_desk/README.md"))
        pages = {ENGINE: made.pop("crates/front_desk/src/engine.rt"), TESTS: made.pop("crates/test_front_desk/src/engine.rt")}
        self.assertEqual([name for name in names if not any(name in it for it in pages.values())], [])
        for example, text in pages.items():
            for name, old in names.items():
                text = text.replace(name, old)
            self.assertEqual(text, self.before[f"{example}/{page}"])
        self.assertTrue(made.pop("crates/front_desk/src/lib.rt").endswith(f"#![tactic(auto)]\n\nmod engine;\n\npub use engine::{given};\n"))
        self.assertIn("#![tactic(auto)]\n\n#[cfg(test)]\nmod engine;\n", made.pop("crates/test_front_desk/src/lib.rt"))
        self.assertEqual(made, {})

    @parameterized([row for row in ROWS if len(row) == 4])
    def test_refuses(self, words, fault, status):
        """The script says why in one line, and changes nothing."""
        ran = run([f"{self.at}/tools/new_engine", *words])
        self.assertEqual((ran.status, ran.output, ran.error.count(b"\n")), (status, b"", 1), ran.error)
        self.assertIn(fault, ran.error.decode())
        self.assertEqual(files(self.at), self.before)
