"""A copy of the repository for `rt try`, which is many times slower than the proved program.

It lacks the tests that `rt try` can't end in ten seconds: `gate/slow_tests` names them, a line a crate and a test. (`rt try` can't leave
tests out, and waits for each until its time is over.) And `rt try` compiles the libraries anew for each crate, so that several crates of
tests are joined to one, of which each is a module.
"""

import os
import re
import shutil
from pathlib import Path
from typing import Dict, List, Sequence, Tuple

LIST = "gate/slow_tests"
ROOT = "#![tactic(auto)]\n\n"
"""What stands in the root of a crate alone."""
TEST = r"(?ms)(?:^ *///[^\n]*\n)*^( *)#\[test\]\n\1fn {}\(.*?^\1\}}\n"
"""A test, with its comment, as `rt fmt` lays it out."""


def copy_without(top: str, to: str) -> Tuple[Dict[str, List[str]], List[str]]:
    """Copies what `rt try` reads, and returns the tests of each crate that were left out, and the lines of the list that name no test."""
    shutil.copytree(f"{top}/crates", f"{to}/crates", ignore=shutil.ignore_patterns("out", "must-fail"))
    for name in filter(os.path.exists, (f"{top}/crates.txt", f"{top}/HANDLES")):
        shutil.copy(name, to)
    left_out: Dict[str, List[str]] = {}
    unknown = []
    for line in Path(f"{top}/{LIST}").read_text(encoding="utf-8").splitlines():
        crate, test = line.split()
        *modules, name = test.split("::")
        path = Path(f"{to}/crates/{crate}/src/{'/'.join(modules)}.rt")
        text, number = re.subn(TEST.format(name), "", path.read_text(encoding="utf-8")) if path.exists() else ("", 0)
        if number:
            path.write_text(text, encoding="utf-8")
            left_out.setdefault(crate, []).append(test)
        else:
            unknown.append(line)
    return left_out, unknown


def join(to: str, crates: Sequence[str]) -> str:
    """Makes one crate of these crates of the copy, where they are several, and returns its folder."""
    listed = Path(f"{to}/crates.txt").read_text(encoding="utf-8")
    lines = [line.partition("#")[0].partition(":") for line in listed.splitlines()]
    named = {head.split()[0]: (head, libraries.split()) for head, _, libraries in lines if head.split()}
    may = {word for crate in crates for words in re.findall(r"tests_may=(\S+)", named[crate][0]) for word in words.split("+")}
    name = "_and_".join(crates)
    at = f"{to}/crates/{name}"
    if len(crates) == 1:
        return at
    head = f"{name} tests_may={'+'.join(sorted(may))}" if may else name
    below = " ".join(dict.fromkeys(it for crate in crates for it in named[crate][1]))
    Path(f"{to}/crates.txt").write_text(f"{listed}\n{head}: {below}\n", encoding="utf-8")
    for crate in crates:
        shutil.copytree(f"{to}/crates/{crate}/src", f"{at}/src/{crate}")
        os.rename(f"{at}/src/{crate}/lib.rt", f"{at}/src/{crate}.rt")
        for path in [Path(f"{at}/src/{crate}.rt"), *Path(f"{at}/src/{crate}").rglob("*.rt")]:
            text = path.read_text(encoding="utf-8").replace("crate::", f"crate::{crate}::").replace(ROOT, "")
            path.write_text(text, encoding="utf-8")
    Path(f"{at}/src/lib.rt").write_text(ROOT + "".join(f"#[cfg(test)]\nmod {crate};\n" for crate in crates), encoding="utf-8")
    return at
