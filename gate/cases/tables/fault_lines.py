"""Each fault line of the program is wanted by a case, with its status, and no case wants another line."""

import importlib
import pkgutil
import re
from typing import Set, Tuple

import tables
from harness import Case, Check

LINES = [(line, 3) for line in ("no thread", "device failed", "out of memory")] + [
    (line, 2)
    for line in """bad command line; unknown question; bad word N; condition N is bad at N; condition N is too deep; no header; line N is bad;
record is cut off after line N; line N has an unknown key; line N is unlawful; step N comes after the end mark; step N has an unknown key; step N is unlawful;
input too large; plan is not JSON; plan member PATH is bad; plan id is bad; plan table is refused; too many resources; entry key twice;
too many events; plan too deep; workers must be N to N""".replace("\n", " ").split("; ")
]
LINES += [(line, 1) for line in ("line N is bad", "line N has an unknown key", "record is cut off after line N")]
"""The lines of docs/FORMATS.md, with N for a number, and their statuses; with status 1 `recover` says them.

A unit fails only where memory is refused: `gate/faults` shows its line. No input of 16 MiB has an entry too many.
"""


def wanted() -> Set[Tuple[str, int]]:
    """The lines that the cases of the other modules want, with N for each number and PATH for each path, and their statuses."""
    modules = [importlib.import_module(f"tables.{it.name}") for it in pkgutil.iter_modules(tables.__path__) if it.name != "fault_lines"]
    faults = [case for module in modules for case in getattr(module, "CASES", []) if isinstance(case, Case) and case.error]
    lines = [(re.sub(r"(?<=plan member )([^\n|\\]|\\[\\pn])*(?= is bad\n)", "PATH", it.error.decode()), it.status) for it in faults]
    return {(re.sub("(?<= )[0-9]+", "N", line).replace("testkit: ", "", 1)[:-1], status) for line, status in lines}


CASES = [Check(f"fault lines/{line}, status {status}", (line, status) in wanted(), True) for line, status in LINES]
CASES.append(Check("fault lines/no other line", sorted(wanted() - set(LINES)), []))
