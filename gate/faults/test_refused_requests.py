"""The program and the tests of refusals, with one request refused in turn.

`refuse.c` is put before the C library, and refuses the first request of a kind (memory, a thread, a read of standard input, a write), then
the second, and so on, until a run meets no refusal and gives its ordinary answer. Each run has to end in time with the answer that
docs/FORMATS.md puts there, and what it wrote has to be a prefix of the ordinary output. And each run has to give back each block of memory
that it took, but for what a run of a plan keeps on purpose (`KEPT_BY_RUN`).

Of the built test crates the tests whose path has the word `refused` or `refusals` have to pass whichever request is refused; the others run
once as they are. `requests.c` shows that each function of `refuse.c` refuses its requests.
"""

import itertools
import os
import re
import subprocess
import sys
import tempfile
import unittest
from dataclasses import dataclass, replace
from typing import Callable, Dict, FrozenSet, List, Optional, Sequence, Set, Tuple

import fixtures
from fixtures import PROGRAM, TEST_CRATES, TOP, WithProgram, parameterized
from rows import rows

sys.path.append(f"{TOP}/gate/cases")

from compiling import HERE, WithLibrary
from tables.building import as_bytes, as_words
from tables.locks import BESIDE, held
from tables.texts import DEMO_PLAN, SMALL_REPLAY, TWO_TESTS

TIME_LIMIT = 60

KEPT_BY_RUN = 32
"""How many blocks of memory the record of the demo plan's run has, with any number of workers.

The program keeps them at its end, when the system takes all at once: to free the whole run one by one took up to a fifth of its time. The
plan is freed before. Its texts have at most 16 bytes, so that they stand in their values; its one lock has a list of its own, of two blocks.
"""

KEPT_LONG = KEPT_BY_RUN + 11
"""The same of `LONG_PLAN`, whose eight names, lock, reason and message have blocks of their own."""

MOST_REQUESTS = 5_000

ROUNDS = 4
"""How many rounds a sweep has at most: a unit makes few requests, and the schedule may put others before them each time."""

OUT_OF_MEMORY = re.compile(rb"testkit: out of memory\n")
NO_THREAD = re.compile(rb"testkit: no thread\n")
DEVICE_FAILED = re.compile(rb"testkit: device failed\n")
UNIT_FAILED = re.compile(rb"testkit: unit ([0-9]+) failed\n")

REQUESTS = [
    *[(name, "memory") for name in ("malloc", "calloc", "realloc", "aligned_alloc", "posix_memalign")],
    *[("pthread_create", "thread"), ("read", "read"), ("readv", "read")],
    *[("write 1", "write"), ("writev 1", "write"), ("write 2", "message"), ("writev 2", "message")],
]
"""The functions that refuse.c stands for, and the kind of their requests."""


@dataclass(frozen=True)
class Ended:
    """How a run ended: its status (-9 where it was stopped for time), what it wrote, whose request was refused, and its blocks."""

    status: int
    output: bytes
    error: bytes
    refused_of: str
    """`first`: of the program's first thread; `worker`: of another one; empty: none was refused."""
    kept: Optional[int]
    """How many blocks of memory it did not give back; None where it didn't end by itself."""


@dataclass(frozen=True)
class Sweep:
    """Runs of one command line in which each request of one kind is refused in turn."""

    name: str
    kind: str
    """The kind of the request; empty where none is refused, and the command line runs once."""
    command: Sequence[bytes]
    input: bytes
    is_right: Callable[[Ended, Ended], bool]
    """Whether the run with a refusal, the first one, ended as it has to beside the ordinary run, the second."""
    least: int = 1
    """How many requests of the kind there are at least."""
    units: FrozenSet[int] = frozenset()
    """The units each of which has to fail in some run."""
    kept: int = 0
    """How many blocks of memory the ordinary run may keep; a run with a refusal may keep them, or none."""
    survived: int = 0
    """How many of its runs with a refusal may give the ordinary answer, since what was refused is asked for once more."""
    unbuilt: str = ""
    """What isn't built of which it is a test, if it can't be run."""


def run(library: str, sweep: Sweep, number: int) -> Ended:
    """Runs a command line with the request of this number refused, or with none where it is 0."""
    with tempfile.TemporaryFile() as notices:
        given = {"LD_PRELOAD": library, "REFUSE": f"{sweep.kind} {number}", "REFUSED_TO": str(notices.fileno())}
        ran = fixtures.run(sweep.command, sweep.input, TIME_LIMIT, env={"PATH": "/usr/bin:/bin", **given}, pass_fds=[notices.fileno()])
        notices.seek(0)
        notice = notices.read()
    kept = re.search(rb"kept (-?[0-9]+)\n", notice)
    refused_of = {b"f": "first", b"w": "worker"}.get(notice[:1], "")
    return Ended(ran.status, ran.output, ran.error, refused_of, int(kept[1]) if kept else None)


def shown(ended: Ended) -> str:
    return f"status {ended.status}, output {ended.output[:200]!r}, error {ended.error[:200]!r}, {ended.kept} blocks kept"


def round_of(run_number: Callable[[int], Ended], sweep: Sweep, ordinary: Ended) -> Tuple[List[str], Set[int]]:
    """Refuses each request in turn; answers what failed, and which units did."""
    number, failed, units, survived = 0, [], set(), 0
    while not failed and number < MOST_REQUESTS:
        number += 1
        ended = run_number(number)
        if not ended.refused_of:
            if replace(ended, kept=ordinary.kept) != ordinary:
                failed.append(f"nothing refused: {shown(ended)}; ordinarily {shown(ordinary)}")
            break
        is_ordinary = replace(ended, refused_of="") == ordinary
        survived += is_ordinary
        if is_ordinary and survived <= sweep.survived:
            continue
        if not sweep.is_right(ended, ordinary) or ended.kept not in (0, sweep.kept):
            where = f"{sweep.kind} {number} of the {ended.refused_of} thread refused"
            failed.append(f"{where}: {shown(ended)}; ordinarily {shown(ordinary)}")
        unit = UNIT_FAILED.fullmatch(ended.error)
        units |= {int(unit[1])} if unit else set()
    if not failed and not sweep.least < number < MOST_REQUESTS:
        failed.append(f"{number - 1} requests of the kind {sweep.kind} were met, and there are at least {sweep.least}")
    return failed, units


def failures_of(run_number: Callable[[int], Ended], sweep: Sweep) -> List[str]:
    """Runs a sweep with each request refused (none at 0), in further rounds while a unit has not failed; answers what failed."""
    ordinary = run_number(0)
    if not sweep.kind:
        return [] if sweep.is_right(ordinary, ordinary) and ordinary.kept == sweep.kept else [shown(ordinary)]
    if ordinary.kept != sweep.kept:
        return [f"{ordinary.kept} blocks of memory are kept, and have to be {sweep.kept}"]
    units: Set[int] = set()
    for _ in range(ROUNDS):
        failed, found = round_of(run_number, sweep, ordinary)
        units |= found
        if failed or sweep.units <= units:
            return failed
    return [f"the units {sorted(units)} failed, and each of {sorted(sweep.units)} has to"]


def refused_with(line: "re.Pattern[bytes]") -> Callable[[Ended, Ended], bool]:
    """The fault has this line and status 3, and what was written is a prefix of the output of the ordinary run, which met no fault."""

    def is_right(ended: Ended, ordinary: Ended) -> bool:
        is_answered = ordinary.status in (0, 1) and bool(ordinary.output) and not ordinary.error
        is_prefix = ordinary.output.startswith(ended.output)
        return is_answered and ended.status == 3 and bool(line.fullmatch(ended.error)) and is_prefix

    return is_right


def refused_memory_of_a_run(ended: Ended, ordinary: Ended) -> bool:
    """Where a worker's memory is refused the fault is of its unit, and else it is that there is no memory or no thread."""
    lines = [UNIT_FAILED] if ended.refused_of == "worker" else [OUT_OF_MEMORY, NO_THREAD]
    return any(refused_with(line)(ended, ordinary) for line in lines)


def keeps_status(ended: Ended, ordinary: Ended) -> bool:
    """What can't be written on standard error changes nothing else, and nothing follows it."""
    is_cut = ordinary.error.startswith(ended.error) and ended.error != ordinary.error
    return ended.status == ordinary.status == 2 and ended.output == ordinary.output and is_cut


def passes(ended: Ended, _ordinary: Ended) -> bool:
    return ended.status == 0


RULES = {
    "memory": refused_with(OUT_OF_MEMORY),
    "read": refused_with(DEVICE_FAILED),
    "write": refused_with(DEVICE_FAILED),
    "thread": refused_with(NO_THREAD),
    "message": keeps_status,
}
NUMBERS = itertools.count(1)


def sweeps(words: str, text: str, least: Dict[str, int], kept: int = 0, units: int = 0) -> List[Sweep]:
    """A sweep of a command line for each kind of requests, of which it makes so many at least."""
    name, command = f"{next(NUMBERS)} {words}", [os.fsencode(PROGRAM), *as_words(words)]
    rules = {**RULES, "memory": refused_memory_of_a_run} if words.startswith("run") else RULES
    found = [Sweep(f"{name}, {kind}", kind, command, as_bytes(text), rules[kind], number, kept=kept) for kind, number in least.items()]
    # (the room for the list of words is asked for at once, and else word by word)
    return [replace(it, units=frozenset(range(units)), survived=1) if it.kind == "memory" else it for it in found]


def of_a_record(words: str, text: str, memory: str = "29") -> List[Sweep]:
    return sweeps(words, text, {"memory": int(memory), "read": 2, "write": 1})


def of_a_run(words: str, text: str, threads: str, kept: int, units: str = "0") -> List[Sweep]:
    return sweeps(words, text, {"memory": 190, "read": 2, "write": 1, "thread": int(threads)}, kept, int(units))


def fault(words: str, text: str) -> List[Sweep]:
    """Words and an input that are refused: nothing is kept then either, as the lock keys of a plan that has too many."""
    return sweeps(words, text, {"message": 1})


LONGER = " in more bytes than stand in a value"
"""What makes a text longer than 16 bytes, so that it has memory of its own."""

LONG_RECORD = re.sub(r"\b(e|one|two|boom|off)$", rf"\1{LONGER}", TWO_TESTS, flags=re.MULTILINE)
"""Three names, a message and a reason, each with memory of its own."""

LONG_PLAN = re.sub(r'"(?:name|skip|message|key)":"\w+|"segment":\["\w+","\w+', rf"\g<0>{LONGER}", DEMO_PLAN)

LONG_LOCKS = held(f"3 W db{LONGER}, 4 R db{LONGER}", BESIDE)
"""Two tests that overlap and hold a lock, whose name has memory of its own."""

NEVER_FINISHES = TWO_TESTS.rpartition("E|")[0]
CHILD_RUNS = TWO_TESTS.replace("E|1|1|2|finish|fail|boom\n", "")
"""The record of two tests without the finish of its container, and without that of its first test."""

SKIP_REPLAY = f"testkit-replay|2\nW|1\nN|T|[engine:e]|e\nE|1|0|7|skip|off{LONGER}\nS|1|t\n"
"""The first event that waits has a text of its own, which goes back where there is no memory for the list of what waits."""

SIXTEEN_LOCKS = DEMO_PLAN.replace('[{"key":"db"}]', "[" + ",".join(f'{{"key":"{key}{LONGER}"}}' for key in range(16)) + "]")


def names_of(program: str) -> List[str]:
    listed = subprocess.run([program, "--list"], stdout=subprocess.PIPE, check=True, text=True).stdout
    return re.findall(r"[\w:]+::\w+", listed)


def sweeps_of_tests() -> List[Sweep]:
    """The tests of the built test crates, those of refusals with each request refused and the others once."""
    sweeps = []
    for crate in TEST_CRATES:
        program = f"{TOP}/crates/{crate}/out/{crate}_tests"
        if not os.access(program, os.X_OK):
            sweeps.append(Sweep(crate, "", [], b"", passes, unbuilt=program))
            continue
        for name in names_of(program):
            for kind in ("memory", "thread") if re.search("refused|refusals", name) else ("",):
                command = [os.fsencode(program), os.fsencode(name)]
                sweeps.append(Sweep(f"{crate} {name} {kind}".rstrip(), kind, command, b"", passes, int(kind == "memory")))
    return sweeps


class WithRefusals(WithLibrary):
    SOURCE = f"{HERE}/refuse.c"

    def check(self, sweep: Sweep) -> None:
        if sweep.unbuilt:
            self.skipTest(f"not built: {os.path.relpath(sweep.unbuilt, TOP)}")
        self.assertEqual([], failures_of(lambda number: run(self.library, sweep, number), sweep))


class OfTheProgram(WithProgram, WithRefusals):
    @parameterized(lambda: rows(__file__, globals()))
    def test_each_request(self, sweep):
        self.check(sweep)


class OfTests(WithRefusals):
    @parameterized(sweeps_of_tests)
    def test_each_request(self, sweep):
        self.check(sweep)


class OfRequests(WithRefusals):
    @parameterized([(by, by, kind) for by, kind in REQUESTS])
    def test_first_of_its_kind(self, by, kind):
        """The first request of its kind is refused where it is asked for, and nothing else."""
        for asked, number, wanted in [(kind, 0, (0, False)), (kind, 1, (1, True)), (kind, 2, (0, False)), ("another", 1, (0, False))]:
            ended = run(self.library, Sweep(by, asked, [os.fsencode(self.requests), os.fsencode(by)], b"", passes), number)
            self.assertEqual(wanted, (ended.status, bool(ended.refused_of)), (asked, number))


ORDINARY = Ended(0, b"an answer\n", b"", "", 0)
REFUSED = Ended(3, b"an ", b"testkit: out of memory\n", "first", 0)
SURVIVED = replace(ORDINARY, refused_of="first")
OF_UNIT = replace(REFUSED, error=b"testkit: unit 1 failed\n", refused_of="worker")
FAULT = replace(ORDINARY, status=2, output=b"", error=b"testkit: bad word 0\n")
SILENT = replace(FAULT, error=b"", refused_of="first")
MEMORY, OF_A_PLAN = refused_with(OUT_OF_MEMORY), refused_memory_of_a_run


def example(name: str, is_passed: bool, rule: Callable, ended: Ended, first: Ended = ORDINARY, **how):
    """A sweep, its runs (the ordinary one, one with a refusal, and one that meets none), and whether they are right."""
    return name, Sweep(name, "memory", [], b"", rule, **how), [first, ended, first], is_passed


EXAMPLES = rows(f"{TOP}/gate/faults/examples.rows", globals()) + [
    example("the ordinary answer, once", True, MEMORY, SURVIVED, survived=1),
    example("the unit of a worker", True, OF_A_PLAN, OF_UNIT, units=frozenset({1})),
    example("a unit of another number", False, OF_A_PLAN, OF_UNIT, units=frozenset({0})),
    example("fewer requests than there are at least", False, MEMORY, REFUSED, least=2),
]


class OfExamples(unittest.TestCase):
    @parameterized(EXAMPLES)
    def test_runs(self, sweep, runs, is_passed):
        # (a further round has the same runs)
        self.assertEqual(is_passed, not failures_of(lambda number: runs[number], sweep))
