"""What large inputs cost the program.

`test_costs.rows` has the tables: for each command line and input the seconds of processor time, the most memory at one time, the requests
for memory, the reads and the writes that it may take. `count.c` is put before the C library, and counts all but the seconds. These counts
are the same on each machine, so a limit is a fifth above what was counted, or one. The requests of some plans may be a fiftieth to a
twentieth above alone, so that one more for each node, message or registration is met. The least memory of a small plan shows how many
places its queue has. The seconds were measured on one machine: a limit is four times what they were, twice for a machine half as fast, and
twice for what the program may need more. Where a run waits, its seconds by the clock have a limit too. A run that is only too slow, as on a
busy machine, is repeated.

`OF_BODIES` has the same of tests of engines whose tests have bodies, which the program doesn't run. Pairs are questions of which one may
take at most some times as long as the other, whatever the machine. What is measured is printed, which `gate/run -k` shows.
"""

import contextlib
import math
import os
import resource
import subprocess
import sys
import time
from dataclasses import dataclass, fields
from pathlib import Path
from typing import BinaryIO, Callable, Iterable, Iterator, List, Sequence, Tuple

from fixtures import PROGRAM, TOP, WithProgram, folder, parameterized
from rows import rows

sys.path.append(f"{TOP}/gate/faults")

from compiling import WithLibrary

KIB = 1024
SIZE = 16 * KIB * KIB
"""How many bytes an input has: as many as it may have."""
MOST_SECONDS = 300
"""How many seconds by the clock a run may take: far more than any needs, so that one that only waits has an end."""
MOST_RUNS = 3
"""How often a row is run, and a pair is measured, at most that is only too slow: a busy machine makes a run slower, and none faster."""
ROUNDS = 7
"""How often each question of a pair is asked."""

Input = Callable[[], bytes]


@dataclass(frozen=True)
class Costs:
    seconds: float
    memory: int
    """KiB, rounded up."""
    requests: int
    reads: int
    writes: int
    clock: float = math.inf
    """Seconds by the clock; a limit has them where a run waits."""

    def above(self, limit: "Costs") -> List[str]:
        pairs = [(it.name, getattr(self, it.name), getattr(limit, it.name)) for it in fields(self)]
        return [f"{name} {cost}, and may be {most}" for name, cost, most in pairs if cost > most]


@dataclass(frozen=True)
class Row:
    name: str
    words: Sequence[str]
    input: Input
    limit: Costs
    begins: str
    """How what it writes begins, on standard output or else on standard error."""
    status: int = 0
    is_alone: bool = False
    """Whether it has one processor alone: a thread that waits and doesn't give it away then takes many times the seconds."""
    least_memory: int = 0
    """KiB that it has at least at one time: a queue of fewer places than a run asks for takes less."""
    late: int = 0
    """How many milliseconds late its threads begin: one that waits for them and doesn't sleep takes as many of processor time."""
    piece: int = 0
    """How many bytes a read gives it at most, by a pipe; 0 where its input is a file."""

    def prepare(self) -> None:
        """Limits the process of a run: one that takes twice its seconds is stopped."""
        seconds = math.ceil(2 * self.limit.seconds)
        resource.setrlimit(resource.RLIMIT_CPU, (seconds, seconds))
        if self.is_alone:
            os.sched_setaffinity(0, {min(os.sched_getaffinity(0))})


@dataclass(frozen=True)
class Pair:
    """Two questions about a record or about two, and how many times the seconds of the second one the first may take."""

    name: str
    words: Sequence[str]
    other: Sequence[str]
    most: float
    records: Sequence[Input]

    def ratio(self, program: str, room: str) -> float:
        """The least seconds of some runs of the first, by those of the other; they run in turn, so that both meet the same load."""
        paths = [f"{room}/{number}" for number in range(len(self.records))]
        for path, data in zip(paths, self.records):
            Path(path).write_bytes(data())
        starts = [(self.words, paths[0]), (self.other, paths[-1])]
        rounds = [[seconds_of_question([program, *words], path) for words, path in starts] for _ in range(ROUNDS)]
        ours, theirs = map(min, zip(*rounds))
        return ours / theirs


def seconds_of_children() -> float:
    """The seconds of processor time of all processes so far that this one has waited for."""
    usage = resource.getrusage(resource.RUSAGE_CHILDREN)
    return usage.ru_utime + usage.ru_stime


def seconds_of_question(command: Sequence[str], path: str) -> float:
    before = seconds_of_children()
    with open(path, "rb") as source:
        subprocess.run(command, stdin=source, stdout=subprocess.DEVNULL, stderr=subprocess.DEVNULL, check=False)
    return seconds_of_children() - before


RECORD = "testkit-record|2\nN|T|[engine:e]|e\n"
OF_A_CONTAINER = RECORD.replace("|T|", "|C|")


def repeated(front: str, middle: str, back: str = "") -> Input:
    """A text of `SIZE` bytes at most, with as many copies of its middle as it has room for."""
    room = SIZE - len(front.encode()) - len(back.encode())
    return lambda: (front + middle * (room // len(middle.encode())) + back).encode()


def events(*tails: str, keys: Iterable[int] = range(1, 65_001)) -> str:
    """The events of keys, one after the other, each of which has all of these tails in turn."""
    return "".join(f"E|1|{key}|0|{tail}\n" for key in keys for tail in tails)


def registration(worker: int, key: int, name: str) -> str:
    return f"E|{worker}|{key}|0|dynamic|T|[engine:e]/[t:{key}]|{name}\n"


BEGIN, END = events("start", keys=[0]), events("finish|ok", keys=[0])
"""The start and the finish of the engine."""


def record_of_tests(name: str, *parts: str, count: int = 65_000) -> bytes:
    """A record of an engine and of tests below it, each with this name, and of these events."""
    nodes = "".join(f"N|T|[engine:e]/[t:{number}]|{name}\n" for number in range(count))
    return (OF_A_CONTAINER + nodes + "".join(parts)).encode()


def held(locks: Iterable[Tuple[int, str, str]], count: int, name: str, *parts: str) -> bytes:
    """A record of tests of an engine in which keys hold locks, each with its mode."""
    lines = "".join(f"L|{key}|{mode}|{lock}\n" for key, mode, lock in locks)
    return ended(record_of_tests(name, lines, *parts, count=count).replace(b"testkit-record|2", b"testkit-record|3"))


def ended(text: bytes) -> bytes:
    """A text of version 3 with its end line."""
    return text + b"Z|%d\n" % text.count(b"\nE|")


def extended(record: bytes, more: str) -> bytes:
    """A record of version 3 of `SIZE` bytes at most, with as many copies of some events after its own as it has room for."""
    front = record.decode().rpartition("Z|")[0]
    return ended(repeated(front, more, "Z|1000000\n")().rpartition(b"Z|")[0])


def beside(keys: Iterable[int]) -> str:
    """The events of tests that all start before the first finishes."""
    return events("start", keys=keys) + events("finish|ok", keys=keys)


def apart_from_the_last(count: int) -> str:
    """The events of tests that run beside each other, and of a last one after them."""
    return beside(range(1, count)) + beside([count])


EVENTS = repeated(RECORD, "E|1|0|7|start\nE|1|0|8|finish|ok\n")
FAILING = repeated(RECORD, "E|1|0|7|start\nE|1|0|8|finish|ok\n", "E|1|0|9|finish|fail|boom\n")
FAILURES = repeated(RECORD, "E|1|0|7|start\nE|1|0|8|finish|ok\n", "E|1|0|9|finish|fail|boom\n" * 1_000)
LONG_REASON, REASONS = repeated(RECORD + "E|1|0|7|skip|", "x", "\n"), repeated(RECORD, "E|1|0|7|skip|a reason of some length\n")
SHORT_STARTS, SHORT_FAILURES = (repeated(RECORD, f"E|1|0|{7 * 10**17}|{tail}\n") for tail in ("start", "finish|fail|boom"))
LONG_STARTS, LONG_FAILURES = (repeated(RECORD, f"E|1|0|{2**64 - 1}|{tail}\n") for tail in ("start", "finish|fail|boom"))
"""Entries with stamps of 18 digits, and of 20, which are read digit by digit with a check of each."""
LONG_NUMBER, LONG_ID = repeated(RECORD + "E|", "1", "|0|7|start\n"), repeated(RECORD + "N|T|[engine:", "e", "]|e\n")
NO_LINE_FEED, BAD_LINE_FIRST = repeated(RECORD + "E|1|0|7|skip|", "x"), repeated(RECORD + "X\n", "x")
ONE_DYNAMIC_KEY = repeated(OF_A_CONTAINER + f"E|1|65536|0|dynamic|T|[engine:e]/[t:{'v' * 4_000}]|n\n", "E|1|65536|7|start\n")
OVERLAPPING = repeated(
    f"{RECORD}N|T|[engine:f]|f\n",
    "E|1|0|7|start\nE|1|0|8|finish|ok\n",
    "E|1|0|9|start\nE|1|1|9|start\nE|1|0|9|finish|ok\nE|1|1|9|finish|ok\n",
)
ONE_EVENT = lambda: (RECORD + "E|1|0|7|start\n").encode()
FIFTY_SKIPS = lambda: (RECORD + 50 * f"E|1|0|7|skip|{'x' * 300_000}\n").encode()
MANY_PAIRS = lambda: (RECORD + "E|1|0|0|report" + "".join(f"|{number:07}|v" for number in range(1_500_000)) + "\n").encode()
LONG_IDS = lambda: (OF_A_CONTAINER + "".join(f"N|T|[engine:e]/[t:{number:04}{'v' * 4_000}]|n\n" for number in range(4_000))).encode()
TESTS_OF_AN_ENGINE = lambda: record_of_tests("n" * 170, BEGIN, events("start", "finish|ok"), END)
A_TEST_STILL_RUNS = lambda: record_of_tests("n", BEGIN, events("start"), events("finish|ok", keys=range(1, 65_000)), END)
ONE_GLOBAL = lambda: held([(60_000, "W", "global")], 60_000, "n" * 200, apart_from_the_last(60_000))
LOCKS_READ_BY_ONE, LOCKS_WRITTEN_BY_ONE = lambda: locks_of_one("R"), lambda: locks_of_one("W")
HELD_AGAIN_AND_AGAIN = lambda: extended(held([(1, "W", "db")], 1, "n"), events("start", "finish|ok", keys=[1]))


def steps() -> bytes:
    """A record of a thousand failures, each with a message of its own, and of 600,000 events between them."""
    passes = events("start", "finish|ok", keys=300 * [0])
    return (RECORD + "".join(passes + events(f"finish|fail|step{number}", keys=[0]) for number in range(1_000))).encode()


def roots_side_by_side() -> bytes:
    nodes = "".join(f"N|T|[t:{number}]|n\n" for number in range(65_000))
    return f"testkit-record|2\n{nodes}{beside(range(65_000))}".encode()


def registered_side_by_side() -> bytes:
    keys = range(65_536, 65_536 + 65_000)
    return f"{OF_A_CONTAINER}{BEGIN}{''.join(registration(1, key, 'n') for key in keys)}{beside(keys)}{END}".encode()


def registrations() -> bytes:
    """An engine that registers 60,000 tests, each of which starts and finishes."""
    keys = range(65_536, 65_536 + 60_000)
    lines = "".join(registration(1, key, "n" * 160) + events("start", "finish|ok", keys=[key]) for key in keys)
    return f"{OF_A_CONTAINER}{BEGIN}{lines}{END}".encode()


def registered_by_the_last_worker() -> bytes:
    """A test that worker 15, the last one, registers: keys begin at 65,536 times the worker's number."""
    key = 15 * 65_536
    return f"{OF_A_CONTAINER}{BEGIN}{registration(15, key, 'n')}{events('start', 'finish|ok', keys=[key])}{END}".encode()


def one_lock_read() -> bytes:
    """20,000 tests side by side that read a lock, which one writes after them."""
    return held(((key, "RW"[key == 20_000], "db") for key in range(1, 20_001)), 20_000, "n" * 700, apart_from_the_last(20_000))


def many_locks() -> bytes:
    """Tests that write 4,000 locks, sixteen of them each, one after the other."""
    keys = range(1, 64_001)
    return held(((key, "W", f"lock {key % 4_000}") for key in keys), 64_000, "n" * 150, events("start", "finish|ok", keys=keys))


def many_locks_of_each() -> bytes:
    """A hundred tests side by side that read 4,000 locks each."""
    keys = range(1, 101)
    return held(((key, "R", f"lock {number:04} {'x' * 24}") for key in keys for number in range(4_000)), 100, "n", beside(keys))


def locks_above() -> bytes:
    """An engine that holds `global` and another lock above 60,000 tests side by side that read it."""
    locks = [(0, "W", "db"), (0, "W", "global"), *((key, "R", "db") for key in range(1, 60_001))]
    return held(locks, 60_000, "n" * 180, BEGIN, apart_from_the_last(60_000), END)


def held_and_never_finished() -> bytes:
    """Two tests that write a lock one after the other, and starts of the second that never finish."""
    begin = held([(1, "W", "db"), (2, "W", "db")], 2, "n", events("start", "finish|ok", keys=[1, 2]))
    return extended(begin, "E|1|2|7|start\n")


def locks_of_one(mode: str) -> bytes:
    """A test that holds 20,000 locks in this mode, and runs 20,000 times."""
    return held(((1, mode, f"l{number:05}") for number in range(20_000)), 2, "n", 20_000 * events("start", "finish|ok", keys=[1]))


def waiting_replay() -> bytes:
    """A worker that emits 200,000 starts before the first is taken."""
    entries = "".join(f"E|1|0|{stamp}|start\n" for stamp in range(200_000))
    return f"testkit-replay|2\nW|1\nN|T|[engine:e]|e\n{entries}S{'|1' * 200_001}{'|t' * 200_001}\n".encode()


def node(members: str, value: str = "e", kind: str = "container") -> str:
    return f'{{"type":"{kind}","segment":["engine","{value}"],"name":"n"{members}}}'


def plan(root: str) -> bytes:
    return f'{{"version":2,"root":{root}}}'.encode()


def plan_of_nodes(count: int, members: str, below: str = "children") -> bytes:
    return plan(node(f',"{below}":[' + ",".join(node(members, str(number), "test") for number in range(count)) + "]"))


def plan_of_entries(last: str = "", entry: str = '[["key","value %d"]]') -> bytes:
    """A plan of one node with as many entries as it has room for, and a last member."""
    return plan(node(f',"entries":[{",".join(entry % number for number in range(600_000))}]{last}'))


def plan_of_containers() -> bytes:
    """A plan of 20,000 containers below its root, each with a test below it, and all with long names."""
    below = (node(f',"children":[{node("", "t", "test")}]', str(number)) for number in range(20_000))
    return plan(node(',"children":[' + ",".join(below) + "]")).replace(b'"name":"n"', b'"name":"%s"' % (b"n" * 100))


def one_long_unit() -> bytes:
    """A plan of 15 concurrent units, one of which has 1,000,000 entries."""
    entries = ',"entries":[' + ",".join(["[]"] * 1_000_000) + "]"
    tests = [node(',"mode":"concurrent"' + (entries if number == 7 else ""), str(number), "test") for number in range(15)]
    return plan(node(',"children":[' + ",".join(tests) + "]"))


ENTRIES_AND_A_FAULT, ENTRIES_OF_TWO_PAIRS = lambda: plan_of_entries(',"files":[""]'), lambda: plan_of_entries(entry='[["a","%d"],["b",""]]')
LONG_TEXTS = ("x" * 16_000_000, "\\n" * 8_000_000)
LONG_TEXT, LONG_TEXT_WITH_ESCAPES = (lambda it=it: plan(node(f',"entries":[[["k","{it}"]]]')) for it in LONG_TEXTS)
NODES, DYNAMIC_NODES = lambda: plan_of_nodes(65_000, ""), lambda: plan_of_nodes(65_000, "", "dynamic")
TWO_NODES, ONE_DYNAMIC_NODE = lambda: plan_of_nodes(2, ""), lambda: plan_of_nodes(1, "", "dynamic")
LOCK_AND_ENTRIES = ',"mode":"concurrent","locks":[{"key":"db"}],"entries":[' + ",".join(2_000 * ['[["k","v"]]']) + "]"
ONE_LOCK = lambda: plan_of_nodes(100, LOCK_AND_ENTRIES)
"""100 units that all write one resource, each with many entries."""

BAD = "testkit: line 3 is bad\n"
RARE, OF_NO_COLUMN = 1_000 * "all(failed(boom),name(e)) ", 1_000 * "any(name(x),name(e)) "
ONE_OF_MANY, FAILED_LONG_TEXT = f"any({'started,' * 12_000}started)", f"failed({'x' * 16_000})"
FIFTY_START, MOST_START, MANY_START = (count * "started " for count in (50, 99, 10_000))
LAST_FAILS, TOO_EARLY, LAST_DIFFERS = 49 * "started " + "failed", "failed(boom)" + 49 * " started", 49 * "kind(skip) " + "failed"
FIFTY_OF_THE_LAST, ONE_OF_THE_LAST = (" ".join(f"all(failed(boom),not(name({it})))" for it in range(count)) for count in (50, 1))
EACH_STEP = " ".join(f"failed(step{number})" for number in range(1_000))


def input_of(name: object) -> Input:
    return globals()[name] if isinstance(name, str) else name


def row(name: str, words: str, input: str, costs: str, begins: str, *more: str) -> Row:
    """A row of the program; a line on standard error has the status 2, and a no 1."""
    status = 2 if begins.startswith("testkit: ") else int(begins.startswith(("no ", "wrong-count")))
    limit = Costs(*(float(it) if "." in it else int(it) for it in costs.split()))
    how = {name: int(value) for name, _, value in (it.partition("=") for it in more)}
    return Row(name, words.split(), input_of(input), limit, begins, **{"status": status, **how})


def pair(name: str, words: str, other: str, most: str, *records: object) -> Pair:
    return Pair(name, words.split(), other.split(), float(most), list(map(input_of, records)))


TABLE = rows(__file__, globals())

BODIES = f"{TOP}/crates/test_hierarchical/out/test_hierarchical_tests"
"""The built tests of these engines."""

OF_BODIES = [
    Row(f"bodies/{test}", [test], lambda: b"", limit, "\ntest result: ok\n")
    for test, limit in [
        ("large_units::many_nodes", Costs(0.4, 6_600, 54_300, 0, 2)),
        ("limits::registrations", Costs(1.6, 38_700, 688_800, 0, 2)),
        ("limits::events", Costs(4.8, 118_100, 620, 0, 2)),
    ]
]


@contextlib.contextmanager
def in_pieces(source: BinaryIO, size: int) -> Iterator[BinaryIO]:
    """A pipe of which each read gives `size` bytes of a file; the file itself where that is 0."""
    if not size:
        yield source
        return
    # (by `direct` each read of the pipe gives what one write put into it)
    with subprocess.Popen(["dd", f"bs={size}", "oflag=direct", "status=none"], stdin=source, stdout=subprocess.PIPE) as writer:
        yield writer.stdout


def costs_of(row: Row, program: str, library: str, room: str) -> Tuple[Costs, int, str]:
    """Runs a row; answers its costs, its status, and what it wrote first. The status is -1 where not one run alone was counted."""
    status = -1
    Path(f"{room}/input").write_bytes(row.input())
    with open(f"{room}/counts", "w+b") as counts, open(f"{room}/wrote", "w+b") as wrote, open(f"{room}/input", "rb") as source:
        environment = {"PATH": "/usr/bin:/bin", "LD_PRELOAD": library, "COUNTED_TO": str(counts.fileno())}
        if row.late:
            environment["THREADS_BEGIN_LATE"] = str(row.late)
        how = {"env": environment, "pass_fds": [counts.fileno()], "preexec_fn": row.prepare, "stdout": wrote, "stderr": wrote}
        with in_pieces(source, row.piece) as given:
            before, begun = seconds_of_children(), time.monotonic()
            with contextlib.suppress(subprocess.TimeoutExpired):
                status = subprocess.run([program, *row.words], stdin=given, timeout=MOST_SECONDS, **how).returncode
            seconds, clock = seconds_of_children() - before, time.monotonic() - begun
        counts.seek(0)
        wrote.seek(0)
        counted, begins = [int(word) for word in counts.read().split()], wrote.read(200).decode(errors="replace")
    if len(counted) != 4:
        status, counted = -1, [0, 0, 0, 0]
    peak, requests, reads, writes = counted
    return Costs(round(seconds, 2), math.ceil(peak / KIB), requests, reads, writes, round(clock, 2)), status, begins


def faults_of(row: Row, costs: Costs, status: int, wrote: str) -> List[str]:
    answered = status == row.status and wrote.startswith(row.begins)
    little = [f"memory {costs.memory}, and has to be {row.least_memory}"] if costs.memory < row.least_memory else []
    return costs.above(row.limit) + little + ([] if answered else [f"status {status}, and it writes {wrote!r}"])


def faults_of_runs(row: Row, run: Callable[[], Tuple[Costs, int, str]]) -> List[str]:
    """What is wrong with a row: with its first run that isn't only too slow, or else with its last."""
    faults: List[str] = []
    for _ in range(MOST_RUNS):
        faults = faults_of(row, *run())
        if not faults or not all(fault.startswith(("seconds ", "clock ")) for fault in faults):
            break
    return faults


class WithCounts(WithLibrary):
    SOURCE = f"{TOP}/gate/costs/count.c"

    def check(self, row: Row, program: str) -> None:
        def run() -> Tuple[Costs, int, str]:
            came = costs_of(row, program, self.library, folder(self))
            print(f"{row.name}: {came[0]}")
            return came

        self.assertEqual([], faults_of_runs(row, run))


class OfBodies(WithCounts):
    @parameterized(OF_BODIES)
    def test_costs(self, row):
        if not os.access(BODIES, os.X_OK):
            self.skipTest(f"not built: {os.path.relpath(BODIES, TOP)}")
        self.check(row, BODIES)


class OfTheProgram(WithProgram, WithCounts):
    @parameterized([it for it in TABLE if isinstance(it, Row)])
    def test_costs(self, row):
        self.check(row, PROGRAM)

    @parameterized([it for it in TABLE if isinstance(it, Pair)])
    def test_beside(self, pair):
        ratio = math.inf
        for _ in range(MOST_RUNS):
            ratio = min(ratio, pair.ratio(PROGRAM, folder(self)))
            if ratio <= pair.most:
                break
        print(f"{pair.name}: {ratio:.2f} times")
        self.assertLessEqual(ratio, pair.most)


COUNTED = {
    **dict.fromkeys(("malloc", "calloc", "realloc", "aligned_alloc", "posix_memalign"), (1, 0, 0)),
    **{"read": (0, 1, 0), "readv": (0, 1, 0), "write 1": (0, 0, 1), "writev 1": (0, 0, 1), "write 2": (0, 0, 0)},
}
"""How many requests for memory, reads and writes a call of each function is."""

SMALL = Costs(0.4, 2_000, 200, 40, 40)


def example(name: str, command: Sequence[str], fault: str, limit: Costs = SMALL, **how) -> Tuple[str, str, Row, str]:
    """A command that is no program of ours, a row of it, and a part of what is wrong with its costs; empty where nothing is."""
    return name, command[0], Row(name, command[1:], lambda: b"x" * 2_000_000, limit, "xx", **how), fault


def of_python(name: str, text: str, fault: str, limit: Costs = SMALL, **how) -> Tuple[str, str, Row, str]:
    return example(name, [sys.executable, "-S", "-c", text], fault, limit, **how)


def of_shell(name: str, line: str, fault: str, limit: Costs = SMALL) -> Tuple[str, str, Row, str]:
    return example(name, ["/bin/sh", "-c", f"printf xx; {line}"], fault, limit)


DD = ["/bin/dd", "status=none"]
ONE_PROCESSOR = "import os; print('xx' if len(os.sched_getaffinity(0)) == 1 else 'many')"
LATE_THREAD = """import threading, time
begun, thread = time.monotonic(), threading.Thread(target=int)
thread.start()
thread.join()
print('xx' if time.monotonic() - begun > 1.4 else 'early')"""
EXAMPLES = rows(f"{TOP}/gate/costs/examples.rows", globals()) + [
    example("little memory", [*DD, "bs=64K"], ", and has to be 1000", least_memory=1_000),
    of_python("one processor", ONE_PROCESSOR, "requests", is_alone=True),
    of_python("a late thread", LATE_THREAD, "requests", late=1_500),
]


class OfExamples(WithCounts):
    """The counts and the limits themselves."""

    @parameterized([(by, by, wanted) for by, wanted in COUNTED.items()])
    def test_counts(self, by, wanted):
        costs, _, _ = costs_of(Row("counts", [by], lambda: b"x", SMALL, ""), self.requests, self.library, folder(self))
        self.assertEqual((costs.requests, costs.reads, costs.writes, costs.memory), (*wanted, wanted[0]))

    @parameterized(EXAMPLES)
    def test_limits(self, program, row, fault):
        faults = "; ".join(faults_of(row, *costs_of(row, program, self.library, folder(self))))
        self.assertTrue(fault in faults and bool(fault) == bool(faults), faults)
        # (what is right besides is found right: the answer, where it isn't what is wrong)
        self.assertEqual("it writes" in faults, "status" in fault or "it writes" in fault, faults)

    @parameterized([("a slow run and a fast one", [2, 1], 0, 0), ("slow runs", [2, 2, 2], 0, 1), ("much memory", [2], 3_000, 2)])
    def test_runs(self, seconds, memory, wanted):
        """A run that is only too slow is repeated, and no other."""
        left = iter(seconds)
        row = Row("runs", [], lambda: b"", Costs(1, 2_000, 0, 0, 0), "xx")
        faults = faults_of_runs(row, lambda: (Costs(next(left), memory, 0, 0, 0), 0, "xx"))
        self.assertEqual((wanted, []), (len(faults), list(left)))
