"""What has to come of the sample runs, threads and stamps apart, worked out by hand from SampleTests, OddEngine and the cases."""

from collections import Counter
from typing import Dict, List, Sequence, Tuple

from cases import HERE, read
from records import HEADER, by_id, check_lines, check_stamps, entries
from rows import row, rows

Events = Dict[str, List[str]]

PAUSE = 100_000
"""How many microseconds the pauses of the cases last at least."""

CROWD, REPORTS = 30, 600
"""How many threads of the case `crowd` report at once, and how often each."""

REPORTED = [f"report|number|{number}" for number in range(REPORTS)]
CROWDED = "testkit: more than 15 threads run at once, and share the workers 1 to 15"
THREADS = 40
"""How many threads the odd engine has besides its own."""

PARALLEL = {
    "junit.jupiter.execution.parallel.enabled": "true",
    "junit.jupiter.execution.parallel.config.strategy": "fixed",
    "junit.jupiter.execution.parallel.config.fixed.parallelism": "4",
}
"""The settings by which Jupiter runs tests in parallel."""

JUPITER = "[engine:junit-jupiter]/[class:testkit.LockTests"
LOCKS = {JUPITER + below: locks for below, *locks in rows(f"{HERE}/locks.rows", {"row": row})}
"""The locks of LockTests, but for a test that isn't chosen."""


def run_of(statics: Sequence[str], events: Events) -> List[str]:
    """A record without threads and stamps, as `by_id` gives it."""
    lines = [line for it in sorted(events) for line in (it, *(f"  {tail}" for tail in events[it]))]
    return [HEADER, f"Z|{sum(map(len, events.values()))}", *sorted(statics), *lines]


def sample_run() -> List[str]:
    """The sample tests; the names and ids are Jupiter's."""
    return read(f"{HERE}/sample.events").split("\n")[:-1]


def odd_run() -> List[str]:
    odd = "[engine:odd]"
    both, escapes = rf"{odd}/[both:a\pb\\c\nd]", f"{odd}/[%25%2B%5B%5D%3A%2F:%2541%2B%5Ba%5D%3Ab%2Fc]"
    statics = [rf"C|{odd}|odd \p engine", f"T|{escapes}|all escapes", f"B|{both}|both", f"T|{both}/[t:1]|below both"]
    statics.append(f"T|{odd}/[t:off]|\ufffd off")
    events: Events = {
        odd: ["start", "finish|abort"],
        escapes: ["start", "finish|ok"],
        both: ["start", r"report|a|\\|b|\p", r"finish|fail|first \p line\nsecond \\ line"],
        f"{both}/[t:1]": ["start", "finish|ok"],
        f"{odd}/[t:off]": ["skip|"],
    }
    for at in range(THREADS):
        test, below = f"{odd}/[d:{at}]", f"{odd}/[d:{at}]/[d:below]"
        ending = "finish|ok" if at % 2 == 0 else "finish|abort|odd"
        events[test] = [f"dynamic|B|{test}|on thread {at}", "start", "report|half|way", ending]
        events[below] = [f"dynamic|T|{below}|below {at}", "start", f"report|number|{at}", f"finish|fail|failure {at}"]
    return run_of([f"N|{it}" for it in statics], events)


def crowd_run() -> List[str]:
    tests = {f"[engine:e]/[t:{at}]": ["start", "finish|ok"] for at in range(CROWD)}
    statics = ["N|C|[engine:e]|engine", *(f"N|B|{it}|thread {at}" for at, it in enumerate(tests))]
    reports = [(f"{test}/[d:{number}]", number) for test in tests for number in range(REPORTS)]
    return run_of(statics, {**tests, **{it: [f"dynamic|T|{it}|report {number}", REPORTED[number]] for it, number in reports}})


def check_crowd(lines: Sequence[str], messages: Sequence[str]) -> None:
    """Fails where two threads don't have each worker, or the calls of one don't stand in its order."""
    check_lines(by_id(lines), crowd_run())
    found = entries(lines)
    assert [it.stamp for it in found] == list(range(len(found))), "the stamps aren't the positions"
    ids = {key: line.split("|")[2] for key, line in enumerate(line for line in lines if line.startswith("N|"))}
    ids.update({it.key: it.tail.split("|")[2] for it in found if it.tail.startswith("dynamic|")})
    calls: Dict[str, List[Tuple[int, str]]] = {}
    for it in found:
        calls.setdefault(ids[it.key].split("/")[1], []).append((it.worker, it.tail))
    for thread, made in calls.items():
        assert {worker for worker, _ in made} == {made[0][0]}, f"the calls of {thread} have two workers"
        assert [tail for _, tail in made[2:-1:2]] == REPORTED, f"the calls of {thread} have another order"
    workers = Counter(made[0][0] for made in calls.values())
    assert workers == {worker: 2 for worker in range(1, 16)}, f"the threads don't share the workers: {workers}"
    check_lines(messages, [CROWDED])


def check_workers(lines: Sequence[str]) -> None:
    """Fails where a thread of the odd engine has two workers, or begins at another than the first at which the fewest executions run."""
    found = entries(lines)
    threads = {it.key for it in found if it.tail.startswith("dynamic|B|")}
    workers: Dict[int, int] = {}
    running = Counter({worker: 0 for worker in range(1, 16)})
    for it in found:
        if it.tail == "start":
            if it.key in threads:
                fewest = min(running, key=lambda worker: (running[worker], worker))
                assert it.worker == fewest, f"the thread of key {it.key} begins at worker {it.worker}, and not {fewest}"
            workers[it.key] = it.worker
            running[it.worker] += 1
        elif it.tail.startswith("finish|"):
            assert workers[it.key] == it.worker, f"the events of key {it.key} have two workers"
            running[it.worker] -= 1
    assert threads <= set(workers), "a thread has no start"


def check_pause(stamps: Sequence[int]) -> None:
    """Fails where four stamps don't have a pause between the second and the third."""
    assert len(stamps) == 4 and stamps[2] - stamps[1] >= PAUSE, f"the stamps are {stamps}"


def check_stored(lines: Sequence[str]) -> None:
    """Fails where the lines aren't a record of the sample tests, which wait for more than ten milliseconds."""
    check_lines(by_id(lines), sample_run())
    check_stamps(lines)
    stamps = [it.stamp for it in entries(lines)]
    assert stamps[0] > 1_600_000_000_000_000 and stamps[-1] - stamps[0] > 10_000, "the stamps are no microseconds since 1970"
