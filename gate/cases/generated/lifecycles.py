"""Records that keep the lifecycle, whole or with a line dropped, doubled, swapped or given another key."""

from dataclasses import dataclass, field
from typing import Dict, List, Optional, Tuple

import form
from generated.numbers import Cases, Numbers, met_series
from harness import Case, Check
from tables.building import HEADER

IDS = "[engine:e] [engine:e]/[class:A] [engine:e]/[class:A]/[t:1] [engine:e]/[class:A]/[t:2] [engine:e]/[class:B] [engine:f]".split()
STATIC = list(zip("CCTTBT", IDS))
ANSWERS = ["yes", "end", "start", "id-known", "parent-unknown", "parent-not-running", "ran-already", "not-running", "child-running"]


@dataclass
class Run:
    """A run in the making: which descriptors there are, which of them run, and the lines so far."""

    numbers: Numbers
    ids: Dict[int, str] = field(default_factory=lambda: {key: text for key, (_, text) in enumerate(STATIC)})
    running: List[int] = field(default_factory=list)
    done: List[int] = field(default_factory=list)
    lines: List[str] = field(default_factory=list)
    registered: List[int] = field(default_factory=lambda: [0] * (form.MAX_WORKERS + 1))

    def parent(self, key: int) -> Optional[int]:
        above = self.ids[key].rpartition("/")[0]
        return next((it for it, text in self.ids.items() if text == above), None)

    def is_free(self, key: int) -> bool:
        parent = self.parent(key)
        return key not in self.running + self.done and (parent is None or parent in self.running)

    def emit(self, key: int, tail: str, worker: Optional[int] = None) -> None:
        worker = self.numbers.below(form.MAX_WORKERS + 1) if worker is None else worker
        self.lines.append(f"E|{worker}|{key}|{self.numbers.below(100)}|{tail}")

    def register(self) -> None:
        """Registers a child of a descriptor that runs, or another root."""
        worker = 1 + self.numbers.below(form.MAX_WORKERS)
        key = form.MAX_DESCRIPTORS * worker + self.registered[worker]
        above = self.ids[self.numbers.one_of(self.running)] + "/" if self.running else ""
        self.registered[worker] += 1
        self.ids[key] = f"{above}[d:{key}]"
        self.emit(key, f"dynamic|{self.numbers.one_of('CTB')}|{self.ids[key]}|d", worker)

    def step(self) -> None:
        """One more event that the lifecycle allows."""
        free = [key for key in self.ids if self.is_free(key)]
        closed = [key for key in self.running if not any(self.parent(it) == key for it in self.running)]
        choice = self.numbers.below(10)
        if choice < 5 and free:
            key = self.numbers.one_of(free)
            self.running.append(key)
            self.emit(key, "start")
        elif choice == 5 and free:
            key = self.numbers.one_of(free)
            self.done.append(key)
            self.emit(key, "skip|off")
        elif choice == 6:
            self.register()
        elif choice == 7 and self.running:
            self.emit(self.numbers.one_of(self.running), "report|k|v")
        elif closed:
            self.finish(self.numbers.one_of(closed))

    def finish(self, key: int) -> None:
        """Finishes a descriptor, after a skip of each static one below it that has done nothing; seldom they are forgotten."""
        if self.numbers.below(8):
            for idle in [it for it in range(len(STATIC)) if self.parent(it) == key and self.is_free(it)]:
                self.done.append(idle)
                self.emit(idle, "skip|off")
        self.running.remove(key)
        self.done.append(key)
        self.emit(key, self.numbers.one_of(["finish|ok", "finish|fail|boom", "finish|abort"]))

    def end(self) -> None:
        """Finishes all that runs, children first, after a skip of each static root that has done nothing; seldom one is forgotten."""
        for key in sorted(self.running, key=lambda it: -len(self.ids[it])):
            self.finish(key)
        for idle in [it for it in range(len(STATIC)) if self.is_free(it)]:
            if self.numbers.below(8):
                self.emit(idle, "skip|off")


def kept_lines(numbers: Numbers) -> List[str]:
    """The lines of the events of a run that keeps the lifecycle."""
    run = Run(numbers)
    for _ in range(numbers.below(24)):
        run.step()
    run.end()
    return run.lines


def spoiled(numbers: Numbers, lines: List[str]) -> List[str]:
    """The lines with one dropped, doubled, swapped with another or given another key."""
    if not lines:
        return lines
    at, other, shape = numbers.below(len(lines)), numbers.below(len(lines)), numbers.below(5)
    made = list(lines)
    if shape == 0:
        del made[at]
    elif shape == 1:
        made.insert(other, made[at])
    elif shape == 2:
        made[at], made[other] = made[other], made[at]
    elif shape == 3 and "|dynamic|" not in made[at]:
        mark, worker, _, rest = made[at].split("|", 3)
        made[at] = f"{mark}|{worker}|{numbers.below(len(STATIC))}|{rest}"
    elif "|dynamic|" in made[at]:
        head, _, name = made[at].rpartition("|")
        made[at] = head.rpartition("|")[0] + "|" + numbers.one_of([text for _, text in STATIC] + ["[g:1]/[d:1]"]) + "|" + name
    return made


def text_of(lines: List[str]) -> bytes:
    nodes = [f"N|{letter}|{id_text}|n" for letter, id_text in STATIC]
    return (HEADER + "".join(line + "\n" for line in nodes + lines)).encode()


def kind_of(case: Case) -> str:
    """The answer without its position or key; of a refused text its line."""
    words = case.output.decode().split()
    return "refused" if not words else words[0] if words[0] == "yes" else words[1] if words[1] in ("end", "start") else words[2]


def asked(numbers: Numbers) -> Tuple[List[str], bytes]:
    """A record, of which two of five are whole."""
    lines = kept_lines(numbers)
    return ["ask", "lifecycle"], text_of(lines if numbers.below(5) < 2 else spoiled(numbers, lines))


def cases() -> Cases:
    made = met_series("generated lifecycle", 51, 2_000, asked, lambda case: [kind_of(case)], ANSWERS, 10)
    kept = sum(isinstance(it, Case) and kind_of(it) == "yes" for it in made)
    return [*made, Check("generated lifecycle/at least a third keeps it", kept * 3 >= len(made) - 1, True)]
