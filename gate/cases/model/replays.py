"""What `replay` answers: the queue's core, played by a script."""

from dataclasses import dataclass, field
from typing import List, Optional

import form
from model.records import Descriptor, Entry, Record, Refused, cut_header, line_text, read_entry_line, read_node_line
from model.texts import read_number

END = "end mark"


@dataclass
class Scenario:
    """What a replay text says. A step is a worker's number, or 0 for a take."""

    workers: int = 0
    table: List[Descriptor] = field(default_factory=list)
    entries: List[Entry] = field(default_factory=list)
    steps: List[int] = field(default_factory=list)

    def play(self) -> Record:
        """The record of what is taken, or `Refused`. A worker emits its entries in turn, and then its end mark."""
        scripts = {worker: [it for it in self.entries if it.worker == worker] + [END] for worker in range(1, self.workers + 1)}
        taken, waiting = Record(self.table), []
        for number, step in enumerate(self.steps):
            if step > 0:
                if not scripts[step]:
                    raise Refused(f"step {number} comes after the end mark")
                waiting.append(scripts[step].pop(0))
                continue
            item = waiting.pop(0) if waiting else END
            refusal = None if item == END else taken.refusal(item)
            if refusal is not None:
                raise Refused(f"step {number} {refusal}")
            taken.entries += [item] * (item != END)
        return taken


def read_workers(line: str) -> Optional[int]:
    """The number of workers of a line `W|n`."""
    word, _, text = line.partition("|")
    workers = read_number(text, 8) if word == "W" else None
    return workers if workers is not None and 1 <= workers <= form.MAX_WORKERS else None


def read_step(text: str, workers: int) -> Optional[int]:
    if text == "t":
        return 0
    worker = read_number(text, 8)
    return worker if worker is not None and 1 <= worker <= workers else None


def read_steps(line: str, workers: int) -> Optional[List[int]]:
    fields = line.split("|")
    steps = [read_step(text, workers) for text in fields[1:]]
    return None if fields[0] != "S" or None in steps else steps


def read_scenario(data: bytes) -> Scenario:
    """What a replay text says, or `Refused`."""
    version, lines = cut_header(data, "testkit-replay")
    scenario = Scenario()
    for number, line in enumerate(lines[:-1], start=2):
        text = line_text(line)
        steps = read_steps(text, scenario.workers)
        if steps is not None and scenario.workers > 0:
            return end_of(scenario, steps, lines, number)
        if not read_line(text, scenario, version):
            raise Refused(f"line {number} is bad")
    raise Refused(f"line {len(lines) + 1} is bad")


def read_line(text: str, scenario: Scenario, version: int) -> bool:
    """Adds a line before the steps to the scenario, if it may stand there."""
    if scenario.workers == 0:
        scenario.workers = read_workers(text) or 0
        return scenario.workers > 0
    node = None if scenario.entries else read_node_line(text, scenario.table)
    if node is not None:
        scenario.table.append(node)
        return True
    entry = read_entry_line(text, version)
    if entry is None or not 1 <= entry.worker <= scenario.workers:
        return False
    scenario.entries.append(entry)
    return True


def end_of(scenario: Scenario, steps: List[int], lines: List[bytes], number: int) -> Scenario:
    """The scenario with its steps, where nothing follows their line."""
    if lines[number - 1 :] != [b""]:
        raise Refused(f"line {number + 1} is bad")
    scenario.steps = steps
    return scenario


def replay(data: bytes) -> str:
    """What `replay` writes, or `Refused`."""
    return read_scenario(data).play().text()
