"""Long outputs to a full device, and to a pipe that is closed after a few bytes."""

from harness import Case, Output
from tables.building import as_words, fault, rows
from tables.large_plans import CONCURRENT, nodes, plan, report_of
from tables.long_inputs import long_replay, long_replay_record
from tables.many_events import EVENTS, EXECUTIONS, EXPLAINED_SKIPS, SKIPS


def to_full_device(name: str, words: str, data):
    return fault(name, words, data, "device failed", 3, standard_output=Output.FULL)


def to_cut_pipe(name: str, words: str, data, output):
    return Case(name, as_words(words), data, output, b"testkit: device failed\n", 3, standard_output=Output.CUT_PIPE)


CASES = rows(__file__, globals())
