"""The form of the texts that the program reads and writes: versions, limits and statistics.

All that changes with a further version of the texts stands here, so that the model and the tables name it
and do not repeat it. `LATEST` is the version that the program writes, and the highest that it reads, but for records with locks.
"""

LATEST = 2
"""The version of record texts without locks that is written, and the highest of replay texts and plans that is read."""
LOCK_VERSION = 3
"""The version of record texts with locks and an end line: the highest that is read, written where there are locks and by `run --record` and `recover`."""
VERSIONS = tuple(range(1, LATEST + 1))
"""The versions of replay texts and plans that are read."""
RECORD_VERSIONS = VERSIONS + (LOCK_VERSION,)
"""The versions of record texts that are read."""
FILE_VERSION = 2
"""The version from which on a text may have files."""
MAX_WORKERS = 15
"""How many workers a record, a replay and a run may have."""
STATISTICS = ("skipped", "started", "finished", "aborted", "succeeded", "failed", "reporting", "dynamic", "files")
"""The names of the statistics, in the order of their lines."""
SELECTIONS = ("all", "tests", "containers") + STATISTICS
"""The names of the selections."""
MAX_TEXT = 16 * 1024 * 1024
"""How many bytes an input may have."""
MAX_DESCRIPTORS = 65_536
"""How many static descriptors a table may have, and how many dynamic ones a worker or a plan."""
MAX_ID_BYTES = 4_096
MAX_SEGMENTS = 64
MAX_BRACKETS = 32
"""How many brackets of `all(`, `any(` and `not(` may be open within one another."""
MAX_LEVELS = 60
"""How many levels of nodes a plan may have."""
MAX_LOCK_KEYS = 15
"""How many different lock keys a plan may have besides `global`."""
MAX_PLAN_EVENTS = 2**20
"""How many events the script of a plan's root may have."""
