"""Tests `tools/timeline` and `tools/trace`: what they refuse, and the page in Chromium (Debian's package `chromium`), as somebody sees and uses it."""

import base64
import hashlib
import html
import json
import os
import re
import shutil
from itertools import accumulate
from pathlib import Path

from fixtures import PROGRAM, TOP, WithProgram, folder, needs, parameterized, run, write
from rows import rows

HERE = os.path.dirname(os.path.realpath(__file__))
TIMELINE = f"{TOP}/tools/timeline"
BROWSER = ["chromium", "--headless", "--no-sandbox", "--disable-gpu", "--disable-dev-shm-usage", "--no-first-run", "--window-size=1280,800"]
BROWSER += ["--force-device-scale-factor=1", "--enable-logging=stderr", "--virtual-time-budget=2000", "--dump-dom"]

DATA_OF_PAGE = r'<script type="application/json" id="data">(.*?)</script>'

HOSTILE = '</script><script>document.title="x"</script>&lt;'
"""A display name that would run as a script where it got into the page as markup."""


def nodes(*words):
    """N lines: an engine, and below it a descriptor without a name for each word, as `C a`, `T a` or `T a/b`."""
    paths = [word.split(" ")[1].split("/") for word in words]
    ids = ["/".join(["[engine:e]", *(f"[x:{part}]" for part in path)]) for path in paths]
    return "testkit-record|2\nN|C|[engine:e]|\n" + "".join(f"N|{word[0]}|{it}|\n" for word, it in zip(words, ids))


def holding(record, *locks):
    """A record with the lines of these locks, as `1 W db`, after those of its descriptors, and with its end line."""
    head, mark, lines = record.replace("record|2", "record|3").partition("E|")
    text = head + "".join("L|" + "|".join(lock.split(" ", 2)) + "\n" for lock in locks) + mark + lines
    return f"{text}Z|{len(re.findall('(?m)^E', text))}\n"


def events(*words):
    """E lines of words such as `1 2 30 start`: worker, key, stamp, tail."""
    return "".join("E|" + "|".join(word.split(" ", 3)) + "\n" for word in words)


BEGINS = events("0 0 100 start", "1 1 110 start", "1 2 112 start", "2 4 115 start", "1 2 130 finish|fail|boom")
MIXED = holding(
    nodes("C c", "T c/1", "T c/2", "T 3", "T 4")
    + BEGINS
    + events("1 3 150 start", "1 3 151 finish|abort", "1 65536 151 dynamic|T|[engine:e]/[x:c]/[x:5]|", "1 65536 160 start", "1 65536 165 finish|ok")
    + events("1 65537 165 dynamic|T|[engine:e]/[x:c]/[x:6]|", "1 65537 166 skip|off", "1 1 170 finish|ok", "0 0 180 finish|ok"),
    *("2 R Net", "2 W db", "3 W net", "4 R db", "5 R db"),
)
"""Every ending, a registered test in its frame, gaps, a test of another worker that never finishes, and a descriptor that never runs. Four tests hold locks, of which two run beside each other and share one.

No name is on a bar, so that each bar is one area of its color.
"""


def columns(*names):
    """Of the data of a page these columns of each execution, as the page reads them."""

    def read(data):
        of = data["executions"]
        sums = {name: list(accumulate(of[name])) for name in ("descriptor", "first", "begin", "row")}
        lanes = [lane for lane in data["lanes"] for _ in range(lane["rows"])]
        found = []
        for number, letter in enumerate(of["ending"]):
            get = {name: of[name].get(str(number)) for name in ("worker_of_end", "message", "entries")}
            get.update({name: it[number] for name, it in sums.items()})
            parts = of["parts"].get(str(number), [0, 0])
            get.update(ending=letter, begin=sums["begin"][number] + parts[0], end=sums["begin"][number] + of["length"][number] + parts[1])
            get.update(last=get["first"] + of["events"][number], worker=lanes[get["row"]]["worker"], height=of["height"].get(str(number), 1))
            get.update(start=of["start"][number] if "start" in of else sums["begin"][number], stop=of.get("stop", {number: None})[number])
            found.append([get[name] for name in names])
        return found

    return read


ONE = nodes("T 1")
ONE_RUN = ONE + events("1 1 5 start", "1 1 7 finish|ok")


def data(name, words, lines, unit, looked, wanted, *locks):
    """A record, the words of the tool, parts of its page's data, or columns of its executions, and what they have to be."""
    record = nodes(*words.split("; ")) + events(*lines.split("; "))
    return name, holding(record, *locks) if locks else record, unit.split(), looked.split(), json.loads(wanted)


def traced(name, words, lines, unit, wanted):
    """A record, the words of the tool, and the slices of the trace, each its thread, begin and length."""
    return name, nodes(*words.split("; ")) + events(*lines.split("; ")), unit.split(), json.loads(wanted)


ROWS = rows(__file__, globals())


def many(*ends):
    """A record of tests of one worker that start in turn, and end in the order of these numbers."""
    starts = [f"1 {it + 1} {it} start" for it in range(len(ends))]
    return nodes(*(f"T {it}" for it in range(len(ends)))) + events(*starts, *(f"1 {it + 1} {len(ends) + at} finish|ok" for at, it in enumerate(ends)))


MANY = [("that overlap", many(*range(20_000))), ("within each other", many(*reversed(range(20_000))))]


class Page(WithProgram):
    """What comes without a browser."""

    def drawn(self, record, *words, program=PROGRAM):
        return run([TIMELINE, *words], record.encode(), env={**os.environ, "PROGRAM": program})

    @parameterized(["timeline", "trace", "from-open-test-reporting"])
    def test_folder(self, tool):
        """Standard input is a folder, at which Python itself would end with 1."""
        opened = os.open(TOP, os.O_RDONLY)
        self.addCleanup(os.close, opened)
        ran = run([f"{TOP}/tools/{tool}"], stdin=opened)
        self.assertEqual((ran.status, ran.output, ran.error), (70, b"", f"tools/{tool}: standard input is a folder\n".encode()))

    @parameterized([*((it, it) for it in ("timeline", "trace", "from-open-test-reporting")), ("no python3", "timeline", "realpath")])
    def test_no_command(self, tool, *there):
        at = folder(self)
        for name in there:
            os.symlink(shutil.which(name), f"{at}/{name}")
        ran = run(["/bin/sh", f"{TOP}/tools/{tool}"], env={"PATH": at})
        self.assertEqual((ran.status, ran.output, ran.error.count(b"\n")), (70, b"", 1), ran)

    def test_refusals(self):
        """The program's line and status are handed on, and no page is written."""
        ran = self.drawn(f"{MIXED}x")
        self.assertEqual((ran.status, ran.output, ran.error), (2, b"", b"testkit: line 28 is bad\n"))
        ran = self.drawn(MIXED, "/none.record")
        self.assertEqual((ran.status, ran.output, ran.error.count(b"\n")), (70, b"", 1), ran)
        ran = self.drawn(MIXED, "--unit", "hours")
        self.assertEqual((ran.status, ran.output), (2, b""))

    @parameterized(["echo 2 failed 112 131", "kill -9 $$"])
    def test_other_answers(self, line):
        """A program that answers otherwise than the record says, or that is killed."""
        program = f"{folder(self)}/program"
        write(program, f"#!/bin/sh\ncat >/dev/null\n{line}\n", 0o755)
        ran = self.drawn(MIXED, program=program)
        self.assertEqual((ran.status, ran.output, ran.error.count(b"\n")), (70, b"", 1), ran)

    def data(self, drawn):
        return json.loads(re.search(DATA_OF_PAGE, drawn.output.decode("ascii"), re.DOTALL)[1])

    @parameterized([row for row in ROWS if len(row) == 5])
    def test_data(self, record, words, looked, wanted):
        found = self.data(self.drawn(record, *words))
        self.assertEqual([found[it] for it in looked] if looked[0] in found else columns(*looked)(found), wanted)

    def test_cut_off(self):
        """A record that is cut off is drawn as far as it goes, and the page and the trace say so."""
        whole = holding(ONE_RUN, "1 W db")
        cut_off, files = whole[: whole.index("Z")], self.files(ONE_RUN, whole[: whole.index("Z") + 1])
        line = "cut off after line 6"
        for text, cuts in ((whole, [""]), (cut_off, [line])):
            data = self.data(self.drawn(text))
            self.assertEqual((data["cuts"], columns("ending")(data)), (cuts, [["s"]]))
        self.assertEqual(self.data(self.drawn("", *files))["cuts"], ["", line])
        names, _ = self.traced(*files)
        self.assertEqual([it["args"]["name"] for it in names[:2]], ["0.record", f"1.record ({line})"])

    @parameterized(MANY)
    def test_many(self, record):
        """Both tools take seconds for 40,000 events, and the page has few bytes for each."""
        for tool in ("timeline", "trace"):
            ran = run([f"{TOP}/tools/{tool}"], record.encode(), seconds=30, env={**os.environ, "PROGRAM": PROGRAM})
            self.assertEqual((ran.status, ran.error), (0, b""))
        self.assertLess(len(self.drawn(record).output), 60_000 + 40_000 * 25)

    def files(self, *records):
        at = folder(self)
        for number, record in enumerate(records):
            write(f"{at}/{number}.record", record)
        return [f"{at}/{number}.record" for number in range(len(records))]

    def test_names_of_threads(self):
        """A lane has the name of its first thread, and says that there were others."""
        told = events(f"1 1 0 report|thread|{'m' * 41}", "1 1 1 start", "1 1 2 finish|ok", "1 2 3 report|thread|other", "1 2 4 skip|off", "2 1 5 report|k|v")
        data = self.data(self.drawn(nodes("T 1", "T 2", "T 3") + told + events("2 3 6 start")))
        self.assertEqual([it["thread"] for it in data["lanes"]], [f"{'m' * 40} ..", ""])

    def test_several_records(self):
        """They lie on one axis, each in lanes of its own, with their own keys and positions."""
        other = ONE + events("1 1 4 start", "1 1 9 finish|fail|boom")
        data = self.data(self.drawn("", *self.files(ONE_RUN, other)))
        looked = columns("ending", "first", "last", "start", "begin", "end", "row")(data)
        self.assertEqual(looked, [["f", 0, 1, 0, 0, 5, 1], ["s", 0, 1, 1, 1, 3, 0]])
        self.assertEqual([(it["record"], it["worker"]) for it in data["lanes"]], [(0, 1), (1, 1)])
        self.assertEqual(data["records"], ["0.record", "1.record"])
        fallen = ONE + events("1 1 7 start", "1 1 5 finish|ok")
        data = self.data(self.drawn("", *self.files(ONE_RUN, fallen)))
        self.assertEqual((data["times"], columns("ending", "first", "last")(data)), (False, [["s", 0, 1]] * 2))

    def traced(self, *words, record=""):
        """The events of a trace, those that name processes and threads apart."""
        ran = run([f"{TOP}/tools/trace", *words], record.encode(), env={**os.environ, "PROGRAM": PROGRAM})
        self.assertEqual(ran.status, 0, ran)
        found = json.loads(ran.output)["traceEvents"]
        return [it for it in found if it["ph"] == "M"], [it for it in found if it["ph"] != "M"]

    def test_trace(self):
        """A process for each record and a thread for each worker; what overlaps in one stands beside it."""
        of_one = ("1 1 1000 start", "1 1 1001 report|k|v|l|w", "2 1 1004 finish|fail|boom", "1 1 1005 start", "1 1 1006 skip|off")
        one = holding(ONE.replace("[x:1]|", "[x:1]|one") + events(*of_one), "1 W db")
        two = nodes("T 1", "T 2", "T 3") + events("1 1 1001 start", "1 2 1002 start", "1 1 1003 finish|ok", "1 2 1006 finish|ok", "1 3 1007 skip|off")
        names, found = self.traced(*self.files(one, two))
        threads = [(0, 1, "worker 1"), (1, 1, "worker 1"), (1, 17, "worker 1, beside it 1")]
        self.assertEqual([(it["pid"], it["tid"], it["args"]["name"]) for it in names], [(0, 0, "0.record"), (1, 0, "1.record"), *threads])
        slices = [(it["pid"], it["tid"], it["ph"], it["ts"], it.get("dur"), it["cat"]) for it in found]
        wanted = [(0, 1, "X", 0, 4, "failed"), (1, 1, "X", 1, 2, "succeeded"), (1, 17, "X", 2, 4, "succeeded"), (0, 1, "B", 5, None, "unfinished")]
        self.assertEqual(slices, [*wanted, (0, 1, "i", 6, None, "skipped"), (1, 1, "i", 7, None, "skipped")])
        self.assertEqual([it["name"] for it in found[:2]], ["one", "[engine:e]/[x:1]"])
        of_failed = {"event": 0, "last event": 2, "message": "boom", "finished by worker": 2, "entries": [{"k": "v", "l": "w"}]}
        of_others = [{"event": 3}, {"event": 4, "last event": 4, "reason": "off"}]
        same = {"id": "[engine:e]/[x:1]", "type": "test", "locks": ["W db"]}
        wanted = [{**same, "ending": ending, **it} for ending, it in zip(("failed", "unfinished", "skipped"), (of_failed, *of_others))]
        self.assertEqual([it["args"] for it in found if it["pid"] == 0], wanted)

    @parameterized([row for row in ROWS if len(row) == 4])
    def test_slices(self, record, words, wanted):
        names, found = self.traced(*words, record=record)
        self.assertEqual(names[0]["args"], {"name": "record"})
        self.assertEqual([[it["tid"], it["ts"], it["dur"]] for it in found], wanted)

    def test_texts(self):
        """No text of a record gets into the page as markup, and the policy names the page's own script and style alone."""
        drawn = self.drawn(MIXED.replace("[x:3]|\n", f"[x:3]|{HOSTILE}\n"))
        page = drawn.output.decode("ascii")
        self.assertIn(HOSTILE, self.data(drawn)["descriptors"]["name"])
        self.assertFalse(re.search("[<>&]", re.search(DATA_OF_PAGE, page, re.DOTALL)[1]))
        texts = [re.search(rf"<{kind}>(.*?)</{kind}>", page, re.DOTALL)[1] for kind in ("script", "style")]
        hashes = [base64.b64encode(hashlib.sha256(text.encode()).digest()).decode() for text in texts]
        policy = f"default-src 'none'; script-src 'sha256-{hashes[0]}'; style-src 'sha256-{hashes[1]}'; base-uri 'none'; form-action 'none'"
        self.assertIn(f'<meta http-equiv="Content-Security-Policy" content="{policy}">', page)


@needs("chromium")
class Browser(WithProgram):
    """The page of a record in which stamps are microseconds, as Chromium shows it."""

    @classmethod
    def setUpClass(cls):
        super().setUpClass()
        cls.opened = cls.open(MIXED, "")
        looked = cls.open(MIXED, Path(f"{HERE}/seen.js").read_text(encoding="utf-8"))
        found = re.search(rb'data-saw="([^"]*)"', looked.output)
        assert found, looked
        cls.saw = json.loads(html.unescape(found[1].decode()))

    @classmethod
    def open(cls, record, script):
        """Opens the page of a record, with a further script that its policy lets run."""
        drawn = run([TIMELINE, "--unit", "microseconds"], record.encode(), env={**os.environ, "PROGRAM": PROGRAM})
        assert (drawn.status, drawn.error) == (0, b""), drawn
        page = drawn.output.decode()
        if script:
            source = base64.b64encode(hashlib.sha256(script.encode()).digest()).decode()
            page = page.replace("script-src ", f"script-src 'sha256-{source}' ").replace("</body>", f"<script>{script}</script></body>")
        test = cls("test_opens")
        path = f"{folder(test)}/page.html"
        write(path, page)
        try:
            return run([*BROWSER, f"--user-data-dir={path}.profile", f"file://{path}"])
        finally:
            test.doCleanups()

    def test_opens(self):
        """It draws itself, and nothing is said on the console: nothing failed, and nothing was forbidden."""
        self.assertIn(b'data-drawn="yes"', self.opened.output)
        self.assertNotIn(b":CONSOLE", self.opened.error)
        self.assertEqual(self.saw["summary"], "5 tests, 1 failed; 7 executions, 3 workers, 14 events; 1 descriptor without an execution")

    def test_bars(self):
        """A bar is seen for each execution, in the color of its ending, and the legend counts them."""
        wanted = {"succeeded": 3, "failed": 1, "aborted": 1, "skipped": 1, "unfinished": 1}
        self.assertEqual(self.saw["bars"], wanted)
        self.assertEqual(dict(re.findall(r"(\w+)\s(\d)", self.saw["legend"])), {ending: str(count) for ending, count in wanted.items()})

    def test_selection(self):
        """What is pointed at is described; once it is selected, also who ran beside it."""
        wanted = {"name": "", "id": "[engine:e]/[x:c]/[x:1]", "ending": "failed", "message": "boom", "duration": "18 \u00b5s", "worker": "1"}
        wanted.update({"stamps": "112 to 130", "events": "2 to 4", "type": "test", "locks": "Net (read)\ndb (write)"})
        self.assertEqual((self.saw["tip"], self.saw["dragged"]), (wanted, None))
        self.assertEqual(self.saw["selected"], {**wanted, "beside it": "worker 2: [engine:e]/[x:3]"})
        self.assertEqual(self.saw["longest"]["beside it"], "".join(f"worker 1: [engine:e]/[x:c]/[x:{it}]\n" for it in (1, 2, 5)).rstrip())
        self.assertEqual(self.saw["late"]["beside it"], "worker 2: [engine:e]/[x:3]", "what ran before is not beside")

    def test_locks(self):
        """Others that hold a lock of the selected one have a frame, and those that hold a lock are found by its name."""
        self.assertEqual(self.saw["sharers"], ["[engine:e]/[x:3]"])
        self.assertEqual((self.saw["holders"], self.saw["nobody"]), ("2 found", "0 found"))

    def test_keys(self):
        """The canvas takes the focus, the arrow keys go from bar to bar, + shows a part, Home and End its ends, - and 0 the whole."""
        self.assertTrue(self.saw["isFocused"])
        self.assertEqual([self.saw[it] for it in ("closer", "ends", "farther", "whole")], [True, [81, 0, True], [0, 81], [0, 81]])
        ids = ["[engine:e]", *(f"[engine:e]/[x:c]{it}" for it in ("", "/[x:1]", "/[x:2]", "/[x:1]", ""))]
        self.assertEqual(self.saw["keys"], ids)

    def test_details(self):
        """Letters that can't be seen are shown, a test that ends where another begins isn't beside it, and lists stay in their panel."""
        self.assertEqual(self.saw["visible"], "a\u2065[U+2066][U+2067][U+2068][U+2069]\u206a\u241b\u240d\tb")
        self.assertEqual((self.saw["touches"], self.saw["panel"]), ([True, False], [True, True, True]))
        self.assertEqual((self.saw["beside"], self.saw["counted"]), (["and 5 others"], ["1 stamp", "2 stamps", "1 event", "1,234 events"]))
        self.assertEqual(self.saw["gapIsSeen"], [True, True])
        self.assertIn(b'<p id="cut" class="note" role="note" hidden="">', self.opened.output)

    def test_cut_off(self):
        """The head of the page says where the record is cut off."""
        opened = self.open(MIXED[: MIXED.index("Z|")], "")
        self.assertIn(b'role="note">The record is cut off after line 26: what stands before that is drawn.</p>', opened.output)

    def test_longest(self):
        """It lists the slowest tests and the longest gaps, the longest first, and shows the one that is chosen."""
        self.assertEqual(self.saw["slowest"], ["65 \u00b5s   x:3", "18 \u00b5s   x:1", "5 \u00b5s   x:5", "1 \u00b5s   x:2"])
        self.assertEqual(self.saw["gaps"], ["20 \u00b5s   x:2", "9 \u00b5s   x:5", "2 \u00b5s   x:1", "1 \u00b5s   x:6"])
        self.assertEqual(self.saw["sources"], ["B.C.d #2", "B", "t:1"])
        self.assertEqual((self.saw["longest"]["id"], self.saw["longest"]["duration"]), ("[engine:e]/[x:3]", "it never finished"))
