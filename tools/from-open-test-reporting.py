"""Makes a record of a report of the JUnit Platform: `tools/from-open-test-reporting < REPORT.xml > run.record`.

The report is the XML of Open Test Reporting that JUnit 5.9 and later write with `junit.platform.reporting.open.xml.enabled=true`. It has no
threads, so each entry is of worker 1; no registrations, so each descriptor is a static one; and only what was started or skipped. A message
is what stands in the stack trace before its frames. Stamps are microseconds since 1970, and never fall. Ids are those of the listener: one
that no record can have becomes `[replaced-id:KEY]`. Characters that XML forbids, which JUnit writes as tests report them, become U+FFFD.

Of a report that is cut off, or that goes on where a record is full, the record has what stands before that and no end line, so that no
question takes it for a whole one; the status is then 1, with a line on standard error. A document type, as entities need one, is refused, and nothing is fetched. The status is 2, with a line and no
record, where the report is refused, and 70 where the script itself fails.
"""

import os
import re
import sys
from calendar import timegm
from time import strptime
from typing import Dict, List, Optional, Sequence, Tuple
from urllib.parse import unquote_plus
from xml.etree import ElementTree
from xml.parsers.expat import errors

sys.path.insert(0, os.path.dirname(os.path.realpath(__file__)))
sys.dont_write_bytecode = True

from asking import Failed, Refused, run_script, say

FORBIDDEN = re.compile("[\0-\x08\x0b\x0c\x0e-\x1f\ufffe\uffff]")
REFERENCE = re.compile(r"<!\[CDATA\[.*?(?:\]\]>|\Z)|&#(?:x([0-9a-fA-F]+)|([0-9]+));", re.DOTALL)
"""A reference to a character by its number; what looks like one in a section of plain text is none."""

DOCUMENT_TYPE = re.compile(r"(?:<\?(?:(?!\?>).)*\?>|<!--(?:(?!-->).)*-->|[\s\ufeff])*<!DOCTYPE", re.DOTALL)
"""What may stand before a document type, and how that begins."""

CUT_OFF = (errors.XML_ERROR_NO_ELEMENTS, errors.XML_ERROR_UNCLOSED_TOKEN, errors.XML_ERROR_UNCLOSED_CDATA_SECTION)
"""The faults of XML that goes on nowhere."""

FRAMES = re.compile(r"\n[^\S\n]+(?:at |\.\.\. \d+ more)|\n\tSuppressed: |\nCaused by: ")
"""Where a stack trace goes on after its message."""

PART = r"(?:[^%\[\]:/]|%[0-9a-fA-F]{2})+"
ID = re.compile(rf"\[{PART}:{PART}\](?:/\[{PART}:{PART}\])*")
"""The text of an id, as JUnit reads it."""

ESCAPES = {ord(letter): f"%{ord(letter):02X}" for letter in "%+[]:/"}
HEADER, REPLACED = "testkit-record|3", "[replaced-id:"
TYPES = {"CONTAINER": "C", "TEST": "T", "CONTAINER_AND_TEST": "B"}
ENDINGS = {"SUCCESSFUL": "finish|ok", "ABORTED": "finish|abort", "FAILED": "finish|fail"}
MAX_DESCRIPTORS, MAX_BYTES, MAX_ID_BYTES, MAX_ID_SEGMENTS, MAX_FIELD_BYTES = 65_536, 16 << 20, 4_096, 64, 65_536


class Full(Exception):
    """A record is full: why."""


def refused(why: str) -> Refused:
    return Refused(2, f"tools/from-open-test-reporting: {why}\n".encode(errors="backslashreplace"))


def allowed(found: "re.Match[str]") -> str:
    """A reference to a character, or U+FFFD where XML forbids the character."""
    if not found[1] and not found[2]:
        return found[0]
    digits = (found[1] or found[2]).lstrip("0") or "0"
    number = int(digits, 16 if found[1] else 10) if len(digits) < 8 else sys.maxunicode + 1
    is_allowed = number <= sys.maxunicode and not 0xD800 <= number < 0xE000 and not FORBIDDEN.match(chr(number))
    return found[0] if is_allowed else "\ufffd"


def elements_of(data: bytes) -> Tuple[List[ElementTree.Element], bool]:
    """The elements of the report that stand for entries, in their order, and whether the report is cut off after them."""
    text = REFERENCE.sub(allowed, FORBIDDEN.sub("\ufffd", data.decode(errors="replace")))
    if DOCUMENT_TYPE.match(text):
        raise refused("the report has a document type")
    parser, is_cut_off = ElementTree.XMLPullParser(["start", "end"]), False
    try:
        parser.feed(text)
        parser.close()
    except ElementTree.ParseError as fault:
        is_cut_off = errors.messages[fault.code] in CUT_OFF
        if not is_cut_off:
            raise refused(f"the report is no XML: {fault}") from fault
    depth, root, elements = 0, "nothing", []
    for event, element in parser.read_events():
        depth += 1 if event == "start" else -1
        root = local(element) if event == "start" and depth == 1 else root
        if event == "end" and depth == 1 and local(element) in ("started", "finished", "reported"):
            elements.append(element)
    if root != "events":
        raise refused(f"the report is no Open Test Reporting: it begins with {root}")
    return elements, is_cut_off


def local(element: ElementTree.Element) -> str:
    return element.tag.rpartition("}")[2]


def below(element: ElementTree.Element, name: str) -> Optional[ElementTree.Element]:
    """The first element of this name in another one, whatever its namespace is."""
    return next((it for it in element.iter() if local(it) == name), None)


def text_below(element: ElementTree.Element, name: str) -> Optional[str]:
    found = below(element, name)
    return None if found is None else "".join(found.itertext())


def shortened(text: str) -> str:
    """The text, cut where it is too long, as the listener does it."""
    data = text.encode()
    return text if len(data) <= MAX_FIELD_BYTES else f"{data[:MAX_FIELD_BYTES].decode(errors='ignore')} .. ({len(data)} bytes)"


def field(text: str) -> str:
    return text.replace("\\", "\\\\").replace("|", "\\p").replace("\n", "\\n")


def microseconds(element: ElementTree.Element) -> int:
    """The time of an element, in microseconds since 1970."""
    found = re.fullmatch(r"(\d{4}-\d\d-\d\dT\d\d:\d\d:\d\d)(?:\.(\d+))?Z", element.get("time", ""), re.ASCII)
    try:
        seconds = timegm(strptime(found[1], "%Y-%m-%dT%H:%M:%S")) if found else -1
    except ValueError:
        seconds = -1
    if seconds < 0:
        raise refused(f"this is no time since 1970: {element.get('time')!r}")
    return seconds * 1_000_000 + int((found[2] or "").ljust(6, "0")[:6])


def tails_of(element: ElementTree.Element) -> List[str]:
    """The tails of the entries that an element stands for."""
    if local(element) == "started":
        return ["start"]
    if local(element) == "finished":
        return [finish_of(element)]
    tails = []
    for it in (it for attachments in element if local(attachments) == "attachments" for it in attachments):
        if local(it) == "data":
            pairs = {shortened(pair.get("key", "")): shortened("".join(pair.itertext())) for pair in it}
            in_order = sorted(pairs.items(), key=lambda pair: pair[0].encode())
            tails.append("report" + "".join(f"|{field(key)}|{field(value)}" for key, value in in_order))
        elif local(it) == "file" and it.get("path"):
            tails.append(f"file|{field(it.get('path', ''))}")
    return tails


def finish_of(element: ElementTree.Element) -> str:
    status = below(element, "result")
    name = "" if status is None else status.get("status", "")
    if name == "SKIPPED":
        return f"skip|{field(shortened(text_below(element, 'reason') or ''))}"
    if name not in ENDINGS:
        raise refused(f"this is no status of a result: {name!r}")
    throwable = below(element, "throwable")
    if throwable is None or name == "SUCCESSFUL":
        return ENDINGS[name]
    type_name, said = throwable.get("type", ""), FRAMES.split("".join(throwable.itertext()), 1)[0]
    said = said[:-1] if said.endswith("\n") else said
    if said == type_name:
        return ENDINGS[name]
    return f"{ENDINGS[name]}|{field(shortened(said[len(type_name) + 2 :] if said.startswith(f'{type_name}: ') else said))}"


def id_of(unique: str) -> Optional[str]:
    """An id as a record has it, with its escapes as the listener writes them; or nothing where no record can have it."""
    if not ID.fullmatch(unique) or unique.startswith(REPLACED):
        return None
    parts = [unquote_plus(part).translate(ESCAPES) for segment in unique.split("/") for part in segment[1:-1].split(":")]
    shown = "/".join(f"[{tag}:{value}]" for tag, value in zip(parts[::2], parts[1::2]))
    return shown if len(shown.encode()) <= MAX_ID_BYTES and len(parts) <= 2 * MAX_ID_SEGMENTS else None


class Recording:
    """The lines of a record, as many as it takes: of descriptors, and of events. Descriptors have their keys by their ids."""

    def __init__(self) -> None:
        self.descriptors: List[str] = []
        self.events: List[str] = []
        self.keys: Dict[str, int] = {}
        self.bytes = len(f"{HEADER}\nZ|{MAX_BYTES}\n")

    def key_of(self, unique: str, letter: str, name: str) -> int:
        """The key of a descriptor, which is added once, after those of the ids above its own."""
        shown = id_of(unique)
        text = shown or unique
        if text not in self.keys:
            # (in a segment of an id `/` is an escape)
            above, _, last = (shown or "").rpartition("/")
            if above:
                self.key_of(above, "C", unquote_plus(above.rpartition(":")[2][:-1]))
            if len(self.keys) == MAX_DESCRIPTORS:
                raise Full(f"a record has at most {MAX_DESCRIPTORS} descriptors")
            key = len(self.keys)
            self._add(self.descriptors, f"N|{letter}|{field(shown or f'{REPLACED}{key}]')}|{field(name)}")
            self.keys[text] = key
        return self.keys[text]

    def add_event(self, key: int, stamp: int, tail: str) -> None:
        self._add(self.events, f"E|1|{key}|{stamp}|{tail}")

    def _add(self, lines: List[str], line: str) -> None:
        size = len(line.encode()) + 1
        if self.bytes + size > MAX_BYTES:
            raise Full(f"a record has at most {MAX_BYTES} bytes")
        self.bytes += size
        lines.append(line)

    def text(self, is_whole: bool) -> str:
        end = [f"Z|{len(self.events)}"] * is_whole
        return "".join(f"{line}\n" for line in [HEADER, *self.descriptors, *self.events, *end])


def record(elements: Sequence[ElementTree.Element], to: Recording) -> None:
    """Adds what the elements of a report stand for."""
    skipped = {it.get("id") for it in elements if local(it) == "finished" and finish_of(it).startswith("skip|")}
    keys: Dict[str, int] = {}
    latest = 0
    for element in elements:
        number = element.get("id", "")
        if local(element) == "started":
            unique, kind = text_below(element, "uniqueId"), text_below(element, "type")
            if not unique or kind not in TYPES:
                raise refused(f"element {number!r} has no unique id and type of JUnit")
            keys[number] = to.key_of(unique, TYPES[kind], element.get("name", ""))
        if number not in keys:
            raise refused(f"element {number!r} isn't started")
        latest = max(latest, microseconds(element))
        # (JUnit's report starts what is skipped)
        if local(element) != "started" or number not in skipped:
            for tail in tails_of(element):
                to.add_event(keys[number], latest, tail)


def main(words: List[str]) -> int:
    if words:
        raise refused("it takes no word: tools/from-open-test-reporting < REPORT.xml > run.record")
    if sys.stdin is None or sys.stdout is None:
        raise Failed("standard input or output is closed")
    elements, is_cut_off = elements_of(sys.stdin.buffer.read())
    recording, why = Recording(), "the report is cut off" if is_cut_off else ""
    try:
        record(elements, recording)
    except Full as fault:
        why = str(fault)
    # (with PYTHONUNBUFFERED a write of standard output may write a part alone, and say so by a number)
    with open(sys.stdout.fileno(), "wb", closefd=False) as file:
        file.write(recording.text(not why).encode())
    if why:
        say(f"tools/from-open-test-reporting: {why}, so the record has what stands before that\n".encode())
    return 1 if why else 0


if __name__ == "__main__":
    run_script("tools/from-open-test-reporting", main)
