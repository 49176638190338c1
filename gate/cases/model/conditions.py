"""Conditions: reading them, with their faults, and of which events they hold.

A condition is a tuple: its word, and after it its text, its two texts, its pairs or its members.
"""

from typing import Callable, Dict, List, Tuple

import form
from model.records import STATUSES, Descriptor, Event
from model.texts import write_id

Condition = tuple

KINDS = ("dynamic", "skip", "start", "finish", "report", "file")
PLAIN_WORDS = ("test", "container", "engine", "started", "succeeded", "failed", "aborted")

TEXT_WORDS = ("id", "name", "skipped", "failed", "aborted", "message", "file")

GROUP_WORDS = ("all", "any", "not")
OPENING_WORDS = TEXT_WORDS + ("kind", "entry", "segment") + GROUP_WORDS

TEXT_ESCAPES = {"%": "%25", "(": "%28", ")": "%29", ",": "%2C"}


class BadAtom(Exception):
    """A text is no condition; the argument is the length in bytes of its longest prefix that begins one."""


class Deep(Exception):
    """The longest prefix that begins a condition has a prefix with too many open brackets."""


def write_text(text: str) -> str:
    return "".join(TEXT_ESCAPES.get(character, character) for character in text)


def write_condition(condition: Condition) -> str:
    word, *more = condition
    if not more:
        return word
    if word in ("all", "any"):
        return f"{word}({','.join(map(write_condition, more[0]))})"
    if word in ("not", "kind"):
        return f"{word}({more[0] if word == 'kind' else write_condition(more[0])})"
    texts = more[0] if word == "segment" else [text for pair in more[0] for text in pair] if word == "entry" else more
    return f"{word}({','.join(map(write_text, texts))})"


def read_condition(text: str) -> Condition:
    """The condition of a text, or `BadAtom` or `Deep`."""
    return Reader(text.encode()).whole()


class Reader:
    """Reads a condition from left to right.

    What was read so far always begins some condition, so where no further byte can be taken, the position
    is the length of the longest prefix that begins one.
    """

    def __init__(self, data: bytes):
        self.data = data
        self.at = 0

    def whole(self) -> Condition:
        condition = self.condition(0)
        if self.at < len(self.data):
            raise BadAtom(self.at)
        return condition

    def sees(self, word: str) -> bool:
        return self.data.startswith(word.encode(), self.at)

    def take_one_of(self, words) -> str:
        """Takes the longest of the words that comes next, or raises `BadAtom` after the longest beginning of one."""
        seen = [word for word in words if self.sees(word)]
        if seen:
            word = max(seen, key=len)
            self.at += len(word)
            return word
        raise BadAtom(self.at + max(self.common(word) for word in words))

    def common(self, word: str) -> int:
        """How many bytes of a word come next."""
        length = 0
        while self.sees(word[: length + 1]) and length < len(word):
            length += 1
        return length

    def condition(self, open_brackets: int) -> Condition:
        word = self.take_one_of(PLAIN_WORDS + tuple(word + "(" for word in OPENING_WORDS))
        if not word.endswith("("):
            return (word,)
        word = word[:-1]
        if word in GROUP_WORDS and open_brackets == form.MAX_BRACKETS:
            raise Deep()
        if word in ("all", "any"):
            return (word, self.items(lambda: self.condition(open_brackets + 1)))
        if word == "entry":
            return (word, self.items(self.two_texts))
        if word == "kind":
            return (word, self.take_one_of([kind + ")" for kind in KINDS])[:-1])
        argument = self.condition(open_brackets + 1) if word == "not" else self.two_texts() if word == "segment" else self.text()
        self.take_one_of([")"])
        return (word, argument)

    def items(self, take: Callable[[], object]) -> tuple:
        """Takes items with commas between them, and the bracket after them."""
        found: List[object] = []
        if self.sees(")"):
            self.at += 1
            return ()
        while True:
            found.append(take())
            if self.take_one_of([",", ")"]) == ")":
                return tuple(found)

    def text(self) -> str:
        """Takes a text, up to the bracket or the comma that ends it."""
        text = b""
        while self.at < len(self.data) and self.data[self.at] not in b"(),":
            if self.sees("%"):
                escape = self.take_one_of(list(TEXT_ESCAPES.values()))
                text += {value: key for key, value in TEXT_ESCAPES.items()}[escape].encode()
            else:
                text += self.data[self.at : self.at + 1]
                self.at += 1
        return text.decode()

    def two_texts(self) -> Tuple[str, str]:
        """Takes a text, a comma, and a second text."""
        first = self.text()
        self.take_one_of([","])
        return first, self.text()


def holds(condition: Condition, event: Event, descriptor: Descriptor) -> bool:
    word, *argument = condition
    return WORDS[word](event, descriptor, *argument)


def is_end(status: str) -> Callable[..., bool]:
    """Whether an event is a finish with this status, and with this message, where one is named."""
    is_one = lambda event: event.kind == "finish" and STATUSES[event.status] == status
    return lambda event, _, *message: is_one(event) and (not message or event.message == message[0])


WORDS: Dict[str, Callable[..., bool]] = {
    "all": lambda event, descriptor, members: all(holds(member, event, descriptor) for member in members),
    "any": lambda event, descriptor, members: any(holds(member, event, descriptor) for member in members),
    "not": lambda event, descriptor, member: not holds(member, event, descriptor),
    "test": lambda _, descriptor: descriptor.is_test(),
    "container": lambda _, descriptor: descriptor.is_container(),
    "engine": lambda _, descriptor: len(descriptor.id) == 1 and descriptor.id[0][0] == "engine",
    "id": lambda _, descriptor, text: text in write_id(descriptor.id),
    "segment": lambda _, descriptor, segment: segment in descriptor.id,
    "name": lambda _, descriptor, text: descriptor.name == text,
    "kind": lambda event, _, kind: event.kind == kind,
    "started": lambda event, _: event.kind == "start",
    "skipped": lambda event, _, text: event.kind == "skip" and event.reason == text,
    "message": lambda event, _, text: event.kind == "finish" and event.message is not None and text in event.message,
    "file": lambda event, _, text: event.kind == "file" and event.path == text,
    "entry": lambda event, _, pairs: event.kind == "report" and set(pairs) == set(event.pairs),
    **{status: is_end(status) for status in ("succeeded", "failed", "aborted")},
}
"""Whether an event, whose key has this descriptor, meets a condition, by its word and by what stands after it."""
