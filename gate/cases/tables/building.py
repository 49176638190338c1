"""How a case is written.

    answer("two tests/all", "ask count all", TWO_TESTS, "5")                                   status 0
    no("one start/two starts", "ask match in-order started started", ONE_START, "no 1")        status 1
    fault("cut record", "ask stats", TWO_TESTS[:-3], "line 9 is bad")                          status 2

The words are a text with blanks between the words, or a list of words (texts or bytes). Input and output are
texts or bytes, or a function that makes bytes when the case runs. A text that is an output ends with a line feed, also where none is written.

Most cases are rows of a file `NAME.rows` beside the module `NAME`: see gate/rows.py.
"""

import os
import re
from typing import Callable, List, Sequence, Tuple, Union

import form
from harness import Bytes, Case
from rows import rows, texts

Word = Union[str, bytes]
Text = Union[str, Bytes]

HEADER = f"testkit-record|{form.LATEST}\n"
LOCK_HEADER = f"testkit-record|{form.LOCK_VERSION}\n"
REPLAY_HEADER = f"testkit-replay|{form.LATEST}\n"


def as_bytes(data: Text) -> Bytes:
    return data.encode() if isinstance(data, str) else data


def as_words(words: Union[str, Sequence[Word]]) -> List[bytes]:
    """The words of a command line; in a text `""` is an empty word, and `␣` is a blank within a word."""
    listed = [word.replace("␣", " ") if word != '""' else "" for word in words.split(" ")] if isinstance(words, str) else words
    return [word.encode() if isinstance(word, str) else word for word in listed]


def as_input(data: Text) -> Bytes:
    """An input; a text of lines of a record apart by ` ; ` is that record."""
    is_record = isinstance(data, str) and re.match(r"[NLE]\|", data) and "\n" not in data
    return as_bytes(record(*data.split(" ; ")) if is_record else data)


def as_output(text: Text) -> Bytes:
    """An output, which ends with a line feed; its first line `stats started=1` stands for the statistics with this number."""
    if not isinstance(text, str):
        return text
    first, _, rest = text.partition("\n")
    if re.fullmatch(r"stats( \w+=\d+)*", first):
        return (stats(**{name: int(number) for name, _, number in (it.partition("=") for it in first.split()[1:])}) + as_output(rest).decode()).encode()
    return (text + "\n" * (text != "" and not text.endswith("\n"))).encode()


def answer(name: str, words: Union[str, Sequence[Word]], data: Text, output: Text, **how) -> Case:
    """The program answers: done, or yes."""
    return Case(name, as_words(words), as_input(data), as_output(output), **how)


def no(name: str, words: Union[str, Sequence[Word]], data: Text, output: Text) -> Case:
    """A match says no, or an expectation fails."""
    return Case(name, as_words(words), as_input(data), as_output(output), status=1)


def fault(name: str, words: Union[str, Sequence[Word]], data: Text, line: str, status: int = 2, **how) -> Case:
    """The program refuses its words or its input with this line after its name, and writes nothing else."""
    return Case(name, as_words(words), as_input(data), error=f"testkit: {line}\n".encode(), status=status, **how)


def refusals(*ways: Tuple[str, str, int, Text]) -> Callable[..., List[Case]]:
    """A maker of rows of what questions refuse; each has a title, its words, the number of the first word after it, and a usual record.

    A row has a name, its words with `..` for the question, the line with `{0}`, `{1}`, .. for the numbers of the words after it, and the
    record, where that is not the usual one.
    """

    def make(name: str, words: str, line: str, *text: Text) -> List[Case]:
        return [
            fault(title + name, words.replace("..", f"ask {question}"), *text or [usual], line.format(*range(first, first + 4)))
            for title, question, first, usual in ways
        ]

    return make


def stats(**numbers: int) -> str:
    """The lines of the statistics; what isn't named is 0."""
    assert set(numbers) <= set(form.STATISTICS)
    return "".join(f"{name} {numbers.get(name, 0)}\n" for name in form.STATISTICS)


def record(*lines: str) -> str:
    """A record text of these lines after the header; a whole one of version 3 where a line is of a lock."""
    has_lock = any(line.startswith("L") for line in lines)
    return whole_record(*lines) if has_lock else HEADER + "".join(line + "\n" for line in lines)


def whole_record(*lines: str) -> str:
    """A record text of version 3 of these lines after the header, with its end line."""
    end = f"Z|{len([line for line in lines if line.startswith('E')])}"
    return LOCK_HEADER + "".join(line + "\n" for line in [*lines, end])


def replay(*lines: str) -> str:
    """A replay text of these lines after the header."""
    return REPLAY_HEADER + "".join(line + "\n" for line in lines)


TEXTS = texts(f"{os.path.dirname(__file__)}/texts.lines")


def lines_of(name: str) -> List[str]:
    """The lines of a text of the file `texts.lines`."""
    return TEXTS[name].rstrip("\n").split("\n")
