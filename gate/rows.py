"""Tables and texts that stand in files of their own."""

import re
from pathlib import Path
from typing import Dict, List

NAME = re.compile(r"(?<!\S)[A-Z][A-Z0-9_]{2,}(?!\S)")


def rows(path: str, names: Dict[str, object]) -> List:
    """What the makers make of the file `NAME.rows` at this path, or beside the module `NAME.py` at this path, which has these names.

    A line `[maker] title` begins a section. Each line below it is a row, a call of the module's function `maker`; its fields stand apart by
    ` | `, and the first one after the title. A line `> text` is a further line of the last field. A word in capitals that is a name of the
    module is what the module calls so, and a field `= EXPRESSION` is what this is in the module. `""` is an empty field, `␊` a line feed
    in one, and a line that begins with `# ` is a comment.
    """
    found, make, title = [], None, ""
    text = Path(path).with_suffix(".rows").read_bytes().decode()
    lines = re.sub("(?m)^# .*\n", "", text).replace("\n> ", "\0").split("\n")
    for line in filter(None, lines):
        section = re.fullmatch(r"\[(\w+)\] ?(.*)", line)
        if section:
            make, title = names[section[1]], section[2] + " " * (section[2][-1:] not in ("", "/"))
            continue
        row, *more = line.split("\0")
        fields = [value_of(field, names) for field in row.split(" | ")]
        if more:
            fields[-1] = "\n".join([fields[-1].rstrip("\n"), *more])
        made = make(title + fields[0] if title else fields[0], *fields[1:])
        found += made if isinstance(made, list) else [made]
    return found


def row(*fields: object) -> tuple:
    """A maker of rows that are their fields."""
    return fields


def value_of(field: str, names: Dict[str, object]) -> object:
    """What a field of a row stands for."""
    if field.startswith("= "):
        return eval(field[2:], names)
    if NAME.fullmatch(field):
        return names[field]
    return "" if field == '""' else NAME.sub(lambda word: str(names.get(word[0], word[0])), field.replace("␊", "\n"))


def texts(path: str) -> Dict[str, str]:
    """The texts of a file by their names; above each stands a line `== NAME`."""
    parts = re.split("(?m)^== (.*)\n", Path(path).read_bytes().decode())[1:]
    return dict(zip(parts[::2], parts[1::2]))
