"""Which queries a description has, and which files it includes, for the other tools.

This is a stand-in for a mode of the program that says so (explain mode): as long as there is none, this module reads tokens and
statements by itself, by docs/language.md ('Tokens', 'Files'), and knows nothing else of a description. It finds no fault but a file that
cannot be read and files that include each other in a circle; the program finds the others when a query is asked.
"""
from __future__ import annotations

import dataclasses
import pathlib
import re
from collections.abc import Iterator

TOKEN = re.compile(r"[ \t\r\n]+|%[^\n]*|'[\x20-\x26\x28-\x7e]+'|[A-Za-z][A-Za-z0-9_]*|[0-9]+|:-|::|\.\.|.", re.DOTALL)
DEPTH = 8  # so many files may include each other, one in the next


class Unreadable(Exception):
    """A description that cannot be read; the text says which file, and why."""


@dataclasses.dataclass
class Description:
    """What was read: the files in the order in which they were opened, and of each query its label."""

    files: list[str] = dataclasses.field(default_factory=list)
    queries: list[str | None] = dataclasses.field(default_factory=list)

    @property
    def labels(self) -> list[str]:
        """The labels in order, each once."""
        return list(dict.fromkeys(label for label in self.queries if label is not None))


def statements(text: str) -> Iterator[list[str]]:
    """The tokens of each statement; what follows the last dot is a last one."""
    current: list[str] = []
    for token in TOKEN.findall(text):
        if token[0] in " \t\r\n%":
            continue
        if token == ".":
            yield current
            current = []
        else:
            current.append(token)
    if current:
        yield current


def label_of(tokens: list[str]) -> str | None:
    """The label in a query; `label` is a reserved word, so it stands nowhere else."""
    for word, sign, label in zip(tokens, tokens[1:], tokens[2:]):
        if (word, sign) == ("label", "::"):
            return label
    return None


def read(name: str, folder: pathlib.Path = pathlib.Path()) -> Description:
    """Reads a description as the program does when it runs in a folder: names of included files are taken from there."""
    found = Description()
    take_in(found, name, folder, [])
    return found


def take_in(found: Description, name: str, folder: pathlib.Path, being_read: list[str]) -> None:
    if name in being_read:
        raise Unreadable(f"{being_read[-1]}: it includes {name}, which is being read: the files include each other in a circle")
    if len(being_read) > DEPTH:
        raise Unreadable(f"{being_read[-1]}: it includes {name}, and more than {DEPTH} files include each other, one in the next")
    try:
        text = (folder / name).read_bytes().decode("latin-1")
    except (OSError, ValueError) as fault:
        where = f"{being_read[-1]}: it includes {name}, taken from the folder {folder.resolve()}" if being_read else name
        raise Unreadable(f"{where}: {getattr(fault, 'strerror', None) or fault}") from fault
    found.files.append(name)
    for tokens in statements(text):
        if tokens[:2] == [":-", "query"]:
            found.queries.append(label_of(tokens))
        elif tokens[:2] == [":-", "include"] and len(tokens) == 3:
            take_in(found, tokens[2].strip("'"), folder, being_read + [name])
