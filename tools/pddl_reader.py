"""Reads the parentheses and words of a PDDL text, for tools/pddl."""
from __future__ import annotations

import re
from dataclasses import dataclass
from typing import Iterator, Tuple, Union

DEEPEST = 100  # open parentheses
TOKEN = re.compile(r"[ \t\r\f]+|;[^\n]*|(?P<line>\n)|(?P<mark>[()])|(?P<word>[^\s();]+)")
NAME = re.compile(r"[a-z][a-z0-9_-]*")


class Refused(Exception):
    """What a PDDL text has at a line is wrong, or not supported; where the two texts are judged together, that of the problem or not."""

    def __init__(self, line: int, reason: str, is_of_problem: bool = False) -> None:
        super().__init__(reason)
        self.line, self.reason, self.is_of_problem = line, reason, is_of_problem


@dataclass(frozen=True)
class Word:
    """A word, in small letters: PDDL does not tell these from capitals."""

    text: str
    line: int


@dataclass(frozen=True)
class Group:
    """What stands between two parentheses; the line is that of the first one."""

    items: Tuple[Union[Word, "Group"], ...]
    line: int

    @property
    def head(self) -> str:
        """The first word; empty where there is none."""
        return self.items[0].text if self.items and isinstance(self.items[0], Word) else ""


Node = Union[Word, Group]


def tokens(text: str) -> Iterator[Word]:
    line, at = 1, 0
    while at < len(text):
        match = TOKEN.match(text, at)
        if match is None:
            raise Refused(line, f"the character {text[at]!r} has no place in PDDL")
        if match["line"]:
            line += 1
        elif match["mark"] or match["word"]:
            yield Word(match.group().lower(), line)
        at = match.end()


def read(text: str) -> Group:
    """The one group that a text is."""
    open_groups: list[tuple[list[Node], int]] = []
    whole: Group | None = None
    line = 1
    for token in tokens(text):
        line = token.line
        if whole is not None:
            raise Refused(line, f"{token.text} stands behind the last parenthesis")
        if token.text == "(":
            if len(open_groups) == DEEPEST:
                raise Refused(line, f"more than {DEEPEST} parentheses are open")
            open_groups.append(([], line))
        elif not open_groups:
            raise Refused(line, f"{token.text} stands where the first ( must be")
        elif token.text == ")":
            items, begin = open_groups.pop()
            group = Group(tuple(items), begin)
            if open_groups:
                open_groups[-1][0].append(group)
            else:
                whole = group
        else:
            open_groups[-1][0].append(token)
    if open_groups:
        raise Refused(open_groups[-1][1], "this ( is not closed")
    if whole is None:
        raise Refused(line, "the file has no PDDL")
    return whole


def shown(node: Node) -> str:
    """A node in a few words, for messages."""
    return node.text if isinstance(node, Word) else f"({node.head} ..)" if node.head else "(..)"


def name_of(node: Node, what: str) -> str:
    """The name that a node is to be."""
    if not isinstance(node, Word):
        raise Refused(node.line, f"{shown(node)} stands where the name of {what} must be")
    if not NAME.fullmatch(node.text):
        raise Refused(node.line, f"{node.text} is no name of {what}: a name is a letter, then letters, digits, - and _")
    return node.text


def group_of(node: Node, what: str) -> Group:
    """The group that a node is to be."""
    if isinstance(node, Word):
        raise Refused(node.line, f"{node.text} stands where {what} must be, in parentheses")
    return node
