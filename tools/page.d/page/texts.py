"""A light reading of descriptions: where statements begin and end, which queries there are, and what is included.

The program alone judges a text. This finds the places that a page needs in a text that may well be wrong.
"""
import bisect
import dataclasses
import re
from typing import Dict, Iterator, List, Optional, Tuple

PIECE = re.compile(r"'[^'\n]*'|%[^\n]*|\.\.|\.|[^'%.]+|'")
QUERY = re.compile(r"\s*:-\s*query\b")
INCLUDE = re.compile(r"\s*:-\s*include\s*'([^'\n]+)'")
LABEL = re.compile(r"\blabel\s*::\s*(\w+)")
CLAIM = re.compile(r"\bclaim\s*::\s*(\w+)\s*:")
MOST_READ = 1 << 20  # letters; the program reads no file of more bytes, so what stands in a longer text is of no account
CONTROL = re.compile("[\x00-\x1f\x7f-\x9f]")


@dataclasses.dataclass(frozen=True)
class Statement:
    """A statement without its comments, with its first and its last line, counted from 1."""

    first: int
    last: int
    body: str


@dataclasses.dataclass(frozen=True)
class Query:
    """A query: its label, None where it has none; the step of its claim, a number or 'maxstep', None where it has no claim."""

    line: int
    label: Optional[str]
    claim: Optional[str]


def statements(text: str) -> Iterator[Statement]:
    """The statements of a text, each up to its dot; what stands after the last dot is a last one. Of a text too long to be read, none."""
    if len(text) > MOST_READ:
        return
    ends = [match.start() for match in re.finditer("\n", text)]
    body: List[str] = []
    first = None
    for match in PIECE.finditer(text):
        piece, line = match.group(), bisect.bisect_left(ends, match.start()) + 1
        if piece.startswith("%"):
            continue
        if first is None and piece.strip():
            first = line + piece[: len(piece) - len(piece.lstrip())].count("\n")
        body.append(piece)
        if piece == "." and first is not None:
            yield Statement(first, line, "".join(body).strip())
            body, first = [], None
    if first is not None:
        yield Statement(first, len(ends) + 1, "".join(body).strip())


def query_of(statement: Statement) -> Optional[Query]:
    if not QUERY.match(statement.body):
        return None
    label, claim = LABEL.search(statement.body), CLAIM.search(statement.body)
    return Query(statement.first, label.group(1) if label else None, claim.group(1) if claim else None)


def queries(text: str) -> List[Query]:
    return [query for query in map(query_of, statements(text)) if query]


def includes(text: str) -> List[Tuple[int, str]]:
    """The files that a text includes, each with the line of the statement that does so."""
    found = [(statement.first, INCLUDE.match(statement.body)) for statement in statements(text)]
    return [(line, match.group(1)) for line, match in found if match]


def included(text: str) -> List[str]:
    return [name for _, name in includes(text)]


def law_at(text: str, line: int) -> Tuple[int, str]:
    """The last line of the statements that begin at a line, and their text; the line alone where none begins there."""
    found = [statement for statement in statements(text) if statement.first == line]
    return (found[-1].last, " ".join(" ".join(one.body.split()) for one in found)) if found else (line, "")


def condition(name: str, value: str) -> str:
    """A formula that says that a fluent has a value."""
    return {"true": name, "false": f"-{name}"}.get(value, f"{name}={value}")


def step_query(label: str, horizon: int, values: Dict[str, str]) -> str:
    """A query for the histories of so many steps that begin in a state; in any state where no value is given."""
    state = ", ".join(condition(name, value) for name, value in values.items())
    return f"\n:- query label :: {label}; maxstep :: {horizon}" + (f"; 0: {state}" if state else "") + ".\n"
