"""What the program prints, read into events for the page: histories, atoms, causes, places of refusals, and plain lines."""
import importlib
import re
from typing import Any, Dict, Iterable, List, Optional

Event = Dict[str, object]

LISTING: Any = importlib.import_module("listing")  # tools/listing.py, the reader of listings that all tools share

HEADING = re.compile(r"horizon ([0-9]+): (history|counterexample|example)(?: ([0-9]+))?|without (.*):|(induction) over [0-9]+ steps: example")
ATOM = re.compile(r"([0-9]+): ([^=]+)=([^=: ]+) (certain|impossible|possible, example ([0-9]+))")
CAUSE = re.compile(r"([0-9]+): ([^=]+)=([^=: ]+): (?:(one value|initial)|(.*):([0-9]+))")
PART = re.compile(r"(?:condition ([0-9]+)|law (.*):([0-9]+)|cause of (.*))")
REFUSAL = re.compile(r"ccalc: (?:(.*):([0-9]+): )?([0-9]{1,2}) ([A-Z][A-Za-z]*)(.*)")
EXPLAINED = re.compile(r"(.*):([0-9]+):([0-9]+): (?:([0-9]{1,2}) ([A-Z][A-Za-z]*.*)|(warning|read fault))")
LABELLED = re.compile(r"query(?: (\w+))?: (.*):([0-9]+)")


class Reader:
    """Reads a listing line by line; a history comes as one event, when its key is there."""

    def __init__(self) -> None:
        self.heading: Optional["re.Match[str]"] = None
        self.block: List[str] = []

    def take(self, line: str) -> Optional[Event]:
        heading = HEADING.fullmatch(line)
        if heading:
            self.heading, self.block = heading, []
            return None
        if self.heading is None:
            return event_of(line)
        self.block.append(line)
        if not line.startswith("key "):
            return None
        heading, self.heading = self.heading, None
        rows = LISTING.histories(["horizon 0: counterexample", *self.block])[0]
        key = line[len("key "):]
        kind = "without" if heading.group(4) else heading.group(2) or heading.group(5)
        return {
            "kind": kind, "horizon": int(key.partition(":")[0]), "number": int(heading.group(3) or 1), "rows": rows, "key": key,
            "part": heading.group(4),
        }

    def all(self, lines: Iterable[str]) -> List[Event]:
        return [event for event in map(self.take, lines) if event]


def event_of(line: str) -> Event:
    """The event of a line that is no part of a history."""
    atom, cause, part = ATOM.fullmatch(line), CAUSE.fullmatch(line), PART.fullmatch(line)
    if atom:
        answer, example = atom.group(4).split(",")[0], atom.group(5)
        return {
            "kind": "atom", "step": int(atom.group(1)), "constant": atom.group(2), "value": atom.group(3), "answer": answer,
            "example": int(example) if example else None,
        }
    if cause:
        return {
            "kind": "cause", "step": int(cause.group(1)), "constant": cause.group(2), "value": cause.group(3), "why": cause.group(4),
            "file": cause.group(5), "line": int(cause.group(6)) if cause.group(6) else None,
        }
    if part:
        return {
            "kind": "part", "text": line, "condition": int(part.group(1)) if part.group(1) else None, "file": part.group(2),
            "line": int(part.group(3)) if part.group(3) else None, "constant": part.group(4),
        }
    return {"kind": "line", "text": line}


def refusal_in(errors: Iterable[str]) -> Optional[Event]:
    """The refusal, or the fault, on standard error."""
    lines = list(errors)
    for line in lines:
        match = REFUSAL.fullmatch(line)
        if match:
            return {
                "text": line, "file": match.group(1), "line": int(match.group(2)) if match.group(2) else None, "column": None,
                "number": int(match.group(3)), "name": match.group(4) + match.group(5), "words": [], "is_warning": False,
            }
    for line in lines:
        if line.startswith("ccalc: "):
            return {
                "text": line, "file": None, "line": None, "column": None, "number": None, "name": line[len("ccalc: "):], "words": [],
                "is_warning": False,
            }
    return None


def explained(lines: Iterable[str]) -> List[Event]:
    """The refusals and warnings of explain mode, each with its words."""
    found: List[Event] = []
    words: List[str] = []
    for line in lines:
        match = EXPLAINED.fullmatch(line)
        if match:
            words = []
            found.append({
                "text": line, "file": match.group(1), "line": int(match.group(2)), "column": int(match.group(3)),
                "number": int(match.group(4)) if match.group(4) else None, "name": match.group(5) or match.group(6), "words": words,
                "is_warning": match.group(6) == "warning",
            })
        elif line.startswith("  "):
            words.append(line.strip())
    return found


def listing_of(rows: List[List[str]]) -> str:
    """The text of a history as the program prints it, with a heading and a key that say nothing."""
    lines = ["horizon 0: history 1"]
    for index, row in enumerate(rows):
        head = "ACTIONS:" if index % 2 else f"{index // 2}:"
        lines.append("".join([head] + ["  " + part for part in row]))
    return "\n".join(lines + ["key 0:", ""])
