"""Cuts a query into jobs, for tools/cubes: copies of its description that ask for one horizon and one choice of values each."""
from __future__ import annotations

import importlib
import itertools
import json
import pathlib
import re
import sys
from dataclasses import dataclass
from typing import Any, Iterator, List, Optional, Sequence, Tuple, Union

sys.path.insert(0, str(pathlib.Path(__file__).resolve().parent.parent / "checks"))

# The second reading of the language, which has no types.
reference: Any = importlib.import_module("reference")

Step = Union[int, str]  # a number, or "maxstep"
MOST = 100000  # jobs


class Refused(Exception):
    """The words or the description are refused."""


@dataclass(frozen=True)
class Cut:
    """A constant at a step, by whose values the query is cut; `place` is its index among the fluents, or among the actions."""

    step: Step
    name: str
    is_fluent: bool
    place: int
    values: Tuple[str, ...]


@dataclass(frozen=True)
class Job:
    """A copy of the description. In a history of it each position of `fixed` has the index beside it."""

    name: str
    horizon: int
    text: bytes
    fixed: Tuple[Tuple[int, int], ...]


@dataclass(frozen=True)
class Order:
    """What is wanted: which query, cut at which constants, and the words for each run."""

    label: Optional[str]
    cuts: Tuple[str, ...]
    count: Optional[int]
    budget: Optional[int]
    program: str

    def words(self) -> List[str]:
        count = ["--count", str(self.count)] if self.count else []
        return count + (["--budget", str(self.budget)] if self.budget else [])


class Query:
    """A description of one text, with the query that is asked of it."""

    def __init__(self, text: bytes, label: Optional[str]) -> None:
        self.text = text
        self.statements = list(statements(text))
        found, stop = reference.described({"f.cc": text}, "f.cc")
        if stop:
            raise Refused(stop)
        self.table = found.table
        places = [at for at, (_, _, tokens) in enumerate(self.statements) if tokens[:2] == [":-", "query"]]
        asked = [(at, one) for at, one in zip(places, found.queries) if label is None or one.label == label]
        if not asked:
            raise Refused(f"there is no query {label}" if label is not None else "there is no query")
        self.place, query = asked[0]
        self.queries = places
        try:
            reference.check_steps(self.table, query)
        except reference.Refused as fault:
            raise Refused(fault.text(["f.cc"])) from fault
        self.low, self.high = query.range.lo, query.range.hi
        self.has_claim = query.claim is not None
        self.fluents: List[Tuple[str, Tuple[str, ...]]] = []
        self.actions: List[Tuple[str, Tuple[str, ...]]] = []
        for symbol, arguments in reference.ground_constants(self.table):
            values = tuple(str(one) for one in reference.domain_of(self.table, symbol))
            (self.actions if symbol.kind == "action" else self.fluents).append((reference.applied(symbol.name, arguments), values))

    def cut(self, text: str) -> Cut:
        """The cut that is written as `STEP: CONSTANT`."""
        match = re.fullmatch(r"\s*([0-9]{1,4}|maxstep)\s*:\s*(.*?)\s*", text)
        if not match:
            raise Refused(f"{text} is no cut: write a step and a constant, as '3: at(box)'")
        step: Step = match[1] if match[1] == "maxstep" else int(match[1])
        name = match[2].replace(" ", "")
        for is_fluent, constants in ((True, self.fluents), (False, self.actions)):
            for place, (own, values) in enumerate(constants):
                if own == name:
                    if step == "maxstep" and not is_fluent:
                        raise Refused(f"{text}: no action is done at maxstep")
                    return Cut(step, name, is_fluent, place, values)
        raise Refused(f"{text}: the description has no ground constant {name}")

    def row_length(self, horizon: int) -> int:
        return (horizon + 1) * len(self.fluents) + horizon * len(self.actions)

    def jobs(self, cuts: Sequence[Cut]) -> Iterator[Job]:
        """The jobs of each horizon in turn, and of one horizon by the values of its cuts, the first cut slowest."""
        for horizon in range(self.low, self.high + 1):
            here = [cut for cut in cuts if is_there(cut, horizon)]
            for number, indexes in enumerate(itertools.product(*(range(len(cut.values)) for cut in here))):
                yield Job(
                    f"{horizon:04}-{number:05}",
                    horizon,
                    self.copy(horizon, [(cut, cut.values[index]) for cut, index in zip(here, indexes)]),
                    tuple((self.position(cut, horizon), index) for cut, index in zip(here, indexes)),
                )

    def position(self, cut: Cut, horizon: int) -> int:
        step = horizon if isinstance(cut.step, str) else cut.step
        return step * (len(self.fluents) + len(self.actions)) + cut.place + (0 if cut.is_fluent else len(self.fluents))

    def copy(self, horizon: int, chosen: Sequence[Tuple[Cut, str]]) -> bytes:
        """The description with this query alone, for this horizon and with these conditions more."""
        tokens = self.statements[self.place][2]
        items: List[List[str]] = [[]]
        for token in tokens[2:-1]:
            if token == ";":
                items.append([])
            else:
                items[-1].append(token)
        kept = [" ".join(item) for item in items if item[:2] != ["maxstep", "::"]]
        more = [f"{cut.step}: {cut.name}={value}" for cut, value in chosen]
        query = f":- query {'; '.join([f'maxstep :: {horizon}', *kept, *more])}.".encode()
        pieces, at = [], 0
        for place in self.queries:
            begin, end, _ = self.statements[place]
            pieces += [self.text[at:begin], query if place == self.place else b""]
            at = end
        return b"".join(pieces) + self.text[at:]


def is_there(cut: Cut, horizon: int) -> bool:
    """Whether the constant of a cut is there at a horizon: an action is done before it alone."""
    return isinstance(cut.step, str) or cut.step < horizon or cut.step == horizon and cut.is_fluent


def statements(text: bytes) -> Iterator[Tuple[int, int, List[str]]]:
    """Where each statement of a text begins and ends, and its tokens."""
    at, begin = 0, 0
    tokens: List[str] = []
    while True:
        start = reference.SPACE_OR_COMMENT.match(text, at).end()
        if start == len(text):
            if tokens:
                yield begin, at, tokens
            return
        found = reference.longest_token_at(text, start)
        if found is None:
            raise Refused(f"line {text.count(chr(10).encode(), 0, start) + 1}: no token begins here")
        begin = begin if tokens else start
        at = found[1]
        tokens.append(text[start:at].decode("ascii"))
        if tokens[-1] == ".":
            yield begin, at, tokens
            tokens = []


def whole_text(name: str, being_read: Tuple[str, ...] = ()) -> bytes:
    """The text of a file, with those that it includes in the place of their includes."""
    if name in being_read or len(being_read) > 8:
        raise Refused(f"{name} is included in a circle, or too deep")
    try:
        text = pathlib.Path(name).read_bytes()
    except OSError as error:
        raise Refused(f"{name}: {error.strerror}") from error
    pieces, at = [], 0
    for begin, end, tokens in statements(text):
        if tokens[:2] == [":-", "include"] and len(tokens) == 4:
            pieces += [text[at:begin], whole_text(tokens[2][1:-1], being_read + (name,)), b"\n"]
            at = end
    return b"".join(pieces) + text[at:]


# ---------------------------------------------------------------------------------------------------------------
# The folder of the jobs
# ---------------------------------------------------------------------------------------------------------------

JOB = """#!/bin/sh
# Runs the job of this name, in this folder. Its answer, its log and what it says of faults are written beside it, and when it has ended,
# its exit code: a job without one did not come to its end.
cd "$(dirname "$0")" || exit 70
case $1 in *[!0-9-]* | "") echo "job: $1 is no job" >&2 && exit 2 ;; esac
rm -f "$1.code"
{words} --log "$1.log" "$1.cc" > "$1.out" 2> "$1.err"
echo $? > "$1.ended" && mv "$1.ended" "$1.code"
"""
SLURM = """#!/bin/sh
#SBATCH --job-name=cubes --array=1-{count} --ntasks=1 --output=slurm-%a.txt
# For `sbatch --wait slurm`, called in this folder, which all nodes have.
exec ./job "$(sed -n "${{SLURM_ARRAY_TASK_ID}}p" jobs)"
"""


def quoted(word: str) -> str:
    """A word as a shell takes it."""
    return "'" + word.replace("'", "'\\''") + "'"


def write_folder(folder: pathlib.Path, text: bytes, order: Order, jobs: Sequence[Job]) -> None:
    folder.mkdir(parents=True)
    (folder / "query.cc").write_bytes(text)
    (folder / "cubes.json").write_text(json.dumps({**order.__dict__, "cuts": list(order.cuts)}, indent=1) + "\n")
    for job in jobs:
        (folder / f"{job.name}.cc").write_bytes(job.text)
    (folder / "jobs").write_text("".join(f"{job.name}\n" for job in jobs))
    (folder / "job").write_text(JOB.format(words=" ".join(map(quoted, [order.program, *order.words()]))))
    (folder / "job").chmod(0o755)
    (folder / "slurm").write_text(SLURM.format(count=len(jobs)))
    (folder / "slurm").chmod(0o755)


def order_in(folder: pathlib.Path) -> Order:
    try:
        found = json.loads((folder / "cubes.json").read_text())
        return Order(found["label"], tuple(found["cuts"]), found["count"], found["budget"], found["program"])
    except (OSError, ValueError, KeyError, TypeError) as error:
        raise Refused(f"{folder} is no folder of tools/cubes: {error}") from error
