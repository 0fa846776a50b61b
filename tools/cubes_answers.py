"""Judges the answers of jobs and puts them together, for tools/cubes.

A job counts where its exit code, all lines of its answer and its log agree: the log is accepted in check mode, with a blocked row for each
history that was listed and no other. Where a listing stopped at its number, and for the counterexample of a claim, the log ends behind
the last row that was found: all lines up to there are right, and why mode says that the row which is not blocked in it is a history.
"""
from __future__ import annotations

import pathlib
import re
import subprocess
from concurrent.futures import ThreadPoolExecutor
from dataclasses import dataclass, field
from typing import Callable, Iterator, List, Optional, Sequence, Tuple

from cubes_jobs import Job, Order, Query

Row = Tuple[int, ...]
FAULTS = {2: "was refused", 4: "could not read a file", 5: "could not write", 6: "had too little memory", 70: "had no program"}


class Fault(Exception):
    """Why a job has no answer that counts; `is_spent` where its budget was spent."""

    def __init__(self, reason: str, is_spent: bool = False) -> None:
        super().__init__(reason)
        self.is_spent = is_spent


@dataclass(frozen=True)
class Found:
    """A history: its row, and its lines up to the key."""

    row: Row
    lines: Tuple[str, ...]


@dataclass
class Answer:
    """What a job, or all jobs of a horizon, say: whether a path meets the conditions, the histories, and whether that is all of them."""

    histories: List[Found] = field(default_factory=list)
    is_whole: bool = True
    meets_conditions: bool = False


def row_of(key: str, horizon: int) -> Row:
    match = re.fullmatch(rf"key {horizon}:([0-9]+(?:,[0-9]+)*)?", key)
    if not match:
        raise Fault(f"its answer has the line {key!r} where a key must be")
    return tuple(map(int, match[1].split(","))) if match[1] else ()


def read_histories(lines: Sequence[str], horizon: int) -> Iterator[Found]:
    """The histories of a listing, which is to have nothing else."""
    block: List[str] = []
    number = 0
    for line in lines:
        if not block:
            number += 1
            if line != f"horizon {horizon}: history {number}":
                raise Fault(f"its answer has the line {line!r} where history {number} must be")
        block.append(line)
        if line.startswith("key "):
            yield Found(row_of(line, horizon), tuple(block[1:]))
            block = []
    if block:
        raise Fault("its answer ends within a history")


def answer_of(lines: List[str], code: int, query: Query, horizon: int) -> Answer:
    """What the lines of an answer say, which must be just those that go with the exit code."""
    at = f"horizon {horizon}: "
    if query.has_claim:
        if (code, lines) == (0, [at + "no history of the conditions", "claim holds, no history meets the conditions"]):
            return Answer()
        if (code, lines) == (0, [at + "claim holds", "claim holds"]):
            return Answer(meets_conditions=True)
        if code == 1 and len(lines) > 2 and lines[0] == at + "counterexample" and lines[-1] == "claim fails":
            return Answer([Found(row_of(lines[-2], horizon), tuple(lines[1:-1]))], False, True)
    elif (code, lines) == (1, [at + "no history", "no history"]):
        return Answer()
    elif code in (0, 7) and lines:
        found = list(read_histories(lines[:-1], horizon))
        ending = "complete" if code == 0 else "asked number reached"
        if found and lines[-1] == f"{at}{ending}, {len(found)} listed":
            return Answer(found, code == 0, True)
    raise Fault(f"its answer does not go with its exit code {code}")


def lines_of(file: pathlib.Path) -> List[str]:
    try:
        text = file.read_bytes().decode("utf-8", "backslashreplace")
    except OSError as error:
        raise Fault(f"{file.name}: {error.strerror}") from error
    if text and not text.endswith("\n"):
        raise Fault(f"{file.name} has no end of its last line")
    return text.split("\n")[:-1]


class Judge:
    """Judges the jobs of a folder with a program."""

    def __init__(self, folder: pathlib.Path, order: Order, query: Query, program: str, at_once: int) -> None:
        self.folder, self.order, self.query, self.program, self.at_once = folder, order, query, program, at_once

    def run(self, words: Sequence[str]) -> Tuple[int, str]:
        ran = subprocess.run([self.program, *words], cwd=self.folder, stdin=subprocess.DEVNULL, capture_output=True)
        return ran.returncode, ran.stdout.decode("utf-8", "backslashreplace")

    def code_of(self, job: Job) -> int:
        file = self.folder / f"{job.name}.code"
        if not file.exists():
            begun = (self.folder / f"{job.name}.out").exists()
            raise Fault("has begun and not come to its end: it still runs, or was killed" if begun else "is missing: it has not begun")
        (text,) = lines_of(file) or [""]
        if not re.fullmatch(r"[0-9]{1,3}", text):
            raise Fault(f"{file.name} has no exit code")
        code = int(text)
        if code == 3:
            raise Fault("has spent its budget", True)
        if code not in (0, 1, 7):
            said = (lines_of(self.folder / f"{job.name}.err") or [""])[0]
            if code > 128:
                raise Fault(f"was ended by signal {code - 128}, exit code {code}")
            raise Fault(f"{FAULTS.get(code, 'has failed')}, exit code {code}{f': {said}' if said else ''}")
        return code

    def judged(self, job: Job) -> Answer:
        """The answer of a job; raises Fault where it does not count."""
        file = self.folder / f"{job.name}.cc"
        if not file.exists() or file.read_bytes() != job.text:
            raise Fault(f"{file.name} is not the description that this query is cut into")
        code = self.code_of(job)
        answer = answer_of(lines_of(self.folder / f"{job.name}.out"), code, self.query, job.horizon)
        rows = [one.row for one in answer.histories]
        if any(len(row) != self.query.row_length(job.horizon) or any(row[at] != index for at, index in job.fixed) for row in rows):
            raise Fault("lists a history that does not meet its conditions")
        if any(one >= other for one, other in zip(rows, rows[1:])):
            raise Fault("lists histories out of order")
        if not self.query.has_claim and not answer.is_whole and len(rows) != self.order.count:
            raise Fault(f"has stopped behind {len(rows)} histories, which was not asked for")
        self.judge_log(job, answer, rows)
        return answer

    def judge_log(self, job: Job, answer: Answer, rows: List[Row]) -> None:
        name = f"{job.name}.log"
        if not (self.folder / name).exists():
            raise Fault(f"{name} is not there")
        code, said = self.run(["--mode", "check", "--log", name, f"{job.name}.cc"])
        blocked = [] if self.query.has_claim else rows
        if answer.is_whole:
            if (code, said) != (0, f"log accepted: horizons {job.horizon} to {job.horizon}, blocked {len(blocked)}\n"):
                raise Fault(f"{name} does not show this answer: {said.strip() or f'check mode ended with code {code}'}")
        elif code != 1 or not re.fullmatch(r"log refused: line [0-9]+, not refuted\n", said):
            raise Fault(f"{name} is wrong before its end: {said.strip() or f'check mode ended with code {code}'}")
        with open(self.folder / name, "rb") as log:
            shown = [tuple(map(int, line.split()[1:])) for line in log if line.startswith(b"b ")]
        if shown != (blocked if answer.is_whole else blocked[: len(shown)]):
            raise Fault(f"{name} has other histories than its answer")
        for row in rows[len(shown):] if not answer.is_whole else []:
            key = f"{job.horizon}:{','.join(map(str, row))}"
            if self.run(["--mode", "why", "--key", key, f"{job.name}.cc"])[0] != 0:
                raise Fault(f"lists {key}, which is no history")

    def together(self, jobs: Sequence[Job]) -> Tuple[Answer, List[Tuple[str, Fault]]]:
        """The answer of the jobs of one horizon, and those that have none that counts."""
        whole = Answer()
        faults: List[Tuple[str, Fault]] = []

        def judge(job: Job) -> Tuple[Optional[Answer], Optional[Fault]]:
            try:
                return self.judged(job), None
            except Fault as fault:
                return None, fault

        with ThreadPoolExecutor(self.at_once) as pool:
            for job, (answer, fault) in zip(jobs, pool.map(judge, jobs)):
                if answer is None:
                    faults.append((job.name, fault or Fault("has no answer")))
                    continue
                whole.histories += answer.histories
                whole.is_whole &= answer.is_whole
                whole.meets_conditions |= answer.meets_conditions
        whole.histories.sort(key=lambda one: one.row)
        return whole, faults


def tell(horizon: int, answer: Answer, order: Order, has_claim: bool, say: Callable[[str], None]) -> Optional[int]:
    """Prints what the answers of a horizon say, as the program does; the exit code where that is the end."""
    at = f"horizon {horizon}: "
    if has_claim:
        if answer.histories:
            for line in (at + "counterexample", *answer.histories[0].lines, "claim fails"):
                say(line)
            return 1
        say(at + ("claim holds" if answer.meets_conditions else "no history of the conditions"))
        return None
    if not answer.histories:
        say(at + "no history")
        return None
    asked = order.count is not None and len(answer.histories) >= order.count
    listed = answer.histories[: order.count] if asked else answer.histories
    for number, one in enumerate(listed, 1):
        for line in (f"{at}history {number}", *one.lines):
            say(line)
    say(f"{at}{'asked number reached' if asked else 'complete'}, {len(listed)} listed")
    return 7 if asked else 0
