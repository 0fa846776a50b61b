"""How a run of the calculator ended, from its exit code and its last line, and what a suite may expect of it.

Both must say the same, as docs/formats.md has them ('Outputs', 'Exit codes'); a run whose code and last line do not fit each other, or
that neither of them tells to be over, has no ending but BROKEN.
"""
from __future__ import annotations

import dataclasses
import re
import shlex
from collections.abc import Callable, Iterable, Sequence

HISTORIES, NONE, HOLDS, VACUOUS, FAILS, MODELS, NO_MODEL, SURE, ACCEPTED, SPENT, REFUSED, OTHER, BROKEN = (
    "histories", "no history", "claim holds", "claim vacuous", "claim fails", "models", "no model", "complete", "log accepted", "spent",
    "refused", "other", "broken",
)
# Of forever mode: the claim holds at every horizon, none has a history, one has, or the question is open.
EVER, NEVER, FOUND, OPEN = "claim holds at every horizon", "no history at any horizon", "history found", "not settled"
FAULTS = {4: "a file cannot be read", 5: "an output cannot be written", 6: "out of memory", 70: "the program is not built"}


@dataclasses.dataclass(frozen=True)
class Ending:
    """An ending: its kind; how many were listed, at which horizon, with which refusal, where it has these; and the last line."""

    kind: str
    count: int | None = None
    horizon: int | None = None
    refusal: str = ""
    last: str = ""

    def __str__(self) -> str:
        at = "" if self.horizon is None else f" at {self.horizon}"
        if self.kind in (HISTORIES, MODELS) and self.count is not None:
            noun = "history" if self.kind == HISTORIES and self.count == 1 else self.kind[:-1] if self.count == 1 else self.kind
            return f"{self.count} {noun}{at}"
        if self.kind == REFUSED:
            return f"refused {self.refusal}"
        if self.kind in (OTHER, BROKEN):
            return self.last
        return self.kind + at


def listed(kind: str, line: str, middle: str) -> Ending | None:
    """The ending that a line `[horizon M: ]MIDDLE, K listed` tells."""
    found = re.fullmatch(rf"(?:horizon ([0-9]+): )?{middle}, ([0-9]+) listed", line)
    if not found:
        return None
    has_horizon = found[1] is not None
    if kind == HISTORIES and not has_horizon or kind == MODELS and has_horizon:
        return None
    return Ending(kind, int(found[2]), None if found[1] is None else int(found[1]), last=line)


def of_code_0(last: str, horizon: int | None) -> Ending | None:
    plain = {"claim holds": HOLDS, "claim holds, no history meets the conditions": VACUOUS, "complete": SURE}
    if last in plain:
        return Ending(plain[last], last=last)
    if last == FOUND:
        return Ending(FOUND, horizon=horizon, last=last)
    if re.fullmatch(f"{EVER} from [0-9]+ on", last):
        return Ending(EVER, last=last)
    if last.startswith("log accepted: "):
        return Ending(ACCEPTED, last=last)
    return listed(HISTORIES, last, "complete") or listed(MODELS, last, "complete") or (Ending(OTHER, last=last) if last else None)


def of_code_1(last: str, horizon: int | None) -> Ending | None:
    if last == "claim fails":
        return Ending(FAILS, horizon=horizon, last=last)
    if re.fullmatch(f"{NEVER} from [0-9]+ on", last):
        return Ending(NEVER, last=last)
    return Ending({"no history": NONE, "no model": NO_MODEL}.get(last, OTHER), last=last) if last else None


def of_code_3(last: str, horizon: int | None) -> Ending | None:
    if last in ("budget spent", OPEN):
        return Ending(OPEN if last == OPEN else SPENT, last=last)
    return listed(SPENT, last, "budget spent")


def of_code_7(last: str, horizon: int | None) -> Ending | None:
    return listed(HISTORIES, last, "asked number reached") or listed(MODELS, last, "asked number reached")


BY_CODE: dict[int, Callable[[str, int | None], Ending | None]] = {0: of_code_0, 1: of_code_1, 3: of_code_3, 7: of_code_7}


def refusal_in(err: Sequence[str]) -> str | None:
    """The number and name of a refusal, with what follows them; the first such line counts."""
    for line in err:
        found = re.fullmatch(r"ccalc: (?:.*:[0-9]+(?::[0-9]+)?: )?([0-9]+ [A-Z][A-Za-z]*.*)", line)
        if found:
            return found[1]
    return None


def ending_of(code: int, out: Iterable[str], err: Sequence[str]) -> Ending:
    """The ending of a run that had this code, from its lines."""
    last, horizon = "", None
    for last in out:
        found = re.fullmatch(r"horizon ([0-9]+): (?:counterexample|history 1)", last)
        horizon = int(found[1]) if found else horizon
    if code == 2:
        refusal = refusal_in(err)
        return Ending(REFUSED, refusal=refusal, last=refusal) if refusal else Ending(BROKEN, last="code 2, and no refusal is printed")
    if code in FAULTS:
        return Ending(BROKEN, last=FAULTS[code] + (f" ({err[-1]})" if err else ""))
    ending = BY_CODE[code](last, horizon) if code in BY_CODE else None
    if ending is not None:
        return ending
    said = f"its last line is `{last}`" if last else f"it says `{err[-1]}`" if err else "it printed nothing"
    return Ending(BROKEN, last=f"ended by signal {-code}" if code < 0 else f"code {code}, and {said}")


class BadExpectation(Exception):
    """Words that expect nothing; the text says what there is to expect."""


@dataclasses.dataclass(frozen=True)
class Expected:
    """What is expected: the words as they were written, the ending, and lines that are to be printed."""

    words: str
    ending: Ending
    lines: tuple[str, ...] = ()

    def is_met(self, found: Ending) -> bool:
        """Whether an ending is the one that is expected; what is not said may be anything."""
        wanted = self.ending
        if wanted.kind == OTHER:
            return found.last == wanted.last and found.kind not in (BROKEN, SPENT, REFUSED)
        if wanted.kind != found.kind or wanted.count not in (None, found.count) or wanted.horizon not in (None, found.horizon):
            return False
        return (found.refusal + " ").startswith(wanted.refusal + " ") or wanted.refusal in ("", found.refusal.partition(" ")[2])


FORMS = (
    "no history | [N] history|histories [at M] | claim holds | claim vacuous | claim fails [at M] | no model | [N] model|models | complete"
    " | claim holds at every horizon | no history at any horizon | history found [at M] | not settled | log accepted | spent [at M] | refused [NUMBER] [NAME] | ends TEXT, each with [line TEXT ..] behind it"
)


def expected(words: Sequence[str]) -> Expected:
    """What words expect."""
    rest = list(words)
    lines: list[str] = []
    while len(rest) > 2 and rest[-2] == "line":
        lines.insert(0, rest[-1])
        rest = rest[:-2]
    return Expected(shlex.join(words), expected_ending(rest), tuple(lines))


def expected_ending(words: list[str]) -> Ending:
    if len(words) == 2 and words[0] == "ends":
        return Ending(OTHER, last=words[1])
    if words[:1] == ["refused"] and len(words) <= 3:
        return Ending(REFUSED, refusal=" ".join(words[1:]))
    text, horizon = " ".join(words), None
    at = re.fullmatch(r"(.*) at ([0-9]{1,7})", text)
    if at:
        text, horizon = at[1], int(at[2])
    found = re.fullmatch(r"(?:(0|[1-9][0-9]{0,8}) )?(history|histories|model|models)", text)
    if found and (horizon is None or found[2].startswith("hist")):
        return Ending(HISTORIES if found[2].startswith("hist") else MODELS, int(found[1]) if found[1] else None, horizon)
    plain = (NONE, HOLDS, VACUOUS, FAILS, NO_MODEL, SURE, ACCEPTED, SPENT, EVER, NEVER, FOUND, OPEN)
    if text in plain and (horizon is None or text in (FAILS, SPENT, FOUND)):
        return Ending(text, horizon=horizon)
    raise BadExpectation(f"`{' '.join(words)}` is no ending that a suite may expect: {FORMS}")
