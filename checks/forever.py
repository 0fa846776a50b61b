"""What holds at every horizon: the answers and the logs of forever mode, by the states that are reached.

Which horizon has a history first, or that none has one, is found over states and transitions alone: from the states that end a path of
the least horizon a search goes on to all states that are ever reached, whatever the range. So what is said of every horizon is compared
with the truth and not with another induction; whether an induction holds is looked up over all paths of its step. Nothing here is meant
to be fast: a few constants, whose transitions are gone through one by one.
"""
import math
import re

from reference import Condition
from sections import NUMBER, Theory, clause_list, judge, read_silent_line, refusal_in, split_silent_log, transitions

HEADER = b"ccalc forever 1\n"
HEADING = re.compile(rb"([hi]) (" + NUMBER + rb")\n\Z")
ROWS = 300000  # of two states and what is done between them, which are all gone through
PAIRS = 1000000  # of values of one position, twice, in a clause list that is made
MOST = 1000  # the greatest horizon, and as many steps as an induction has at most


class Large(Exception):
    """There are more rows than are gone through here."""


# ---------------------------------------------------------------------------------------------------------------
# The step of an induction
# ---------------------------------------------------------------------------------------------------------------


def at_last(asked):
    return asked is not None and asked.at == "maxstep"


def none_sought(query):
    """That a state is none that the query looks for: it does not meet the conditions at maxstep, or it meets the claim there."""
    met = None
    for condition in filter(at_last, query.conditions):
        met = condition.formula if met is None else ("&", met, condition.formula)
    if at_last(query.claim):
        return query.claim.formula if met is None else ("->>", met, query.claim.formula)
    return "false" if met is None else ("-", met)


def step_query(query, count):
    """So many states that are none the query looks for, and then one that is; what it says at numbers is left out."""
    before = [Condition(step, none_sought(query)) for step in range(count)]
    claim = query.claim if at_last(query.claim) else None
    return query._replace(range=query.range._replace(lo=count, hi=count), conditions=before + list(filter(at_last, query.conditions)), claim=claim)


# ---------------------------------------------------------------------------------------------------------------
# States, transitions, and which are reached
# ---------------------------------------------------------------------------------------------------------------


class Moves:
    """The states of a description, and the transitions from each: pairs of what is done and the next state, by value indexes, ascending."""

    def __init__(self, description):
        self.zero, self.one = Theory(description, 0), Theory(description, 1)
        if math.prod(self.one.sizes) > ROWS:
            raise Large
        self.states = {self.of(self.zero, 0, self.zero.fluents, row) for row in self.zero.rows() if self.zero.is_model(row)}
        self.next = {}
        for row in (row for rows in transitions(description).values() for row in rows):
            done = self.of(self.one, 0, self.one.actions, row), self.of(self.one, 1, self.one.fluents, row)
            self.next.setdefault(self.of(self.one, 0, self.one.fluents, row), set()).add(done)

    @staticmethod
    def of(theory, step, names, row):
        return tuple(theory.domains[name].index(row[(step, name)]) for name in names)

    def valuation(self, state, done):
        """What the constants have in a state, with what is done there."""
        pairs = [*zip(self.one.fluents, state), *zip(self.one.actions, done)]
        return {name: self.one.domains[name][index] for name, index in pairs}

    def meets(self, query, step, horizon, state, done=()):
        """Whether a step of a path of a horizon has what the query says of it, and not the claim that it makes of it."""
        values = self.valuation(state, done)

        def is_so(asked):
            return self.one.part_holds((0, asked.formula, {}), [values])

        def is_here(asked):
            return asked.at == step or (asked.at == "maxstep" and step == horizon)

        return all(map(is_so, filter(is_here, query.conditions))) and not (query.claim and is_here(query.claim) and is_so(query.claim))

    def turns(self, query, step, horizon, state):
        """The transitions from a state that meet what the query says of this step of a path, which is not its last."""
        return sorted(turn for turn in self.next.get(state, ()) if self.meets(query, step, horizon, state, turn[0]))

    def begins(self, horizon):
        """The states in which a path of a horizon may begin."""
        return set(self.next) if horizon else self.states


def least(moves, query, horizon):
    """The indexes of the least history of a horizon, of a claim the least that goes against it; None where there is none. Which states
    lead to an end is looked up from the last step to the first, and the least transition to one of them is taken at each step."""
    everywhere = moves.states | {state for turns in moves.next.values() for _, state in turns}
    leading = [{state for state in everywhere if moves.meets(query, horizon, horizon, state)}]
    for step in reversed(range(horizon)):
        leading.insert(0, {state for state in moves.next if any(turn[1] in leading[0] for turn in moves.turns(query, step, horizon, state))})
    first = sorted(leading[0] & moves.begins(horizon))
    if not first:
        return None
    row, state = list(first[0]), first[0]
    for step in range(horizon):
        done, state = next(turn for turn in moves.turns(query, step, horizon, state) if turn[1] in leading[step + 1])
        row += [*done, *state]
    return row


def first_horizon(moves, query):
    """The first horizon from the query's least one on, without an end, that has a history; None where none has one."""
    lo = query.range.lo
    at_numbers = query._replace(conditions=[it for it in query.conditions if not at_last(it)], claim=None if at_last(query.claim) else query.claim)
    layer = moves.begins(lo)
    for step in range(lo):
        layer = {turn[1] for state in layer for turn in moves.turns(at_numbers, step, lo, state)}
    layer = {state for state in layer if moves.meets(at_numbers, lo, lo, state)}
    wanted = query._replace(conditions=[it for it in query.conditions if at_last(it)], claim=query.claim if at_last(query.claim) else None)
    horizon, reached = lo, set()
    while layer:
        if any(moves.meets(wanted, horizon, horizon, state) for state in layer):
            return horizon
        reached |= layer
        layer = {turn[1] for state in layer for turn in moves.next.get(state, ())} - reached
        horizon += 1
    return None


# ---------------------------------------------------------------------------------------------------------------
# Logs
# ---------------------------------------------------------------------------------------------------------------


def read_forever_line(text):
    match = HEADING.match(text)
    return ("under", match.group(1).decode(), int(match.group(2))) if match else read_silent_line(text)


def sections_of(log):
    """The sections of a log, each with its heading, the number of its line and its lines; or the first wrong line with its cause."""
    return split_silent_log(log, HEADER, "under", read_forever_line)


def list_under(description, query):
    """What makes the clause list of the section under a heading, with the claim denied."""

    def made(letter, number):
        if sum(size * size for size in Theory(description, number).sizes) > PAIRS:
            raise Large
        asked = query if letter == "h" else step_query(query, number)
        return clause_list(description, asked, number, asked.claim is not None, None)

    return made


def is_in_turn(query, before, letter, number):
    return number <= MOST and (number == query.range.lo + before if letter == "h" else number == before >= 1)


def verdict_of(query, log, list_of):
    """Whether a log is accepted, with the least horizon and the steps of its induction, or its first wrong line and the cause; `list_of`
    makes the clause list under a heading."""
    sections, wrong = sections_of(log)
    if wrong:
        return ("refused",) + wrong
    is_closed = False
    for before, ((letter, number), line, lines) in enumerate(sections):
        if is_closed or not is_in_turn(query, before, letter, number):
            return "refused", line, "section"
        refusal = refusal_in(judge(list_of(letter, number), (letter, number, line, lines)))
        if refusal:
            return "refused", *refusal
        is_closed = letter == "i"
    if not is_closed:
        return "refused", len(lines_in(log)) + 1, "section"
    return "accepted", query.range.lo, len(sections) - 1


def lines_in(log):
    return log.decode("latin-1").split("\n")[:-1]


def spent_in(log):
    """Which search a log says was spent, by its last heading."""
    headings = [line.split() for line in lines_in(log) if line[:2] in ("h ", "i ")]
    return (headings[-1][0], int(headings[-1][1])) if headings else None


def headings_told(out):
    """The headings of the sections of a log, by the lines that were printed."""
    found = [re.fullmatch("horizon ([0-9]+): (?:claim holds|no history)|induction over ([0-9]+) steps: holds", line) for line in out]
    return [("h", int(it[1])) if it[1] else ("i", int(it[2])) for it in found if it]


def log_fault(description, query, log, out, spent, budget):
    """What is wrong with the log of a run that printed these lines and, it may be, ended in a search that was spent; None where nothing is."""
    told = headings_told(out) + ([spent] if spent else [])
    headings = [heading for heading, _, _ in sections_of(log)[0] or []]
    verdict, lines = verdict_of(query, log, list_under(description, query)), lines_in(log)
    expected = "refused", len(lines) + 1, "section"
    if spent:
        last = lines[max(place for place, line in enumerate(lines) if line[:2] in ("h ", "i ")) :]
        counted = sum(line.startswith("d ") and not line.startswith("d 0 ") for line in last)
        expected = ("refused", len(lines), "not refuted") if lines[-1] == "e spent" and counted == budget else ("spent", counted)
    elif told and told[-1][0] == "i":
        expected = "accepted", query.range.lo, told[-1][1]
    return None if headings == told and verdict == expected else (verdict, headings)
