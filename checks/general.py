"""Descriptions whose heads are of any form: their histories from the definition of a model alone, and the logs of these.

A rule has a head, which is a formula at a step. The reduct of a row is the list of the heads of those rules whose bodies are true in
it, and a row is a model where it is the only one that meets its reduct. All rows are gone through; nothing here is meant to be fast.
"""
import itertools
import math
import re

from sections import NUMBER, Clauses, Theory, condition_holds, judge, read_line, read_silent_line, refusal_in, split_silent_log, step_at

HEADER = b"ccalc general 1\n"
HEADING = re.compile(rb"u (" + NUMBER + rb"):((?:" + NUMBER + rb"(?:," + NUMBER + rb")*)?)\n\Z")
ROWS = 20000  # of a horizon, which are all gone through


class Large(Exception):
    """There are more rows than are gone through here."""


class WideTheory(Theory):
    """A description at a horizon: rules with a part for their head, which is a formula at its step."""

    def all_rules(self):
        rules = []
        for name in self.fluents:
            if self.symbols[name].kind == "simple":
                rules += [((0, ("atom", name, value), {}), [(0, ("atom", name, value), {})]) for value in self.domains[name]]
        for step in range(self.horizon + 1):
            for law in self.laws:
                if law.kind == "static" or step < self.horizon:
                    later = step + 1 if law.kind == "fluent" else step
                    parts = [(later, law.body, law.environment)]
                    parts += [] if law.after is None else [(step, law.after, law.environment)]
                    rules.append((self.head_of(law, later), parts))
        return rules

    def head_of(self, law, step):
        if law.head is None:
            return step, "false", {}
        if isinstance(law.head, tuple) and len(law.head) == 2:
            return step, ("atom", *law.head), {}
        return step, law.head.formula, law.environment

    def reduct(self, row):
        states = self.states(row)
        return [head for head, parts in self.rules if self.body_holds(parts, states)]

    def meets(self, heads, row):
        states = self.states(row)
        return all(self.part_holds(head, states) for head in heads)

    def meeting(self, heads):
        """The rows that meet these heads; what is said to have a value is not tried with another one."""
        said = {}
        for step, formula, _ in heads:
            if formula[0] == "atom":
                said.setdefault((step, formula[1]), set()).add(formula[2])
        others = [head for head in heads if head[1][0] != "atom"]
        values = [[v for v in self.domains[place[1]] if said.get(place, {v}) == {v}] for place in self.positions]
        for found in itertools.product(*values):
            row = dict(zip(self.positions, found))
            if self.meets(others, row):
                yield row

    def is_model(self, row):
        heads = self.reduct(row)
        return self.meets(heads, row) and len(list(itertools.islice(self.meeting(heads), 2))) == 1


def meets_query(theory, query, row):
    return all(condition_holds(theory, condition, row) for condition in query.conditions)


def histories(description, query, horizon):
    theory = WideTheory(description, horizon)
    if math.prod(theory.sizes) > ROWS:
        raise Large
    return theory, [row for row in theory.rows() if meets_query(theory, query, row) and theory.is_model(row)]


# ---- logs


def rivals(theory, row):
    """The clauses that another row which meets the reduct would have to meet."""
    made = Clauses(theory)
    made.write_positions()
    for head in theory.reduct(row):
        made.write([made.literal(head)])
    made.write([-made.atom(step, name, row[(step, name)]) for step, name in theory.positions])
    return made


def candidates(theory, query):
    """The clauses of the rows that meet each head whose body they meet, and the query."""
    made = Clauses(theory)
    made.write_positions()
    for head, parts in theory.rules:
        bodies = [made.literal(part) for part in parts]
        made.write([-literal for literal in bodies] + [made.literal(head)])
    for condition in query.conditions:
        made.write([made.literal((step_at(condition, theory.horizon), condition.formula, {}))])
    return made


def read_general_line(text):
    match = HEADING.match(text)
    if match:
        return "row", int(match.group(1)), [int(index) for index in match.group(2).split(b",") if index]
    return read_silent_line(text)


def split_general_log(log):
    """The sections of a log, each with its heading, the number of its line and its lines; or the first wrong line with its cause."""
    return split_silent_log(log, HEADER, "row", read_general_line)


def is_right_heading(description, query, horizon, indexes):
    if not query.range.lo <= horizon <= query.range.hi:
        return False
    theory = WideTheory(description, horizon)
    if len(indexes) != len(theory.sizes) or any(index >= size for index, size in zip(indexes, theory.sizes)):
        return False
    row = theory.row_of(indexes)
    return meets_query(theory, query, row) and theory.meets(theory.reduct(row), row)


def general_verdict_of(description, query, log):
    """Whether a log is accepted, with the number of its headings, or its first wrong line and the cause."""
    sections, wrong = split_general_log(log)
    if wrong:
        return ("refused",) + wrong
    for (horizon, indexes), line, lines in sections:
        if not is_right_heading(description, query, horizon, indexes):
            return "refused", line, "section"
        theory = WideTheory(description, horizon)
        refusal = refusal_in(judge(rivals(theory, theory.row_of(indexes)), ("u", horizon, line, lines)))
        if refusal:
            return "refused", *refusal
    return "accepted", len(sections)


def counted_in(lines):
    """How many lines the budget counts."""
    return sum(line is not None and line[0] == "derived" and line[1] != [] for line in lines)


def log_fault(description, query, log, keys, budget, is_spent):
    """What is wrong with the log of a run that told the histories of these keys; None where nothing is."""
    keys = [(key[0], key[1]) for key in keys]
    if not is_spent:
        headings = [heading for heading, _, _ in split_general_log(log)[0] or []]
        verdict = general_verdict_of(description, query, log)
        return None if verdict == ("accepted", len(keys)) and headings == keys else (verdict, headings)
    texts = log.decode().split("\n")[:-1]
    place = max(number for number, text in enumerate(texts) if text[:2] in ("u ", "h "))
    front = "".join(text + "\n" for text in texts[:place]).encode()
    lines = [read_line(text.encode() + b"\n") for text in texts[place + 1 :]]
    told = [heading for heading, _, _ in split_general_log(front)[0]]
    if general_verdict_of(description, query, front)[0] != "accepted" or told != keys or counted_in(lines) != budget:
        return front, told, counted_in(lines)
    if texts[place].startswith("u "):
        horizon, indexes = read_general_line(texts[place].encode() + b"\n")[1:]
        theory = WideTheory(description, horizon)
        made = rivals(theory, theory.row_of(indexes))
        if not is_right_heading(description, query, horizon, indexes) or any(line and line[0] == "block" for line in lines):
            return texts[place]
    else:
        made = candidates(WideTheory(description, int(texts[place][2:])), query)
    found = judge(made, ("u", 0, 0, lines))
    return None if found.startswith("right spent") else found
