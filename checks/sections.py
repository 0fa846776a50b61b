#!/usr/bin/env python3
"""A plain second reading of docs/formats.md and of the meaning of a description: rules, histories, clause lists, logs.

Reads books of cases and prints for each case what the program cc_sections prints for it. The description is read by
reference.py. Histories are found by brute force from the paper's definition of a model, over the transition system, and not by
way of completion or clauses; clause lists and logs follow docs/formats.md. Nothing here is meant to be fast.

A case has, beside the files of a description (the first is the main one), a file `ask` with lines of these forms:

    horizon M           at which horizon; 0 where it is not said
    query N             which query, from 0; the first where it is not said
    claim               the clause list denies the claim
    after I,I,..        the clause list has the key of this row
    cut N               the log has so many bytes less at its end
    show WORD WORD      what is printed: rules, causes, rows, clauses, size, log

and, where the log is shown, a file `log`. Logs are read and written in both versions.

Usage: checks/sections.py BOOK..
"""
import functools
import itertools
import re

from reference import (
    Constant, NoConcurrency, Wide, action_pairs, applied, bracket_environments, common_values, described, domain_of,
    environments, first_files, ground_constants, ground_name, holds, is_judged, names_in, run_deep, show_books, true_lists, value_of,
)


# ---------------------------------------------------------------------------------------------------------------
# Ground laws
# ---------------------------------------------------------------------------------------------------------------


class Law:
    """A ground law: its head is None for `false`, or a pair of a ground constant and a value."""

    def __init__(self, kind, head, body, after, environment, place):
        self.kind, self.head, self.body, self.after, self.environment, self.place = kind, head, body, after, environment, place


def ground_laws(table, laws):
    found = []
    for law in laws:
        if isinstance(law, NoConcurrency):
            for a, b in action_pairs(table):
                found.append(Law("fluent", None, "true", ("pair", a, b), {}, law.place))
            continue
        for environment in environments(table, law):
            if isinstance(law.head, Wide):
                found.append(Law(law.kind, law.head, law.body, law.after, environment, law.place))
                continue
            head = (ground_name(table, law.head[0], environment), value_of(table, law.head[1], environment, {})) if law.head else None
            found.append(Law(law.kind, head, law.body, law.after, environment, law.place))
    return found


class Theory:
    """A description at a horizon: positions, and rules with a head (a position and a value, or None) and parts at steps."""

    def __init__(self, description, horizon):
        self.table, self.horizon = description.table, horizon
        constants = [(applied(symbol.name, arguments), symbol) for symbol, arguments in ground_constants(self.table)]
        self.fluents = [name for name, symbol in constants if symbol.kind != "action"]
        self.actions = [name for name, symbol in constants if symbol.kind == "action"]
        self.symbols = dict(constants)
        self.domains = {name: domain_of(self.table, symbol) for name, symbol in constants}
        self.laws = ground_laws(self.table, description.laws)
        self.positions = []
        for step in range(horizon + 1):
            self.positions += [(step, name) for name in self.fluents]
            if step < horizon:
                self.positions += [(step, name) for name in self.actions]
        self.place = {position: number for number, position in enumerate(self.positions)}
        self.sizes = [len(self.domains[name]) for _, name in self.positions]
        self.rules = self.all_rules()

    def all_rules(self):
        """Rules in order: a head, and a list of (step, formula, environment), which may be (step, (atom, c, v), {}). Beside them,
        in `self.places`, where the law of each stands; None for an initial one."""
        rules, self.places = [], []
        for name in self.fluents:
            if self.symbols[name].kind == "simple":
                for value in self.domains[name]:
                    rules.append(((0, name, value), [(0, ("atom", name, value), {})]))
                    self.places.append(None)
        for step in range(self.horizon + 1):
            for law in self.laws:
                if law.kind != "static" and step == self.horizon:
                    continue
                later = step + 1 if law.kind == "fluent" else step
                head = None if law.head is None else (later, *law.head)
                parts = [(later, law.body, law.environment)]
                if law.after is not None:
                    parts.append((step, law.after, law.environment))
                rules.append((head, parts))
                self.places.append(law.place)
        return rules

    def states(self, row):
        """What the constants have at each step."""
        found = [{} for _ in range(self.horizon + 1)]
        for (step, name), value in row.items():
            found[step][name] = value
        return found

    def part_holds(self, part, states):
        step, formula, environment = part
        state = states[step]
        if isinstance(formula, tuple) and formula[0] == "atom":
            return state[formula[1]] == formula[2]
        if isinstance(formula, tuple) and formula[0] == "pair":
            return state[formula[1]] == "true" and state[formula[2]] == "true"
        return holds(self.table, formula, environment, state)

    def body_holds(self, parts, states):
        return all(self.part_holds(part, states) for part in parts)

    def is_model(self, row):
        """The definition: the row is the one interpretation that satisfies the heads of the rules whose bodies it satisfies."""
        states = self.states(row)
        denials = [parts for head, parts in self.rules if head is None]
        if any(self.body_holds(parts, states) for parts in denials):
            return False
        heads = []
        for head, parts in self.rules:
            if head is not None and self.body_holds(parts, states):
                if row[head[:2]] != head[2]:
                    return False
                heads.append(head)
        others = 1
        for position in self.positions:
            wanted = {head[2] for head in heads if head[:2] == position}
            values = [value for value in self.domains[position[1]] if all(value == one for one in wanted)]
            if row[position] not in values:
                return False
            others *= len(values)
        return others == 1

    def row_of(self, indexes):
        return {position: self.domains[position[1]][index] for position, index in zip(self.positions, indexes)}

    def rows(self):
        for values in itertools.product(*[self.domains[name] for _, name in self.positions]):
            yield dict(zip(self.positions, values))

    def indexes(self, row):
        return [self.domains[name].index(row[(step, name)]) for step, name in self.positions]


@functools.lru_cache(maxsize=1)
def transitions(description):
    """The models at horizon 1, by the values of their first state."""
    one = Theory(description, 1)
    turns = {}
    for turn in one.rows():
        if one.is_model(turn):
            turns.setdefault(tuple(turn[(0, name)] for name in one.fluents), []).append(turn)
    return turns


def paths(description, horizon, conditions=()):
    """All paths of so many transitions that meet the conditions, by states and transitions alone, in ascending order of their indexes."""
    theory = Theory(description, horizon)
    if horizon == 0:
        found = [row for row in theory.rows() if theory.is_model(row)]
    else:
        turns = transitions(description)
        found = [dict(turn) for those in turns.values() for turn in those]
        for step in range(1, horizon):
            # what fails a condition at an earlier step is not gone on with
            early = [condition for condition in conditions if condition.at != "maxstep" and int(condition.at) < step]
            longer = []
            for row in found:
                if all(condition_holds(theory, condition, row) for condition in early):
                    for turn in turns.get(tuple(row[(step, name)] for name in theory.fluents), []):
                        new = dict(row)
                        new.update({(step + at, name): value for (at, name), value in turn.items()})
                        longer.append(new)
            found = longer
    met = [row for row in found if all(condition_holds(theory, condition, row) for condition in conditions)]
    return theory, sorted(met, key=theory.indexes)


def is_path(description, theory, row):
    """Whether a row is a path, by states and transitions: each window of two steps is a model at horizon 1."""
    if theory.horizon == 0:
        return theory.is_model(row)
    one = Theory(description, 1)
    windows = [{(at, name): row[(step + at, name)] for at, name in one.positions} for step in range(theory.horizon)]
    return all(one.is_model(window) for window in windows)


def step_at(condition, horizon):
    return horizon if condition.at == "maxstep" else int(condition.at)


def condition_holds(theory, condition, row):
    return theory.part_holds((step_at(condition, theory.horizon), condition.formula, {}), theory.states(row))


def is_history(theory, query, claimed, row):
    if not all(condition_holds(theory, condition, row) for condition in query.conditions):
        return False
    return not (claimed and query.claim and condition_holds(theory, query.claim, row))


# ---------------------------------------------------------------------------------------------------------------
# Clause lists
# ---------------------------------------------------------------------------------------------------------------


class Clauses:
    """Makes the clause list of docs/formats.md."""

    def __init__(self, theory=None, sizes=None):
        self.theory = theory
        self.sizes = theory.sizes if sizes is None else sizes
        self.first = [1]
        for size in self.sizes:
            self.first.append(self.first[-1] + size)
        self.t = self.first[-1]
        self.last = self.t
        self.clauses = []

    def write_positions(self):
        """What each list begins with: T, and for each position that it has one value."""
        self.write([self.t])
        for position, size in enumerate(self.sizes):
            variables = [self.first[position] + value for value in range(size)]
            self.write(variables)
            for u, v in itertools.combinations(variables, 2):
                self.write([-u, -v])

    def write(self, literals):
        literals = sorted(set(literals), key=lambda literal: (abs(literal), literal > 0))
        if not any(-literal in literals for literal in literals):
            self.clauses.append(literals)

    def atom(self, step, name, value):
        return self.first[self.theory.place[(step, name)]] + self.theory.domains[name].index(value)

    def new(self):
        self.last += 1
        return self.last

    def all_of(self, literals):
        if not literals:
            return self.t
        if len(literals) == 1:
            return literals[0]
        x = self.new()
        for literal in literals:
            self.write([-x, literal])
        self.write([x] + [-literal for literal in literals])
        return x

    def any_of(self, literals):
        if not literals:
            return -self.t
        if len(literals) == 1:
            return literals[0]
        x = self.new()
        self.write([-x] + literals)
        for literal in literals:
            self.write([x, -literal])
        return x

    def literal(self, part):
        step, formula, environment = part
        table = self.theory.table
        if isinstance(formula, str):
            return self.t if formula == "true" else -self.t
        sign = formula[0]
        if sign == "atom":
            return self.atom(step, formula[1], formula[2])
        if sign == "pair":
            return self.all_of([self.atom(step, formula[1], "true"), self.atom(step, formula[2], "true")])
        if sign in ("=", "<", "=<"):
            return self.comparison(step, formula, environment)
        if sign == "-":
            return -self.literal((step, formula[1], environment))
        if sign in ("/\\", "\\/"):
            literals = [self.literal((step, formula[3], inner)) for inner in bracket_environments(table, formula, environment)]
            return self.all_of(literals) if sign == "/\\" else self.any_of(literals)
        left = self.literal((step, formula[1], environment))
        if sign == "->>":
            left = -left
        right = self.literal((step, formula[2], environment))
        if sign == "&":
            return self.all_of([left, right])
        if sign in ("++", "->>"):
            return self.any_of([left, right])
        x = self.new()
        for clause in ([-x, -left, right], [-x, left, -right], [x, left, right], [x, -left, -right]):
            self.write(clause)
        return x

    def comparison(self, step, formula, environment):
        table = self.theory.table
        names = names_in(table, formula, environment)
        if None in names:
            return -self.t
        if not names:
            return self.t if holds(table, formula, environment, {}) else -self.t
        if is_judged(formula):
            lists = true_lists(table, formula, environment)
            return self.any_of([self.all_of([self.atom(step, *atom) for atom in atoms]) for atoms in lists])
        left, right = formula[1:]
        if isinstance(left, Constant) and isinstance(right, Constant):
            pairs = [self.all_of([self.atom(step, name, value) for name in names]) for value in common_values(table, left, right)]
            return self.any_of(pairs)
        value = right if isinstance(left, Constant) else left
        return self.atom(step, names[0], value_of(table, value, environment, {}))

    def is_truth(self, part):
        """Whether a part asks nothing once it is ground: it is `true`, or a comparison without a constant that is true."""
        _, formula, environment = part
        if isinstance(formula, str) or formula[0] not in ("=", "<", "=<"):
            return formula == "true"
        table = self.theory.table
        return not names_in(table, formula, environment) and holds(table, formula, environment, {})

    def body(self, parts):
        asked = [part for part in parts if not self.is_truth(part)]
        if len(asked) < 2:
            # at most one part asks something, which is the body; where none does, it is `true`
            return self.literal((asked or parts)[0])
        return self.all_of([self.literal(part) for part in asked])

    def make(self, conditions, denied, key):
        theory = self.theory
        self.write_positions()
        bodies = []
        for head, parts in theory.rules:
            if head is not None and len(theory.domains[head[1]]) == 1:
                continue
            bodies.append((head, self.body(parts)))
        for step, name in theory.positions:
            if len(theory.domains[name]) < 2:
                continue
            for value in theory.domains[name]:
                atom = self.atom(step, name, value)
                literals = [body for head, body in bodies if head == (step, name, value)]
                self.write([-atom] + literals)
                for literal in literals:
                    self.write([atom, -literal])
        for head, body in bodies:
            if head is None:
                self.write([-body])
        for condition in conditions:
            self.write([self.literal((step_at(condition, theory.horizon), condition.formula, {}))])
        if denied is not None:
            self.write([-self.literal((step_at(denied, theory.horizon), denied.formula, {}))])
        if key is not None:
            self.write([self.after(0, key)])
        return self

    def after(self, position, key):
        if position == len(key):
            return -self.t
        above = [self.first[position] + value for value in range(key[position] + 1, self.theory.sizes[position])]
        greater = self.any_of(above)
        same = self.first[position] + key[position]
        rest = self.after(position + 1, key)
        return self.any_of([greater, self.all_of([same, rest])])


# ---------------------------------------------------------------------------------------------------------------
# Logs
# ---------------------------------------------------------------------------------------------------------------

NUMBER = rb"(?:0|[1-9][0-9]{0,8})"
LITERAL = rb"-?[1-9][0-9]{0,8}"
LINE = re.compile(
    rb"(?:(?P<heading>[hw]) (?P<horizon>" + NUMBER + rb")"
    rb"|d(?P<clause>(?: " + LITERAL + rb")*) 0 (?P<chain>" + NUMBER + rb"(?: " + NUMBER + rb" " + NUMBER + rb")*) 0"
    rb"|b(?P<row>(?: " + NUMBER + rb")*)"
    rb"|e (?P<word>empty|found|spent))\n\Z"
)
HEADERS = {1: b"ccalc log 1\n", 2: b"ccalclg2"}
HEADINGS = {1: "h", 2: "w"}  # what kind bytes of version 2 stand for
DERIVED, BLOCK = 3, 4
WORDS = {5: "empty", 6: "found", 7: "spent"}
MOST = 1999999999

# A line is a tuple: ("heading", "h" or "w", M), ("derived", literals, chain), ("block", row), ("end", word); None where it has no form.
# In a log of impossible atoms it may be ("atom", M, P, V), and what has no place in it is ("misplaced",).
# The chain has clause numbers and pivots in turn. In a line ("apart", literals, chain), of version 2, it has distances for clause numbers.


def version_of(log):
    return 2 if log.startswith(HEADERS[2]) else 1


ATOM = re.compile(rb"a (" + NUMBER + rb") (" + NUMBER + rb") (" + NUMBER + rb")\n\Z")
SURE_HEADER = b"ccalc sure 1\n"


def read_silent_line(text):
    """What a line of a log whose sections tell no row says that is none of its headings; other headings and blocks have no place there."""
    line = read_line(text)
    return ("misplaced",) if line and line[0] in ("heading", "block") else line


def read_sure_line(text):
    """What a line of a log of impossible atoms says."""
    match = ATOM.match(text)
    return ("atom", *[int(number) for number in match.groups()]) if match else read_silent_line(text)


def read_line(text):
    """What a line of version 1 says, with its line feed."""
    match = LINE.match(text)
    if not match:
        return None
    if match.group("heading"):
        return "heading", match.group("heading").decode(), int(match.group("horizon"))
    if match.group("word"):
        return "end", match.group("word").decode()
    if match.group("row") is not None:
        return "block", numbers(match.group("row"))
    return "derived", numbers(match.group("clause")), numbers(match.group("chain"))


class Cut(Exception):
    """Bytes that begin no entry."""


class Entries:
    """The entries of a log of version 2, read byte by byte."""

    def __init__(self, log):
        self.log, self.place = log, len(HEADERS[2])

    def byte(self):
        if self.place == len(self.log):
            raise Cut
        self.place += 1
        return self.log[self.place - 1]

    def number(self):
        value, bits, byte = 0, 0, 128
        while byte >= 128:
            byte = self.byte()
            value += (byte % 128) << bits
            bits += 7
            if bits > 35 or (byte == 0 and bits > 7):
                raise Cut
        if value > MOST:
            raise Cut
        return value

    def literal(self):
        number = self.number()
        if number < 2:
            raise Cut
        return -(number // 2) if number % 2 else number // 2

    def entry(self):
        kind = self.byte()
        if kind in HEADINGS:
            return "heading", HEADINGS[kind], self.number()
        if kind in WORDS:
            return "end", WORDS[kind]
        if kind == BLOCK:
            return "block", [self.number() for _ in range(self.number())]
        if kind != DERIVED:
            raise Cut
        literals = [self.literal() for _ in range(self.number())]
        pairs = self.number()
        return "apart", literals, [self.number() for _ in range(1 + 2 * pairs)]

    def all(self):
        """The lines; what begins no entry is one last line, to the end of the bytes."""
        lines = []
        try:
            while self.place < len(self.log):
                lines.append(self.entry())
        except Cut:
            lines.append(None)
        return lines


def lines_of_log(log):
    """The lines behind the header of a log of either version; none at all where the header is another."""
    if version_of(log) == 2:
        return Entries(log).all()
    lines = re.findall(rb"[^\n]*\n|[^\n]+", log)
    return [read_line(line) for line in lines[1:]] if lines and lines[0] == HEADERS[1] else None


def split_log(log):
    """The sections of a log, or the first wrong line with its cause."""
    lines = lines_of_log(log)
    if lines is None:
        return None, (1, "header")
    if not lines:
        return None, (2, "section")
    if lines[0] is None:
        return None, (2, "form")
    if lines[0][0] != "heading":
        return None, (2, "section")
    sections = []
    for number, line in enumerate(lines, 2):
        if line and line[0] == "heading":
            sections.append((line[1], line[2], number, []))
        else:
            sections[-1][3].append(line)
    return sections, None


def split_silent_log(log, header, heading, read):
    """The sections of a log that tell no row, each with its lines up to the next heading, or the first wrong line with its cause; `read`
    says what a line is, and a heading by this word."""
    texts = re.findall(rb"[^\n]*\n|[^\n]+", log)
    if not texts or texts[0] != header:
        return None, (1, "header")
    sections = []
    for number, line in enumerate(map(read, texts[1:]), 2):
        if line and line[0] == heading:
            sections.append((line[1:], number, []))
        elif sections:
            sections[-1][2].append(line)
        else:
            return None, (number, "section" if line else "form")
    return sections, None


def split_sure_log(log):
    """The sections of a log of impossible atoms."""
    return split_silent_log(log, SURE_HEADER, "atom", read_sure_line)


def numbers(text):
    return [int(one) for one in text.split()]


def chain_of(line, own):
    """The chain of a derived line of either version, whose own clause has this number; 0 names no clause."""
    if line[0] == "derived":
        return line[2]
    chain = list(line[2])
    chain[::2] = [own - distance if distance < own else 0 for distance in chain[::2]]
    return chain


# ---- writing

def text_of(line):
    """A line of version 1."""
    if line[0] == "heading":
        parts = line[1:]
    elif line[0] == "end":
        parts = ("e", line[1])
    elif line[0] == "block":
        parts = ("b", *line[1])
    else:
        parts = ("d", *line[1], 0, *line[2], 0)
    return " ".join(map(str, parts)).encode() + b"\n"


def number_bytes(number):
    written = bytearray()
    while number >= 128:
        written.append(128 + number % 128)
        number //= 128
    return bytes(written) + bytes([number])


def entry_of(line, own):
    """An entry of version 2, of a line of version 1 whose own clause has this number."""
    kinds = {name: kind for kind, name in (HEADINGS | WORDS).items()}
    if line[0] == "heading":
        return bytes([kinds[line[1]]]) + number_bytes(line[2])
    if line[0] == "end":
        return bytes([kinds[line[1]]])
    if line[0] == "block":
        return bytes([BLOCK]) + b"".join(map(number_bytes, [len(line[1])] + line[1]))
    literals = [2 * literal if literal > 0 else 1 - 2 * literal for literal in line[1]]
    chain = list(line[2])
    chain[::2] = [own - named for named in chain[::2]]
    return bytes([DERIVED]) + b"".join(map(number_bytes, [len(literals), *literals, len(chain) // 2, *chain]))


def written(sections, version, axioms_of):
    """The log of sections in this version; `axioms_of` tells how many axioms a section has, by its letter and its horizon."""
    log = [HEADERS[version]]
    for letter, horizon, _, lines in sections:
        own = axioms_of(letter, horizon) + 1
        for line in [("heading", letter, horizon)] + lines:
            if line[0] == "apart":
                line = ("derived", line[1], chain_of(line, own))
            log.append(text_of(line) if version == 1 else entry_of(line, own))
            own += line[0] in ("derived", "block")
    return b"".join(log)


def converted(log, axioms_of):
    """A log whose lines have their form and name earlier clauses, in its other version."""
    return written(split_log(log)[0], 3 - version_of(log), axioms_of)


# ---- judging

def resolvent(a, b, pivot):
    for sign in (pivot, -pivot):
        if sign in a and -sign not in a and -sign in b and sign not in b:
            return {literal for literal in a | b if abs(literal) != pivot}
    return None


def judge(made, section):
    """What the lines of a section are found to be, over a clause list: right; right up to the end, with a wrong line behind it; or wrong."""
    clauses = [frozenset(clause) for clause in made.clauses]
    number, blocks, refuted = section[2], 0, frozenset() in clauses
    lines = section[3]
    for place, line in enumerate(lines):
        number += 1
        if line is None:
            return f"wrong {number} form"
        if line[0] == "end":
            if (line[1] == "empty") != refuted:
                return f"wrong {number} section"
            if place + 1 < len(lines):
                return f"trailed {line[1]} {number} {'section' if lines[place + 1] else 'form'}"
            return f"right {line[1]} blocks {blocks} line {number}"
        if refuted or line[0] == "misplaced":
            return f"wrong {number} section"
        if line[0] == "block":
            row = line[1]
            if len(row) != len(made.sizes) or any(index >= size for index, size in zip(row, made.sizes)):
                return f"wrong {number} row"
            clauses.append(frozenset(-(made.first[position] + index) for position, index in enumerate(row)))
            blocks, refuted = blocks + 1, not row
            continue
        literals, chain = line[1], chain_of(line, len(clauses) + 1)
        order = [(abs(literal), literal > 0) for literal in literals]
        if any(abs(literal) > made.last for literal in literals) or any(a >= b for a, b in zip(order, order[1:])):
            return f"wrong {number} literal"
        if any(not 1 <= named <= len(clauses) for named in chain[::2]):
            return f"wrong {number} number"
        reached = clauses[chain[0] - 1]
        for pivot, named in zip(chain[1::2], chain[2::2]):
            reached = None if pivot == 0 else resolvent(set(reached), set(clauses[named - 1]), pivot)
            if reached is None:
                return f"wrong {number} pivot"
        if set(reached) != set(literals):
            return f"wrong {number} clause"
        clauses.append(frozenset(literals))
        refuted = not literals
    return f"wrong {number + 1} section"


def refusal_in(found):
    """The first wrong line of a section that tells no row, and its cause, by what its lines are found to be; None where it is right and
    ends with `empty`."""
    words = found.split()
    if words[0] == "wrong":
        return int(words[1]), " ".join(words[2:])
    if words[0] == "trailed" and words[1] == "empty":
        return int(words[2]) + 1, words[3]
    if words[1] != "empty":
        return int(words[2] if words[0] == "trailed" else words[5]), "not refuted"
    return None


def by_itself(found):
    """What a section is judged to be by itself: behind its end, the line there is the first wrong one."""
    words = found.split(" ")
    return f"wrong {int(words[2]) + 1} {words[3]}" if words[0] == "trailed" else found


# ---------------------------------------------------------------------------------------------------------------
# What is printed
# ---------------------------------------------------------------------------------------------------------------


def asked_of(files):
    asked = {"horizon": 0, "query": 0, "cut": 0, "claim": False, "after": None, "show": []}
    for line in files.get("ask", b"").decode("latin-1").splitlines():
        words = line.split()
        if words[0] in ("horizon", "query", "cut"):
            asked[words[0]] = int(words[1])
        elif words[0] == "claim":
            asked["claim"] = True
        elif words[0] == "after":
            asked["after"] = [int(one) for one in words[1].split(",")] if len(words) > 1 else []
        elif words[0] == "show":
            asked["show"] = words[1:]
    return asked


def clause_list(description, query, horizon, claimed, key):
    made = Clauses(Theory(description, horizon))
    return made.make(query.conditions, query.claim if claimed else None, key)


def case_lines(files, main):
    description, stop = described(files, main)
    if stop is not None:
        return [stop]
    asked = asked_of(files)
    query = description.queries[asked["query"]]
    theory = Theory(description, asked["horizon"])
    lines = []
    for what in asked["show"]:
        if what == "rules":
            lines.append(f"rules {len(theory.rules)}")
        elif what == "causes":
            lines += cause_lines(theory)
        elif what == "rows":
            theory, found = paths(description, asked["horizon"], query.conditions)
            rows = [row for row in found if is_history(theory, query, asked["claim"], row)]
            indexes = [theory.indexes(row) for row in rows]
            lines += ["row " + ",".join(map(str, row)) for row in indexes if asked["after"] is None or row > asked["after"]]
        elif what == "clauses":
            made = clause_list(description, query, asked["horizon"], asked["claim"], asked["after"])
            lines.append(f"variables {made.last}")
            lines += [f"clause {number}:" + "".join(f" {literal}" for literal in clause) for number, clause in enumerate(made.clauses, 1)]
        elif what == "size":
            made = clause_list(description, query, asked["horizon"], asked["claim"], asked["after"])
            lines.append(f"variables {made.last}, clauses {len(made.clauses)}")
        elif what == "log":
            lines += log_lines(description, query, asked, files["log"][: len(files["log"]) - asked["cut"]])
    return lines


def cause_lines(theory):
    lines = []
    for place, (step, name) in enumerate(theory.positions):
        for index, value in enumerate(theory.domains[name]):
            causes = [number for number, (head, _) in enumerate(theory.rules) if head == (step, name, value)]
            lines.append(f"causes {place} {index}:" + "".join(f" {number}" for number in causes))
    denials = [number for number, (head, _) in enumerate(theory.rules) if head is None]
    return lines + ["denials:" + "".join(f" {number}" for number in denials)]


def log_lines(description, query, asked, log):
    sections, wrong = split_log(log)
    if wrong:
        return [f"wrong {wrong[0]} {wrong[1]}"]
    lines = []
    for section in sections:
        made = clause_list(description, query, section[1], section[0] == "h" and query.claim is not None, asked["after"])
        lines.append(f"section {section[0]} {section[1]} line {section[2]}: {by_itself(judge(made, section))}")
    return lines


if __name__ == "__main__":
    run_deep(lambda: show_books(lambda files: case_lines(first_files(files), files[0][0])))
