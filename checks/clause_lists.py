#!/usr/bin/env python3
"""Makes the clause lists of docs/formats.md of large descriptions, as DIMACS for a SAT solver.

checks/clause_lists.py FILE FIRST LAST FOLDER                      writes the lists of these horizons, of the first query of FILE
checks/clause_lists.py --compare [--horizons N] BOOK_OR_FILE..     compares them with those of checks/sections.py, clause by clause

The description is read by checks/reference.py. Everything behind that, ground laws too, is made here a second time, in another way
than in checks/sections.py: a ground law is made once, as clauses over the positions of two steps, and taken at each step by adding to
their numbers. The list of horizon M is the file FOLDER/h.M; for a query with a claim it denies the claim, and FOLDER/w.M leaves it
out, as the sections of a log. No list has a key. A line is printed for each file: its name, and how many variables, clauses and
literals it has. The comparison goes over the horizons up to 3, or to N, of each query that may be run, of each description of a book or
of one file (the files of examples/ are there to be included), and ends with 1 where two lists differ.
"""
import itertools
import pathlib
import sys

import sections
from reference import (
    Constant, Minus, NoConcurrency, Plus, Refused, Value, Variable, cases_of, check_asked_limits, check_ground_limits, check_steps,
    described, first_files, fluents_then_actions, is_boolean_constant, run_deep,
)


class Positions:
    """The numbers of the values of ground constants, from 1, at the first of two steps, fluents before actions; those of the second step
    are greater by `width`."""

    def __init__(self, table):
        self.table = table
        self.values = {symbol.name: values_of(table, symbol) for symbol in table.symbols.values()}
        self.index = {name: {value: index for index, value in enumerate(values)} for name, values in self.values.items()}
        self.first = {}  # by the name of a symbol: the first number of each list of arguments
        self.simple, self.sizes, self.fluent_sizes, self.boolean_actions = [], [], [], []
        number = 1
        for symbol in fluents_then_actions(table):
            size = len(self.values[symbol.name])
            places = self.first[symbol.name] = {}
            for arguments in itertools.product(*[table.objects_of(sort) for sort in symbol.sorts]):
                places[arguments] = number
                if symbol.kind == "simple":
                    self.simple.append((number, size))
                if symbol.kind == "action" and is_boolean_constant(symbol):
                    self.boolean_actions.append(number)
                if symbol.kind != "action":
                    self.fluent_sizes.append(size)
                self.sizes.append(size)
                number += size
        self.width = number - 1
        self.fluent_width = sum(self.fluent_sizes)
        self.true = 2 * self.width + 1  # stands for T; what is greater for the formulas of one law, in the order in which they are made


def values_of(table, symbol):
    objects = table.objects_of(symbol.domain)
    return objects if symbol.attribute_of is None else ["none", *objects]


class Piece:
    """Clauses over the numbers of two steps, with the formulas that they make; a number above `true` is a formula's."""

    def __init__(self, positions):
        self.true, self.last, self.clauses = positions.true, positions.true, []

    def write(self, literals):
        distinct = set(literals)
        if not any(-literal in distinct for literal in distinct):
            self.clauses.append(sorted(distinct, key=lambda literal: (abs(literal), literal > 0)))

    def new(self):
        self.last += 1
        return self.last

    def all_of(self, parts):
        if len(parts) < 2:
            return parts[0] if parts else self.true
        x = self.new()
        for part in parts:
            self.write([-x, part])
        self.write([x, *(-part for part in parts)])
        return x

    def any_of(self, parts):
        if len(parts) < 2:
            return parts[0] if parts else -self.true
        x = self.new()
        self.write([-x, *parts])
        for part in parts:
            self.write([x, -part])
        return x

    def same(self, f, g):
        x = self.new()
        for clause in ([-x, -f, g], [-x, f, -g], [x, f, g], [x, -f, -g]):
            self.write(clause)
        return x


# ---------------------------------------------------------------------------------------------------------------
# Formulas, as functions of the values of their variables
# ---------------------------------------------------------------------------------------------------------------

# `values` is a list of the values of variables by their numbers. A term without a constant becomes a function to its value, None for none;
# a test a function to its truth; a formula a function to its literal, which adds to a piece what it makes.


def value_function(term):
    if isinstance(term, Value):
        return lambda values: term.name
    if isinstance(term, Variable):
        return lambda values: values[term.number]
    left, right = value_function(term.left), value_function(term.right)
    sign = 1 if isinstance(term, Plus) else -1

    def summed(values):
        a, b = left(values), right(values)
        return a + sign * b if isinstance(a, int) and isinstance(b, int) else None

    return summed


def compares(sign, a, b):
    if sign == "=":
        return a is not None and a == b
    return isinstance(a, int) and isinstance(b, int) and (a < b if sign == "<" else a <= b)


def test_function(table, formula):
    """Of a formula without a constant."""
    if isinstance(formula, str):
        return lambda values: formula == "true"
    sign = formula[0]
    if sign in ("=", "<", "=<"):
        left, right = value_function(formula[1]), value_function(formula[2])
        return lambda values: compares(sign, left(values), right(values))
    if sign == "-":
        inner = test_function(table, formula[1])
        return lambda values: not inner(values)
    if sign in ("/\\", "\\/"):
        inner, objects, number = test_function(table, formula[3]), table.objects_of(formula[2]), formula[1]
        quantify = all if sign == "/\\" else any
        return lambda values: quantify(inner(with_value(values, number, one)) for one in objects)
    left, right = test_function(table, formula[1]), test_function(table, formula[2])
    join = {"&": lambda a, b: a and b, "++": lambda a, b: a or b, "->>": lambda a, b: not a or b, "<->": lambda a, b: a == b}[sign]
    return lambda values: join(left(values), right(values))


def with_value(values, number, value):
    """A longer list, so that each bracket has its own; brackets have greater numbers than what stands around them."""
    return [*values, *[None] * (number - len(values)), value] if number >= len(values) else [*values[:number], value, *values[number + 1 :]]


def constants_of(term):
    """The constants of a side in order."""
    if isinstance(term, (Plus, Minus)):
        return constants_of(term.left) + constants_of(term.right)
    return [term] if isinstance(term, Constant) else []


def first_function(positions, constant):
    """The number of the first value of a constant, None where it does not exist."""
    arguments = [value_function(argument) for argument in constant.arguments]
    places = positions.first[constant.name]
    if not arguments:
        return lambda values: places.get(())
    return lambda values: places.get(tuple([argument(values) for argument in arguments]))


def is_number(side):
    return isinstance(side, (Plus, Minus)) or isinstance(side, Value) and isinstance(side.name, int)


def comparison_function(positions, formula):
    sign, left, right = formula
    constants = constants_of(left) + constants_of(right)
    if not constants:
        test = test_function(positions.table, formula)
        return lambda piece, values: piece.true if test(values) else -piece.true
    if sign != "=" or is_number(left) or is_number(right):
        return judged_function(positions, formula, constants)
    firsts = [first_function(positions, constant) for constant in constants]
    if len(constants) == 2:
        return twin_function(positions, constants, firsts)
    value, index = value_function(right if isinstance(left, Constant) else left), positions.index[constants[0].name]

    def atom(piece, values):
        first = firsts[0](values)
        return -piece.true if first is None else first + index[value(values)]

    return atom


def twin_function(positions, constants, firsts):
    """An equation of two constants."""
    one, other = (positions.index[constant.name] for constant in constants)
    pairs = [(one[value], other[value]) for value in positions.values[constants[0].name] if value in other]

    def equation(piece, values):
        a, b = (first(values) for first in firsts)
        if a is None or b is None:
            return -piece.true
        return piece.any_of([piece.all_of([a + i, b + j]) for i, j in pairs])

    return equation


def judged_function(positions, formula, constants):
    """A comparison that is judged: the lists of values of its different constants under which it is true."""
    firsts = [first_function(positions, constant) for constant in constants]
    domains = [positions.values[constant.name] for constant in constants]
    numbers = iter(range(len(constants)))
    sides = [side_function(side, numbers) for side in formula[1:]]
    kept = {}

    def judge(places, values):
        different = list(dict.fromkeys(places))
        lists = []
        for indexes in itertools.product(*[range(len(domains[places.index(place)])) for place in different]):
            index = dict(zip(different, indexes))
            given = [domain[index[place]] for domain, place in zip(domains, places)]
            if compares(formula[0], *(side(given, values) for side in sides)):
                lists.append([place + index[place] for place in different])
        return lists

    def judged(piece, values):
        places = [first(values) for first in firsts]
        if None in places:
            return -piece.true
        key = (*places, *values)
        if key not in kept:
            kept[key] = judge(places, values)
        return piece.any_of([piece.all_of(atoms) for atoms in kept[key]])

    return judged


def side_function(term, numbers):
    """The value of a side from those of its constants, which have numbers in order, and of its variables."""
    if isinstance(term, (Plus, Minus)):
        left, right = side_function(term.left, numbers), side_function(term.right, numbers)
        sign = 1 if isinstance(term, Plus) else -1

        def summed(given, values):
            a, b = left(given, values), right(given, values)
            return a + sign * b if isinstance(a, int) and isinstance(b, int) else None

        return summed
    if isinstance(term, Constant):
        number = next(numbers)
        return lambda given, values: given[number]
    value = value_function(term)
    return lambda given, values: value(values)


def literal_function(positions, formula):
    if isinstance(formula, str):
        return (lambda piece, values: piece.true) if formula == "true" else (lambda piece, values: -piece.true)
    sign = formula[0]
    if sign in ("=", "<", "=<"):
        return comparison_function(positions, formula)
    if sign == "-":
        inner = literal_function(positions, formula[1])
        return lambda piece, values: -inner(piece, values)
    if sign in ("/\\", "\\/"):
        inner, objects, number = literal_function(positions, formula[3]), positions.table.objects_of(formula[2]), formula[1]
        if sign == "/\\":
            return lambda piece, values: piece.all_of([inner(piece, with_value(values, number, one)) for one in objects])
        return lambda piece, values: piece.any_of([inner(piece, with_value(values, number, one)) for one in objects])
    left, right = literal_function(positions, formula[1]), literal_function(positions, formula[2])
    if sign == "&":
        return lambda piece, values: piece.all_of([left(piece, values), right(piece, values)])
    if sign == "++":
        return lambda piece, values: piece.any_of([left(piece, values), right(piece, values)])
    if sign == "->>":
        return lambda piece, values: piece.any_of([-left(piece, values), right(piece, values)])
    return lambda piece, values: piece.same(left(piece, values), right(piece, values))


def truth_function(positions, formula):
    """Whether a part is the ground formula `true`: `true` itself, or a comparison without a constant that is true."""
    if isinstance(formula, str):
        return lambda values: formula == "true"
    if formula[0] not in ("=", "<", "=<") or constants_of(formula[1]) or constants_of(formula[2]):
        return lambda values: False
    return test_function(positions.table, formula)


# ---------------------------------------------------------------------------------------------------------------
# Ground laws
# ---------------------------------------------------------------------------------------------------------------


class Rule:
    """A ground law over two steps: its kind, the number of its head (None for `false`), the literal of its body, the clauses that this
    makes, as one list with 0 behind each, and how many formulas they have."""

    __slots__ = ("kind", "head", "body", "clauses", "formulas")

    def __init__(self, kind, head, body, piece):
        self.kind, self.head, self.body = kind, head, body
        self.clauses = [it for clause in piece.clauses for it in (*clause, 0)]
        self.formulas = piece.last - piece.true


def head_function(positions, head):
    """The number of a head's atom, and whether its constant has other values; None where the head does not exist."""
    if head is False:
        return lambda values: (None, True)
    first, value = first_function(positions, head[0]), value_function(head[1])
    index = positions.index[head[0].name]

    def found(values):
        place, at = first(values), index.get(value(values))
        return None if place is None or at is None else (place + at, len(index) > 1)

    return found


def later(positions, literal):
    """The same literal at the second step."""
    return literal + positions.width if literal > 0 else literal - positions.width


def moved(positions, piece):
    """What a piece has made so far, at the second step."""
    width = positions.width
    piece.clauses = [
        [it + width if 0 < it <= width else it - width if -width <= it < 0 else it for it in clause] for clause in piece.clauses
    ]


def rules_of_law(positions, law):
    """The rules of a base law, one for each choice of values for which its test is true and its head exists."""
    table = positions.table
    test, head = test_function(table, law.test), head_function(positions, law.head)
    body, is_true = literal_function(positions, law.body), truth_function(positions, law.body)
    after = None if law.after is None else literal_function(positions, law.after)
    is_after_true = None if law.after is None else truth_function(positions, law.after)
    ranges = [table.objects_of(name) if what == "sort" else positions.values[name] for what, name in law.ranges]
    for choice in itertools.product(*ranges):
        values = list(choice)
        if not test(values):
            continue
        at = head(values)
        if at is None or not at[1]:
            continue
        piece = Piece(positions)
        number = at[0]
        if after is None:
            yield Rule(law.kind, number, body(piece, values), piece)
            continue
        if number is not None:
            number += positions.width
        if is_true(values):
            literal = piece.true if is_after_true(values) else after(piece, values)
        else:
            literal = body(piece, values)
            moved(positions, piece)
            if abs(literal) <= positions.width:
                literal = later(positions, literal)
            if not is_after_true(values):
                literal = piece.all_of([literal, after(piece, values)])
        yield Rule(law.kind, number, literal, piece)


def rules_of_pairs(positions):
    """noconcurrency"""
    for a, b in itertools.combinations(positions.boolean_actions, 2):
        piece = Piece(positions)
        yield Rule("fluent", None, piece.all_of([a + 1, b + 1]), piece)


def rules_of(positions, laws):
    rules = []
    for law in laws:
        rules += rules_of_pairs(positions) if isinstance(law, NoConcurrency) else rules_of_law(positions, law)
    return rules


# ---------------------------------------------------------------------------------------------------------------
# Clause lists
# ---------------------------------------------------------------------------------------------------------------


class Maker:
    """The clause lists of a description, at any horizon. The second step of a law at step i is i+1."""

    def __init__(self, description):
        self.positions = Positions(description.table)
        self.rules = rules_of(self.positions, description.laws)

    def list_at(self, horizon, asked):
        """The list of a horizon, as one list of literals with 0 behind each clause, and its number of variables; `asked` are formulas with
        their steps and signs."""
        self.horizon = horizon
        self.t = 1 + horizon * self.positions.width + self.positions.fluent_width
        self.last = self.t
        self.out = [self.t, 0]
        self.write_positions()
        bodies, denials = self.write_rules()
        self.write_heads(bodies)
        for body in denials:
            self.out += (-body, 0)
        for at, formula, sign in asked:
            piece = Piece(self.positions)
            literal = literal_function(self.positions, formula)(piece, [])
            clauses = [it for clause in piece.clauses for it in (*clause, 0)]
            self.out += (sign * self.take(horizon if at == "maxstep" else at, literal, clauses, piece.last - piece.true), 0)
        return self.out, self.last

    def sizes(self):
        for step in range(self.horizon + 1):
            yield from self.positions.sizes if step < self.horizon else self.positions.fluent_sizes

    def write_positions(self):
        first = 1
        for size in self.sizes():
            numbers = range(first, first + size)
            self.out += (*numbers, 0)
            for u, v in itertools.combinations(numbers, 2):
                self.out += (-u, -v, 0)
            first += size

    def take(self, step, literal, clauses, formulas):
        """Adds the clauses of a piece at a step, and answers its literal."""
        true, base = self.positions.true, step * self.positions.width
        t, made = self.t, self.last - self.positions.true
        lowest = -true

        def number(it):
            if lowest < it < true:
                return it + base if it > 0 else it - base if it < 0 else 0
            if it > 0:
                return it + made if it > true else t
            return it - made if it < lowest else -t

        if formulas:
            self.out += [
                (it + base if it > 0 else it - base if it < 0 else 0) if lowest < it < true else number(it) for it in clauses
            ]
            self.last += formulas
        return number(literal)

    def write_rules(self):
        """The clauses that bodies make; answers the bodies by the numbers of their heads, and those of denials."""
        bodies, denials = {}, []
        width = self.positions.width
        for first, size in self.positions.simple:
            if size > 1:
                for number in range(first, first + size):
                    bodies[number] = [number]
        for step in range(self.horizon + 1):
            base = step * width
            is_last = step == self.horizon
            for rule in self.rules:
                if is_last and rule.kind != "static":
                    continue
                body = self.take(step, rule.body, rule.clauses, rule.formulas)
                if rule.head is None:
                    denials.append(body)
                elif rule.head + base in bodies:
                    bodies[rule.head + base].append(body)
                else:
                    bodies[rule.head + base] = [body]
        return bodies, denials

    def write_heads(self, bodies):
        first = 1
        for size in self.sizes():
            for number in range(first, first + size) if size > 1 else ():
                found = bodies.get(number, ())
                self.write([-number, *found])
                for body in found:
                    self.write([number, -body])
            first += size

    def write(self, literals):
        distinct = set(literals)
        if not any(-literal in distinct for literal in distinct):
            self.out += sorted(distinct, key=lambda literal: (abs(literal), literal > 0))
            self.out.append(0)


def asked_of(query, claimed):
    """The formulas of a query with their steps, the claim denied or left out."""
    asked = [(at if at == "maxstep" else int(at), formula, 1) for at, formula in query.conditions]
    if claimed and query.claim:
        at, formula = query.claim
        asked.append((at if at == "maxstep" else int(at), formula, -1))
    return asked


def dimacs(literals, variables):
    """The text of a list."""
    text = " ".join(map(str, literals)).replace(" 0 ", " 0\n")
    return f"p cnf {variables} {literals.count(0)}\n{text}\n"


# ---------------------------------------------------------------------------------------------------------------
# Comparison with checks/sections.py
# ---------------------------------------------------------------------------------------------------------------


def clauses_in(literals):
    clauses, clause = [], []
    for literal in literals:
        if literal:
            clause.append(literal)
        else:
            clauses.append(clause)
            clause = []
    return clauses


def may_be_run(description, query):
    try:
        check_ground_limits(description.table, description.laws)
        check_steps(description.table, query)
        check_asked_limits(description.table, [*query.conditions, *([query.claim] if query.claim else [])])
    except Refused:
        return False
    return True


def differences(files, main, horizons):
    """For each list that was compared, its title and whether both makers give the same."""
    description, stop = described(files, main)
    queries = [] if stop else [query for query in description.queries if may_be_run(description, query)]
    maker = Maker(description) if queries else None
    for number, query in enumerate(queries):
        for horizon in range(query.range.lo, min(query.range.hi, horizons) + 1):
            for claimed in (False, True) if query.claim else (False,):
                made = sections.clause_list(description, query, horizon, claimed, None)
                literals, last = maker.list_at(horizon, asked_of(query, claimed))
                title = f"query {number}, horizon {horizon}, {'denied' if claimed else 'conditions'}"
                yield title, (clauses_in(literals), last) == (made.clauses, made.last)


def compare(names, horizons):
    compared = wrong = 0
    for name in names:
        text = pathlib.Path(name).read_bytes()
        cases = [(name, [(name, text)])] if not name.endswith(".book") else cases_of(text)
        for title, files in cases:
            there = first_files(files)
            if name.endswith(".cc"):
                there.update({str(path): path.read_bytes() for path in pathlib.Path(".").glob("examples/**/*.cc")})
            main = "f.cc" if "f.cc" in there else files[0][0] if files else None
            for what, is_same in differences(there, main, horizons) if main else ():
                compared += 1
                if not is_same:
                    wrong += 1
                    print(f"{name}: {title}: {what} differs")
    print(f"{compared} clause lists compared, {wrong} differ")
    return 1 if wrong or not compared else 0


def write_lists(name, first, last, folder):
    description, stop = described({name: pathlib.Path(name).read_bytes()}, name)
    if stop:
        sys.exit(stop)
    maker, query = Maker(description), description.queries[0]
    for horizon in range(first, last + 1):
        for letter in "wh" if query.claim else "h":
            literals, variables = maker.list_at(horizon, asked_of(query, letter == "h"))
            pathlib.Path(folder, f"{letter}.{horizon}").write_text(dimacs(literals, variables))
            clauses = literals.count(0)
            print(f"{letter}.{horizon} {variables} {clauses} {len(literals) - clauses}")


def main(words):
    if words[:1] == ["--compare"]:
        names, horizons = words[1:], 3
        if names[:1] == ["--horizons"]:
            names, horizons = names[2:], int(names[1])
        return compare(names, horizons)
    if len(words) != 4:
        sys.exit("usage: checks/clause_lists.py FILE FIRST LAST FOLDER, or checks/clause_lists.py --compare [--horizons N] BOOK_OR_FILE..")
    write_lists(words[0], int(words[1]), int(words[2]), words[3])
    return 0


if __name__ == "__main__":
    sys.exit(run_deep(lambda: main(sys.argv[1:])))
