"""The description of a planning task, and the plan of a history, for tools/pddl.

A predicate that an effect names is an inertial fluent, any other a fluent that its facts cause. An action is exogenous, and has an
attribute for each parameter; at each step exactly one action is done, so the histories of a horizon are the plans of so many actions.
"""
from __future__ import annotations

import math
import re
from dataclasses import dataclass, field
from typing import Iterable, Sequence, Union

from pddl_reader import Refused
from pddl_task import TRUE, Action, And, Atom, Effect, Equal, Exists, Forall, Formula, Imply, Kind, Not, Or, Task, Term, Thing, Variable

RESERVED = frozenset(
    "caused if after default inertial exogenous constraint always nonexecutable causes may cause where noconcurrency true false none "
    "maxstep label claim sorts objects variables constants query include of simpleFluent inertialFluent sdFluent rigid action "
    "exogenousAction attribute boolean".split()
)
TOKEN = re.compile(r"[A-Za-z][A-Za-z0-9_]*|[0-9]+|->>|<->|/\\|\\/|\\=|\+\+|:-|::|=<|>>|>=|\.\.|\S")
STATEMENT_TOKENS, DECLARATION_TOKENS = 2000, 20000
CONSTANTS, VALUES, OBJECTS, INSTANCES = 20000, 1000, 4096, 1000000
FALSE = Or(())


class Names:
    """The words of the description: PDDL has names with hyphens, and one name for things of several sorts."""

    def __init__(self, task: Task) -> None:
        self.task = task
        self.taken = set(RESERVED)
        self.taken_by_sorts = set(RESERVED)
        self.sorts: dict[Kind, str] = {}
        self.variables: dict[Variable, str] = {}
        self.predicates = {name: self.fresh(name) for name in task.predicates}
        self.actions = {one.name: self.fresh(one.name) for one in task.actions}
        self.attributes = {(one.name, it): self.fresh(f"{one.name}_{it.name}") for one in task.actions for it in one.parameters}
        self.things = {name: self.fresh(name) for name in task.things}
        for name in task.above:
            self.sort((name,))

    @staticmethod
    def word(base: str, taken: set[str]) -> str:
        base = base.replace("-", "_")[:200]
        found, number = base, 1
        while found in taken:
            number += 1
            found = f"{base}_{number}"
        taken.add(found)
        return found

    def fresh(self, base: str) -> str:
        return self.word(base, self.taken)

    def sort(self, kind: Kind) -> str:
        if kind not in self.sorts:
            self.sorts[kind] = self.word(kind[0] if len(kind) == 1 else "either_" + "_".join(kind), self.taken_by_sorts)
        return self.sorts[kind]

    def variable(self, one: Variable) -> str:
        if one not in self.variables:
            self.sort(one.kind)
            self.variables[one] = self.fresh(one.name[0].upper() + one.name[1:])
        return self.variables[one]


# ---------------------------------------------------------------------------------------------------------------
# Formulas
# ---------------------------------------------------------------------------------------------------------------


def conjuncts(formula: Formula) -> list[Formula]:
    if isinstance(formula, And):
        return [one for part in formula.parts for one in conjuncts(part)]
    return [formula]


def conjunction(parts: Sequence[Formula]) -> Formula:
    return parts[0] if len(parts) == 1 else And(tuple(parts))


def negated(formula: Formula) -> Formula:
    return formula.part if isinstance(formula, Not) else Not(formula)


def parts_of(formula: Formula) -> tuple[Formula, ...]:
    if isinstance(formula, (And, Or)):
        return formula.parts
    if isinstance(formula, Imply):
        return formula.left, formula.right
    return (formula.part,) if isinstance(formula, (Not, Exists, Forall)) else ()


def leaves(formula: Formula) -> list[Union[Atom, Equal]]:
    """The atoms and equations in a formula."""
    if isinstance(formula, (Atom, Equal)):
        return [formula]
    return [leaf for part in parts_of(formula) for leaf in leaves(part)]


def terms_of(leaf: Union[Atom, Equal]) -> tuple[Term, ...]:
    return leaf.terms if isinstance(leaf, Atom) else (leaf.left, leaf.right)


def renamed(formula: Formula, names: dict[Variable, Variable]) -> Formula:
    """The formula with other variables in place of free ones; each variable of an action is bound in one place alone."""

    def term(one: Term) -> Term:
        return names.get(one, one) if isinstance(one, Variable) else one

    if isinstance(formula, Atom):
        return Atom(formula.predicate, tuple(map(term, formula.terms)))
    if isinstance(formula, Equal):
        return Equal(term(formula.left), term(formula.right))
    if isinstance(formula, Not):
        return Not(renamed(formula.part, names))
    if isinstance(formula, And):
        return And(tuple(renamed(one, names) for one in formula.parts))
    if isinstance(formula, Or):
        return Or(tuple(renamed(one, names) for one in formula.parts))
    if isinstance(formula, Imply):
        return Imply(renamed(formula.left, names), renamed(formula.right, names))
    if isinstance(formula, Exists):
        return Exists(formula.variable, renamed(formula.part, names))
    return Forall(formula.variable, renamed(formula.part, names))


# ---------------------------------------------------------------------------------------------------------------
# Laws
# ---------------------------------------------------------------------------------------------------------------


@dataclass
class Writer:
    """Gathers the statements of a description."""

    task: Task
    names: Names = field(init=False)
    laws: list[str] = field(default_factory=list)
    instances: list[tuple[int, int]] = field(default_factory=list)  # of each law, with its line

    def __post_init__(self) -> None:
        self.names = Names(self.task)
        self.changed = {effect.atom.predicate for action in self.task.actions for effect in action.effects}

    def term(self, one: Term, free: dict[Variable, str]) -> str:
        """A term; a parameter that no variable stands for is its attribute."""
        if isinstance(one, Thing):
            return self.names.things[one.name]
        return free.get(one) or self.names.variable(one)

    def atom(self, one: Atom, free: dict[Variable, str]) -> str:
        listed = ", ".join(self.term(it, free) for it in one.terms)
        return self.names.predicates[one.predicate] + (f"({listed})" if listed else "")

    def formula(self, one: Formula, free: dict[Variable, str], outer: int = 0) -> str:
        """The text of a formula; `outer` is how much the operator around it binds: 4 `-`, 3 `&`, 2 `++`, 1 `->>`."""

        def joined(parts: Iterable[Formula], mark: str, level: int, empty: str) -> str:
            listed = list(parts)
            if len(listed) == 1:
                return self.formula(listed[0], free, outer)
            text = mark.join(self.formula(it, free, level) for it in listed)
            return f"({text})" if outer >= level and listed else text or empty

        if isinstance(one, Atom):
            return self.atom(one, free)
        if isinstance(one, Equal):
            return f"{self.term(one.left, free)}={self.term(one.right, free)}"
        if isinstance(one, And):
            return joined(one.parts, " & ", 3, "true")
        if isinstance(one, Or):
            return joined(one.parts, " ++ ", 2, "false")
        if isinstance(one, Imply):
            text = f"{self.formula(one.left, free, 1)} ->> {self.formula(one.right, free, 1)}"
            return f"({text})" if outer >= 1 else text
        if isinstance(one, Not):
            return self.denial(one.part, free, outer)
        mark = "/\\" if isinstance(one, Forall) else "\\/"
        return f"[{mark}{self.names.variable(one.variable)} | {self.formula(one.part, free)}]"

    def denial(self, part: Formula, free: dict[Variable, str], outer: int) -> str:
        if isinstance(part, Not):
            return self.formula(part.part, free, outer)
        if isinstance(part, Equal):
            return f"{self.term(part.left, free)}\\={self.term(part.right, free)}"
        return "-" + self.formula(part, free, 4)

    def bound_parameters(self, action: Action, head: Sequence[Term], conditions: Sequence[Formula]) -> set[Variable]:
        """The parameters that a law needs a variable for: the others stand in equations that take their attributes."""
        own = set(action.parameters)
        found = [leaf for one in conditions for leaf in leaves(one)]
        bound = {it for it in head if it in own} | {it for leaf in found if isinstance(leaf, Atom) for it in leaf.terms if it in own}
        equations = [leaf for leaf in found if isinstance(leaf, Equal)]
        while True:
            more = set()
            for one in equations:
                for this, other in ((one.left, one.right), (one.right, one.left)):
                    is_open = isinstance(this, Variable) and this in own and this not in bound
                    if is_open and not (other in own and other not in bound) and not self.task.fits(
                        self.task.kind_of(other), self.task.kind_of(this)
                    ):
                        more.add(this)
            if not more:
                return {it for it in bound if isinstance(it, Variable)}
            bound |= more

    def add_law(self, action: Action, begin: str, head: Sequence[Term], conditions: Sequence[Formula], outer: Sequence[Variable]) -> None:
        """Adds a law about an action, which `begin` begins; `head` are the terms there, `outer` what is quantified around the law."""
        conditions = [one for it in conditions for one in conjuncts(it)]
        bound = self.bound_parameters(action, head, conditions)
        free = {it: self.names.attributes[action.name, it] for it in action.parameters if it not in bound}
        body = [f"{self.names.attributes[action.name, it]}={self.names.variable(it)}" for it in action.parameters if it in bound]
        tests: list[str] = []
        # A test takes variables alone that stand in the law before it, and no constant.
        atoms = [leaf for one in conditions for leaf in leaves(one) if isinstance(leaf, Atom)]
        said = {*head, *bound, *(it for leaf in atoms for it in leaf.terms)}
        for one in conditions:
            terms_here = [it for leaf in leaves(one) for it in terms_of(leaf)]
            is_said = not any(it in free or it in outer and it not in said for it in terms_here)
            is_test = is_said and all(isinstance(leaf, Equal) for leaf in leaves(one))
            (tests if is_test else body).append(self.formula(one, free, 3))
        terms = {*head, *(it for one in conditions for leaf in leaves(one) for it in terms_of(leaf))}
        ranging = bound | {it for it in outer if it in terms}
        self.instances.append((math.prod(len(self.task.things_of(it.kind)) for it in ranging), action.line))
        text = begin + (f" if {' & '.join(body)}" if body else "") + (f" where {' & '.join(tests)}" if tests else "") + "."
        self.add(text, action.line)

    def add(self, statement: str, line: int, is_of_problem: bool = False) -> None:
        limit = DECLARATION_TOKENS if statement.startswith(":- ") and not statement.startswith(":- query") else STATEMENT_TOKENS
        count = len(TOKEN.findall(statement))
        if count > limit:
            raise Refused(line, f"this takes a statement of {count} tokens, and ccalc reads {limit} at most", is_of_problem)
        self.laws.append(statement)

    def add_precondition(self, action: Action, formula: Formula, outer: tuple[Variable, ...] = ()) -> None:
        """The action is not done where its precondition is false: a law for each part of it."""
        if isinstance(formula, Forall):
            if self.task.things_of(formula.variable.kind):
                self.add_precondition(action, formula.part, outer + (formula.variable,))
            return
        if isinstance(formula, And):
            for one in formula.parts:
                self.add_precondition(action, one, outer)
            return
        self.add_law(action, f"nonexecutable {self.names.actions[action.name]}", (), [negated(formula)], outer)

    def add_effect(self, action: Action, effect: Effect) -> None:
        """What is added is caused to be so, what is deleted and not added at once is caused not to be."""
        if not all(self.task.things_of(it.kind) for it in effect.variables):
            return
        conditions = [effect.condition]
        if not effect.adds:
            guards = [guard for it in action.effects if it.adds for guard in self.addition(effect.atom, it)]
            if TRUE in guards:
                return
            conditions += [negated(it) for it in guards]
        head = self.atom(effect.atom, {})
        begin = f"{self.names.actions[action.name]} causes {'' if effect.adds else '-'}{head}"
        self.add_law(action, begin, effect.atom.terms, conditions, effect.variables)

    def addition(self, atom: Atom, effect: Effect) -> list[Formula]:
        """When an effect adds this atom: no formula where it never does."""
        if effect.atom.predicate != atom.predicate:
            return []
        names = {it: Variable(it.name, it.number + 1000, it.kind) for it in effect.variables}
        equations: list[Formula] = []
        for own, other in zip(effect.atom.terms, atom.terms):
            term: Term = names.get(own, own) if isinstance(own, Variable) else own
            if term == other:
                continue
            if not self.values(term) & self.values(other):
                return []
            equations.append(Equal(term, other))
        formula = conjunction(conjuncts(renamed(effect.condition, names)) + equations)
        for it in reversed(list(names.values())):
            formula = Exists(it, formula)
        return [formula]

    def values(self, term: Term) -> set[str]:
        return {term.name} if isinstance(term, Thing) else set(self.task.things_of(term.kind))


# ---------------------------------------------------------------------------------------------------------------
# The whole
# ---------------------------------------------------------------------------------------------------------------


def argument_variables(kinds: Sequence[Kind]) -> list[Variable]:
    return [Variable(kind[0], 2000 + kinds[:place].count(kind), kind) for place, kind in enumerate(kinds)]


def write_static(writer: Writer, predicate: str, kinds: Sequence[Kind]) -> None:
    """The facts of a predicate that nothing changes, and that it is false elsewhere."""
    line = writer.task.facts_line
    writer.add(f"default -{writer.atom(Atom(predicate, tuple(argument_variables(kinds))), {})}.", line, True)
    for row in writer.task.facts.get(predicate, []):
        writer.add(f"caused {writer.atom(Atom(predicate, tuple(map(Thing, row))), {})}.", line, True)


def initial(writer: Writer, predicate: str, kinds: Sequence[Kind]) -> str:
    """What the initial state says of a predicate."""
    variables = argument_variables(kinds)
    rows = writer.task.facts.get(predicate, [])
    atom = writer.atom(Atom(predicate, tuple(variables)), {})
    if not kinds or not rows:
        text = atom if rows else f"-{atom}"
    else:
        listed = [And(tuple(Equal(it, Thing(name)) for it, name in zip(variables, row))) for row in rows]
        text = f"{atom} <-> {writer.formula(Or(tuple(listed)), {})}"
    for it in reversed(variables):
        text = f"[/\\{writer.names.variable(it)} | {text}]"
    return text


def sort_items(names: Names, task: Task) -> list[str]:
    items = [names.sort(("object",))]
    for name, above in task.above.items():
        if above is not None:
            items.append(f"{names.sort((above,))} >> {names.sort((name,))}")
    eithers = [kind for kind in names.sorts if len(kind) > 1]
    for kind in eithers:
        items += [f"{names.sorts[kind]} >> {names.sort((one,))}" for one in kind]
        items += [f"{names.sorts[other]} >> {names.sorts[kind]}" for other in names.sorts if other != kind and task.fits(kind, other)]
    return items


def constant_items(writer: Writer) -> list[str]:
    names, items = writer.names, []
    for name, kinds in writer.task.predicates.items():
        arguments = ", ".join(names.sort(kind) for kind in kinds)
        items.append(f"{names.predicates[name]}{f'({arguments})' if kinds else ''} :: {'inertialFluent' if name in writer.changed else 'sdFluent'}")
    for action in writer.task.actions:
        items.append(f"{names.actions[action.name]} :: exogenousAction")
        items += [f"{names.attributes[action.name, it]} :: attribute({names.sort(it.kind)}) of {names.actions[action.name]}" for it in action.parameters]
    return items


def refuse_great(writer: Writer) -> None:
    """What the description would have too much of."""
    task = writer.task
    if len(task.things) > OBJECTS:
        raise Refused(1, f"there are {len(task.things)} objects, and ccalc takes {OBJECTS} at most", True)
    total = 0
    for name, kinds in task.predicates.items():
        size = math.prod(len(task.things_of(kind)) for kind in kinds)
        total += size
        if total > CONSTANTS:
            raise Refused(task.predicate_lines[name], f"the predicate {name} has {size} atoms, which makes {total}, and ccalc takes {CONSTANTS} at most")
    for action in task.actions:
        for it in action.parameters:
            if len(task.things_of(it.kind)) >= VALUES:
                raise Refused(action.line, f"?{it.name} has {len(task.things_of(it.kind))} values, and ccalc takes {VALUES - 1} at most")
    count = sum(size for size, _ in writer.instances)
    if count > INSTANCES:
        size, line = max(writer.instances)
        raise Refused(line, f"this action has a law of {size} instances, all laws {count}, and ccalc takes {INSTANCES} at most")


def describe(task: Task, low: int, high: int) -> tuple[str, Names]:
    """The description, and what its words stand for. Raises Refused, of the domain, where it is too great for ccalc."""
    writer = Writer(task)
    names = writer.names
    for name, kinds in task.predicates.items():
        if name not in writer.changed:
            write_static(writer, name, kinds)
    for action in task.actions:
        writer.add_precondition(action, action.precondition)
        for effect in action.effects:
            writer.add_effect(action, effect)
    writer.add("noconcurrency.", 1)
    writer.add(f"always {' ++ '.join(names.actions.values()) or 'false'}.", 1)
    laws, writer.laws = writer.laws, []
    begin = [initial(writer, name, kinds) for name, kinds in task.predicates.items() if name in writer.changed]
    goal = [writer.formula(one, {}) for one in conjuncts(task.goal)]
    query = f":- query label :: plan; maxstep :: {low}..{high};\n"
    query += f"  0: {f',{chr(10)}     '.join(begin)};\n" if begin else ""
    query += f"  maxstep: {', '.join(goal) or 'true'}."
    constants = constant_items(writer)
    writer.add(f":- sorts {'; '.join(sort_items(names, task))}.", 1)
    kinds_of_things = {kind: [names.things[name] for name, one in task.things.items() if one == kind] for kind in task.above}
    objects = [f"{', '.join(listed)} :: {names.sort((kind,))}" for kind, listed in kinds_of_things.items() if listed]
    if objects:
        writer.add(f":- objects {'; '.join(objects)}.", 1)
    if names.variables:
        writer.add(f":- variables {'; '.join(f'{word} :: {names.sort(it.kind)}' for it, word in names.variables.items())}.", 1)
    if constants:
        writer.add(f":- constants\n  {f';{chr(10)}  '.join(constants)}.", 1)
    declarations, writer.laws = writer.laws, []
    writer.add(query, task.facts_line, True)
    refuse_great(writer)
    title = f"% The domain {task.domain} and the problem {task.problem}, by tools/pddl: exactly one action a step."
    return "\n".join([title, *declarations, *laws, *writer.laws]) + "\n", names


# ---------------------------------------------------------------------------------------------------------------
# The way back
# ---------------------------------------------------------------------------------------------------------------


def plan_of(task: Task, names: Names, history: Sequence[Sequence[str]]) -> list[str]:
    """The plan of a history, an action a line; ValueError where the history is of another description."""
    actions = {names.actions[one.name]: one for one in task.actions}
    things = {word: name for name, word in names.things.items()}
    lines = []
    for step, parts in enumerate(history[1::2]):
        values = dict(part.split("=", 1) for part in parts if "=" in part)
        done = [part for part in parts if "=" not in part]
        if len(done) != 1 or done[0] not in actions:
            raise ValueError(f"at step {step} there is not one action of the domain")
        action = actions[done[0]]
        words = [values.get(names.attributes[action.name, it], "") for it in action.parameters]
        if not all(word in things for word in words):
            raise ValueError(f"at step {step} {action.name} has not an object for each parameter")
        lines.append(f"({' '.join([action.name, *(things[word] for word in words)])})")
    return lines
