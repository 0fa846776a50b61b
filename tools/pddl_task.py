"""The planning task of a domain and a problem of PDDL, for tools/pddl: what is supported of it, and what is refused."""
from __future__ import annotations

from dataclasses import dataclass, field
from typing import Callable, Iterator, Optional, Sequence, Tuple, Union

from pddl_reader import Group, Node, Refused, Word, group_of, name_of, shown

Kind = Tuple[str, ...]  # a type, or those of an `either`: in order, none of them below another

SUPPORTED = {
    ":strips", ":typing", ":negative-preconditions", ":disjunctive-preconditions", ":equality", ":existential-preconditions",
    ":universal-preconditions", ":quantified-preconditions", ":conditional-effects", ":adl",
}
# What the parts of PDDL that are not supported are called; the first word of a group, or a requirement.
UNSUPPORTED = {
    ":functions": "numbers", ":fluents": "numbers", ":numeric-fluents": "numbers", ":object-fluents": "functions with objects for values",
    ":action-costs": "costs", ":metric": "costs", "increase": "numbers", "decrease": "numbers", "assign": "numbers", "scale-up": "numbers",
    "scale-down": "numbers", "<": "numbers", ">": "numbers", "<=": "numbers", ">=": "numbers", "+": "numbers", "*": "numbers",
    "/": "numbers", ":durative-action": "durations", ":durative-actions": "durations", ":duration-inequalities": "durations",
    ":continuous-effects": "durations", ":time": "durations", ":derived": "axioms", ":derived-predicates": "axioms", ":axiom": "axioms",
    ":domain-axioms": "axioms", ":timed-initial-literals": "facts at later times", ":preferences": "preferences",
    "preference": "preferences", ":constraints": "constraints on the whole plan", "oneof": "actions with more than one outcome",
    "probabilistic": "actions with more than one outcome", "unknown": "states that are not known",
}


@dataclass(frozen=True)
class Variable:
    """A parameter or a quantified variable; `number` tells those of one name in one action or goal apart."""

    name: str
    number: int
    kind: Kind


@dataclass(frozen=True)
class Thing:
    """An object, or a constant of the domain."""

    name: str


Term = Union[Variable, Thing]


@dataclass(frozen=True)
class Atom:
    predicate: str
    terms: Tuple[Term, ...]


@dataclass(frozen=True)
class Equal:
    left: Term
    right: Term


@dataclass(frozen=True)
class Not:
    part: Formula


@dataclass(frozen=True)
class And:
    parts: Tuple[Formula, ...]


@dataclass(frozen=True)
class Or:
    parts: Tuple[Formula, ...]


@dataclass(frozen=True)
class Imply:
    left: Formula
    right: Formula


@dataclass(frozen=True)
class Exists:
    variable: Variable
    part: Formula


@dataclass(frozen=True)
class Forall:
    variable: Variable
    part: Formula


Formula = Union[Atom, Equal, Not, And, Or, Imply, Exists, Forall]
TRUE = And(())


@dataclass(frozen=True)
class Effect:
    """For all values of the variables: where the condition holds before the action, the atom is added or deleted."""

    atom: Atom
    adds: bool
    condition: Formula
    variables: Tuple[Variable, ...]
    line: int


@dataclass(frozen=True)
class Action:
    name: str
    parameters: Tuple[Variable, ...]
    precondition: Formula
    effects: Tuple[Effect, ...]
    line: int


@dataclass
class Task:
    """Types have the type above them, `object` none; objects their type; predicates the kinds of their arguments."""

    domain: str = ""
    problem: str = ""
    above: dict[str, Optional[str]] = field(default_factory=lambda: {"object": None})
    things: dict[str, str] = field(default_factory=dict)
    predicates: dict[str, Tuple[Kind, ...]] = field(default_factory=dict)
    predicate_lines: dict[str, int] = field(default_factory=dict)
    actions: list[Action] = field(default_factory=list)
    facts: dict[str, list[Tuple[str, ...]]] = field(default_factory=dict)
    facts_line: int = 1
    goal: Formula = TRUE
    goal_line: int = 1

    def is_below(self, name: str, other: str) -> bool:
        """Whether a type is another one, or stands below it."""
        at: Optional[str] = name
        while at is not None:
            if at == other:
                return True
            at = self.above[at]
        return False

    def fits(self, kind: Kind, wanted: Kind) -> bool:
        return all(any(self.is_below(one, other) for other in wanted) for one in kind)

    def things_of(self, kind: Kind) -> list[str]:
        return [name for name, one in self.things.items() if self.fits((one,), kind)]

    def kind_of(self, term: Term) -> Kind:
        return (self.things[term.name],) if isinstance(term, Thing) else term.kind


def refuse_unsupported(node: Node) -> None:
    """Refuses what is known and not supported, by its name."""
    head = node.head if isinstance(node, Group) else node.text
    if head in UNSUPPORTED:
        raise Refused(node.line, f"{head} is not supported: no {UNSUPPORTED[head]}")


# ---------------------------------------------------------------------------------------------------------------
# Lists with types
# ---------------------------------------------------------------------------------------------------------------


def typed(nodes: Sequence[Node]) -> Iterator[Tuple[Node, Optional[Node]]]:
    """The items of a list as `a b - t c`, each with its type where one is written."""
    waiting: list[Node] = []
    rest = iter(nodes)
    for node in rest:
        if not (isinstance(node, Word) and node.text == "-"):
            waiting.append(node)
            continue
        kind = next(rest, None)
        if kind is None:
            raise Refused(node.line, "no type stands behind this -")
        if not waiting:
            raise Refused(node.line, "nothing stands before this -")
        yield from ((one, kind) for one in waiting)
        waiting = []
    yield from ((one, None) for one in waiting)


def kind_in(task: Task, node: Optional[Node]) -> Kind:
    """The kind that is written: a type, or (either ..)."""
    if node is None:
        return ("object",)
    either = isinstance(node, Group) and node.head == "either"
    names = node.items[1:] if isinstance(node, Group) and either else [node]
    found = {}
    for one in names:
        name = name_of(one, "a type")
        if name not in task.above:
            raise Refused(one.line, f"the type {name} is not declared")
        found[name] = True
    if not found:
        raise Refused(node.line, "this either names no type")
    return tuple(sorted(one for one in found if not any(one != other and task.is_below(one, other) for other in found)))


def add_types(task: Task, section: Group) -> None:
    listed: set[str] = set()
    for node, kind in typed(section.items[1:]):
        name = name_of(node, "a type")
        if isinstance(kind, Group):
            raise Refused(kind.line, f"{name} has {shown(kind)} above it: only one type may stand there")
        above = name_of(kind, "a type") if kind else "object"
        if name in listed:
            raise Refused(node.line, f"the type {name} is declared twice")
        listed.add(name)
        if name == "object":
            if above != "object":
                raise Refused(node.line, "no type stands above object")
            continue
        task.above.setdefault(above, "object")
        if task.is_below(above, name):
            raise Refused(node.line, f"the type {name} would stand below itself")
        task.above[name] = above


def add_things(task: Task, section: Group) -> None:
    for node, kind in typed(section.items[1:]):
        name = name_of(node, "an object")
        if isinstance(kind, Group):
            raise Refused(kind.line, f"{name} has the type {shown(kind)}: an object has one type")
        if name in task.things:
            raise Refused(node.line, f"the object {name} is declared twice")
        task.things[name] = kind_in(task, kind)[0]


class Scope:
    """The variables that a formula may name; each one that is bound gets a number of its own."""

    def __init__(self, task: Task) -> None:
        self.task = task
        self.bound: dict[str, Variable] = {}
        self.counts: dict[str, int] = {}

    def variables(self, nodes: Sequence[Node]) -> list[Variable]:
        """The variables of a typed list, not yet bound."""
        found: list[Variable] = []
        for node, kind in typed(nodes):
            if not isinstance(node, Word) or not node.text.startswith("?"):
                raise Refused(node.line, f"{shown(node)} stands where a variable must be, as ?x")
            name = name_of(Word(node.text[1:], node.line), "a variable")
            if any(one.name == name for one in found):
                raise Refused(node.line, f"the variable ?{name} stands twice in one list")
            self.counts[name] = self.counts.get(name, 0) + 1
            found.append(Variable(name, self.counts[name], kind_in(self.task, kind)))
        return found

    def within(self, variables: Sequence[Variable]) -> Scope:
        """A scope inside this one; numbers go on in both."""
        inner = Scope(self.task)
        inner.counts = self.counts
        inner.bound = {**self.bound, **{one.name: one for one in variables}}
        return inner

    def term(self, node: Node) -> Term:
        if not isinstance(node, Word):
            refuse_unsupported(node)
            raise Refused(node.line, f"{shown(node)} stands where a variable or an object must be")
        if node.text.startswith("?"):
            if node.text[1:] not in self.bound:
                raise Refused(node.line, f"the variable {node.text} is not bound here")
            return self.bound[node.text[1:]]
        name = name_of(node, "an object")
        if name not in self.task.things:
            raise Refused(node.line, f"the object {name} is not declared")
        return Thing(name)

    def atom(self, node: Node) -> Atom:
        group = group_of(node, "an atom")
        refuse_unsupported(group)
        if not group.items:
            raise Refused(group.line, "() stands where an atom must be")
        name = name_of(group.items[0], "a predicate")
        if name not in self.task.predicates:
            raise Refused(group.line, f"the predicate {name} is not declared")
        wanted = self.task.predicates[name]
        if len(group.items) - 1 != len(wanted):
            raise Refused(group.line, f"{name} has {len(group.items) - 1} arguments here, and {len(wanted)} where it is declared")
        terms = tuple(self.term(one) for one in group.items[1:])
        for place, term, kind in zip(group.items[1:], terms, wanted):
            if not self.task.fits(self.task.kind_of(term), kind):
                raise Refused(place.line, f"{shown(place)} is of the type {spelled(self.task.kind_of(term))}, and {name} wants {spelled(kind)}")
        return Atom(name, terms)

    def formula(self, node: Node) -> Formula:
        group = group_of(node, "a condition")
        if not group.items:
            return TRUE
        special = FORMULAS.get(group.head)
        return special(self, group) if special else self.atom(group)

    def effects(self, node: Node, condition: Formula, variables: Tuple[Variable, ...]) -> Iterator[Effect]:
        """The single effects of an effect that stands within a condition and quantifiers."""
        group = group_of(node, "an effect")
        if not group.items:
            return
        if group.head == "and":
            for one in group.items[1:]:
                yield from self.effects(one, condition, variables)
        elif group.head == "forall":
            bound, part = self.quantified(group)
            yield from self.within(bound).effects(part, condition, variables + tuple(bound))
        elif group.head == "when":
            parts(group, 2)
            more = self.formula(group.items[1])
            yield from self.effects(group.items[2], more if condition == TRUE else And((condition, more)), variables)
        elif group.head in ("or", "imply", "exists", "="):
            raise Refused(group.line, f"{group.head} stands in no effect")
        else:
            adds = group.head != "not"
            atom = self.atom(group if adds else parts(group, 1)[0])
            yield Effect(atom, adds, condition, variables, group.line)

    def quantified(self, group: Group) -> Tuple[list[Variable], Node]:
        """The variables and the part of (forall (..) ..) or (exists (..) ..)."""
        listed, part = parts(group, 2)
        return self.variables(group_of(listed, "a list of variables").items), part


def parts(group: Group, count: int) -> Tuple[Node, ...]:
    """The items behind the head, which are to be so many."""
    if len(group.items) != count + 1:
        raise Refused(group.line, f"{group.head} has {len(group.items) - 1} parts here, and {count} are wanted")
    return group.items[1:]


def spelled(kind: Kind) -> str:
    return kind[0] if len(kind) == 1 else f"(either {' '.join(kind)})"


def denial(scope: Scope, group: Group) -> Formula:
    return Not(scope.formula(parts(group, 1)[0]))


def conjunction(scope: Scope, group: Group) -> Formula:
    return And(tuple(scope.formula(one) for one in group.items[1:]))


def disjunction(scope: Scope, group: Group) -> Formula:
    return Or(tuple(scope.formula(one) for one in group.items[1:]))


def implication(scope: Scope, group: Group) -> Formula:
    left, right = parts(group, 2)
    return Imply(scope.formula(left), scope.formula(right))


def equation(scope: Scope, group: Group) -> Formula:
    for one in group.items[1:]:
        if isinstance(one, Group) or one.text[0].isdigit():
            raise Refused(one.line, f"{shown(one)} is compared by =, and numbers and functions are not supported")
    left, right = parts(group, 2)
    return Equal(scope.term(left), scope.term(right))


def over_all(scope: Scope, group: Group) -> Formula:
    bound, part = scope.quantified(group)
    formula = scope.within(bound).formula(part)
    for one in reversed(bound):
        formula = Forall(one, formula)
    return formula


def over_some(scope: Scope, group: Group) -> Formula:
    bound, part = scope.quantified(group)
    formula = scope.within(bound).formula(part)
    for one in reversed(bound):
        formula = Exists(one, formula)
    return formula


FORMULAS: dict[str, Callable[[Scope, Group], Formula]] = {
    "not": denial, "and": conjunction, "or": disjunction, "imply": implication, "=": equation, "forall": over_all, "exists": over_some,
}


# ---------------------------------------------------------------------------------------------------------------
# Domain and problem
# ---------------------------------------------------------------------------------------------------------------


def add_requirements(_: Task, section: Group) -> None:
    for node in section.items[1:]:
        refuse_unsupported(node)
        if not isinstance(node, Word) or node.text not in SUPPORTED:
            raise Refused(node.line, f"the requirement {shown(node)} is not supported")


def add_predicates(task: Task, section: Group) -> None:
    for node in section.items[1:]:
        group = group_of(node, "a predicate with its arguments")
        if not group.items:
            raise Refused(group.line, "() stands where a predicate with its arguments must be")
        name = name_of(group.items[0], "a predicate")
        if name in task.predicates:
            raise Refused(group.line, f"the predicate {name} is declared twice")
        if name in FORMULAS or name == "when":
            raise Refused(group.line, f"{name} is a word of PDDL, and no name of a predicate")
        task.predicates[name] = tuple(one.kind for one in Scope(task).variables(group.items[1:]))
        task.predicate_lines[name] = group.line


def add_action(task: Task, section: Group) -> None:
    if len(section.items) < 2:
        raise Refused(section.line, "this action has no name")
    name = name_of(section.items[1], "an action")
    if any(one.name == name for one in task.actions):
        raise Refused(section.line, f"the action {name} is declared twice")
    found: dict[str, Node] = {}
    rest = section.items[2:]
    for key, part in zip(rest[0::2], rest[1::2]):
        if not isinstance(key, Word) or key.text not in (":parameters", ":precondition", ":effect"):
            refuse_unsupported(key)
            raise Refused(key.line, f"{shown(key)} stands in an action, where only :parameters, :precondition and :effect may")
        if key.text in found:
            raise Refused(key.line, f"{key.text} stands twice in the action {name}")
        found[key.text] = part
    if len(rest) % 2:
        raise Refused(rest[-1].line, f"nothing stands behind {shown(rest[-1])}")
    scope = Scope(task)
    listed = found.get(":parameters")
    parameters = scope.variables(group_of(listed, "the list of parameters").items) if listed else []
    scope = scope.within(parameters)
    precondition = scope.formula(found[":precondition"]) if ":precondition" in found else TRUE
    effects = tuple(scope.effects(found[":effect"], TRUE, ())) if ":effect" in found else ()
    task.actions.append(Action(name, tuple(parameters), precondition, effects, section.line))


def add_facts(task: Task, section: Group) -> None:
    """The facts of the initial state. A fact that is denied only says once more that it is not there."""
    denied = {}
    task.facts_line = section.line
    for node in section.items[1:]:
        group = group_of(node, "a fact")
        if group.head == "at" and len(group.items) == 3 and isinstance(group.items[2], Group):
            raise Refused(group.line, "a fact at a later time is not supported")
        if group.head == "=":
            raise Refused(group.line, "(= ..) in :init is not supported: no numbers, no functions")
        adds = group.head != "not"
        atom = Scope(task).atom(group if adds else parts(group, 1)[0])
        row = tuple(one.name for one in atom.terms)
        rows = task.facts.setdefault(atom.predicate, [])
        if not adds:
            denied[atom.predicate, row] = group.line
        elif row not in rows:
            rows.append(row)
    for (predicate, row), line in denied.items():
        if row in task.facts[predicate]:
            raise Refused(line, f"({' '.join((predicate,) + row)}) is a fact, and denied here")


def add_goal(task: Task, section: Group) -> None:
    task.goal = Scope(task).formula(parts(section, 1)[0])
    task.goal_line = section.line


Part = Callable[[Task, Group], None]
DOMAIN: dict[str, Part] = {
    ":requirements": add_requirements, ":types": add_types, ":constants": add_things, ":predicates": add_predicates,
}
PROBLEM: dict[str, Part] = {":requirements": add_requirements, ":objects": add_things, ":init": add_facts, ":goal": add_goal}


def named(whole: Group, what: str) -> str:
    """The name in (define (domain NAME) ..)."""
    if whole.head != "define" or len(whole.items) < 2:
        raise Refused(whole.line, f"a {what} begins with (define ({what} NAME)")
    first = group_of(whole.items[1], f"({what} NAME)")
    if first.head != what:
        raise Refused(first.line, f"{shown(first)} stands where ({what} NAME) must be")
    return name_of(parts(first, 1)[0], f"a {what}")


def sections_of(whole: Group, known: Sequence[str], repeated: str = "") -> dict[str, list[Group]]:
    found: dict[str, list[Group]] = {}
    for node in whole.items[2:]:
        section = group_of(node, "a section")
        refuse_unsupported(section)
        if section.head not in known:
            raise Refused(section.line, f"the section {shown(section)} is not supported")
        if section.head in found and section.head != repeated:
            raise Refused(section.line, f"there is a second section {section.head}")
        found.setdefault(section.head, []).append(section)
    return found


def read_domain(task: Task, whole: Group) -> None:
    task.domain = named(whole, "domain")
    found = sections_of(whole, [*DOMAIN, ":action"], ":action")
    for head, add in DOMAIN.items():
        for section in found.get(head, []):
            add(task, section)
    for section in found.get(":action", []):
        add_action(task, section)


def read_problem(task: Task, whole: Group) -> None:
    task.problem = named(whole, "problem")
    found = sections_of(whole, [*PROBLEM, ":domain"])
    for section in found.get(":domain", []):
        if name_of(parts(section, 1)[0], "a domain") != task.domain:
            raise Refused(section.line, f"the problem is of another domain than {task.domain}")
    for needed in (":domain", ":init", ":goal"):
        if needed not in found:
            raise Refused(whole.line, f"the problem has no section {needed}")
    for head, add in PROBLEM.items():
        for section in found.get(head, []):
            add(task, section)
