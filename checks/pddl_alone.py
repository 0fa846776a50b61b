"""PDDL by itself: a reader, a judge of plans and a planner that goes breadth first. Nothing of this project is used here.

checks/pddl_alone.py validate DOMAIN PROBLEM PLAN      says `valid, N actions`, or what is wrong; ends with 1 where it is not valid
checks/pddl_alone.py plan DOMAIN PROBLEM [DEPTH]       prints a shortest plan; `no plan` where no state is left, and ends with 1
checks/pddl_alone.py count DOMAIN PROBLEM [DEPTH]      prints the length of the shortest plans, and how many there are

A state is the set of its true atoms, an atom a tuple of names. What an action deletes goes first and what it adds comes then, both by
the state before it. Without DEPTH the planner goes on until no new state is left.
"""
from __future__ import annotations

import itertools
import re
import sys
from typing import Any, Dict, FrozenSet, Iterator, List, Optional, Set, Tuple

Tree = Any  # a word, or a list of trees
Atom = Tuple[str, ...]
State = FrozenSet[Atom]
Values = Dict[str, str]
Action = Tuple[str, ...]  # its name and its arguments


def tree_of(text: str) -> Tree:
    stack: List[List[Tree]] = [[]]
    for token in re.findall(r"[()]|[^\s()]+", re.sub(";.*", "", text).lower()):
        if token == "(":
            stack.append([])
        elif token == ")":
            last = stack.pop()
            stack[-1].append(last)
        else:
            stack[-1].append(token)
    (whole,) = stack
    return whole[0] if len(whole) == 1 else whole


def with_types(items: List[Tree]) -> List[Tuple[str, List[str]]]:
    """The names of a typed list, each with the types that it may have."""
    found: List[Tuple[str, List[str]]] = []
    names: List[str] = []
    index = 0
    while index < len(items):
        if items[index] == "-":
            kind = items[index + 1]
            found += [(name, kind[1:] if isinstance(kind, list) else [kind]) for name in names]
            names, index = [], index + 2
        else:
            names.append(items[index])
            index += 1
    return found + [(name, ["object"]) for name in names]


class Task:
    """A domain and a problem."""

    def __init__(self, domain: Tree, problem: Tree) -> None:
        self.parents: Dict[str, str] = {}
        self.objects: Dict[str, str] = {}
        self.schemes: Dict[str, Dict[str, Tree]] = {}
        self.init: State = frozenset()
        self.goal: Tree = ["and"]
        for part in domain[2:] + problem[2:]:
            self.take(part)

    def take(self, part: Tree) -> None:
        if part[0] == ":types":
            self.parents.update((name, kinds[0]) for name, kinds in with_types(part[1:]) if name != "object")
        elif part[0] in (":constants", ":objects"):
            self.objects.update((name, kinds[0]) for name, kinds in with_types(part[1:]))
        elif part[0] == ":action":
            self.schemes[part[1]] = dict(zip(part[2::2], part[3::2]))
        elif part[0] == ":init":
            self.init = frozenset(tuple(fact) for fact in part[1:] if fact[0] != "not")
        elif part[0] == ":goal":
            self.goal = part[1]

    def is_a(self, name: str, kinds: List[str]) -> bool:
        kind: Optional[str] = self.objects[name]
        while kind is not None:
            if kind in kinds or "object" in kinds:
                return True
            kind = self.parents.get(kind)
        return False

    def choices(self, listed: List[Tree], values: Values) -> Iterator[Values]:
        """The values with one of each choice for the variables of a list."""
        variables = with_types(listed)
        ranges = [[name for name in self.objects if self.is_a(name, kinds)] for _, kinds in variables]
        for row in itertools.product(*ranges):
            yield {**values, **{variable: name for (variable, _), name in zip(variables, row)}}

    def holds(self, formula: Tree, state: State, values: Values) -> bool:
        if not formula:
            return True
        head, rest = formula[0], formula[1:]
        if head == "and":
            return all(self.holds(part, state, values) for part in rest)
        if head == "or":
            return any(self.holds(part, state, values) for part in rest)
        if head == "not":
            return not self.holds(rest[0], state, values)
        if head == "imply":
            return not self.holds(rest[0], state, values) or self.holds(rest[1], state, values)
        if head == "forall":
            return all(self.holds(rest[1], state, more) for more in self.choices(rest[0], values))
        if head == "exists":
            return any(self.holds(rest[1], state, more) for more in self.choices(rest[0], values))
        row = tuple(values.get(word, word) for word in rest)
        return row[0] == row[1] if head == "=" else (head, *row) in state

    def change(self, effect: Tree, state: State, values: Values, added: Set[Atom], deleted: Set[Atom]) -> None:
        if not effect:
            return
        head, rest = effect[0], effect[1:]
        if head == "and":
            for part in rest:
                self.change(part, state, values, added, deleted)
        elif head == "forall":
            for more in self.choices(rest[0], values):
                self.change(rest[1], state, more, added, deleted)
        elif head == "when":
            if self.holds(rest[0], state, values):
                self.change(rest[1], state, values, added, deleted)
        elif head == "not":
            deleted.add((rest[0][0], *(values.get(word, word) for word in rest[0][1:])))
        else:
            added.add((head, *(values.get(word, word) for word in rest)))

    def actions(self) -> Iterator[Action]:
        for name, scheme in self.schemes.items():
            variables = [variable for variable, _ in with_types(scheme.get(":parameters", []))]
            for values in self.choices(scheme.get(":parameters", []), {}):
                yield (name, *(values[variable] for variable in variables))

    def after(self, state: State, action: Action) -> Optional[State]:
        """The state behind an action; none where it cannot be done."""
        scheme = self.schemes[action[0]]
        values = dict(zip((variable for variable, _ in with_types(scheme.get(":parameters", []))), action[1:]))
        if not self.holds(scheme.get(":precondition", []), state, values):
            return None
        added: Set[Atom] = set()
        deleted: Set[Atom] = set()
        self.change(scheme.get(":effect", []), state, values, added, deleted)
        return (state - deleted) | added

    def is_goal(self, state: State) -> bool:
        return self.holds(self.goal, state, {})


def layers(task: Task, depth: Optional[int]) -> Iterator[Dict[State, Tuple[int, Tuple[Action, ...]]]]:
    """For each length in turn the states that are new at it, with how many ways lead there and one of them."""
    actions = list(task.actions())
    layer: Dict[State, Tuple[int, Tuple[Action, ...]]] = {task.init: (1, ())}
    seen: Set[State] = set()
    while layer and (depth is None or depth >= 0):
        yield layer
        seen |= set(layer)
        further: Dict[State, Tuple[int, Tuple[Action, ...]]] = {}
        for state, (ways, path) in layer.items():
            for action in actions:
                behind = task.after(state, action)
                if behind is not None and behind not in seen:
                    count, way = further.get(behind, (0, path + (action,)))
                    further[behind] = (count + ways, way)
        layer = further
        depth = None if depth is None else depth - 1


def shortest(task: Task, depth: Optional[int] = None) -> Optional[Tuple[Tuple[Action, ...], int]]:
    """A shortest plan, and how many there are of its length."""
    for layer in layers(task, depth):
        ends = [found for state, found in layer.items() if task.is_goal(state)]
        if ends:
            return ends[0][1], sum(ways for ways, _ in ends)
    return None


def fault_of(task: Task, plan: str) -> Tuple[int, Optional[str]]:
    """How many actions a plan has, and what is wrong with it."""
    state, count = task.init, 0
    for number, line in enumerate(plan.split("\n"), 1):
        line = line.partition(";")[0].strip().lower()
        if not line:
            continue
        if not re.fullmatch(r"\([a-z][a-z0-9_-]*(\s+[a-z][a-z0-9_-]*)*\s*\)", line):
            return count, f"line {number} is no action"
        action = tuple(line[1:-1].split())
        if action[0] not in task.schemes:
            return count, f"line {number}: there is no action {action[0]}"
        variables = with_types(task.schemes[action[0]].get(":parameters", []))
        if len(variables) != len(action) - 1:
            return count, f"line {number}: {action[0]} has {len(variables)} parameters"
        for (variable, kinds), name in zip(variables, action[1:]):
            if name not in task.objects or not task.is_a(name, kinds):
                return count, f"line {number}: {name} is no object for {variable}"
        behind = task.after(state, action)
        if behind is None:
            return count, f"line {number}: the precondition of {' '.join(action)} is false"
        state, count = behind, count + 1
    return count, None if task.is_goal(state) else "the goal is false at the end"


def task_of(domain: str, problem: str) -> Task:
    return Task(tree_of(domain), tree_of(problem))


def main(words: List[str]) -> int:
    if len(words) not in (3, 4) or words[0] not in ("validate", "plan", "count") or (words[0] == "validate") != (len(words) == 4) and words[0] == "validate":
        print(__doc__, file=sys.stderr)
        return 2
    texts = []
    for name in words[1:3]:
        with open(name) as file:
            texts.append(file.read())
    task = task_of(*texts)
    if words[0] == "validate":
        with open(words[3]) as file:
            count, fault = fault_of(task, file.read())
        print(f"not valid: {fault}" if fault else f"valid, {count} actions")
        return 1 if fault else 0
    found = shortest(task, int(words[3]) if len(words) == 4 else None)
    if found is None:
        print("no plan")
        return 1
    if words[0] == "count":
        print(f"length {len(found[0])}, {found[1]} plans")
    else:
        print("\n".join(f"({' '.join(action)})" for action in found[0]))
    return 0


if __name__ == "__main__":
    sys.exit(main(sys.argv[1:]))
