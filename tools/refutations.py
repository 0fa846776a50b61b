"""Brings sections of a log into the forms that LRAT checkers read; docs/formats.md says how ('How to check a section with an LRAT checker').

A clause list is an object as checks/sections.py makes it: `clauses`, the number of the `last` variable, and of each position its size and
its `first` variable. The lines of a section are those that checks/sections.py reads.
"""
from __future__ import annotations

from collections.abc import Sequence
from typing import Any

from second_reading import module

Clause = Sequence[int]


class Exported:
    """The clause list that an export has: the positions are those of its first clauses."""

    def __init__(self, variables: int, clauses: list[list[int]]) -> None:
        self.last, self.clauses = variables, clauses
        self.sizes: list[int] = []
        true, place = clauses[0][0], 1
        self.first = [1]
        while self.first[-1] < true:
            size = len(clauses[place])
            self.sizes.append(size)
            self.first.append(self.first[-1] + size)
            place += 1 + size * (size - 1) // 2


def hints_of(clause: Clause, chain: Sequence[int], clauses: dict[int, frozenset[int]]) -> list[int]:
    """The numbers of a chain as unit propagation takes them: from its end, without clauses that are true, up to the first that is false."""
    true = {-literal for literal in clause}
    hints: list[int] = []
    for number in reversed(chain):
        if clauses[number] & true:
            continue
        hints.append(number)
        left = [literal for literal in clauses[number] if -literal not in true]
        if not left:
            return hints
        true.update(left)
    raise AssertionError("a right chain ends with a clause that is false")


def line_of(number: int, clause: Clause, hints: Sequence[int]) -> str:
    return " ".join(map(str, [number, *sorted(clause, key=abs), 0, *hints, 0]))


def refutation(made: Any, lines: Sequence[Any]) -> tuple[list[list[int]], list[str]]:
    """The clauses with the blocks after them, and the refutation, of a right section that ends with `e empty`."""
    sections = module("sections")
    blocks = [[-(made.first[position] + index) for position, index in enumerate(line[1])] for line in lines if line[0] == "block"]
    listed: list[list[int]] = made.clauses + blocks
    clauses = {number: frozenset(clause) for number, clause in enumerate(listed, 1)}
    numbers = {number: number for number in range(1, len(made.clauses) + 1)}  # of the section, as numbers of the file
    proof: list[str] = []
    next_block, next_line, own = len(made.clauses), len(listed), len(made.clauses)
    for line in lines:
        if line[0] == "end":
            continue
        own += 1
        if line[0] == "block":
            next_block += 1
            numbers[own] = next_block
            continue
        next_line += 1
        numbers[own] = next_line
        clauses[next_line] = frozenset(line[1])
        if not any(-literal in line[1] for literal in line[1]):
            chain = [numbers[number] for number in sections.chain_of(line, own)[::2]]
            proof.append(line_of(next_line, line[1], hints_of(line[1], chain, clauses)))
    if not any(line[0] in ("derived", "apart") and not line[1] for line in lines):
        empty = next(number for number, clause in clauses.items() if not clause)
        proof.append(line_of(next_line + 1, [], [empty]))
    return listed, proof


def is_emptied(made: Any, section: Any) -> bool:
    """Whether a section is right and ends with `e empty`."""
    return str(module("sections").judge(made, section)).startswith("right empty")


def written(name: str, made: Any, lines: Sequence[Any]) -> None:
    """Writes NAME.cnf and NAME.lrat."""
    listed, proof = refutation(made, lines)
    for ending, texts in ((".cnf", module("cnf").dimacs(made.last, listed)), (".lrat", proof)):
        with open(name + ending, "w", encoding="ascii") as file:
            file.writelines(line + "\n" for line in texts)


def fault_in(listed: list[list[int]], proof: list[str]) -> str | None:
    """What the plain reader of refutations in checks/ finds wrong; nothing where the clauses are refuted."""
    reader = module("lrat_reader")
    try:
        return None if reader.refutes(listed, proof) else "no empty clause"
    except reader.Wrong as wrong:
        return str(wrong)
