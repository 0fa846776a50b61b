#!/usr/bin/env python3
"""A plain reader of refutations in the LRAT form, by unit propagation alone.

A refutation is of the clauses of a CNF text, which have the numbers 1, 2 and so on. A line of it has the number of a clause, greater
than all before it, the clause's literals, 0, numbers of clauses that are there, and 0: where all literals of the clause are false, each
clause that is named has one literal that is not false, and none that is true, which is then true; the last one has none. A line
`N d N.. 0` takes clauses away. Steps by resolution asymmetric tautologies, which have negative numbers, are refused.

Usage: checks/lrat_reader.py CNF LRAT
"""
import sys

from cnf import Fault, read_cnf


class Wrong(Exception):
    """What is wrong with a line of a refutation."""


def follow(clauses, clause, hints):
    """Looks whether unit propagation over the hints refutes the denial of the clause."""
    true = {-literal for literal in clause}
    for place, hint in enumerate(hints):
        if hint not in clauses:
            raise Wrong(f"there is no clause {hint}")
        if clauses[hint] & true:
            raise Wrong(f"clause {hint} is true already")
        left = [literal for literal in clauses[hint] if -literal not in true]
        if not left:
            if place + 1 < len(hints):
                raise Wrong(f"clause {hint} has no literal left, and is not the last")
            return
        if len(left) > 1:
            raise Wrong(f"clause {hint} has {len(left)} literals left")
        true.add(left[0])
    raise Wrong("there is no clause without a literal left")


def read_line(clauses, last, words):
    """Takes in a line; the number of its clause."""
    if words[1:2] == ["d"]:
        for number in map(int, words[2:-1]):
            if clauses.pop(number, None) is None:
                raise Wrong(f"there is no clause {number} to take away")
        return last
    numbers = [int(word) for word in words]
    if numbers.count(0) != 2 or numbers[-1] != 0 or numbers[0] <= last:
        raise Wrong("this is no line of a refutation")
    end = numbers.index(0, 1)
    clause, hints = numbers[1:end], numbers[end + 1 : -1]
    if any(hint < 0 for hint in hints) or any(-literal in clause for literal in clause):
        raise Wrong("the line has a negative hint, or a variable in both signs")
    follow(clauses, clause, hints)
    clauses[numbers[0]] = frozenset(clause)
    return numbers[0]


def refutes(clauses, lines):
    """Whether lines refute the clauses; raises what is wrong, with the line."""
    held = {number: frozenset(clause) for number, clause in enumerate(clauses, 1)}
    last, found = len(clauses), False
    for number, line in enumerate(lines, 1):
        try:
            last = read_line(held, last, line.split())
        except (Wrong, ValueError, IndexError) as wrong:
            raise Wrong(f"line {number}: {wrong}")
        found = found or held.get(last) == frozenset()
    return found


def main():
    with open(sys.argv[1], "rb") as file:
        clauses = read_cnf(file.read())[1]
    with open(sys.argv[2]) as file:
        lines = file.read().splitlines()
    try:
        found = refutes(clauses, lines)
    except Wrong as wrong:
        sys.exit(f"wrong: {wrong}")
    print("refuted" if found else "not refuted")
    return 0 if found else 1


if __name__ == "__main__":
    if len(sys.argv) != 3:
        sys.exit("usage: checks/lrat_reader.py CNF LRAT")
    try:
        sys.exit(main())
    except Fault as fault:
        sys.exit(f"line {fault.args[0]}: no CNF text")
