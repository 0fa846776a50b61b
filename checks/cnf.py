#!/usr/bin/env python3
"""A plain second reading of CNF texts, from docs/formats.md: what they spell, the line of their first fault, their models, and the
clause list that a log of models is about.

Usage: checks/cnf.py FILE..      prints the models of each, or the line of its first fault
"""
import re
import sys

from sections import Clauses

NUMBER = re.compile(rb"(?:0|-?[1-9][0-9]{0,8})\Z")
COUNT = re.compile(rb"(?:0|[1-9][0-9]{0,8})\Z")


class Fault(Exception):
    """The text breaks a rule at this line."""


def told_lines(text):
    """The lines that are no comments, each with its number, and the number of the last line."""
    told, last = [], 1
    for last, line in enumerate(re.findall(rb"[^\n]*\n|[^\n]+", text), 1):
        if line.startswith(b"%"):
            break
        if not line.startswith(b"c"):
            told.append((last, re.findall(rb"[^ \t\r\n]+", line)))
    return told, last


def read_cnf(text):
    """How many variables there are, and the clauses, each a list of signed numbers."""
    told, last = told_lines(text)
    if not told:
        raise Fault(last)
    first, heading = told[0]
    if len(heading) != 4 or heading[:2] != [b"p", b"cnf"] or not all(COUNT.match(word) for word in heading[2:]):
        raise Fault(first)
    variables, count = int(heading[2]), int(heading[3])
    clauses, open_clause = [], []
    for number, words in told[1:]:
        for word in words:
            if not NUMBER.match(word) or abs(int(word)) > variables or len(clauses) == count:
                raise Fault(number)
            if word == b"0":
                clauses.append(open_clause)
                open_clause = []
            else:
                open_clause.append(int(word))
    if open_clause or len(clauses) < count:
        raise Fault(last)
    return variables, clauses


def models(variables, clauses):
    """The models, each a list of 0 and 1, in ascending order: a clause is asked as soon as its last variable has a value."""
    asked = {}
    for clause in clauses:
        asked.setdefault(max(map(abs, clause), default=0), []).append(clause)
    row = []

    def may_go_on():
        return all(any(row[abs(literal) - 1] == (literal > 0) for literal in clause) for clause in asked.get(len(row), ()))

    goes_on = may_go_on()
    while True:
        if goes_on and len(row) == variables:
            yield list(row)
            goes_on = False
        if goes_on:
            row.append(0)
        else:
            while row and row[-1] == 1:
                row.pop()
            if not row:
                return
            row[-1] = 1
        goes_on = may_go_on()


def model_text(row):
    return "".join(f" {variable if value else -variable}" for variable, value in enumerate(row, 1))


class CnfList(Clauses):
    """The clause list of a CNF text: a position with two values for each variable."""

    def __init__(self, variables, clauses):
        super().__init__(sizes=[2] * variables)
        self.write_positions()
        for clause in clauses:
            self.write([2 * literal for literal in clause])


def dimacs(variables, clauses, comment=None):
    """Clauses as a CNF text."""
    lines = [] if comment is None else [f"c {comment}"]
    lines.append(f"p cnf {variables} {len(clauses)}")
    return lines + ["".join(f"{literal} " for literal in clause) + "0" for clause in clauses]


def main():
    for name in sys.argv[1:]:
        with open(name, "rb") as file:
            text = file.read()
        try:
            for row in models(*read_cnf(text)):
                print(f"{name}:{model_text(row)}")
        except Fault as fault:
            print(f"{name}: fault at line {fault.args[0]}")


if __name__ == "__main__":
    if len(sys.argv) < 2:
        sys.exit("usage: checks/cnf.py FILE..")
    main()
