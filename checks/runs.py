#!/usr/bin/env python3
"""A plain second reading of a run: Out, Err and the code, by brute force from the definition of a model.

Reads books of runs, as cc_rows does, and prints for each case the lines of Out and Err and the code. Of logs only the one that convert
mode writes is foretold, of the logs of sure and forever mode which headings they have, and no budget is taken to be spent. Words are those
of the plain form. Nothing here is meant to be fast: a few constants and horizons, made descriptions of at most four locks, exports of small
clause lists, all models of at most 20 variables. General
mode is read by general.py, and forever mode by forever.py.

Usage: checks/runs.py BOOK..
"""
import math
import re

from reference import (
    Refused, check_asked_limits, check_ground_limits, check_steps, described, first_files, is_boolean_constant, place_text,
    run_deep, show_books,
)
import forever
import general
from cnf import CnfList, Fault, dimacs, model_text, models, read_cnf
from sections import Theory, clause_list, converted, is_history, is_path, judge, paths, refusal_in, split_log, split_sure_log, version_of

USAGE = (
    "usage: ccalc [--mode list|check|make|convert|why|export|models|modelscheck|sure|surecheck|general|generalcheck|forever|forevercheck] [--query LABEL] [--count N] [--budget B] [--after KEY] "
    "[--log NAME] [--form 1|2] [--to NAME] [--key KEY] [--horizon M] [--size N] [FILE]"
)
OPTIONS = (
    "--mode", "--query", "--count", "--budget", "--after", "--log", "--form", "--to", "--key", "--horizon", "--size",
)
# What goes with each mode; what is marked is required. FILE is required in all but make mode, where it is none.
TAKEN = {
    "list": "--query --count --budget --after --log --form",
    "check": "--query --after --log!",
    "make": "--budget --size!",
    "convert": "--query --after --log! --to!",
    "why": "--key!",
    "export": "--query --horizon!",
    "models": "--count --budget --log --form",
    "modelscheck": "--log!",
    "sure": "--query --budget --log",
    "surecheck": "--query --log!",
    "general": "--query --count --budget --log",
    "generalcheck": "--query --log!",
    "forever": "--query --budget --log",
    "forevercheck": "--query --log!",
}
WITHOUT_CLAIM = ("sure", "surecheck", "general", "generalcheck")
NAMES = {1: "Words", 15: "NoQuery", 18: "Key"}


LOCKS = 4
PAIRS = 1000000  # of values of one position, twice
ROWS = 1000000  # of a state, of which the paths are
VARIABLES = 20  # of a CNF text whose models are all listed
VARIABLES_COUNTED = 10000  # of one of which some are
RULES = 8000000
CNF_VARIABLES = 1000000
FILE_BYTES = 1048576
NOT_READ = ["not read"]


class Stop(Exception):
    """The run ends with these lines of Err and this code."""


class Large(Exception):
    """The made description, the clause list or the CNF text is larger than those that are read here."""


def refuse(number):
    raise Stop([f"ccalc: {number} {NAMES[number]}"] + ([USAGE] if number == 1 else []), 2)


def number_of(text, most, least=1):
    if not re.fullmatch(r"[0-9]{1,7}", text) or not least <= int(text) <= most:
        refuse(1)
    return int(text)


class Words:
    """What words of the plain form ask for."""

    def __init__(self, words):
        given = {}
        while len(words) >= 2 and words[0] in OPTIONS and words[0] not in given and not words[1].startswith("-"):
            given[words[0]], words = words[1], words[2:]
        self.mode = given.pop("--mode", "list")
        if len(words) > 1 or any(word.startswith("-") for word in words):
            refuse(1)
        taken = TAKEN.get(self.mode, "").split()
        if not taken or not set(given) <= {name.rstrip("!") for name in taken} or (self.mode == "make") != (not words):
            refuse(1)
        if not {name.rstrip("!") for name in taken if name.endswith("!")} <= set(given) or given.get("--form", "1") not in ("1", "2"):
            refuse(1)
        self.count = number_of(given["--count"], 1000000) if "--count" in given else None
        self.size = number_of(given["--size"], 100) if "--size" in given else None
        self.budget = number_of(given.get("--budget", "200000"), 2000000)
        if words and re.search("[\x00-\x1f\x7f]|\xc2[\x80-\x9f]", words[0]):
            refuse(1)  # the name has a control character: in bytes, each read as one letter
        self.file = words[0] if words else "made"
        self.label, self.after, self.log = given.get("--query"), given.get("--after"), given.get("--log")
        self.key, self.horizon = given.get("--key"), None
        if "--horizon" in given:
            self.horizon = number_of(given["--horizon"], 9999999, 0)


def made_text(size):
    """The made description of a size."""
    names = [f"k{number}" for number in range(1, size + 1)]
    lines = [
        ":- sorts lock.",
        f":- objects {', '.join(names)} :: lock.",
        ":- variables L :: lock.",
        ":- constants unlocked(lock) :: inertialFluent; turn(lock) :: exogenousAction.",
        "turn(L) causes unlocked(L).",
        "nonexecutable turn(L) if unlocked(L).",
    ]
    lines += [f"nonexecutable turn({later}) if -unlocked({name})." for name, later in zip(names, names[1:])]
    lines.append(f":- query maxstep :: 0..{size}; 0: [/\\L | -unlocked(L)]; maxstep: unlocked({names[-1]}).")
    return "".join(line + "\n" for line in lines).encode()


def key_of(text):
    if not re.fullmatch(r"[0-9]{1,9}:(?:[0-9]{1,9}(?:,[0-9]{1,9})*)?", text):
        refuse(18)
    horizon, _, row = text.partition(":")
    return int(horizon), [int(index) for index in row.split(",")] if row else []


def shown(theory, name, value):
    if is_boolean_constant(theory.symbols[name]):
        return [name] if value == "true" else []
    return [f"{name}={value}"]


def history_lines(theory, row):
    lines = []
    for step in range(theory.horizon + 1):
        if step > 0:
            lines.append("  ".join(["ACTIONS:"] + [text for name in theory.actions for text in shown(theory, name, row[(step - 1, name)])]))
        lines.append("  ".join([f"{step}:"] + [text for name in theory.fluents for text in shown(theory, name, row[(step, name)])]))
    return lines + [f"key {theory.horizon}:" + ",".join(map(str, theory.indexes(row)))]


def chosen(description, label):
    for query in description.queries:
        if label is None or query.label == label:
            return query
    return refuse(15)


def by_paths(description, query, horizon):
    theory, found = paths(description, horizon, query.conditions)
    return theory, [row for row in found if is_history(theory, query, True, row)]


def listing(description, query, count, key, histories=by_paths):
    out = []
    horizons = range(query.range.lo, query.range.hi + 1) if key is None else [key[0]]
    for horizon in horizons:
        theory, found = histories(description, query, horizon)
        rows = [row for row in found if key is None or theory.indexes(row) > key[1]]
        if not rows and key is None:
            out.append(f"horizon {horizon}: no history")
            continue
        for number, row in enumerate(rows[:count], 1):
            out += [f"horizon {horizon}: history {number}"] + history_lines(theory, row)
        if count is not None and len(rows) >= count:
            return out + [f"horizon {horizon}: asked number reached, {count} listed"], 7
        return out + [f"horizon {horizon}: complete, {len(rows)} listed"], 0
    return out + ["no history"], 1


def example_lines(theory, number, row):
    return [f"horizon {theory.horizon}: example {number}"] + history_lines(theory, row)


def is_so(row, position, value):
    return row[position] == value


def answer_of(rows, examples, position, value):
    """Whether all, some or none of the histories have the atom, and which example is the first that has it."""
    having = [is_so(row, position, value) for row in rows]
    if all(having):
        return "certain"
    if not any(having):
        return "impossible"
    return f"possible, example {[is_so(row, position, value) for row in examples].index(True) + 1}"


def first_with_history(description, query):
    """The theory and the histories of the first horizon of the range that has one; none where none has."""
    if math.prod(Theory(description, 0).sizes) > ROWS:
        raise Large
    for horizon in range(query.range.lo, query.range.hi + 1):
        theory, rows = paths(description, horizon, query.conditions)
        if rows:
            return theory, rows
    return None, []


def being_sure(description, query, spent=None):
    """What sure mode prints; where a search was spent, up to it: (M,) for that of a horizon, (M, P, V) for that of an atom."""
    theory, rows = first_with_history(description, query)
    out = []
    for horizon in range(query.range.lo, theory.horizon if rows else query.range.hi + 1):
        if spent == (horizon,):
            return out + ["budget spent"], 3
        out.append(f"horizon {horizon}: no history")
    if not rows:
        return out + ["no history"], 1
    if spent == (theory.horizon,):
        return out + ["budget spent"], 3
    examples = [rows[0]]
    out += example_lines(theory, 1, rows[0])
    for place, position in enumerate(theory.positions):
        values = theory.domains[position[1]]
        for index, value in enumerate(values):
            if any(is_so(row, position, value) for row in examples):
                continue
            if spent == (theory.horizon, place, index):
                return out + ["budget spent"], 3
            least = next((row for row in rows if is_so(row, position, value)), None)
            if least:
                examples.append(least)
                out += example_lines(theory, len(examples), least)
        out += [f"{position[0]}: {position[1]}={value} {answer_of(rows, examples, position, value)}" for value in values]
    return out + ["complete"], 0


def impossible_atoms(description, query):
    """The headings of a log of sure mode: each impossible atom, in order."""
    theory, rows = first_with_history(description, query)
    atoms = [(place, position, value) for place, position in enumerate(theory.positions if rows else []) for value in theory.domains[position[1]]]
    impossible = [atom for atom in atoms if not any(is_so(row, *atom[1:]) for row in rows)]
    return [(theory.horizon, place, theory.domains[position[1]].index(value)) for place, position, value in impossible]


def lines_of_row(description, horizon, indexes):
    theory = Theory(description, horizon)
    return history_lines(theory, theory.row_of(indexes))


def lasting(description, query, spent=None):
    """What forever mode prints; where a search was spent, up to it: ("h", M) for that of a horizon, ("i", K) for that of a step."""
    moves = forever.Moves(description)
    first, lo, out, count, example = forever.first_horizon(moves, query), query.range.lo, [], 0, None
    for count, horizon in enumerate(range(lo, min(query.range.hi, lo + forever.MOST - 1) + 1), 1):
        if spent == ("h", horizon):
            return out + ["budget spent"], 3
        if horizon == first:
            found = lines_of_row(description, horizon, forever.least(moves, query, horizon))
            if query.claim:
                return out + [f"horizon {horizon}: counterexample"] + found + ["claim fails"], 1
            return out + [f"horizon {horizon}: history 1"] + found + ["history found"], 0
        out.append(f"horizon {horizon}: " + ("claim holds" if query.claim else "no history"))
        if spent == ("i", count):
            return out + ["budget spent"], 3
        example = forever.least(moves, forever.step_query(query, count), count)
        if example is None:
            assert first is None, f"the induction over {count} steps holds, and horizon {first} has a history"
            every = ("claim holds at every horizon from {}", 0) if query.claim else ("no history at any horizon from {}", 1)
            return out + [f"induction over {count} steps: holds", every[0].format(lo) + " on"], every[1]
        out.append(f"induction over {count} steps: fails")
    return out + [f"induction over {count} steps: example"] + lines_of_row(description, count, example) + ["not settled"], 3


def claiming(description, query):
    out, any_met = [], False
    for horizon in range(query.range.lo, query.range.hi + 1):
        theory, met = paths(description, horizon, query.conditions)
        against = [row for row in met if is_history(theory, query, True, row)]
        if against:
            return out + [f"horizon {horizon}: counterexample"] + history_lines(theory, against[0]) + ["claim fails"], 1
        out.append(f"horizon {horizon}: " + ("claim holds" if met else "no history of the conditions"))
        any_met = any_met or bool(met)
    return out + ["claim holds" if any_met else "claim holds, no history meets the conditions"], 0


def check_row(description, key):
    sizes = Theory(description, key[0]).sizes
    if len(key[1]) != len(sizes) or any(index >= size for index, size in zip(key[1], sizes)):
        refuse(18)


def checked_key(description, query, text):
    key = key_of(text)
    if query.claim is not None or not query.range.lo <= key[0] <= query.range.hi:
        refuse(18)
    check_row(description, key)
    return key


def named(asked, files):
    """The description, the query and the key that words name, or those of the made description; in why mode there is no query."""
    if asked.mode == "make":
        if asked.size > LOCKS:
            raise Large
        files = {asked.file: made_text(asked.size)}
    is_wide = asked.mode in ("general", "generalcheck")
    description, stop = described(files, asked.file, is_wide)
    if stop == "read fault":
        raise Stop(["ccalc: read fault"], 4)
    if stop is not None:
        raise Stop(["ccalc: " + stop_line(stop)], 2)
    try:
        check_ground_limits(description.table, description.laws, is_wide)
        if asked.mode == "why":
            return description, None, key_at_most(description, 1000, asked.key)
        query = chosen(description, asked.label)
        check_steps(description.table, query, asked.horizon)
        parts = list(query.conditions) + ([query.claim] if query.claim else [])
        check_asked_limits(description.table, parts)
        if asked.mode in WITHOUT_CLAIM and query.claim is not None:
            raise Refused(20, query.place)
    except Refused as refused:
        raise Stop(["ccalc: " + stop_line("refused " + refused.text(description.file_names))], 2)
    return description, query, None if asked.after is None else checked_key(description, query, asked.after)


def key_at_most(description, horizon, text):
    key = key_of(text)
    if key[0] > horizon:
        refuse(18)
    check_row(description, key)
    return key


def cause_of(theory, states, row, position, file_names):
    """Why the row has its value at the position: the first rule, in order, that has this atom for its head and a true body."""
    if len(theory.domains[position[1]]) == 1:
        return "one value"
    for (head, parts), place in zip(theory.rules, theory.places):
        if head == (*position, row[position]) and theory.body_holds(parts, states):
            return "initial" if place is None else place_text(place, file_names)
    raise AssertionError("a path has a cause for each value")


def check_rules(description, horizon):
    """The number of rules is within its limit."""
    zero = Theory(description, 0)
    static = sum(law.kind == "static" for law in zero.laws)
    initial = len(zero.rules) - static
    if initial + static * (horizon + 1) + (len(zero.laws) - static) * horizon > RULES:
        raise Stop([f"ccalc: 14 Limit rules {RULES}"], 2)


def explaining(description, key):
    check_rules(description, key[0])
    theory = Theory(description, key[0])
    row = theory.row_of(key[1])
    if not is_path(description, theory, row):
        return ["not a history"], 1
    states = theory.states(row)
    causes = [cause_of(theory, states, row, position, description.file_names) for position in theory.positions]
    return [f"{step}: {name}={row[(step, name)]}: {cause}" for (step, name), cause in zip(theory.positions, causes)], 0


def summing(description, query, size):
    out, code = listing(description, query, None, None)
    empty = [line for line in out if line.endswith(": no history")]
    horizon, listed, word = empty[-1].split(" ")[1][:-1] if empty else 0, 0, "none"
    if code == 0:
        horizon, listed, word = re.fullmatch(r"horizon ([0-9]+): complete, ([0-9]+) listed", out[-1]).groups() + ("complete",)
    return [f"locks {size}", f"empty horizons {len(empty)}", f"horizon {horizon}", f"histories {listed}", f"ending {word}"], code


class Subject:
    """What a log is about: whether it has a claim, which horizons come in turn, and the clause list of a section."""

    def __init__(self, claimed, first, last, list_of):
        self.claimed, self.first, self.last, self.list_of = claimed, first, last, list_of


def subject_of(description, query, key):
    first, last = (query.range.lo, query.range.hi) if key is None else (key[0], key[0])

    def list_of(letter, horizon):
        return clause_list(description, query, horizon, letter == "h" and query.claim is not None, key[1] if key else None)

    return Subject(query.claim is not None, first, last, list_of)


def subject_of_models(cnf):
    return Subject(False, 0, 0, lambda letter, horizon: CnfList(*cnf))


def verdict_of(subject, log):
    """Whether a log is accepted, with its horizons and the number of its blocks, or its first wrong line and the cause."""
    sections, wrong = split_log(log)
    if wrong:
        return ("refused",) + wrong
    first, last = subject.first, subject.last
    horizon, is_claim_next, blocked, line = first, False, 0, 2
    for letter, at, heading, lines in sections:
        on_conditions = subject.claimed and not is_claim_next
        if letter != ("w" if on_conditions else "h") or at != horizon or at > last:
            return "refused", heading, "section"
        found = judge(subject.list_of(letter, at), (letter, at, heading, lines)).split()
        if found[0] == "wrong":
            return "refused", int(found[1]), " ".join(found[2:])
        if found[0] == "trailed":
            # An end word that is not accepted is the first wrong line itself, whatever stands behind it.
            if found[1] == "empty" or (found[1] == "found" and on_conditions):
                return "refused", int(found[2]) + 1, found[3]
            return "refused", int(found[2]), "not refuted"
        word, blocked, line = found[1], blocked + int(found[3]), int(found[5]) + 1
        if word == "empty":
            horizon, is_claim_next = horizon + 1, False
        elif word == "found" and on_conditions:
            is_claim_next = True
        else:
            return "refused", line - 1, "not refuted"
    if is_claim_next or horizon == first:
        return "refused", line, "section"
    return "accepted", first, horizon - 1, blocked


def with_atom(made, position, value):
    """A clause list with the clause of an atom behind it."""
    made.write([made.first[position] + value])
    return made


def sure_verdict_of(description, query, log):
    """Whether a log of impossible atoms is accepted, with the number of its headings, or its first wrong line and the cause."""
    sections, wrong = split_sure_log(log)
    if wrong:
        return ("refused",) + wrong
    for (horizon, position, value), line, lines in sections:
        if not query.range.lo <= horizon <= query.range.hi:
            return "refused", line, "section"
        sizes = Theory(description, horizon).sizes
        if position >= len(sizes) or value >= sizes[position]:
            return "refused", line, "section"
        if sum(size * size for size in sizes) > PAIRS:
            raise Large
        made = with_atom(clause_list(description, query, horizon, False, None), position, value)
        refusal = refusal_in(judge(made, ("a", horizon, line, lines)))
        if refusal:
            return "refused", *refusal
    return "accepted", len(sections)


def spent_in(log):
    """Which search a log of sure mode says was spent, by its last heading."""
    headings = [line for line in log.decode().split("\n") if line[:2] in ("h ", "a ")]
    return tuple(int(number) for number in headings[-1].split()[1:]) if headings else None


def sure_log_fault(description, query, log, spent, budget):
    """What is wrong with the log of a run of sure mode that was whole, or ended with a search that was spent; None where nothing is."""
    impossible = impossible_atoms(description, query)
    if spent is None:
        headings = [heading for heading, _, _ in split_sure_log(log)[0] or []]
        verdict = sure_verdict_of(description, query, log)
        return None if verdict == ("accepted", len(impossible)) and headings == impossible else (verdict, headings)
    lines = log.decode().split("\n")[:-1]
    last = max(place for place, line in enumerate(lines) if line[:2] in ("h ", "a "))
    if len(spent) == 1:
        within = last == 1
        subject = Subject(False, spent[0], spent[0], subject_of(description, query, None).list_of)
        verdict = verdict_of(subject, b"ccalc log 1\n" + log.partition(b"\n")[2])
    else:
        within = [heading for heading, _, _ in split_sure_log(log)[0] or []] == [atom for atom in impossible if atom < spent] + [spent]
        verdict = sure_verdict_of(description, query, log)
    counted = sum(line.startswith("d ") and not line.startswith("d 0 ") for line in lines[last:])
    whole = within and lines[-1] == "e spent" and counted == budget and verdict == ("refused", len(lines), "not refuted")
    return None if whole else (verdict, counted)


def checking(verdict, in_words="horizons {1} to {2}, blocked {3}"):
    if verdict[0] == "accepted":
        return ["log accepted: " + in_words.format(*verdict)], 0
    return [f"log refused: line {verdict[1]}, {verdict[2]}"], 1


def other_version(subject, log):
    """An accepted log in its other version."""
    return converted(log, lambda letter, horizon: len(subject.list_of(letter, horizon).clauses))


def exporting(description, query, horizon):
    check_rules(description, horizon)
    if sum(size * size for size in Theory(description, horizon).sizes) > PAIRS:
        raise Large
    made = clause_list(description, query, horizon, query.claim is not None, None)
    return dimacs(made.last, made.clauses, f"ccalc horizon {horizon}"), 0


def file_named(name, files):
    if name not in files:
        raise Stop(["ccalc: read fault"], 4)
    return files[name]


def cnf_of(asked, files):
    text = file_named(asked.file, files)
    if len(text) > FILE_BYTES:
        raise Stop([f"ccalc: {asked.file}:1: 14 Limit file bytes {FILE_BYTES}"], 2)
    try:
        cnf = read_cnf(text)
    except Fault as fault:
        raise Stop([f"ccalc: {asked.file}:{fault.args[0]}: 19 Dimacs"], 2)
    if cnf[0] > CNF_VARIABLES:
        raise Stop([f"ccalc: 14 Limit cnf variables {CNF_VARIABLES}"], 2)
    return cnf


def modelling(cnf, count):
    if cnf[0] > (VARIABLES if count is None else VARIABLES_COUNTED):
        raise Large
    out = []
    for number, row in enumerate(models(*cnf), 1):
        out.append(f"model {number}:{model_text(row)}")
        if number == count:
            return out + [f"asked number reached, {count} listed"], 7
    return (out + [f"complete, {len(out)} listed"], 0) if out else (["no model"], 1)


def answer(words, files):
    """Out, Err, the code, and the log of convert mode where one is begun."""
    log = None
    try:
        asked = Words(words)
        if asked.mode == "models":
            out, code = modelling(cnf_of(asked, files), asked.count)
            return out, [], code, log
        if asked.mode == "modelscheck":
            cnf = cnf_of(asked, files)
            out, code = checking(verdict_of(subject_of_models(cnf), file_named(asked.log, files)), "blocked {3}")
            return out, [], code, log
        description, query, key = named(asked, files)
        if asked.mode in ("check", "convert"):
            given, subject = file_named(asked.log, files), subject_of(description, query, key)
            out, code = checking(verdict_of(subject, given))
            if asked.mode == "convert" and code == 0:
                log = other_version(subject, given)
        elif asked.mode == "export":
            out, code = exporting(description, query, asked.horizon)
        elif asked.mode == "why":
            out, code = explaining(description, key)
        elif asked.mode == "make":
            out, code = summing(description, query, asked.size)
        elif asked.mode == "sure":
            out, code = being_sure(description, query)
        elif asked.mode == "general":
            out, code = listing(description, query, asked.count, None, general.histories)
        elif asked.mode == "generalcheck":
            out, code = checking(general.general_verdict_of(description, query, file_named(asked.log, files)), "histories {1}")
        elif asked.mode == "surecheck":
            out, code = checking(sure_verdict_of(description, query, file_named(asked.log, files)), "impossible {1}")
        elif asked.mode == "forever":
            out, code = lasting(description, query)
        elif asked.mode == "forevercheck":
            verdict = forever.verdict_of(query, file_named(asked.log, files), forever.list_under(description, query))
            out, code = checking(verdict, "every horizon from {1} on, by induction over {2} steps")
        elif query.claim:
            out, code = claiming(description, query)
        else:
            out, code = listing(description, query, asked.count, key)
        return out, [], code, log
    except Stop as stop:
        return [], stop.args[0], stop.args[1], log


def searched(words, files):
    """What the log of a run that searches is about; none where it is refused, searches nothing, or is not read here."""
    try:
        asked = Words(words)
        if asked.mode == "models":
            cnf = cnf_of(asked, files)
            return subject_of_models(cnf) if cnf[0] <= VARIABLES_COUNTED else None
        return subject_of(*named(asked, files)) if asked.mode in ("list", "make") else None
    except (Stop, Large):
        return None


def asked_in(mode, words, files):
    """What the words ask in this mode: the description, the query and the budget; none where it is refused, or another mode is asked."""
    try:
        asked = Words(words)
        return (*named(asked, files)[:2], asked.budget) if asked.mode == mode else None
    except (Stop, Large):
        return None


def stop_line(stop):
    """`refused NUMBER NAME .. FILE:LINE` as the line of Err."""
    words = stop.split(" ")[1:]
    if re.fullmatch(r".*:[0-9]+", words[-1]):
        return f"{words[-1]}: " + " ".join(words[:-1])
    return " ".join(words)


def printed_cases(name):
    """The cases that cc_rows printed: each a title and its lines."""
    cases = []
    with open(name, encoding="latin-1") as file:
        for line in file.read().split("\n"):
            if line.startswith("=== "):
                cases.append((line[4:], []))
            elif cases and line:
                cases[-1][1].append(line)
    return cases


def words_of(found):
    return found.get("words", b"").decode("latin-1").split("\n")[:-1]


def bytes_in_hex(text):
    """The bytes whose hex digits stand in a text; what is none is left out."""
    digits = re.sub(rb"[^0-9A-Fa-f]", b"", text).decode()
    return bytes.fromhex(digits[: len(digits) // 2 * 2])


def desk_files(files):
    """The files of the desk of a case: `hex NAME` has the bytes of the file NAME in hex, and `log` may be cut."""
    found = first_files([(name[4:], bytes_in_hex(text)) if name.startswith("hex ") else (name, text) for name, text in files])
    cut = re.search(rb"^cut ([0-9]+)$", found.get("desk", b""), re.MULTILINE)
    if cut:
        found["log"] = found["log"][: max(len(found["log"]) - int(cut.group(1)), 0)]
    return found


def hex_lines(log):
    """The bytes of a log in hex, at most 32 a line."""
    return [log[at : at + 32].hex(" ").upper() for at in range(0, len(log), 32)]


def log_lines(log, counted=False):
    """A log as cc_rows prints it, or how many lines or bytes it has."""
    if counted:
        return [f"log has {len(log)} bytes" if version_of(log) == 2 else f"log has {log.count(10)} lines"]
    if version_of(log) == 2:
        return [f"log in hex: {line}" for line in hex_lines(log)]
    return [f"log: {line}" for line in log.decode().split("\n")[:-1]]


def printed_log(lines):
    """The log that cc_rows printed so; none where there is none."""
    in_hex = [line.partition(": ")[2] for line in lines if line.startswith("log in hex: ")]
    text = "".join(line[5:] + "\n" for line in lines if line.startswith("log: ")).encode()
    return bytes_in_hex("".join(in_hex).encode()) if in_hex else text


def run_lines(files):
    """What is printed of a case: the lines of Out and Err, the log of convert mode, and the code; or that a made description is too large."""
    found = desk_files(files)
    try:
        out, err, code, log = answer(words_of(found), found)
    except (Large, general.Large, forever.Large):
        return NOT_READ
    shown = [f"out: {line}" for line in out] + [f"err: {line}" for line in err]
    if log is not None:
        counted = found.get("desk", b"").startswith(b"counted")
        shown += ["log begun"] + log_lines(log, counted)
    return shown + [f"code {code}"]


if __name__ == "__main__":
    run_deep(lambda: show_books(run_lines))
