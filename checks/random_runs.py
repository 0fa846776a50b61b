#!/usr/bin/env python3
"""Makes a book of random runs in list and export mode over small descriptions, and in make mode, for cc_rows and checks/runs.py.

A description has two to four constants with few values, in every second case some with numbers, some laws of each kind with sums and
comparisons where there are numbers, and one or two queries, some with a claim; the words ask for a label, a number of histories, the
histories after a key, a version of the log, or, in one case in sixteen, for the clause list of a horizon. About one case in eight has
words, a query or a key that is refused. About one in ten asks for a made description, or nearly does. The same number of cases and the
same seed give the same book. With --sure all cases are in sure mode, most with a log, a third with a small budget. With
--general they are in general mode, and most heads are formulas. With --forever they are in forever mode: in two of three a counter goes
over a few numbers by ways that are drawn, so that some are never reached and inductions hold over one step, over more, or over none.

Usage: checks/random_runs.py [--sure|--general|--forever] CASES SEED      (the book goes to standard output)
"""
import random
import re
import sys


def chance(number):
    return random.random() < number


class Description:
    """Constants, each with its kind and its values, and the texts of statements over them."""

    def __init__(self):
        self.lines = [":- sorts s. :- objects a, b, c :: s. :- variables V :: s."]
        self.numbers = []  # the values of the sort n, in its order
        if chance(0.55):
            self.declare_numbers()
        self.fluents, self.determined, self.actions = {}, {}, {}
        for name in ["p", "q", "r"][: random.randint(1, 2)]:
            self.fluents[name] = self.declare(name, random.choice(["simpleFluent", "inertialFluent", "inertialFluent"]))
        if chance(0.3):
            self.determined["d"] = self.declare("d", "sdFluent")
        for name in ["x", "y"][: random.randint(0, 2)]:
            self.actions[name] = self.declare(name, random.choice(["action", "exogenousAction", "exogenousAction"]), True)
        for _ in range(random.randint(0, 5)):
            self.lines.append(self.law())

    def declare_numbers(self):
        """A sort of one to four numbers, some put into a sort below it too, and a variable over it."""
        numbers = [str(number) for number in random.sample(range(5), random.choice([1, 2, 3, 3, 4]))]
        low = random.randrange(3)
        if chance(0.4):
            self.lines.append(f":- sorts n. :- objects {low}..{low + len(numbers) - 1} :: n. :- variables N, M :: n.")
            self.numbers = [str(low + more) for more in range(len(numbers))]
        elif chance(0.5):
            self.lines.append(f":- sorts n. :- objects {', '.join(numbers)} :: n. :- variables N, M :: n.")
            self.numbers = numbers
        else:
            again = random.sample(numbers, random.randint(1, len(numbers)))
            both = [f"{', '.join(numbers)} :: n", f"{', '.join(again)} :: m"]
            random.shuffle(both)
            self.lines.append(f":- sorts n >> m. :- objects {'; '.join(both)}. :- variables N :: n; M :: m.")
            shown = both[0].split(" :: ")[0].split(", ") + both[1].split(" :: ")[0].split(", ")
            self.numbers = list(dict.fromkeys(shown))

    def declare(self, name, kind, is_boolean=False):
        if self.numbers and not is_boolean and chance(0.5):
            self.lines.append(f":- constants {name} :: {kind}(n).")
            return list(self.numbers)
        if is_boolean or chance(0.75):
            self.lines.append(f":- constants {name} :: {kind}.")
            return None
        self.lines.append(f":- constants {name} :: {kind}(s).")
        return ["a", "b", "c"]

    def is_number(self, constants, name):
        return constants[name] is not None and "a" not in constants[name]

    def sum(self, constants, variables=()):
        """A sum of one to three pieces over constants with numbers."""
        named = [name for name in constants if self.is_number(constants, name)]
        tokens = []
        for _ in range(random.choice([1, 1, 2, 2, 3])):
            kinds = [random.choice(["0", "1", "1", "2", "3", "4", "7"])] + [random.choice(named)] * 2 if named else ["1", "2"]
            tokens.append(random.choice(list(variables) + kinds))
        return "".join(piece if place == 0 else random.choice([" + ", " + ", " - "]) + piece for place, piece in enumerate(tokens))

    def comparison(self, constants, variables=()):
        sign = random.choice(["=", "\\=", "<", "=<", ">", ">="])
        return f"{self.sum(constants, variables)} {sign} {self.sum(constants, variables)}"

    def literal(self, constants):
        name = random.choice(list(constants))
        if any(self.is_number(constants, one) for one in constants) and chance(0.35):
            text = self.comparison(constants)
            return text if chance(0.8) else "[" + random.choice(["/\\", "\\/"]) + f"N | {self.comparison(constants, ['N'])}]"
        if constants[name] is None:
            return ("" if chance(0.5) else "-") + name
        return name + random.choice(["=", "=", "\\="]) + random.choice(constants[name])

    def atom(self, constants):
        """A literal that may be a head."""
        name = random.choice(list(constants))
        if self.is_number(constants, name) and chance(0.3):
            return f"{name}={random.choice(['5', '1+1', '3-1', '2-3', '0+0'])}"
        return ("" if chance(0.6) else "-") + name if constants[name] is None else f"{name}={random.choice(constants[name])}"

    def law_of_numbers(self):
        """A law with variables over numbers, whose head is there in some of its instances."""
        name = random.choice([one for one in self.fluents if self.is_number(self.fluents, one)])
        head = random.choice([f"{name}=N+1", f"{name}=N-1", f"N={name}", f"{name}=N+M", f"{name}=N-M"])
        test = f" where {self.comparison({}, ['N'] + (['M'] if 'M' in head else []))}" if chance(0.4) else ""
        variables = [one for one in "NM" if one in head]
        if self.actions and chance(0.7):
            cause = random.choice([" causes ", " may cause "])
            return f"{self.literal_of_action()}{cause}{head} if {self.comparison(self.fluents, variables)}{test}."
        return f"caused {head} if {self.comparison(self.fluents, variables)} after {name}={random.choice(variables)}{test}."

    def formula(self, constants, depth=2):
        if depth == 0 or chance(0.55):
            return self.literal(constants)
        mark = random.choice([" & ", " ++ ", " ->> ", " <-> "])
        return "(" + self.formula(constants, depth - 1) + mark + self.formula(constants, depth - 1) + ")"

    def states(self):
        return {**self.fluents, **self.determined}

    def law(self):
        states, all_ = self.states(), {**self.states(), **self.actions}
        kinds = ["caused", "caused", "constraint", "default", "after", "after"]
        kinds += ["causes", "causes", "may", "non", "action"] if self.actions else []
        kinds += ["noconcurrency"] if len(self.actions) > 1 and chance(0.2) else []
        if any(self.is_number(self.fluents, one) for one in self.fluents) and chance(0.3):
            return self.law_of_numbers()
        kind = random.choice(kinds)
        if kind == "caused":
            return f"caused {self.atom(states)} if {self.formula(states)}."
        if kind == "constraint":
            return f"constraint {self.formula(states)}."
        if kind == "default":
            return f"default {self.atom(states)}."
        if kind == "after":
            return f"caused {self.atom(self.fluents)} if {self.formula(states)} after {self.formula(all_)}."
        if kind == "causes":
            return f"{self.literal_of_action()} causes {self.atom(self.fluents)} if {self.formula(states)}."
        if kind == "may":
            return f"{self.literal_of_action()} may cause {self.atom(self.fluents)}."
        if kind == "non":
            return f"nonexecutable {self.literal_of_action()} if {self.formula(states)}."
        if kind == "action":
            return f"caused {self.atom(self.actions)} if {self.formula(all_)}."
        return "noconcurrency."

    def literal_of_action(self):
        return random.choice(list(self.actions))

    def condition(self, lo):
        """A step with a formula of what is there."""
        states, all_ = self.states(), {**self.states(), **self.actions}
        if chance(0.4):
            return f"maxstep: {self.formula(states)}"
        step = random.randint(0, lo)
        return f"{step}: {self.formula(states if step == lo else all_)}"

    def query(self, label, most=2):
        lo = random.randint(0, 2)
        hi = min(2, lo + random.choice([0, 0, 1, 2]))
        items = [f"label :: {label}", f"maxstep :: {lo}..{hi}" if hi > lo else f"maxstep :: {lo}"]
        items += [self.condition(lo) for _ in range(random.randint(0, most))]
        if chance(0.3):
            step, _, formula = self.condition(lo).partition(": ")
            items.append(f"claim :: {step}: {formula}")
        if chance(0.05):
            items.append(f"{lo + 1}: {self.formula(self.states())}")
        random.shuffle(items)
        return ":- query " + "; ".join(items) + ".", lo, hi

    def key(self, lo, hi):
        horizon = random.randint(lo, hi) if chance(0.9) else hi + 1
        constants = [v for v in self.states().values()], [v for v in self.actions.values()]
        sizes = [2 if v is None else len(v) for v in constants[0]]
        row = list(sizes)
        for _ in range(horizon):
            row += [2 if v is None else len(v) for v in constants[1]] + sizes
        indexes = [random.randrange(size) if chance(0.97) else size for size in row]
        if chance(0.04):
            indexes.append(0)
        return f"{horizon}:" + ",".join(str(index) for index in indexes)


class WideDescription(Description):
    """One whose heads are formulas of every operator, as often as they are definite."""

    def atom(self, constants):
        if chance(0.4):
            return super().atom(constants)
        text = self.formula(constants, random.choice([1, 1, 2]))
        return text if chance(0.6) else random.choice([f"-({text})", f"({text} & {super().atom(constants)})", f"({text} ++ {self.literal(constants)})"])

    def law_of_numbers(self):
        text = super().law_of_numbers()
        return text.replace("N=", "N\\=", 1) if text.startswith("caused N=") and chance(0.5) else text


class Ways:
    """A counter whose actions lead from numbers to numbers as they are drawn, or each number to the next one by itself, in every third
    case beside a switch; and a query on it. Often the numbers from `apart` on are not reached from those below it."""

    def __init__(self):
        self.last = random.randint(2, 6)
        self.is_driven = chance(0.7)
        self.apart = random.randint(1, 2) if chance(0.6) else self.last + 1
        self.actions = ["go", "turn"][: random.choice([1, 1, 1, 2])]
        self.switch = chance(0.33)
        kind = "simpleFluent" if self.is_driven else random.choice(["inertialFluent", "inertialFluent", "simpleFluent"])
        switch = "; on :: inertialFluent" if self.switch else ""
        self.lines = [
            f":- sorts n. :- objects 0..{self.last} :: n. :- variables X :: n.",
            f":- constants c :: {kind}(n){switch}; {', '.join(self.actions)} :: exogenousAction.",
        ]
        self.lines += self.drift() if self.is_driven else self.ways(kind)
        self.lines += ["noconcurrency."] if len(self.actions) > 1 and chance(0.8) else []
        self.lines += [random.choice(["go causes on if -on.", "go causes -on.", f"constraint on ->> c<{self.last}."])] if self.switch else []
        self.lines += self.riddle() if chance(0.25) else []

    def riddle(self):
        """Three actions that are done together in one way or in none, which is not seen without a search; in some only near the last number."""
        clauses = [f"{x}x ++ {y}y ++ {z}z" for x in ("", "-") for y in ("", "-") for z in ("", "-")]
        random.shuffle(clauses)
        where = random.choice(["", f"c<{self.last - 1} ++ "])
        kept = clauses[: random.choice([7, 8])]
        return [":- constants x, y, z :: exogenousAction."] + [f"always {where}{clause}." for clause in kept]

    def drift(self):
        """Where each number leads by itself, most to one number, some to two or to none."""
        lines = []
        for number in range(self.last + 1):
            ends = [self.end_from(number) for _ in range(random.choice([0, 1, 1, 1, 1, 1, 2]))]
            lines += [f"caused c={end}{f' if c={end}' if len(set(ends)) > 1 else ''} after c={number}." for end in sorted(set(ends))]
        return lines

    def ways(self, kind):
        lines = [self.way(action, number) for action in self.actions for number in range(self.last + 1) if chance(0.8)]
        return lines + (["caused c=X after c=X & -go."] if kind == "simpleFluent" and chance(0.5) else [])

    def way(self, action, number):
        """Where an action leads from a number: one way, or, in one case in eight, more."""
        leads = " may cause " if chance(0.125) else " causes "
        return f"{action}{leads}c={self.end_from(number)} if c={number}."

    def end_from(self, number):
        if number < self.apart:
            return random.randint(0, min(self.apart, self.last + 1) - 1)
        return min(number + 1, self.last) if chance(0.85) else random.randint(0, self.last)

    def sought(self):
        return self.last if chance(0.65) else random.randint(0, self.last)

    def formula(self):
        number = self.sought()
        texts = [f"c={number}", *[f"c\\={number}"] * 4, f"c<{number}", f"c>={number}", f"c+1\\={number}"]
        if self.switch:
            texts += ["on", "-on", f"(on ->> c\\={number})", f"(on ++ c<{number})"]
        return random.choice(texts)

    def query(self):
        lo = random.choice([0, 0, 0, 1, 2])
        hi = lo + random.choice([0, 1, 1, 2, 3, 4, 6, 8])
        items = [f"label :: first; maxstep :: {lo}..{hi}" if hi > lo or chance(0.5) else f"label :: first; maxstep :: {lo}"]
        items += [f"0: c={0 if chance(0.6) else random.randint(0, self.last)}"] if chance(0.85) else []
        items += [f"{random.randint(0, lo)}: {self.formula()}"] if chance(0.2) else []
        is_claim = chance(0.6)
        asks = (lambda: f"c={self.sought()}") if not is_claim and chance(0.6) else self.formula
        items += [f"maxstep: {asks()}" for _ in range(random.choice([0, 0, 0, 1, 2] if is_claim else [1, 1, 1, 2, 0]))]
        items += [f"claim :: {'maxstep' if chance(0.9) else random.randint(0, lo)}: {self.formula()}"] if is_claim else []
        items += [f"{lo + 1}: c=0"] if chance(0.02) else []
        random.shuffle(items)
        return ":- query " + "; ".join(items) + "."


def made_words():
    """Words that ask for a made description, or have something that does not go with it."""
    options = [["--mode", "make"]] if chance(0.95) else []
    options += [["--size", random.choice(["1", "2", "3", "4", "1", "002", "0", "101", "1a", "00000001"])]] if chance(0.9) else []
    for option, value in [("--budget", "9"), ("--query", "first"), ("--count", "1"), ("--after", "1:0,0,1"), ("--log", "l")]:
        options += [[option, value]] if chance(0.06) else []
    random.shuffle(options)
    return sum(options, []) + (["f.cc"] if chance(0.1) else [])


def words_in(mode):
    """Words that ask for sure, general or forever mode, or have something that does not go with it."""
    options = [["--mode", mode]]
    options += [["--budget", random.choice(["1", "1", "2", "3", "5", "200000"])]] if chance(0.33) else []
    options += [["--log", "l"]] if chance(0.9) else []
    options += [["--count", str(random.randint(1, 4))]] if mode == "general" and chance(0.2) else []
    others = [["--size", "1"], ["--after", "0:0"], ["--form", "1"], ["--key", "0:0"], ["--to", "m"]] + ([["--count", "1"]] if mode != "general" else [])
    options += [random.choice(others)] if chance(0.02) else []
    random.shuffle(options)
    return sum(options, [])


def case_in(mode, number):
    """A description with one or two queries, few of them with a claim, and words of sure or general mode."""
    description = WideDescription() if mode == "general" else Description()
    words = words_in(mode)
    most = random.choice([0, 0, 1, 2])  # conditions
    queries = [description.query("first", most)[0]]
    if chance(0.25):
        queries.append(description.query("second", most)[0])
        words += ["--query", "second"] if chance(0.7) else []
    if chance(0.9):
        queries = [re.sub("; claim :: [^;]*", "", re.sub("claim :: [^;]*; ", "", query)).replace(".;", ".") for query in queries]
        queries = [query if query.endswith(".") else query + "." for query in queries]
    return text_of(number, words + ["f.cc"], description.lines + queries)


def case_of_ever(number):
    """A description with a query, and words of forever mode; in one case of three of any small description, over a longer range."""
    words = words_in("forever")
    if chance(0.67):
        ways = Ways()
        return text_of(number, words + ["f.cc"], ways.lines + [ways.query()])
    description = Description()
    query, lo, hi = description.query("first", random.choice([0, 1, 1, 2]))
    span = re.compile(r"maxstep :: [0-9]+(\.\.[0-9]+)?")
    query = span.sub(f"maxstep :: {lo}..{hi + random.choice([0, 1, 2, 4])}", query)
    return text_of(number, words + ["f.cc"], description.lines + [query])


def text_of(number, words, lines):
    return f"=== {number}\n--- words\n" + "".join(word + "\n" for word in words) + "--- f.cc\n" + "".join(line + "\n" for line in lines)


def case(number):
    description = Description()
    first, lo, hi = description.query("first")
    description.lines.append(first)
    words = []
    if chance(0.25):
        second, *range_ = description.query("second")
        description.lines.append(second)
        if chance(0.7):
            words += ["--query", "second"]
            lo, hi = range_
    if chance(0.05):
        words += ["--query", "third"][: 2 if "--query" not in words else 0]
    if chance(0.35):
        words += ["--count", str(random.randint(1, 6))]
    if chance(0.3):
        words += ["--after", description.key(lo, hi)]
    if chance(0.3):
        words += ["--log", "l"]
    if chance(0.25):
        words += ["--form", random.choice(["1", "2", "2", "2"])]
    if chance(0.01):
        words += random.choice([["--form", "3"], ["--to", "m"], ["--horizon", "1"]])
    if chance(0.06):
        words = ["--mode", "export", "--horizon", str(random.randint(max(lo - 1, 0), hi + 1))] + words[: 2 if "second" in words else 0]
    words.append("f.cc")
    if chance(0.1):
        words = made_words()
    return text_of(number, words, description.lines)


MODES = {"--sure": lambda number: case_in("sure", number), "--general": lambda number: case_in("general", number), "--forever": case_of_ever}


def main():
    option = sys.argv[1] if sys.argv[1:2] and sys.argv[1] in MODES else None
    numbers = sys.argv[1 + (option is not None) :]
    if len(numbers) != 2:
        sys.exit("usage: checks/random_runs.py [--sure|--general|--forever] CASES SEED")
    random.seed(int(numbers[1]))
    for number in range(int(numbers[0])):
        sys.stdout.write(MODES.get(option, case)(number))


if __name__ == "__main__":
    main()
