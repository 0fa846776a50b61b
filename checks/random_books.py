#!/usr/bin/env python3
"""Makes a book of random cases of the input language, valid ones and ones with faults of every kind.

A case is made statement by statement over what was declared before. About half of the cases are meant to be valid.
The others get one or two faults: names and forms that do not fit in a law, a query or a declaration; a token
dropped, doubled, exchanged or changed; a name or a byte changed; a statement moved or left out; includes in circles,
too deep, or of a file that is not there; counts about a limit. The same number of cases and the same seed give the
same book.

Usage: checks/random_books.py CASES SEED [--limits]      (the book goes to standard output)

With --limits the cases are those of the slower limits instead, one for each.
"""
import random
import sys

NAMES = (
    "a b c d e f g h k l1 l2 m n p q r s t u v w x y z p_1 go Box on At to by X Y Z V W X1 boolean Caused iff maxsteps "
    "loc walk dark labels trueish"
).split()
UNKNOWN = ["zz", "q9", "Unknown"]
GAPS = [" "] * 40 + ["\n"] * 10 + ["  ", "\t", "\r\n", "\n\n"]
GAPS += [" % a note: caused p. :- 'it\n", "%\n", "% \xe9\xff ==\n"]
FREE_OF_JOINS = set("()[],;|")
FLUENT_WORDS = ["simpleFluent", "inertialFluent", "sdFluent", "sdFluent", "rigid"]
ACTION_WORDS = ["action", "exogenousAction"]
KIND_OF_WORD = {
    "simpleFluent": "simple", "inertialFluent": "simple", "rigid": "simple", "sdFluent": "determined",
    "action": "action", "exogenousAction": "action",
}


class Symbol:
    def __init__(self, name, sorts, kind, domain, is_attribute=False):
        self.name, self.sorts, self.kind, self.domain, self.is_attribute = name, sorts, kind, domain, is_attribute

    def is_boolean(self):
        return self.domain == "boolean" and not self.is_attribute


def chance(number):
    return random.random() < number


def joined(lists, mark):
    """The tokens of several lists with a mark between each two."""
    tokens = []
    for number, part in enumerate(lists):
        tokens += ([mark] if number else []) + part
    return tokens


class Case:
    """What a case has declared so far, and its statements as lists of tokens."""

    def __init__(self):
        self.sorts = ["boolean"]
        self.pairs = []
        self.objects = {"false": "boolean", "true": "boolean"}
        self.numbers = []  # what was put as a number, with its sort
        self.variables = {}
        self.symbols = []
        self.labels = []
        self.statements = []
        self.looseness = 0.0  # how often a choice of the loose kinds is made without a look at what fits
        self.loose_kinds = []

    # What there is

    def is_below(self, lower, upper):
        return lower == upper or any(up == upper and self.is_below(lower, low) for up, low in self.pairs)

    def objects_of(self, sort):
        names = [name for name, own in self.objects.items() if self.is_below(own, sort)]
        return names + list(dict.fromkeys(str(number) for number, own in self.numbers if self.is_below(own, sort)))

    def is_numeric(self, sort):
        return any(self.is_below(own, sort) for _, own in self.numbers)

    def variables_of(self, sort, allowed):
        return [name for name in allowed if self.is_below(self.variables[name], sort)]

    def taken(self):
        return list(self.objects) + list(self.variables) + [symbol.name for symbol in self.symbols]

    def is_wild(self, kind):
        return kind in self.loose_kinds and chance(self.looseness)

    def any_name(self):
        if chance(0.1):
            return random.choice(UNKNOWN + self.sorts)
        return random.choice(self.taken() * 2 + ["none", "true"])

    def new_name(self):
        if self.is_wild("taken"):
            return random.choice(self.taken()[2:] + NAMES)
        return random.choice([name for name in NAMES if name not in self.taken()])

    def a_sort(self, names=None):
        if self.is_wild("sort names"):
            return random.choice(self.sorts + random.sample(UNKNOWN + NAMES, 2))
        return random.choice(names or self.sorts)

    # Declarations

    def add_sorts(self):
        items = []
        for _ in range(random.choice([1, 1, 2])):
            items.append(self.sort_list() if chance(0.5) else self.sort_chain())
        self.statements.append([":-", "sorts"] + joined(items, ";") + ["."])

    def sort_list(self):
        names = []
        for _ in range(random.choice([1, 1, 2])):
            free = [name for name in NAMES if name not in self.sorts]
            name = random.choice(self.sorts if self.is_wild("taken") else free)
            names.append(name)
            self.sorts += [name] if name not in self.sorts else []
        return joined([[name] for name in names], ",")

    def sort_chain(self):
        names = []
        for _ in range(random.choice([2, 2, 3])):
            old = [sort for sort in self.sorts[1:] if self.may_stand_behind(names, sort)]
            if self.is_wild("chains"):
                name = random.choice(self.sorts + self.sorts[1:] + names + NAMES[:4])
            else:
                name = random.choice(old) if old and chance(0.5) else random.choice(NAMES)
                if not self.may_stand_behind(names, name) or name == "boolean":
                    name = next(name for name in NAMES if name not in self.sorts + names)
            names.append(name)
        for name in names:
            self.sorts += [name] if name not in self.sorts else []
        for upper, lower in zip(names, names[1:]):
            if not self.is_below(upper, lower) and (upper, lower) not in self.pairs:
                self.pairs.append((upper, lower))
        return joined([[name] for name in names], ">>")

    def may_stand_behind(self, names, sort):
        """Whether a chain may go on with a sort: it closes no circle and repeats no pair."""
        if sort in names:
            return False
        if not names:
            return True
        return (names[-1], sort) not in self.pairs and not any(self.is_below(name, sort) for name in names)

    def add_objects(self):
        self.statements.append([":-", "objects"] + joined([self.object_item() for _ in range(self.few())], ";") + ["."])

    def few(self):
        return random.choice([1, 1, 1, 2])

    def object_item(self):
        sort = self.a_sort(self.sorts[1:])
        if chance(0.4):
            members = self.number_members(sort)
            if members:
                return members + ["::", sort]
        names = []
        for _ in range(random.choice([1, 2, 2, 3])):
            if len(self.objects) < 9:
                names.append(self.new_name())
                self.objects.setdefault(names[-1], sort if sort in self.sorts else "boolean")
        names = names or [self.new_name()]
        self.objects.setdefault(names[-1], sort if sort in self.sorts else "boolean")
        return joined([[name] for name in names], ",") + ["::", sort]

    def number_members(self, sort):
        """One to four numbers, in any order, alone or as ranges; some were put into another sort before."""
        free = [n for n in range(6) if self.is_wild("taken") or (n, sort) not in self.numbers]
        if not free or len(self.objects_of(sort)) > 5:
            return None
        if chance(0.4):
            low = random.choice(free)
            numbers = []
            while low in free and len(numbers) < random.choice([2, 3, 4]):
                numbers.append(low)
                low += 1
            members = [[str(numbers[0]), "..", random.choice(["", "0"]) + str(numbers[-1])]]
        else:
            numbers = random.sample(free, min(len(free), random.choice([1, 2, 2, 3, 4])))
            members = [[random.choice(["", "", "", "0"]) + str(number)] for number in numbers]
        if sort in self.sorts:
            self.numbers += [(number, sort) for number in numbers]
        if chance(0.15) and len(self.objects) < 9:
            members.append([self.new_name()])
            self.objects.setdefault(members[-1][0], sort if sort in self.sorts else "boolean")
        return joined(members, ",")

    def add_variables(self):
        items = []
        for _ in range(self.few()):
            sort = self.a_sort()
            names = []
            for _ in range(random.choice([1, 2, 2])):
                names.append(self.new_name())
                if names[-1] not in self.taken():
                    self.variables[names[-1]] = sort if sort in self.sorts else "boolean"
            items.append(joined([[name] for name in names], ",") + ["::", sort])
        self.statements.append([":-", "variables"] + joined(items, ";") + ["."])

    def add_constants(self):
        items = [self.constant_item() for _ in range(random.choice([1, 2, 2, 3]))]
        self.statements.append([":-", "constants"] + joined(items, ";") + ["."])

    def constant_item(self):
        actions = [symbol for symbol in self.symbols if symbol.kind == "action" and symbol.is_boolean()]
        if chance(0.4) and actions or self.is_wild("attributes"):
            return self.attribute_item(actions)
        word = random.choice(FLUENT_WORDS + ACTION_WORDS + ["inertialFluent", "exogenousAction", "exogenousAction"])
        with_values = [sort for sort in self.sorts if self.objects_of(sort)]
        domain = "boolean" if chance(0.55) else self.a_sort(with_values)
        if chance(0.015):
            domain = random.choice(self.sorts)
        shapes = []
        for _ in range(random.choice([1, 1, 2])):
            sorts = self.argument_sorts()
            shapes.append(self.shape(self.new_symbol(sorts, KIND_OF_WORD[word], domain), sorts))
        plain = domain == "boolean" and chance(0.85)
        return joined(shapes, ",") + ["::", word] + ([] if plain else ["(", domain, ")"])

    def argument_sorts(self):
        count = random.choice([0, 0, 0, 1, 1, 1, 2])
        # mostly sorts that variables are of, or stand below
        used = [sort for sort in self.sorts for own in self.variables.values() if self.is_below(own, sort)]
        sorts = [self.a_sort(used if chance(0.7) else None) for _ in range(count)]
        small = [sort for sort in sorts if len(self.objects_of(sort)) <= 4] if count == 2 else sorts
        return small

    def shape(self, name, sorts):
        return [name] + (["("] + joined([[sort] for sort in sorts], ",") + [")"] if sorts else [])

    def new_symbol(self, sorts, kind, domain, is_attribute=False):
        name = self.new_name()
        if name not in self.taken():
            known = [sort if sort in self.sorts else "boolean" for sort in sorts]
            domain = domain if domain in self.sorts else "boolean"
            self.symbols.append(Symbol(name, known, kind, domain, is_attribute))
        return name

    def attribute_item(self, actions):
        if self.is_wild("attributes") and chance(0.3) or not actions:
            action = Symbol(self.any_declared_name(), self.argument_sorts(), "action", "boolean")
            sorts = action.sorts if chance(0.7) else self.argument_sorts()
        elif self.is_wild("attributes"):
            known = random.choice(self.symbols)
            action = Symbol(known.name, known.sorts if chance(0.7) else self.argument_sorts(), "action", "boolean")
            sorts = action.sorts if chance(0.7) else self.argument_sorts()
        else:
            action = random.choice(actions)
            sorts = list(action.sorts)
        own = action.sorts
        if self.is_wild("attributes") and sorts:
            changed = sorts[:-1] + [random.choice(self.sorts)]
            sorts, own = random.choice([(changed, own), (sorts, changed), (changed, changed)])
        domain = self.a_sort()
        shapes = [self.shape(self.new_symbol(sorts, "action", domain, True), sorts) for _ in range(self.few())]
        return joined(shapes, ",") + ["::", "attribute", "(", domain, ")", "of"] + self.shape(action.name, own)

    def any_declared_name(self):
        return random.choice(self.taken()[2:] + UNKNOWN[:1])

    # Terms

    def argument(self, sort, allowed):
        """An object or a variable that fits a sort; None where there is none."""
        if self.is_wild("names"):
            return self.wild_term()
        if self.is_wild("sorts"):
            return [self.near_name(sort)]
        if chance(0.3 if self.is_numeric(sort) else 0.02):
            return self.sum("test", allowed)
        variables = self.variables_of(sort, allowed)
        objects = self.objects_of(sort)
        if variables and (chance(0.65) or not objects):
            return [random.choice(variables)]
        return [random.choice(objects)] if objects else None

    def near_name(self, sort):
        """A name that stands for something of a sort near this one: above it, beside it, or of none."""
        names = [name for name, own in list(self.objects.items()) + list(self.variables.items()) if own != sort]
        above = [name for name, own in self.variables.items() if self.is_below(sort, own) and own != sort]
        names += above * len(names) + ["none"] + [symbol.name for symbol in self.symbols if not symbol.sorts][:2]
        return random.choice(names)

    def wild_term(self):
        name = self.any_name()
        if chance(0.2) and name not in ("none", "true", "false"):
            return [name, "(", self.any_name(), ")"]
        return [name]

    def constant(self, symbol, allowed):
        arguments = [self.argument(sort, allowed) for sort in symbol.sorts]
        if self.is_wild("arities"):
            arguments = arguments[1:] if chance(0.5) else arguments + [[random.choice(list(self.objects))]]
        if any(argument is None for argument in arguments):
            return None
        return [symbol.name] + (["("] + joined(arguments, ",") + [")"] if arguments else [])

    def value(self, symbol, allowed):
        if symbol.is_attribute and chance(0.45) or self.is_wild("sorts") and chance(0.2):
            return ["none"]
        if symbol.is_boolean() and chance(0.7):
            return [random.choice(["true", "false"])]
        return self.argument(symbol.domain, allowed)

    # Sums

    def sum(self, kind, allowed, depth=0):
        """A sum of one to three pieces; without a constant where the kind is 'test'."""
        tokens = self.piece(kind, allowed, depth)
        for _ in range(random.choice([0, 1, 1, 2])):
            tokens = tokens + [random.choice(["+", "+", "-"])] + self.piece(kind, allowed, depth)
        return tokens

    def piece(self, kind, allowed, depth):
        if self.is_wild("sums") and chance(0.4):
            booleans = [symbol.name for symbol in self.symbols if symbol.is_boolean() and not symbol.sorts]
            return [random.choice(list(self.objects) + booleans * 2 + ["none", "true"])]
        numeric = [name for name in allowed if self.is_numeric(self.variables[name])]
        symbols = [symbol for symbol in self.symbols_for(kind) if self.is_numeric(symbol.domain)]
        if chance(0.08):
            numeric = list(allowed)
            symbols = [symbol for symbol in self.symbols_for(kind) if not symbol.is_boolean()]
        if symbols and depth < 2 and chance(0.55):
            constant = self.constant_within(random.choice(symbols), allowed, depth)
            if constant is not None:
                return constant
        if numeric and chance(0.6):
            return [random.choice(numeric)]
        return [str(random.choice([0, 1, 1, 1, 2, 2, 3, 4, 5, 7]))]

    def constant_within(self, symbol, allowed, depth):
        return self.constant(symbol, allowed) if depth < 1 or not symbol.sorts else None

    def comparison(self, kind, allowed):
        sign = random.choice(["=", "\\=", "<", "=<", ">", ">="])
        return self.sum(kind, allowed) + [sign] + self.sum(kind, allowed)

    # Formulas. The kind tells which constants they may have: 'fluent', 'action', 'any', 'test' (none).

    def symbols_for(self, kind):
        if kind in ("fluent", "action") and self.is_wild("kinds"):
            kind = "any"
        if kind == "test" and self.is_wild("tests"):
            kind = "any"
        if kind == "fluent":
            return [symbol for symbol in self.symbols if symbol.kind != "action"]
        if kind == "action":
            return [symbol for symbol in self.symbols if symbol.kind == "action"]
        return list(self.symbols) if kind == "any" else []

    def formula(self, kind, allowed, depth=None):
        """A random formula whose free variables are among the allowed ones."""
        if depth is None:
            depth = random.choice([0, 0, 1, 1, 2, 2, 3])
        if depth == 0 or chance(0.15):
            return self.leaf(kind, allowed)
        choice = random.random()
        if choice < 0.2:
            return ["-"] + self.closed(kind, allowed, depth - 1)
        if choice < 0.5 and self.variables:
            return self.bracket(kind, allowed, depth - 1)
        if choice < 0.57:
            return ["("] + self.formula(kind, allowed, depth - 1) + [")"]
        sign = random.choice(["&", "&", "++", "++", "->>", "<->"])
        parts = [self.closed(kind, allowed, depth - 1) for _ in range(random.choice([2, 2, 2, 3]))]
        if chance(0.3):
            parts[-1] = self.formula(kind, allowed, depth - 1)
        return joined(parts, sign)

    def closed(self, kind, allowed, depth):
        tokens = self.formula(kind, allowed, depth)
        return ["("] + tokens + [")"] if len(tokens) > 3 and tokens[0] != "[" else tokens

    def bracket(self, kind, allowed, depth):
        variable = self.any_name() if self.is_wild("names") else random.choice(list(self.variables))
        if self.is_wild("sorts") and chance(0.3):
            variable = random.choice(list(self.objects)[2:] + [symbol.name for symbol in self.symbols] + [variable])
        if variable in ("none", "true", "false"):
            variable = random.choice(list(self.variables))
        inner = list(allowed) + [variable] * 3 if variable in self.variables else allowed
        return ["[", random.choice(["/\\", "\\/"]), variable, "|"] + self.formula(kind, inner, depth) + ["]"]

    def leaf(self, kind, allowed):
        if self.is_wild("names"):
            return self.wild_leaf()
        if self.is_wild("sorts") and chance(0.5):
            return self.near_leaf(kind, allowed)
        if self.numbers and chance(0.3) or self.is_wild("sums") and chance(0.5):
            # a formula of a kind has a constant of it: a sum may have none
            tokens = self.comparison(kind, allowed)
            if kind != "action" or any(symbol.name in tokens for symbol in self.symbols_for(kind)):
                return tokens
        for _ in range(4):
            symbols = self.symbols_for(kind)
            if symbols and chance(0.9):
                tokens = self.constant_leaf(random.choice(symbols), symbols, allowed)
            else:
                tokens = self.plain_leaf(allowed)
            if tokens:
                return tokens
        return [random.choice(["true", "false"])]

    def wild_leaf(self):
        if chance(0.4):
            return self.wild_term()
        return self.wild_term() + [random.choice(["=", "\\="])] + self.wild_term()

    def near_leaf(self, kind, allowed):
        """What stands alone, or is compared, and may or may not."""
        symbols = self.symbols_for(kind)
        constant = (symbols and self.constant(random.choice(symbols), allowed)) or ["true"]
        plain = [random.choice(list(self.variables) + list(self.objects))]
        sign = [random.choice(["=", "\\="])]
        choices = [plain, constant, ["none"], constant + sign + ["none"], ["none"] + sign + constant]
        choices += [["none"] + sign + plain, plain + sign + ["none"], constant + sign + plain, plain + sign + constant]
        return random.choice(choices)

    def constant_leaf(self, symbol, symbols, allowed):
        constant = self.constant(symbol, allowed)
        if constant is None:
            return None
        if symbol.is_boolean() and chance(0.6):
            return constant
        if chance(0.2):
            other = self.constant(random.choice(symbols), allowed)
        elif self.is_numeric(symbol.domain) and chance(0.4):
            other = self.sum("test", allowed)
        else:
            other = self.value(symbol, allowed)
        if other is None:
            return None
        sign = [random.choice(["=", "=", "\\="])]
        if self.is_numeric(symbol.domain) and chance(0.25):
            other = self.sum("test", allowed)
            sign = [random.choice(["<", "=<", ">", ">="])]
        return constant + sign + other if chance(0.75) else other + sign + constant

    def plain_leaf(self, allowed):
        terms = list(allowed) + [name for name in self.objects]
        if chance(0.1) or not terms:
            return [random.choice(["true", "false"])]
        first = random.choice(list(allowed) or terms)
        return [first, random.choice(["=", "\\="]), random.choice(terms)]

    def action_formula(self, allowed):
        """A formula with an action and without a fluent; None where there is no action that can be named."""
        actions = self.symbols_for("action")
        if not actions:
            return None
        leaf = self.constant_leaf(random.choice(actions), actions, allowed)
        if leaf is None:
            return None
        if chance(0.6):
            return leaf
        rest = self.closed("action", allowed, random.choice([0, 1, 2]))
        sign = [random.choice(["&", "++", "->>", "<->"])]
        return leaf + sign + rest if chance(0.5) else rest + sign + leaf

    # Heads

    def head(self, kind, allowed, determined=True):
        """A definite head; None where no constant fits. kind is 'fluent' or 'action'."""
        if self.is_wild("heads") and chance(0.25):
            return self.formula(kind, allowed)
        determined = determined or self.is_wild("determined")
        symbols = [symbol for symbol in self.symbols_for(kind) if determined or symbol.kind != "determined"]
        if self.is_wild("determined"):
            symbols = [symbol for symbol in symbols if symbol.kind == "determined"] + symbols[:1]
        parts = []
        for _ in range(random.choice([1, 1, 1, 2, 2, 3])):
            if self.is_wild("heads"):
                parts.append(self.near_head(kind, allowed))
            else:
                parts.append(["false"] if chance(0.15) else self.head_part(symbols, allowed))
        if kind == "action" and all(part == ["false"] for part in parts):
            parts.append(self.head_part(symbols, allowed))
        if any(part is None for part in parts):
            return None
        tokens = joined(parts, "&")
        if len(parts) == 3 and chance(0.3):
            tokens = parts[0] + ["&", "("] + parts[1] + ["&"] + parts[2] + [")"]
        return ["("] + tokens + [")"] if chance(0.1) else tokens

    def near_head(self, kind, allowed):
        """What looks like a part of a head, and is one or not."""
        leaf = self.leaf(kind, allowed)
        near = [leaf, ["-"] + leaf, ["-", "-"] + leaf, ["-", "("] + leaf + [")"], ["true"], ["-", "false"]]
        near += [self.comparison(kind, allowed), ["-", "("] + self.comparison(kind, allowed) + [")"]] if self.numbers else []
        booleans = [symbol for symbol in self.symbols_for(kind) if symbol.domain == "boolean"]
        constant = self.constant(random.choice(booleans), allowed) if booleans else None
        if constant:
            truth = [random.choice(["true", "false"])]
            near += [truth + ["\\="] + constant, constant + ["\\="] + truth]
            near += [["-", "("] + truth + ["="] + constant + [")"]]
        return random.choice(near)

    def head_part(self, symbols, allowed):
        if not symbols:
            return None
        symbol = random.choice(symbols)
        constant = self.constant(symbol, allowed)
        if constant is None:
            return None
        if symbol.is_boolean() and chance(0.75):
            return self.boolean_part(constant)
        value = self.value(symbol, allowed)
        if self.is_numeric(symbol.domain) and chance(0.4):
            value = self.sum("test", allowed)
        if value is None:
            return None
        return constant + ["="] + value if chance(0.75) else value + ["="] + constant

    def boolean_part(self, constant):
        truth = [random.choice(["true", "false"])]
        return random.choice(
            [
                constant,
                constant,
                ["-"] + constant,
                ["-"] + constant,
                ["(", "-", "("] + constant + [")", ")"],
                constant + ["\\="] + truth,
                ["-", "("] + constant + ["="] + truth + [")"],
                ["-"] + truth + ["="] + constant,
            ]
        )

    # Laws

    def add_law(self):
        for _ in range(20):
            variables = random.sample(list(self.variables), min(len(self.variables), random.choice([0, 1, 2, 2, 3])))
            law = self.law(variables)
            if law and None not in law:
                often = 0.6 if law[0] in ("exogenous", "inertial") else 0.35
                tested = chance(often) or self.is_wild("free") or self.is_wild("tests")
                if tested and law != ["noconcurrency"]:
                    law = law + ["where"] + self.test(law, variables)
                self.statements.append(law + ["."])
                return

    def law(self, allowed):
        word = random.choice(
            "static static action fluent fluent constraint always nonexecutable default default exogenous inertial "
            "causes causes-action may may noconcurrency".split()
        )
        if self.is_wild("determined"):
            word = random.choice(["fluent", "default", "inertial", "causes", "may"])
        if self.is_wild("heads"):
            word = random.choice(["static", "action", "fluent", "default", "causes", "causes-action", "may"])
        if self.is_wild("kinds") and chance(0.5):
            return self.wild_law(allowed)
        if word == "static":
            return self.parts(["caused"], self.head("fluent", allowed), self.maybe_if("fluent", allowed))
        if word == "action":
            return self.parts(["caused"], self.head("action", allowed), self.maybe_if("any", allowed))
        if word == "fluent":
            head = self.head("fluent", allowed, False)
            after = ["after"] + self.formula("any", allowed)
            return self.parts(["caused"], head, self.maybe_if("fluent", allowed), after)
        if word == "constraint":
            return ["constraint"] + self.formula("fluent", allowed)
        if word == "always":
            return ["always"] + self.formula("any", allowed)
        if word == "nonexecutable":
            return self.parts(["nonexecutable"], self.action_formula(allowed), self.maybe_if("any", allowed))
        if word == "default":
            return self.default(allowed)
        if word in ("exogenous", "inertial"):
            symbols = [s for s in self.symbols if word == "exogenous" or s.kind == "simple"]
            symbols = [s for s in symbols if s.sorts] * 2 + symbols
            if self.is_wild("determined"):
                symbols = [s for s in self.symbols if s.kind == "determined"]
            if self.is_wild("sorts") and chance(0.5):
                return [word] + self.wild_term()
            return self.parts([word], self.constant(random.choice(symbols), allowed)) if symbols else None
        if word == "causes":
            head = self.head("fluent", allowed, False)
            return self.parts(self.action_formula(allowed), ["causes"], head, self.maybe_if("any", allowed))
        if word == "causes-action":
            head = self.head("action", allowed)
            return self.parts(self.action_formula(allowed), ["causes"], head, self.maybe_if("any", allowed))
        if word == "may":
            head = self.head("fluent", allowed, False)
            return self.parts(self.action_formula(allowed), ["may", "cause"], head, self.maybe_if("any", allowed))
        return ["noconcurrency"] if chance(0.4) else None

    def default(self, allowed):
        if chance(0.3):
            return self.parts(["default"], self.head("action", allowed), self.maybe_if("any", allowed))
        if chance(0.4):
            return self.parts(["default"], self.head("fluent", allowed), self.maybe_if("fluent", allowed))
        after = ["after"] + self.formula("any", allowed)
        return self.parts(["default"], self.head("fluent", allowed, False), self.maybe_if("fluent", allowed), after)

    def wild_law(self, allowed):
        """A law whose parts are formulas of any kind, or a law of values of any term."""
        word = random.choice("caused constraint nonexecutable default exogenous inertial causes may".split())
        head = self.head(random.choice(["fluent", "action"]), allowed) if chance(0.7) else self.formula("any", allowed)
        if word in ("exogenous", "inertial"):
            symbols = self.symbols
            if symbols and chance(0.6):
                return self.parts([word], self.constant(random.choice(symbols), allowed))
            return [word] + self.wild_term()
        if word == "constraint":
            return [word] + self.formula("any", allowed)
        if word == "causes":
            return self.parts(self.formula("any", allowed), ["causes"], head, self.maybe_if("any", allowed))
        if word == "may":
            return self.parts(self.formula("any", allowed), ["may", "cause"], head, self.maybe_if("any", allowed))
        after = ["after"] + self.formula("any", allowed) if word != "nonexecutable" and chance(0.5) else []
        return self.parts([word], head, self.maybe_if("any", allowed), after)

    def parts(self, *parts):
        """The parts of a law behind one another; None where one of them could not be made."""
        if any(part is None for part in parts):
            return None
        return [token for part in parts for token in part]

    def maybe_if(self, kind, allowed):
        return ["if"] + self.formula(kind, allowed) if chance(0.7) else []

    def test(self, law, allowed):
        """A where test over variables of a law that are, or look, free in it."""
        used = [name for name in allowed if name in law and not self.only_bound(law, name)]
        if self.is_wild("free"):
            used = list(self.variables)
            return self.plain_leaf(used) if chance(0.5) else self.formula("test", used)
        return self.formula("test", used)

    def only_bound(self, law, name):
        """Whether a bracket over this name stands in a law; its other occurrences may be bound then."""
        return any(law[at : at + 2] in ([sign, name],) for at in range(len(law)) for sign in ("/\\", "\\/"))

    # Queries

    def add_query(self):
        items = []
        lo = random.choice([0, 0, 1, 1, 2, 3])
        hi = random.choice([lo, lo, lo + 1, lo + 3])
        if chance(0.6) or self.is_wild("twice"):
            items.append(["label", "::", self.label()])
        if chance(0.9):
            numbers = random.choice([[str(lo)], [str(lo), "..", str(hi)], [f"00{lo}", "..", str(hi)]])
            items.append(["maxstep", "::"] + numbers)
        for _ in range(random.choice([0, 1, 1, 2, 3])):
            items.append(self.at_step(lo))
        if chance(0.35):
            items.append(["claim", "::"] + self.at_step(lo))
        if self.is_wild("twice") and items:
            items.append(random.choice(items))
        if not items:
            items = [["maxstep", "::", "1"]]
        random.shuffle(items)
        self.statements.append([":-", "query"] + joined(items, ";") + ["."])

    def label(self):
        if self.labels and self.is_wild("twice"):
            return random.choice(self.labels)
        free = [text for text in ["0", "1", "00", "12"] + NAMES if text not in self.labels]
        self.labels.append(random.choice(free))
        return self.labels[-1]

    def at_step(self, lo):
        at = random.choice(["maxstep", str(lo), str(random.randint(0, lo)), str(random.randint(0, lo))])
        if chance(0.08):
            at = str(lo + random.choice([1, 2]))
        kind = "any" if chance(0.08) or (at != "maxstep" and int(at) < lo) else "fluent"
        allowed = list(self.variables) if self.is_wild("free") else []
        formulas = [self.formula(kind, allowed) for _ in range(random.choice([1, 1, 2, 3]))]
        return [at, ":"] + joined(formulas, ",")


# ---------------------------------------------------------------------------------------------------------------
# Cases
# ---------------------------------------------------------------------------------------------------------------


# What a choice may be loose in, as often as it should come.
LOOSE_KINDS = (
    "taken twice twice chains chains attributes attributes names arities arities sorts sorts sorts sorts kinds kinds "
    "kinds determined determined determined determined heads heads heads free free free tests sums sums sums sums"
).split() + ["sort names"]
KINDS_OF_DECLARATIONS = ["taken", "sort names", "chains", "attributes"]


def described_case(looseness):
    """A case one or two of whose later statements are made with the given looseness, in one or two kinds or in all."""
    case = Case()
    case.add_sorts()
    if chance(0.9):
        case.add_objects()
    if chance(0.9):
        case.add_variables()
    if chance(0.95):
        case.add_constants()
    if chance(0.4):
        case.add_variables()
        case.add_constants()
    declarations = [case.add_sorts, case.add_objects, case.add_variables, case.add_constants, case.add_constants]
    makers = [case.add_law] * 7 + [case.add_query] * 2 + declarations
    count = random.choice([1, 2, 3, 4, 5, 6, 8, 10])
    few = [random.randrange(count) for _ in range(random.choice([1, 2, 2, 3]))]
    loose_at = range(count) if looseness < 0.3 else few
    loose_kinds = random.sample(LOOSE_KINDS, random.choice([1, 1, 2])) if chance(0.85) else LOOSE_KINDS
    for number in range(count):
        case.looseness = looseness if number in loose_at else 0.0
        case.loose_kinds = loose_kinds
        if case.looseness and set(loose_kinds) & set(KINDS_OF_DECLARATIONS) and chance(0.6):
            random.choice(declarations)()
        else:
            random.choice(makers)()
    return case.statements


def loose_case():
    """Faults one by one, or several at once in a few statements."""
    return described_case(random.choice([0.1, 0.15, 0.25, 0.5, 0.8]))


def change_tokens(statements):
    """One token dropped, doubled, exchanged with its neighbour or another one, or changed."""
    tokens = random.choice(statements)
    at = random.randrange(len(tokens))
    change = random.randrange(5)
    if change == 0:
        del tokens[at]
    elif change == 1:
        tokens.insert(at, tokens[at])
    elif change == 2:
        other = min(at + 1, len(tokens) - 1)
        tokens[at], tokens[other] = tokens[other], tokens[at]
    elif change == 3:
        other = random.randrange(len(tokens))
        tokens[at], tokens[other] = tokens[other], tokens[at]
    else:
        tokens[at] = random.choice(random.choice(statements) or ["."])
    return statements


def change_name(statements):
    """A name is another one, in one place."""
    places = [(tokens, at) for tokens in statements for at, token in enumerate(tokens) if token in NAMES]
    names = [tokens[at] for tokens, at in places] + UNKNOWN
    for tokens, at in random.sample(places, min(len(places), random.choice([1, 1, 2]))):
        tokens[at] = random.choice(names)
    return statements


def change_operator(statements):
    """An operator is another one: mostly still a tree, and often no definite head or another form of law."""
    groups = [["&", "++", "->>", "<->"], ["=", "\\=", "<", "=<", ">", ">="], ["/\\", "\\/"], ["+", "-"]]
    groups += [["if", "after"], ["causes", "if"], ["caused", "default"]]
    for _ in range(10):
        tokens = random.choice(statements)
        at = random.randrange(max(1, len(tokens)))
        for group in groups:
            if at < len(tokens) and tokens[at] in group:
                tokens[at] = random.choice(group)
                return statements
    return statements


def change_kind(statements):
    """A constant is of another kind or sort: laws get other forms."""
    words = FLUENT_WORDS + ACTION_WORDS
    places = [(tokens, at) for tokens in statements for at, token in enumerate(tokens) if token in words]
    if places:
        tokens, at = random.choice(places)
        tokens[at] = random.choice(words)
    return statements


def change_sort(statements):
    """The sort of objects, variables, arguments or values is another one, mostly above or below it."""
    sorts = [name for tokens in statements for name in tokens[2:] if tokens[:2] == [":-", "sorts"] and name in NAMES]
    declared = [tokens for tokens in statements if tokens[1:2] in (["objects"], ["variables"], ["constants"])]
    places = [
        (tokens, at)
        for tokens in declared
        for at in range(3, len(tokens))
        if tokens[at] in sorts + ["boolean"] and tokens[at - 1] in ("::", "(")
    ]
    if places:
        tokens, at = random.choice(places)
        tokens[at] = random.choice(sorts + ["boolean"])
    return statements


def move_statement(statements):
    tokens = statements.pop(random.randrange(len(statements)))
    if chance(0.5):
        statements.insert(random.randrange(len(statements) + 1), tokens)
    return statements


def say_again(statements):
    statements.insert(random.randrange(len(statements) + 1), list(random.choice(statements)))
    return statements


def add_number_fault(statements):
    """A range turned round, an overlap of ranges, digits where a name is wanted, or a sign of sums anywhere."""
    choice = random.randrange(4)
    if choice == 0:
        extra = random.choice([["1"], ["+"], ["<"], ["=<"], [">"], [">="], [".."], ["1", "..", "3"], ["+", "1"], ["-", "1"], ["<", "2"]])
        tokens = random.choice(statements)
        at = random.randrange(len(tokens))
        tokens[at:at] = extra
        return statements
    if choice == 1:
        names = [(tokens, at) for tokens in statements for at, token in enumerate(tokens) if token in NAMES]
        for tokens, at in random.sample(names, min(len(names), 1)):
            tokens[at] = random.choice(["1", "0", "12"])
        return statements
    at = random.randrange(len(statements) + 1)
    low = random.randrange(4)
    ends = (low + random.choice([0, 1, 2]), low) if choice == 2 else (low, low + random.choice([0, 1, 2, 999999990]))
    members = [[str(ends[0]), "..", str(ends[1])]]
    if chance(0.6):
        members.insert(random.randrange(2), [str(random.randrange(6))])
    sorts = random.choice([["amount"], ["amount", "amount"], ["amount", "number"], ["number", "unknown"], ["boolean"]])
    items = [joined(members, ",") + ["::", sort] for sort in sorts]
    statements[at:at] = [
        [":-", "sorts"] + random.choice([["amount", ",", "number"], ["number", ">>", "amount"]]) + ["."],
        [":-", "objects"] + joined(items, ";") + ["."],
    ]
    return statements


def add_empty_domain(statements):
    """A constant over a sort without objects, or two; with and without a ground constant."""
    names = ["unfilled", "hollow"] if chance(0.6) else ["unfilled"]
    at = random.randrange(len(statements) + 1)
    statements.insert(at, [":-", "sorts", "nothing", "."])
    for name in names:
        word = random.choice(random.choice([FLUENT_WORDS, ACTION_WORDS]))
        sorts = random.choice([[], [], [], ["boolean"], ["nothing"], ["nothing", "boolean"]])
        shape = [name] + (["("] + joined([[sort] for sort in sorts], ",") + [")"] if sorts else [])
        constant = [":-", "constants"] + shape + ["::", word, "(", "nothing", ")", "."]
        statements.insert(random.randrange(at + 1, len(statements) + 1), constant)
    if chance(0.2):
        statements.append([":-", "objects", "something", "::", "nothing", "."])
    return statements


def add_attribute(statements):
    """An attribute and its action, whose sorts are the same, or nearly so, in the three places where they stand."""
    sorts = random.choice([[], ["left"], ["left", "boolean"], ["left", "right"]])

    def near():
        changed = list(sorts)
        if chance(0.2) and changed:
            changed[random.randrange(len(changed))] = random.choice(["left", "right", "boolean"])
        if chance(0.07):
            changed = changed[1:] if chance(0.5) else changed + ["right"]
        return ["("] + joined([[sort] for sort in changed], ",") + [")"] if changed else []

    kind = random.choice(["action", "action", "exogenousAction", "action", "sdFluent", "attribute"])
    own = ["deed"] + near() + ["::"]
    own += ["attribute", "(", "left", ")", "of", "deed"] if kind == "attribute" else [kind]
    if kind in ACTION_WORDS and chance(0.15):
        own += ["(", random.choice(["left", "boolean"]), ")"]
    values = random.choice(["left", "boolean"])
    attribute = ["how"] + near() + ["::", "attribute", "(", values, ")", "of", "deed"] + near()
    at = random.randrange(len(statements) + 1)
    statements[at:at] = [
        [":-", "sorts", "left", ",", "right", "."],
        [":-", "objects", "here", "::", "left", "."],
        [":-", "constants"] + joined([own, attribute] if chance(0.93) else [attribute, own], ";") + ["."],
    ]
    return statements


def add_chains(statements):
    """Chains over few sorts: pairs a second time, circles, and the sort boolean among them."""
    names = ["up", "mid", "low", "up", "mid", "low", "boolean"]
    for _ in range(random.choice([1, 2, 2])):
        lengths = random.choices([2, 2, 3], k=random.choice([1, 2]))
        chains = [joined([[random.choice(names)] for _ in range(length)], ">>") for length in lengths]
        statements.insert(random.randrange(len(statements) + 1), [":-", "sorts"] + joined(chains, ";") + ["."])
    return statements


def add_limit(statements):
    """A count at its limit, or one past it."""
    more = random.choice([0, 1])
    choice = random.randrange(7)
    at = random.randrange(len(statements) + 1)
    if choice == 5:
        statements.insert(at, ["always"] + ["("] * 998 + ["true"] + [")"] * (998 + more) + ["."])
    elif choice == 6:
        sign = random.choice(["&", "++", "->>", "<->"])
        statements.insert(at, ["constraint"] + ["false", sign] * (998 + more) + ["true", "."])
    elif choice == 0:
        statements.insert(at, [":-", "sorts", "S" * (255 + more), "."])
    elif choice == 1:
        statements.insert(at, [":-", "query", "maxstep", "::", "0" * (8 + more) + "1", "."])
    elif choice == 2:
        statements.insert(at, ["always"] + ["-"] * (1997 + more) + ["true", "."])
    elif choice == 3:
        statements.insert(at, [":-", "query", "maxstep", "::", "0", "..", str(1000 + more), "."])
    else:
        statements.insert(at, [":-", "include", "'" + "d" * (255 + more) + "'", "."])
    return statements


STATEMENT_FAULTS = [
    (change_tokens, 10), (change_name, 12), (change_operator, 14), (change_kind, 14), (move_statement, 6),
    (change_sort, 16),
    (say_again, 5), (add_number_fault, 12), (add_empty_domain, 8), (add_limit, 4),
    (add_attribute, 10), (add_chains, 6),
]


def spelled(statements):
    """The text of statements, with random gaps where none is needed and a gap where one is."""
    text = ""
    before = ""
    for token in [token for tokens in statements for token in tokens]:
        if before and needs_gap(before, token) or chance(0.45):
            text += random.choice(GAPS)
        text += token
        before = token
        if token == "." and chance(0.7):
            text += "\n"
    return text + "\n"


def needs_gap(before, token):
    if before[-1] in FREE_OF_JOINS or token[0] in FREE_OF_JOINS:
        return False
    def is_wordlike(sign):
        return sign.isalnum() or sign == "_"
    return is_wordlike(before[-1]) == is_wordlike(token[0]) or "'" in (before[-1], token[0])


def change_byte(text):
    at = random.randrange(len(text))
    sign = random.choice(["", "\x00", "\xe9", chr(random.randrange(256))] + list("#/\\'%0_.-:\n?"))
    return text[:at] + sign + text[at + (0 if chance(0.4) else 1) :]


# Files

FILE_NAMES = ["d.cc", "e.cc", "lib/x.cc", "a b.cc", "100%.cc", "c:.cc", "-q.cc", "f"]


def include(name):
    return [":-", "include", f"'{name}'", "."]


def in_files(statements):
    """The statements spread over files that include one another: a list of names with their statements."""
    files = [("f.cc", list(statements))]
    for name in random.sample(FILE_NAMES, random.choice([1, 1, 2, 3])):
        where = random.choice(files)[1]
        low = random.randrange(len(where) + 1)
        high = random.randrange(low, len(where) + 1)
        files.append((name, where[low:high]))
        where[low:high] = [include(name)]
        if chance(0.15):
            where.insert(random.randrange(len(where) + 1), include(name))
    return files


def spoil_includes(files):
    """An include in a circle, of a file that is not there, or about as deep as may be."""
    where = random.choice(files)[1]
    at = random.randrange(len(where) + 1)
    choice = random.randrange(4)
    if choice == 0:
        where.insert(at, include(random.choice(files)[0]))
    elif choice == 1:
        where.insert(at, include("missing.cc"))
    else:
        depth = random.choice([6, 7, 8, 9])
        names = [f"n{number}.cc" for number in range(depth)]
        where.insert(at, include(names[0]))
        for name, following in zip(names, names[1:]):
            files.append((name, [include(following)]))
        last = ["always", "true", "."] if chance(0.7) else include(random.choice(names + ["f.cc"]))
        files.append((names[-1], [last]))
    return files


def random_files():
    """The files of a case: names with their texts."""
    statements = loose_case() if chance(0.7) else described_case(0.0)
    if chance(0.3):
        faults, weights = zip(*STATEMENT_FAULTS)
        for fault in random.choices(faults, weights, k=random.choice([1, 1, 1, 2])):
            statements = [tokens for tokens in fault(statements) if tokens] or [["."]]
    files = in_files(statements) if chance(0.3) else [("f.cc", statements)]
    if chance(0.05):
        files = spoil_includes(files)
    if chance(0.05):
        # a second file of a name, which does not count
        files.append((random.choice(files)[0], [["noconcurrency", "."]]))
    texts = [(name, spelled(tokens)) for name, tokens in files]
    if chance(0.03):
        at = random.randrange(len(texts))
        texts[at] = (texts[at][0], change_byte(texts[at][1]))
    return texts


def case_text(title, files):
    text = f"=== {title}\n"
    for name, content in files:
        content = content.replace("\n=== ", "\n === ").replace("\n--- ", "\n --- ")
        if content.startswith(("=== ", "--- ")):
            content = " " + content
        text += f"--- {name}\n{content}" + ("" if content.endswith("\n") else "\n")
    return text


def random_book(cases, seed):
    random.seed(seed)
    return "".join(case_text(f"{seed}.{number}", random_files()) for number in range(cases))


# ---------------------------------------------------------------------------------------------------------------
# The slower limits
# ---------------------------------------------------------------------------------------------------------------


def many(prefix, count):
    return ", ".join(f"{prefix}{number}" for number in range(count))


def limit_cases():
    """For each limit a case that meets it and one that passes it; for the largest ones only the latter."""
    for more in (0, 1):
        filled = ":- sorts s.\n:- objects " + many("o", 4096 + more) + " :: s.\n"
        yield f"objects +{more}", [("f.cc", filled)]
        comma = "," if more else ""
        yield f"declaration tokens +{more}", [("f.cc", ":- variables " + many("v", 9998) + f"{comma} :: boolean.\n")]
        put = f":- sorts s, t.\n:- objects 1..2000 :: s; 1..{2096 + more} :: t.\n"
        yield f"numbers of two sorts +{more}", [("f.cc", put)]
        lists = ":- sorts s, t.\n:- objects 0..399 :: s; 0..99 :: t.\n"
        lists += ":- constants c, d :: simpleFluent(s); e :: simpleFluent(t); f(t) :: simpleFluent(t).\n"
        lists += "constraint c+d+e+1=0.\n" + ("constraint f(100)=1.\n" if more else "")
        yield f"choices +{more}", [("f.cc", lists)]
        values = ":- sorts s.\n:- objects " + many("o", 1000 + more) + " :: s.\n:- constants c :: simpleFluent(s).\n"
        yield f"domain values +{more}", [("f.cc", values)]
        attribute = ":- sorts s. :- objects " + many("o", 999 + more) + " :: s.\n"
        attribute += ":- constants g :: action; c :: attribute(s) of g.\n"
        yield f"values of an attribute +{more}", [("f.cc", attribute)]
        both = ":- sorts s, t. :- objects " + many("o", 100) + " :: s; " + many("p", 200) + " :: t.\n"
        both += ":- constants c(s, t) :: simpleFluent"
        yield f"ground constants +{more}", [("f.cc", both + ("; d :: sdFluent.\n" if more else ".\n"))]
        comment = ":- sorts s.\n%" + "x" * (1048576 + more - 14) + "\n"
        yield f"file bytes +{more}", [("f.cc", comment)]
        main = ":- include 'a'.\n:- include 'a'.\n:- include 'a'.\n:- include 'a'.\n"
        total = "%" + "x" * (1048576 - len(main) // 4 - 2) + "\n"
        yield f"total bytes +{more}", [("f.cc", main + " " * (3 + more) + "\n" if more else main), ("a", total)]
        steps = ":- sorts s. :- objects " + many("o", 100) + " :: s. :- variables X, Y, Z, W :: s.\n"
        steps += "caused false if X=X & Y=Y & Z=Z where false.\n" + ("caused false where false.\n" if more else "")
        yield f"law instances +{more}", [("f.cc", steps)]
    deep = ":- sorts s. :- objects " + many("o", 10) + " :: s. :- variables X :: s. :- constants p :: simpleFluent.\n"
    yield "ground nodes", [("f.cc", deep + "constraint " + "[/\\X | " * 8 + "p" + "]" * 8 + ".\n")]
    query = ":- query maxstep :: 0; 0: " + "[\\/X | " * 8 + "p" + "]" * 8 + ".\n"
    yield "ground nodes of a query", [("f.cc", deep + query)]
    actions = ":- sorts s. :- objects " + many("o", 1500) + " :: s. :- constants g(s) :: action.\nnoconcurrency.\n"
    yield "pairs of actions", [("f.cc", actions)]


def main():
    words = [word for word in sys.argv[1:] if word != "--limits"]
    if "--limits" in sys.argv:
        book = "".join(case_text(title, files) for title, files in limit_cases())
    elif len(words) == 2 and all(word.isdigit() for word in words):
        book = random_book(int(words[0]), int(words[1]))
    else:
        sys.exit("usage: checks/random_books.py CASES SEED, or checks/random_books.py --limits")
    sys.stdout.buffer.write(book.encode("latin-1"))


if __name__ == "__main__":
    main()
