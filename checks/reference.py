#!/usr/bin/env python3
"""A plain second reading of docs/language.md: what a description is, or where and how it is refused.

Reads books of cases and prints for each case what the program cc_show prints for it. It is written from the
document and not from the program, one function a rule and tables as tables, to be read beside it; nothing here
is meant to be fast.

A book is a file of cases. A line that begins with '=== ' begins a case, with its title behind; a line that begins
with '--- ' begins a file of the case, with its name behind; the lines up to the next such line are the bytes of
the file. The first file of a case is its main one, and of two files of one name the first counts.

Usage: checks/reference.py BOOK..
"""
import itertools
import math
import re
import sys
import threading
from collections import namedtuple

# ---------------------------------------------------------------------------------------------------------------
# Refusals and limits
# ---------------------------------------------------------------------------------------------------------------

REFUSAL_NAMES = {
    2: "Byte", 3: "Syntax", 4: "TwiceDeclared", 5: "UnknownName", 6: "Arity", 7: "Sort", 8: "Unbound", 9: "LawForm",
    10: "SdInDynamicHead", 11: "NotDefinite", 12: "EmptyDomain", 14: "Limit", 16: "Step", 17: "Include", 20: "ClaimQuery",
}

LIMITS = {
    "file bytes": 1048576,
    "total bytes": 4194304,
    "include depth": 8,
    "token bytes": 255,
    "number digits": 9,
    "declaration tokens": 20000,
    "statement tokens": 2000,
    "objects": 4096,
    "domain values": 1000,
    "ground constants": 20000,
    "law instances": 1000000,
    "choices": 16000000,
    "ground nodes": 16000000,
    "horizon": 1000,
}

Place = namedtuple("Place", "file line")  # the number of a file, in order of opening from 0, and a line from 1


class Refused(Exception):
    """A refusal: its number, its place or None, and for number 14 the limit's name."""

    def __init__(self, number, place, limit=None):
        super().__init__(number, place, limit)
        self.number, self.place, self.limit = number, place, limit

    def text(self, file_names):
        words = [str(self.number), REFUSAL_NAMES[self.number]]
        if self.limit is not None:
            words += [self.limit, str(LIMITS[self.limit])]
        if self.place is not None:
            words.append(place_text(self.place, file_names))
        return " ".join(words)


class ReadFault(Exception):
    """A file is not there."""


def place_text(place, file_names):
    return f"{file_names[place.file]}:{place.line}"


def check_limit(limit, count, place):
    if count > LIMITS[limit]:
        raise Refused(14, place, limit)


# ---------------------------------------------------------------------------------------------------------------
# Tokens
# ---------------------------------------------------------------------------------------------------------------

RESERVED = set(
    "caused if after default inertial exogenous constraint always nonexecutable causes may cause where noconcurrency "
    "true false none maxstep label claim sorts objects variables constants query include of simpleFluent "
    "inertialFluent sdFluent rigid action exogenousAction attribute".split()
)

MARKS = (
    r":- :: : ; , .. . ( ) [ ] | /\ \/ \= & ++ + ->> - <-> < =< = >> >= >".split()
)

WORD = re.compile(rb"[A-Za-z][A-Za-z0-9_]*")
NUMBER = re.compile(rb"[0-9]+")
QUOTED = re.compile(rb"'[\x20-\x26\x28-\x7E]+'")
SPACE_OR_COMMENT = re.compile(rb"(?:[\x20\x09\x0D\x0A]|%[^\x0A]*)*")

Token = namedtuple("Token", "kind text line")  # kind is 'word', 'number', 'quoted' or 'mark'


def longest_token_at(text, start):
    """The kind and the end of the longest token that begins at a place; None where none begins."""
    for kind, pattern in (("word", WORD), ("number", NUMBER), ("quoted", QUOTED)):
        match = pattern.match(text, start)
        if match:
            return kind, match.end()
    marks = [mark for mark in MARKS if text.startswith(mark.encode(), start)]
    if marks:
        return "mark", start + max(len(mark) for mark in marks)
    return None


def tokens_of(text, file):
    """All tokens of a text; refused at the first place that has a fault."""
    tokens = []
    at, line = 0, 1
    while True:
        start = SPACE_OR_COMMENT.match(text, at).end()
        line += text.count(b"\n", at, start)
        if start == len(text):
            return tokens
        found = longest_token_at(text, start)
        if found is None:
            raise Refused(2, Place(file, line))
        kind, at = found
        length = at - start
        if kind == "word":
            check_limit("token bytes", length, Place(file, line))
        if kind == "quoted":
            check_limit("token bytes", length - 2, Place(file, line))
        if kind == "number":
            check_limit("number digits", length, Place(file, line))
        tokens.append(Token(kind, text[start:at].decode("ascii"), line))


def statements_of(tokens):
    """The tokens cut behind each dot; what stands behind the last dot is a last statement."""
    statements, current = [], []
    for token in tokens:
        current.append(token)
        if token.kind == "mark" and token.text == ".":
            statements.append(current)
            current = []
    return statements + [current] if current else statements


# ---------------------------------------------------------------------------------------------------------------
# The refusals of a statement's tokens, and its tree
# ---------------------------------------------------------------------------------------------------------------

def begins_with_directive(tokens, words):
    return (
        len(tokens) >= 2
        and (tokens[0].kind, tokens[0].text) == ("mark", ":-")
        and tokens[1].kind == "word"
        and tokens[1].text in words
    )


def check_token_count(tokens, place):
    if begins_with_directive(tokens, ["sorts", "objects", "variables", "constants"]):
        check_limit("declaration tokens", len(tokens), place)
    else:
        check_limit("statement tokens", len(tokens), place)


def statement_tree(tokens, place):
    check_token_count(tokens, place)
    try:
        return Grammar(tokens).statement()
    except NoTree:
        raise Refused(3, place) from None


# Trees. Formulas are tuples with their operator first: ('alone', t), ('-', F), ('&', F, G), ('++', F, G),
# ('->>', F, G), ('<->', F, G), ('/\\', X, F), ('\\/', X, F), and ('=', s, t) and so on for the six signs that compare
# two sums. Parentheses leave no trace: what a tree means, and whether a head is definite, does not depend on them.
#
# A number is an int and a name a str, in trees, in tables and among values, so that 1 and '1' differ.
Term = namedtuple("Term", "name arguments")  # its arguments are sums
Sum = namedtuple("Sum", "first rest")  # a piece, then pairs of '+' or '-' and a piece; a piece is a number or a term
Span = namedtuple("Span", "low high")  # numbers, from the one to the other
ObjectItem = namedtuple("ObjectItem", "members sort")  # a member is a name or a Span
Shape = namedtuple("Shape", "name sorts")
SortList = namedtuple("SortList", "names")
SortChain = namedtuple("SortChain", "names")
ListItem = namedtuple("ListItem", "names sort")
PlainKind = namedtuple("PlainKind", "word sort")
AttributeKind = namedtuple("AttributeKind", "sort action")
ConstantItem = namedtuple("ConstantItem", "shapes kind")
Label = namedtuple("Label", "text")
Range = namedtuple("Range", "lo hi")
AtStep = namedtuple("AtStep", "claim at formulas")  # at is a number or 'maxstep'
Declaration = namedtuple("Declaration", "word items")
QueryTree = namedtuple("QueryTree", "items")
Include = namedtuple("Include", "name")
# The parts of a law by the names that docs/language.md gives them; a part that is not written is None.
LawTree = namedtuple("LawTree", "word F G H A c where", defaults=[None] * 6)

FALSE = ("alone", Term("false", ()))
TRUE = ("alone", Term("true", ()))

COMPARISONS = ("=", "\\=", "<", "=<", ">", ">=")


def single(piece):
    """A sum of one piece."""
    return Sum(piece, ())


def pieces(whole):
    """The pieces of a sum in order."""
    return [whole.first] + [piece for _, piece in whole.rest]


def lone_term(whole):
    """The term that a sum is; None for a number and for a sum of two or more."""
    return whole.first if not whole.rest and isinstance(whole.first, Term) else None


KIND_WORDS = ["simpleFluent", "inertialFluent", "sdFluent", "rigid", "action", "exogenousAction"]


class NoTree(Exception):
    pass


class Grammar:
    """One method for each production of the grammar; each takes its tokens off the front of those that are left."""

    def __init__(self, tokens):
        self.tokens, self.at = tokens, 0

    def sees(self, *texts):
        """Whether the next tokens are these marks and reserved words."""
        found = self.tokens[self.at : self.at + len(texts)]
        return [token.text for token in found] == list(texts)

    def take_if(self, text):
        if self.sees(text):
            self.at += 1
            return True
        return False

    def take(self, text):
        if not self.take_if(text):
            raise NoTree

    def take_kind(self, kind):
        if self.at == len(self.tokens) or self.tokens[self.at].kind != kind:
            raise NoTree
        self.at += 1
        return self.tokens[self.at - 1].text

    def name(self):
        text = self.take_kind("word")
        if text in RESERVED:
            raise NoTree
        return text

    def sees_number(self):
        return self.at < len(self.tokens) and self.tokens[self.at].kind == "number"

    def number(self):
        return int(self.take_kind("number"))

    def separated(self, item, mark):
        items = [item()]
        while self.take_if(mark):
            items.append(item())
        return tuple(items)

    def statement(self):
        tree = self.directive() if self.sees(":-") else self.law()
        self.take(".")
        if self.at != len(self.tokens):
            raise NoTree
        return tree

    def directive(self):
        self.take(":-")
        for word, item in (
            ("sorts", self.sortitem),
            ("objects", self.objitem),
            ("variables", self.listitem),
            ("constants", self.constitem),
        ):
            if self.take_if(word):
                return Declaration(word, self.separated(item, ";"))
        if self.take_if("query"):
            return QueryTree(self.separated(self.queryitem, ";"))
        self.take("include")
        return Include(self.take_kind("quoted")[1:-1])

    def sortitem(self):
        first = self.name()
        if self.take_if(">>"):
            return SortChain((first,) + self.separated(self.name, ">>"))
        if self.take_if(","):
            return SortList((first,) + self.separated(self.name, ","))
        return SortList((first,))

    def objitem(self):
        members = self.separated(self.member, ",")
        self.take("::")
        return ObjectItem(members, self.name())

    def member(self):
        if not self.sees_number():
            return self.name()
        low = self.number()
        return Span(low, self.number() if self.take_if("..") else low)

    def listitem(self):
        names = self.separated(self.name, ",")
        self.take("::")
        return ListItem(names, self.name())

    def constitem(self):
        shapes = self.separated(self.shape, ",")
        self.take("::")
        return ConstantItem(shapes, self.kind())

    def shape(self):
        name, sorts = self.name(), ()
        if self.take_if("("):
            sorts = self.separated(self.name, ",")
            self.take(")")
        return Shape(name, sorts)

    def kind(self):
        if self.take_if("attribute"):
            self.take("(")
            sort = self.name()
            self.take(")")
            self.take("of")
            return AttributeKind(sort, self.shape())
        for word in KIND_WORDS:
            if self.take_if(word):
                sort = "boolean"
                if self.take_if("("):
                    sort = self.name()
                    self.take(")")
                return PlainKind(word, sort)
        raise NoTree

    def queryitem(self):
        if self.sees("label", "::"):
            self.take("label")
            self.take("::")
            return Label(self.take_kind("number") if self.sees_number() else self.name())
        if self.sees("maxstep", "::"):
            self.take("maxstep")
            self.take("::")
            lo = self.number()
            return Range(lo, self.number() if self.take_if("..") else lo)
        claim = self.take_if("claim")
        if claim:
            self.take("::")
        at = "maxstep" if self.take_if("maxstep") else self.number()
        self.take(":")
        return AtStep(claim, at, self.separated(self.formula, ","))

    def law(self):
        if self.take_if("noconcurrency"):
            return LawTree("noconcurrency")
        law = self.lawbody()
        return law._replace(where=self.formula()) if self.take_if("where") else law

    def lawbody(self):
        if self.take_if("caused"):
            return LawTree("caused", F=self.formula(), G=self.if_part(), H=self.after_part())
        if self.take_if("constraint"):
            return LawTree("constraint", F=self.formula())
        if self.take_if("always"):
            return LawTree("always", F=self.formula())
        if self.take_if("nonexecutable"):
            return LawTree("nonexecutable", F=self.formula(), G=self.if_part())
        if self.take_if("default"):
            return LawTree("default", F=self.formula(), G=self.if_part(), H=self.after_part())
        if self.take_if("exogenous"):
            return LawTree("exogenous", c=self.term())
        if self.take_if("inertial"):
            return LawTree("inertial", c=self.term())
        action = self.formula()
        if self.take_if("causes"):
            return LawTree("causes", A=action, F=self.formula(), G=self.if_part())
        self.take("may")
        self.take("cause")
        return LawTree("may cause", A=action, F=self.formula(), G=self.if_part())

    def if_part(self):
        return self.formula() if self.take_if("if") else None

    def after_part(self):
        return self.formula() if self.take_if("after") else None

    def formula(self):
        left = self.implied()
        while self.take_if("<->"):
            left = ("<->", left, self.implied())
        return left

    def implied(self):
        left = self.either()
        return ("->>", left, self.implied()) if self.take_if("->>") else left

    def either(self):
        left = self.both()
        while self.take_if("++"):
            left = ("++", left, self.both())
        return left

    def both(self):
        left = self.unary()
        while self.take_if("&"):
            left = ("&", left, self.unary())
        return left

    def unary(self):
        return ("-", self.unary()) if self.take_if("-") else self.primary()

    def primary(self):
        if self.take_if("("):
            inner = self.formula()
            self.take(")")
            return inner
        if self.take_if("["):
            for sign in ("/\\", "\\/"):
                if self.take_if(sign):
                    variable = self.name()
                    self.take("|")
                    inner = self.formula()
                    self.take("]")
                    return (sign, variable, inner)
            raise NoTree
        left = self.sum()
        for sign in COMPARISONS:
            if self.take_if(sign):
                return (sign, left, self.sum())
        # what is not compared is one term
        if lone_term(left) is None:
            raise NoTree
        return ("alone", left.first)

    def sum(self):
        first, rest = self.piece(), []
        while self.sees("+") or self.sees("-"):
            sign = self.take_kind("mark")
            rest.append((sign, self.piece()))
        return Sum(first, tuple(rest))

    def piece(self):
        return self.number() if self.sees_number() else self.term()

    def term(self):
        for word in ("true", "false", "none"):
            if self.take_if(word):
                return Term(word, ())
        name, arguments = self.name(), ()
        if self.take_if("("):
            arguments = self.separated(self.sum, ",")
            self.take(")")
        return Term(name, arguments)


# ---------------------------------------------------------------------------------------------------------------
# Declarations
# ---------------------------------------------------------------------------------------------------------------

# What each word of a kind says: the constant's kind, and the law that its shapes are short for.
KINDS = {
    "simpleFluent": ("simple", None),
    "inertialFluent": ("simple", "inertial"),
    "sdFluent": ("determined", None),
    "rigid": ("simple", "rigid"),
    "action": ("action", None),
    "exogenousAction": ("action", "exogenous"),
}

# domain is the sort of the values; attribute_of the name of the action, for an attribute
Symbol = namedtuple("Symbol", "name sorts kind domain attribute_of place")


class Table:
    """Everything that is declared, each list in declared order."""

    def __init__(self):
        self.sorts = ["boolean"]
        self.pairs = []  # (upper, lower) for upper >> lower
        self.objects = {"false": "boolean", "true": "boolean"}  # the named ones, with their sorts
        self.puts = list(self.objects.items())  # what is put into sorts: a name or a Span, with the sort
        self.variables = {}  # with their sorts
        self.symbols = {}
        self.found = {}  # what objects_of found; it is asked of a table that does not change any more

    def copy(self):
        other = Table()
        other.sorts, other.pairs = list(self.sorts), list(self.pairs)
        other.objects, other.variables, other.symbols = dict(self.objects), dict(self.variables), dict(self.symbols)
        other.puts = list(self.puts)
        return other

    def has_name(self, name):
        return name in self.objects or name in self.variables or name in self.symbols

    def is_below(self, lower, upper):
        """Whether a sort is another one or stands below it, over any number of pairs."""
        reached = [upper]
        for sort in reached:
            reached += [low for up, low in self.pairs if up == sort and low not in reached]
        return lower in reached

    def objects_of(self, sort):
        """What was put into a sort and into the sorts below it, in the order of the puts, each at its first place."""
        if sort not in self.found:
            below = [low for low in self.sorts if self.is_below(low, sort)]
            put = [one for member, own in self.puts if own in below for one in each_of(member)]
            self.found[sort] = list(dict.fromkeys(put))
        return self.found[sort]


def each_of(member):
    """What a member of an object item puts: a name that object, numbers each from the one to the other."""
    return range(member.low, member.high + 1) if isinstance(member, Span) else [member]


def is_boolean_constant(symbol):
    return symbol.domain == "boolean" and symbol.attribute_of is None


def declare(table, tree, place):
    """The table with a statement's declarations; refused by the least number that has a fault in it."""
    declared = table.copy()
    declare_items = {
        "sorts": declare_sort_item,
        "objects": declare_objects,
        "variables": declare_variables,
        "constants": declare_constants,
    }[tree.word]
    faults = set()
    for item in tree.items:
        faults |= declare_items(declared, item, place)
    if faults:
        raise Refused(min(faults), place)
    check_limit("objects", sum(len(each_of(member)) for member, _ in declared.puts) - 2, place)
    return declared


# Each of these declares an item, name by name from the left, and gives the numbers of all faults in it. A name with
# a fault stands to the left of the next ones too, and so counts as declared for them.


def declare_sort_item(table, item, place):
    return declare_chain(table, item.names) if isinstance(item, SortChain) else declare_sorts(table, item.names)


def declare_sorts(table, names):
    faults = set()
    for name in names:
        if name in table.sorts:
            faults.add(4)
        else:
            table.sorts.append(name)
    return faults


def declare_chain(table, names):
    faults = set()
    for name in names:
        if name == "boolean":
            faults.add(7)
        if name not in table.sorts:
            table.sorts.append(name)
    for upper, lower in zip(names, names[1:]):
        if (upper, lower) in table.pairs:
            faults.add(4)
        else:
            if table.is_below(upper, lower):
                faults.add(7)
            table.pairs.append((upper, lower))
    return faults


def declare_objects(table, item, place):
    faults = sort_faults(table, [item.sort])
    if item.sort == "boolean":
        faults.add(7)
    for member in item.members:
        if isinstance(member, Span):
            faults |= number_faults(table, member, item.sort)
        elif table.has_name(member):
            faults.add(4)
        else:
            table.objects[member] = item.sort
        table.puts.append((member, item.sort))
    return faults


def number_faults(table, numbers, sort):
    """7: a greater number before a lesser one, which puts nothing. 4: one of them was put into the same sort before."""
    if numbers.low > numbers.high:
        return {7}
    before = [member for member, own in table.puts if own == sort and isinstance(member, Span)]
    return {4} if any(share_a_number(numbers, other) for other in before) else set()


def share_a_number(numbers, other):
    return max(numbers.low, other.low) <= min(numbers.high, other.high)


def declare_variables(table, item, place):
    faults = sort_faults(table, [item.sort])
    for name in item.names:
        if table.has_name(name):
            faults.add(4)
        else:
            table.variables[name] = item.sort
    return faults


def declare_constants(table, item, place):
    faults = set()
    for shape in item.shapes:
        faults |= sort_faults(table, shape.sorts)
        if table.has_name(shape.name):
            faults.add(4)
        else:
            table.symbols[shape.name] = symbol_of(shape, item.kind, place)
    faults |= sort_faults(table, [item.kind.sort])
    if isinstance(item.kind, AttributeKind):
        for shape in item.shapes:
            faults |= attribute_faults(table, shape, item.kind.action)
    return faults


def sort_faults(table, sorts):
    return {5} if any(sort not in table.sorts for sort in sorts) else set()


def symbol_of(shape, kind, place):
    if isinstance(kind, AttributeKind):
        return Symbol(shape.name, shape.sorts, "action", kind.sort, kind.action.name, place)
    return Symbol(shape.name, shape.sorts, KINDS[kind.word][0], kind.sort, None, place)


def attribute_faults(table, shape, action):
    """The faults of 'shape :: attribute(S) of action'. An object and a variable are declared without arguments."""
    faults = sort_faults(table, action.sorts)
    if not table.has_name(action.name):
        return faults | {5}
    own = table.symbols.get(action.name)
    own_sorts = own.sorts if own else ()
    if len(action.sorts) != len(own_sorts) or len(action.sorts) != len(shape.sorts):
        faults.add(6)
    if own is None or own.kind != "action" or not is_boolean_constant(own):
        faults.add(7)
    if action.sorts != own_sorts or shape.sorts != own_sorts:
        faults.add(7)
    return faults


# ---------------------------------------------------------------------------------------------------------------
# All declarations together
# ---------------------------------------------------------------------------------------------------------------


def fluents_then_actions(table):
    symbols = table.symbols.values()
    return [s for s in symbols if s.kind != "action"] + [s for s in symbols if s.kind == "action"]


def domain_of(table, symbol):
    """The values of a constant: the objects of its sort, for an attribute none first."""
    objects = table.objects_of(symbol.domain)
    return ["none"] + objects if symbol.attribute_of is not None else objects


def instance_count(table, symbol):
    count = 1
    for sort in symbol.sorts:
        count *= len(table.objects_of(sort))
    return count


def check_declarations(table):
    grounded = [symbol for symbol in fluents_then_actions(table) if instance_count(table, symbol) > 0]
    for symbol in grounded:
        if not domain_of(table, symbol):
            raise Refused(12, symbol.place)
    for symbol in grounded:
        check_limit("domain values", len(domain_of(table, symbol)), None)
    check_limit("ground constants", sum(instance_count(table, symbol) for symbol in grounded), None)


def ground_constants(table):
    """Each ground constant as its symbol and the list of its arguments, in order."""
    return [
        (symbol, arguments)
        for symbol in fluents_then_actions(table)
        for arguments in itertools.product(*[table.objects_of(sort) for sort in symbol.sorts])
    ]


def applied(name, arguments):
    return f"{name}({','.join(map(str, arguments))})" if arguments else name


# ---------------------------------------------------------------------------------------------------------------
# The names and terms of formulas
# ---------------------------------------------------------------------------------------------------------------


def parts_of(tree):
    """The formulas of which a formula is made directly."""
    if tree[0] in ("-",):
        return [tree[1]]
    if tree[0] in ("&", "++", "->>", "<->"):
        return [tree[1], tree[2]]
    if tree[0] in ("/\\", "\\/"):
        return [tree[2]]
    return []


def all_parts(tree):
    """A formula and all formulas within it, in the order in which they stand."""
    found = [tree]
    for part in parts_of(tree):
        found += all_parts(part)
    return found


def sides(tree):
    """The sums that stand alone or are compared."""
    if tree[0] == "alone":
        return [single(tree[1])]
    return [tree[1], tree[2]] if tree[0] in COMPARISONS else []


def all_sums(tree):
    """All sums within a formula, arguments too."""
    return [found for part in all_parts(tree) for side in sides(part) for found in with_arguments(side)]


def with_arguments(whole):
    """A sum and the sums that are arguments in it, at any depth."""
    found = [whole]
    for term in terms_of(whole):
        for argument in term.arguments:
            found += with_arguments(argument)
    return found


def terms_of(whole):
    return [piece for piece in pieces(whole) if isinstance(piece, Term)]


def all_terms(tree):
    """All terms within a formula in the order of its text, arguments too."""
    return [term for part in all_parts(tree) for side in sides(part) for term in terms_in(side)]


def terms_in(whole):
    found = []
    for term in terms_of(whole):
        found.append(term)
        for argument in term.arguments:
            found += terms_in(argument)
    return found


def what_is(table, name):
    if name == "none":
        return "none"
    if name in table.symbols:
        return "constant"
    if name in table.objects:
        return "object"
    if name in table.variables:
        return "variable"
    return "unknown"


def is_constant(table, term):
    return what_is(table, term.name) == "constant"


def brackets(tree):
    return [part for part in all_parts(tree) if part[0] in ("/\\", "\\/")]


def has_unknown_name(table, tree):
    """5: a name in a term, or that of a bracket, is neither an object, a variable nor a constant."""
    return any(what_is(table, term.name) == "unknown" for term in all_terms(tree)) or any(
        what_is(table, variable) == "unknown" for _, variable, _ in brackets(tree)
    )


def has_wrong_arity(table, tree):
    """6: a constant has another number of arguments than declared, or an object or a variable has some."""
    return any(len(term.arguments) != declared_arity(table, term.name) for term in all_terms(tree))


def declared_arity(table, name):
    return len(table.symbols[name].sorts) if what_is(table, name) == "constant" else 0


# From here on no name of the formula is unknown, and each has the right number of arguments.


def has_misfit(table, tree):
    """7, for the terms and brackets of a formula."""
    return any(is_misfit(table, part) for part in all_parts(tree))


def is_misfit(table, part):
    if any(has_misfit_within(table, side) for side in sides(part)):
        return True
    if part[0] == "alone":
        return not may_stand_alone(table, part[1])
    if part[0] in ("=", "\\="):
        return not may_be_compared(table, part[1], part[2])
    if part[0] in COMPARISONS:
        return any(is_no_summand(table, lone_term(side)) for side in sides(part))
    if part[0] in ("/\\", "\\/"):
        return what_is(table, part[1]) != "variable"
    return False


def has_misfit_within(table, side):
    """A part that may not stand in a sum of two or more, or an argument that does not fit, at any depth."""
    return any(
        has_bad_part(table, whole) or any(not arguments_fit(table, term) for term in terms_of(whole))
        for whole in with_arguments(side)
    )


def has_bad_part(table, whole):
    return len(pieces(whole)) > 1 and any(is_no_summand(table, term) for term in terms_of(whole))


def is_no_summand(table, term):
    """Whether a term is a named object, 'true', 'false', 'none' or a Boolean constant. A number is no term: None."""
    if term is None:
        return False
    if is_constant(table, term):
        return is_boolean_constant(table.symbols[term.name])
    return what_is(table, term.name) in ("object", "none")


def arguments_fit(table, term):
    if not is_constant(table, term):
        return True
    return all(is_argument(table, argument, sort) for argument, sort in zip(term.arguments, table.symbols[term.name].sorts))


def is_argument(table, whole, sort):
    """A sum without a constant; an object or a variable alone is one of the sort or below it. A number is not looked at."""
    if any(is_constant(table, term) for term in terms_in(whole)):
        return False
    term = lone_term(whole)
    return term is None or is_of_sort(table, term, sort)


def is_of_sort(table, term, sort):
    """Whether a term is an object of a sort, or a variable of that sort or one below it."""
    kind = what_is(table, term.name)
    if kind == "object":
        return table.is_below(table.objects[term.name], sort)
    return kind == "variable" and table.is_below(table.variables[term.name], sort)


def may_stand_alone(table, term):
    if is_constant(table, term):
        return is_boolean_constant(table.symbols[term.name])
    return term.name in ("true", "false")


def may_be_compared(table, left, right):
    """For '=' and '\\='. 'none' is compared with an attribute alone; only a constant alone asks for a value that fits."""
    left, right = lone_term(left), lone_term(right)
    if is_none(left) or is_none(right):
        return is_attribute(table, left) or is_attribute(table, right)
    if left is None or right is None or is_constant(table, left) == is_constant(table, right):
        return True
    constant, value = (left, right) if is_constant(table, left) else (right, left)
    return is_of_sort(table, value, table.symbols[constant.name].domain)


def is_none(term):
    return term is not None and term.name == "none"


def is_attribute(table, term):
    return term is not None and is_constant(table, term) and table.symbols[term.name].attribute_of is not None


def free_variables(table, tree, bound=()):
    """The names of the variables that are free in a formula, each as often as it comes, in order."""
    if tree[0] in ("/\\", "\\/"):
        return free_variables(table, tree[2], bound + (tree[1],))
    found = [term.name for side in sides(tree) for term in terms_in(side)]
    found = [name for name in found if what_is(table, name) == "variable" and name not in bound]
    for part in parts_of(tree):
        found += free_variables(table, part, bound)
    return found


def constants_in(table, tree):
    """The symbols of the constants of a formula."""
    return [table.symbols[term.name] for term in all_terms(tree) if is_constant(table, term)]


# ---------------------------------------------------------------------------------------------------------------
# Laws: what they are short for, their forms, their heads
# ---------------------------------------------------------------------------------------------------------------

# A law 'caused F if G after H'; after is None where there is no such part, and value is the constant over whose
# values the law goes, or None.
Caused = namedtuple("Caused", "head body after value", defaults=[None, None])

VALUE = Term("the value", ())  # the variable for the values of a constant; no name has a space


def both(left, right):
    """'F & G', where a part that is not written is left out, and nothing at all is true."""
    if left is None or right is None:
        return left or right or TRUE
    return ("&", left, right)


def alone(term):
    return ("alone", term)


def negated(tree):
    return ("-", tree)


def equation(left, right):
    return ("=", single(left), single(right))


def exogenous(c):
    return Caused(equation(c, VALUE), equation(c, VALUE), None, c)


def inertial(c):
    return Caused(equation(c, VALUE), equation(c, VALUE), equation(c, VALUE), c)


def rigid(c):
    return Caused(equation(c, VALUE), TRUE, equation(c, VALUE), c)


def only_with_its_action(c, a):
    """An attribute has a value other than none exactly where its action is done."""
    return Caused(FALSE, TRUE, negated(("<->", equation(c, Term("none", ())), negated(alone(a)))))


def is_short_for(table, law):
    """The law 'caused ..' that a law is short for, with its head still whole."""
    if law.word == "caused":
        return Caused(law.F, both(law.G, None), law.H)
    if law.word == "constraint":
        return Caused(FALSE, negated(law.F))
    if law.word == "always":
        return Caused(FALSE, TRUE, negated(law.F))
    if law.word == "nonexecutable":
        return Caused(FALSE, TRUE, both(law.F, law.G))
    if law.word == "default":
        return Caused(law.F, both(law.F, law.G), law.H)
    if law.word == "exogenous":
        return exogenous(law.c)
    if law.word == "inertial":
        return inertial(law.c)
    if law.word == "causes" and is_fluent_formula(table, law.F):
        return Caused(law.F, TRUE, both(law.A, law.G))
    if law.word == "causes":
        return Caused(law.F, both(law.A, law.G))
    if law.word == "may cause":
        return Caused(law.F, law.F, both(law.A, law.G))
    raise ValueError(law.word)


def is_fluent_formula(table, tree):
    return all(symbol.kind != "action" for symbol in constants_in(table, tree))


def is_action_formula(table, tree):
    kinds = [symbol.kind for symbol in constants_in(table, tree)]
    return kinds != [] and all(kind == "action" for kind in kinds)


def has_right_parts(table, law):
    """9: whether each part is of its kind."""
    if law.word == "constraint":
        return is_fluent_formula(table, law.F)
    if law.word == "nonexecutable":
        return is_action_formula(table, law.F)
    if law.word == "inertial":
        return is_fluent_formula(table, alone(law.c))
    if law.word == "causes":
        return is_action_formula(table, law.A) and (is_fluent_formula(table, law.F) or is_action_formula(table, law.F))
    if law.word == "may cause":
        return is_action_formula(table, law.A) and is_fluent_formula(table, law.F)
    return True


def form_of(table, caused):
    """9: which of the three forms a law has, statically determined fluents aside; None where it has none."""
    if caused.after is not None:
        fluent = is_fluent_formula(table, caused.head) and is_fluent_formula(table, caused.body)
        return "fluent" if fluent else None
    if is_fluent_formula(table, caused.head) and is_fluent_formula(table, caused.body):
        return "static"
    return "action" if is_action_formula(table, caused.head) else None


def has_determined_fluent(table, tree):
    """10: whether a formula has a statically determined fluent."""
    return any(symbol.kind == "determined" for symbol in constants_in(table, tree))


def definite_parts(table, head):
    """11: the parts of a definite head in order, each False or a constant with its value; None for another head."""
    if head[0] == "&":
        left, right = definite_parts(table, head[1]), definite_parts(table, head[2])
        return None if left is None or right is None else left + right
    part = definite_part(table, head)
    return None if part is None else [part]


def definite_part(table, head):
    if head == FALSE:
        return False
    if head[0] == "alone" and is_constant(table, head[1]):
        return head[1], single(Term("true", ()))
    if head[0] == "=":
        return constant_and_value(table, head[1], head[2])
    if head[0] == "\\=" and is_lone_constant(table, head[1]):
        return opposite(table, constant_and_value(table, head[1], head[2]))
    if head[0] == "-" and head[1][0] == "alone" and is_constant(table, head[1][1]):
        return head[1][1], single(Term("false", ()))
    if head[0] == "-" and head[1][0] == "=":
        return opposite(table, constant_and_value(table, head[1][1], head[1][2]))
    return None


def constant_and_value(table, left, right):
    """What 'c=v' and 'v=c' say, with v a sum without a constant; None for another equation."""
    for c, v in ((left, right), (right, left)):
        if is_lone_constant(table, c) and not any(is_constant(table, term) for term in terms_in(v)):
            return lone_term(c), v
    return None


def is_lone_constant(table, whole):
    return lone_term(whole) is not None and is_constant(table, lone_term(whole))


def opposite(table, part):
    """What the negation of 'c=v' says, for a Boolean constant and a truth value; None for another one."""
    if part is None or not is_boolean_constant(table.symbols[part[0].name]):
        return None
    return {
        single(Term("true", ())): (part[0], single(Term("false", ()))),
        single(Term("false", ())): (part[0], single(Term("true", ()))),
    }.get(part[1])


# ---------------------------------------------------------------------------------------------------------------
# Base laws: variables by number
# ---------------------------------------------------------------------------------------------------------------

# Formulas with numbers in place of variables: 'true', 'false', ('=', s, t), ('<', s, t), ('=<', s, t), ('-', F),
# ('&', F, G), ('++', F, G), ('->>', F, G), ('<->', F, G), ('/\\', k, sort, F), ('\\/', k, sort, F).
Constant = namedtuple("Constant", "name arguments")
Variable = namedtuple("Variable", "number")
Value = namedtuple("Value", "name")  # an object, a number or none
Plus = namedtuple("Plus", "left right")
Minus = namedtuple("Minus", "left right")

# ranges are ('sort', name) and ('domain', name of a symbol); head is False or a pair of a constant and a value
Law = namedtuple("Law", "ranges head body after test kind place")
Wide = namedtuple("Wide", "formula")  # a head of any form, where laws may have such heads
NoConcurrency = namedtuple("NoConcurrency", "place")


class Numbers:
    """Numbers for brackets, one after the other."""

    def __init__(self, first):
        self.next = first

    def take(self):
        self.next += 1
        return self.next - 1


def resolved_sum(table, whole, numbers):
    """A sum groups to the left."""
    made = resolved_piece(table, whole.first, numbers)
    for sign, piece in whole.rest:
        made = (Plus if sign == "+" else Minus)(made, resolved_piece(table, piece, numbers))
    return made


def resolved_piece(table, piece, numbers):
    if isinstance(piece, int):
        return Value(piece)
    if piece.name in numbers:
        return Variable(numbers[piece.name])
    if is_constant(table, piece):
        return Constant(piece.name, tuple(resolved_sum(table, argument, numbers) for argument in piece.arguments))
    return Value(piece.name)


def resolved(table, tree, numbers, bracket_numbers):
    sign = tree[0]
    if sign == "alone":
        term = resolved_piece(table, tree[1], numbers)
        return ("=", term, Value("true")) if isinstance(term, Constant) else term.name
    if sign == "\\=":
        return ("-", resolved(table, ("=", tree[1], tree[2]), numbers, bracket_numbers))
    if sign in (">", ">="):
        # 's>t' is 't<s', and 's>=t' is 't=<s'
        sign, tree = {">": "<", ">=": "=<"}[sign], (sign, tree[2], tree[1])
    if sign in COMPARISONS:
        return (sign, resolved_sum(table, tree[1], numbers), resolved_sum(table, tree[2], numbers))
    if sign in ("/\\", "\\/"):
        number = bracket_numbers.take()
        inner = resolved(table, tree[2], {**numbers, tree[1]: number}, bracket_numbers)
        return (sign, number, table.variables[tree[1]], inner)
    return (sign,) + tuple(resolved(table, part, numbers, bracket_numbers) for part in tree[1:])


def written_parts(law):
    """The parts of a law before its test, in the order of its text."""
    parts = [law.A, law.F, law.G, law.H, alone(law.c) if law.c else None]
    return [part for part in parts if part is not None]


def test_of(law):
    return [] if law.where is None else [law.where]


def law_has_unknown_name(table, law):
    return any(has_unknown_name(table, tree) for tree in written_parts(law) + test_of(law))


def law_has_wrong_arity(table, law):
    return any(has_wrong_arity(table, tree) for tree in written_parts(law) + test_of(law))


def law_has_misfit(table, law):
    if law.c is None:
        misfit = any(has_misfit(table, tree) for tree in written_parts(law))
    else:
        misfit = not is_constant(table, law.c) or has_misfit_within(table, single(law.c))
    return misfit or any(has_misfit(table, tree) or constants_in(table, tree) for tree in test_of(law))


def law_is_unbound(table, law):
    free = variables_of(table, law)
    return any(name not in free for tree in test_of(law) for name in free_variables(table, tree))


def law_has_no_form(table, law):
    return not has_right_parts(table, law) or form_of(table, is_short_for(table, law)) is None


def law_has_determined_head(table, law):
    caused = is_short_for(table, law)
    return form_of(table, caused) == "fluent" and has_determined_fluent(table, caused.head)


def law_is_not_definite(table, law):
    return definite_parts(table, is_short_for(table, law).head) is None


# The refusals of laws; each test is made where none of those above it holds.
LAW_FAULTS = [
    (5, law_has_unknown_name),
    (6, law_has_wrong_arity),
    (7, law_has_misfit),
    (8, law_is_unbound),
    (9, law_has_no_form),
    (10, law_has_determined_head),
    (11, law_is_not_definite),
]


def variables_of(table, law):
    """The names of a law's variables, in the order in which they first come."""
    return list(dict.fromkeys(name for tree in written_parts(law) for name in free_variables(table, tree)))


def base_laws_of_law(table, law, place, is_wide=False):
    """The base laws that a law stands for, in order; refused by the least number that has a fault in it. Where wide, heads are of any form."""
    if law.word == "noconcurrency":
        return [NoConcurrency(place)]
    for number, has_fault in LAW_FAULTS:
        if has_fault(table, law) and not (is_wide and number == 11):
            raise Refused(number, place)
    names = variables_of(table, law)
    ranges = [("sort", table.variables[name]) for name in names]
    return base_laws(table, is_short_for(table, law), names, ranges, law.where, place)


def base_laws(table, caused, names, ranges, where, place):
    """The base laws of a law over the variables of these names and ranges: one for each part of its head."""
    numbers = {name: number for number, name in enumerate(names)}
    if caused.value is not None:
        numbers[VALUE.name] = len(names)
        ranges = ranges + [("domain", caused.value.name)]
    bracket_numbers = Numbers(len(names) + 1)
    test = "true" if where is None else resolved(table, where, numbers, bracket_numbers)
    body = resolved(table, caused.body, numbers, bracket_numbers)
    after = None if caused.after is None else resolved(table, caused.after, numbers, bracket_numbers)
    kind = form_of(table, caused)
    if definite_parts(table, caused.head) is None:
        return [Law(ranges, Wide(resolved(table, caused.head, numbers, bracket_numbers)), body, after, test, kind, place)]
    laws = []
    for part in definite_parts(table, caused.head):
        if part is False and kind == "action":
            laws.append(Law(ranges, False, "true", body, test, "fluent", place))
        else:
            head = part and (resolved_piece(table, part[0], numbers), resolved_sum(table, part[1], numbers))
            laws.append(Law(ranges, head, body, after, test, kind, place))
    return laws


def base_laws_of_declaration(table, tree, place):
    """The base laws of a statement of constants: those of its shapes in order."""
    laws = []
    for item in tree.items:
        for shape in item.shapes:
            for caused in laws_of_shape(shape, item.kind):
                names = [argument.first.name for argument in shape_arguments(shape)]
                ranges = [("sort", sort) for sort in shape.sorts]
                laws += base_laws(table, caused, names, ranges, None, place)
    return laws


def shape_arguments(shape):
    return tuple(single(Term(f"argument {number}", ())) for number in range(len(shape.sorts)))


def laws_of_shape(shape, kind):
    arguments = shape_arguments(shape)
    c = Term(shape.name, arguments)
    if isinstance(kind, AttributeKind):
        return [exogenous(c), only_with_its_action(c, Term(kind.action.name, arguments))]
    law = {"inertial": inertial, "rigid": rigid, "exogenous": exogenous}.get(KINDS[kind.word][1])
    return [law(c)] if law else []


# ---------------------------------------------------------------------------------------------------------------
# Queries
# ---------------------------------------------------------------------------------------------------------------

Condition = namedtuple("Condition", "at formula")
Query = namedtuple("Query", "label range conditions claim place")


def asked_formulas(tree):
    return [formula for item in tree.items if isinstance(item, AtStep) for formula in item.formulas]


def query_has_second(table, tree, labels):
    own = [item.text for item in tree.items if isinstance(item, Label)]
    ranges = [item for item in tree.items if isinstance(item, Range)]
    claims = [item for item in tree.items if isinstance(item, AtStep) and item.claim]
    return len(own) > 1 or len(ranges) > 1 or len(claims) > 1 or any(label in labels for label in own)


def query_has_unknown_name(table, tree, labels):
    return any(has_unknown_name(table, formula) for formula in asked_formulas(tree))


def query_has_wrong_arity(table, tree, labels):
    return any(has_wrong_arity(table, formula) for formula in asked_formulas(tree))


def query_has_misfit(table, tree, labels):
    return any(has_misfit(table, formula) for formula in asked_formulas(tree))


def query_is_unbound(table, tree, labels):
    return any(free_variables(table, formula) for formula in asked_formulas(tree))


# The refusals of queries; labels are those of the earlier queries. Each test is made where none above it holds.
QUERY_FAULTS = [
    (4, query_has_second),
    (5, query_has_unknown_name),
    (6, query_has_wrong_arity),
    (7, query_has_misfit),
    (8, query_is_unbound),
]


def query_of(table, tree, labels, place):
    """What a query asks; refused by the least number that has a fault in it."""
    for number, has_fault in QUERY_FAULTS:
        if has_fault(table, tree, labels):
            raise Refused(number, place)
    asked = [item for item in tree.items if isinstance(item, AtStep)]
    bracket_numbers = Numbers(0)
    conditions = [condition_of(table, item, bracket_numbers) for item in asked if not item.claim]
    claims = [condition_of(table, item, bracket_numbers) for item in asked if item.claim]
    label = [item.text for item in tree.items if isinstance(item, Label)]
    ranges = [item for item in tree.items if isinstance(item, Range)]
    return Query(first_or_none(label), first_or_none(ranges), conditions, first_or_none(claims), place)


def first_or_none(items):
    return items[0] if items else None


def condition_of(table, item, bracket_numbers):
    """The comma between the formulas of a condition says 'and'."""
    tree = item.formulas[0]
    for formula in item.formulas[1:]:
        tree = ("&", tree, formula)
    return Condition(item.at, resolved(table, tree, {}, bracket_numbers))


def check_steps(table, query, horizon=None):
    """The refusals of the steps of a query that is run, of an export at a horizon."""
    asked = query.conditions + ([query.claim] if query.claim else [])
    if query.range is None or query.range.lo > query.range.hi:
        raise Refused(16, query.place)
    lo = query.range.lo
    for condition in asked:
        if condition.at != "maxstep" and condition.at > lo:
            raise Refused(16, query.place)
        if condition.at in ("maxstep", lo) and has_action(table, condition.formula):
            raise Refused(16, query.place)
    if horizon is not None and not lo <= horizon <= query.range.hi:
        raise Refused(16, query.place)
    check_limit("horizon", query.range.hi, None)


def has_action(table, formula):
    if isinstance(formula, Constant):
        return table.symbols[formula.name].kind == "action"
    return isinstance(formula, tuple) and any(has_action(table, part) for part in formula)


# ---------------------------------------------------------------------------------------------------------------
# Files
# ---------------------------------------------------------------------------------------------------------------


class Description:
    """A file and the files that it includes, read statement by statement."""

    def __init__(self, files, is_wide=False):
        self.files, self.is_wide = files, is_wide  # their bytes by name; whether heads may be of any form
        self.file_names = []  # of each file that was opened, in order
        self.total_bytes = 0
        self.table = Table()
        self.laws = []
        self.queries = []

    def read(self, name, being_read):
        """Reads a file; being_read are the names of the files that include it, the main one first."""
        if name not in self.files:
            raise ReadFault
        text = self.files[name]
        number = len(self.file_names)
        self.file_names.append(name)
        self.total_bytes += len(text)
        check_limit("file bytes", len(text), Place(number, 1))
        check_limit("total bytes", self.total_bytes, Place(number, 1))
        for tokens in statements_of(tokens_of(text, number)):
            place = Place(number, tokens[0].line)
            self.take(statement_tree(tokens, place), place, being_read + [name])

    def take(self, tree, place, being_read):
        if isinstance(tree, Include):
            self.include(tree.name, place, being_read)
        elif isinstance(tree, Declaration):
            self.table = declare(self.table, tree, place)
            if tree.word == "constants":
                self.laws += base_laws_of_declaration(self.table, tree, place)
        elif isinstance(tree, QueryTree):
            labels = [query.label for query in self.queries if query.label is not None]
            self.queries.append(query_of(self.table, tree, labels, place))
        else:
            self.laws += base_laws_of_law(self.table, tree, place, self.is_wide)

    def include(self, name, place, being_read):
        if name in being_read:
            raise Refused(17, place)
        check_limit("include depth", len(being_read), place)
        self.read(name, being_read)


def described(files, main, is_wide=False):
    description = Description(files, is_wide)
    try:
        description.read(main, [])
        check_declarations(description.table)
    except Refused as refused:
        return description, "refused " + refused.text(description.file_names)
    except ReadFault:
        return description, "read fault"
    return description, None


# ---------------------------------------------------------------------------------------------------------------
# Ground laws
# ---------------------------------------------------------------------------------------------------------------

# An environment gives each variable's number its value. Nodes are texts, parts before what joins them.


def values_of_range(table, values_range):
    what, name = values_range
    return table.objects_of(name) if what == "sort" else domain_of(table, table.symbols[name])


def choice_count(table, law):
    """How many choices of values for its variables a base law has, before its test."""
    if isinstance(law, NoConcurrency):
        return pair_count(table)
    count = 1
    for values_range in law.ranges:
        count *= len(values_of_range(table, values_range))
    return count


def environments(table, law):
    """The choices of values for which a law's test is true and its head is there, the first variable slowest."""
    choices = itertools.product(*[values_of_range(table, values_range) for values_range in law.ranges])
    for values in choices:
        environment = dict(enumerate(values))
        if holds(table, law.test, environment, {}) and head_is_there(table, law.head, environment):
            yield environment


def head_is_there(table, head, environment):
    """'false' is always there; an atom where its arguments are of their sorts and its value is one of the constant's."""
    if head is False or isinstance(head, Wide):
        return True
    constant, value = head
    values = domain_of(table, table.symbols[constant.name])
    return ground_name(table, constant, environment) is not None and value_of(table, value, environment, {}) in values


def holds(table, formula, environment, state):
    """The truth of a formula where 'state' gives each ground constant its value. A test has no constant."""
    if isinstance(formula, str):
        return formula == "true"
    sign = formula[0]
    if sign in ("=", "<", "=<"):
        left, right = (value_of(table, side, environment, state) for side in formula[1:])
        return is_so(sign, left, right)
    if sign == "-":
        return not holds(table, formula[1], environment, state)
    if sign in ("/\\", "\\/"):
        quantify = all if sign == "/\\" else any
        instances = bracket_environments(table, formula, environment)
        return quantify([holds(table, formula[3], inner, state) for inner in instances])
    left, right = holds(table, formula[1], environment, state), holds(table, formula[2], environment, state)
    return {"&": left and right, "++": left or right, "->>": not left or right, "<->": left == right}[sign]


def is_so(sign, left, right):
    """Whether two values are the same, or are numbers the first of which is less, or not greater; no value is None."""
    if sign == "=":
        return left is not None and left == right
    if not isinstance(left, int) or not isinstance(right, int):
        return False
    return left < right if sign == "<" else left <= right


def bracket_environments(table, bracket, environment):
    """An environment for each object of the sort of a bracket's variable."""
    return [{**environment, bracket[1]: value} for value in table.objects_of(bracket[2])]


def value_of(table, term, environment, state):
    """The value of a term: a number, a name, or None where it has none."""
    if isinstance(term, Value):
        return term.name
    if isinstance(term, Variable):
        return environment[term.number]
    if isinstance(term, Constant):
        return state.get(ground_name(table, term, environment))
    left, right = value_of(table, term.left, environment, state), value_of(table, term.right, environment, state)
    if not isinstance(left, int) or not isinstance(right, int):
        return None
    return left + right if isinstance(term, Plus) else left - right


def ground_name(table, constant, environment):
    """The ground constant that a constant is; None where an argument is not one of its sort."""
    arguments = [value_of(table, argument, environment, {}) for argument in constant.arguments]
    sorts = table.symbols[constant.name].sorts
    if any(argument not in table.objects_of(sort) for argument, sort in zip(arguments, sorts)):
        return None
    return applied(constant.name, arguments)


def nodes_of(table, formula, environment):
    if isinstance(formula, str):
        return [formula]
    sign = formula[0]
    if sign in ("=", "<", "=<"):
        return comparison_nodes(table, formula, environment)
    if sign in ("/\\", "\\/"):
        instances = bracket_environments(table, formula, environment)
        nodes = [node for inner in instances for node in nodes_of(table, formula[3], inner)]
        return nodes + [("&" if sign == "/\\" else "|") + str(len(instances))]
    left = nodes_of(table, formula[1], environment)
    if sign == "-":
        return left + ["-"]
    right = nodes_of(table, formula[2], environment)
    if sign == "->>":
        return left + ["-"] + right + ["|2"]
    return left + right + [{"&": "&2", "++": "|2", "<->": "<->"}[sign]]


def comparison_nodes(table, formula, environment):
    names = names_in(table, formula, environment)
    if None in names:
        return ["false"]
    if not names:
        return ["true" if holds(table, formula, environment, {}) else "false"]
    if is_judged(formula):
        lists = true_lists(table, formula, environment)
        nodes = [node for atoms in lists for node in [f"{name}={value}" for name, value in atoms] + [f"&{len(atoms)}"]]
        return nodes + [f"|{len(lists)}"]
    left, right = formula[1:]
    if isinstance(left, Constant) and isinstance(right, Constant):
        values = common_values(table, left, right)
        return [node for v in values for node in (f"{names[0]}={v}", f"{names[1]}={v}", "&2")] + [f"|{len(values)}"]
    value = right if isinstance(left, Constant) else left
    return [f"{names[0]}={value_of(table, value, environment, {})}"]


def is_judged(formula):
    """Whether a comparison has another sign than '=', or a side that is a number or a sum of two or more."""
    return formula[0] != "=" or any(isinstance(side, (Plus, Minus)) or is_number(side) for side in formula[1:])


def is_number(term):
    return isinstance(term, Value) and isinstance(term.name, int)


def parts_of_sides(formula):
    """The pieces of both sides of a comparison, in order."""
    found, waiting = [], [formula[2], formula[1]]
    while waiting:
        term = waiting.pop()
        if isinstance(term, (Plus, Minus)):
            waiting += [term.right, term.left]
        else:
            found.append(term)
    return found


def constants_of_sides(formula):
    return [term for term in parts_of_sides(formula) if isinstance(term, Constant)]


def names_in(table, formula, environment):
    """The ground constants of a comparison in order, each as often as it stands there; None for one that does not exist."""
    return [ground_name(table, constant, environment) for constant in constants_of_sides(formula)]


def domains_in(table, formula, environment):
    """The different ground constants of a comparison that exist, in the order of their first place, with their domains."""
    found = {}
    for constant in constants_of_sides(formula):
        name = ground_name(table, constant, environment)
        if name is not None:
            found[name] = domain_of(table, table.symbols[constant.name])
    return found


def true_lists(table, formula, environment):
    """For each list of values of its different constants under which a comparison is true, the constants with their values."""
    domains = domains_in(table, formula, environment)
    ground = tuple([formula[0]] + [ground_side(table, side, environment) for side in formula[1:]])
    lists = []
    for values in itertools.product(*domains.values()):
        state = dict(zip(domains, values))
        if is_so(ground[0], sum_of(ground[1], state), sum_of(ground[2], state)):
            lists.append(list(state.items()))
    return lists


def ground_side(table, term, environment):
    """A side with ground constants in place of constants and with values in place of variables."""
    if isinstance(term, (Plus, Minus)):
        return type(term)(ground_side(table, term.left, environment), ground_side(table, term.right, environment))
    if isinstance(term, Constant):
        return Constant(ground_name(table, term, environment), ())
    return Value(value_of(table, term, environment, {}))


def sum_of(term, state):
    """The value of a side that is ground."""
    if isinstance(term, Value):
        return term.name
    if isinstance(term, Constant):
        return state[term.name]
    left, right = sum_of(term.left, state), sum_of(term.right, state)
    if not isinstance(left, int) or not isinstance(right, int):
        return None
    return left + right if isinstance(term, Plus) else left - right


def common_values(table, left, right):
    """The values that two constants share, in the order of the first one's."""
    others = domain_of(table, table.symbols[right.name])
    return [value for value in domain_of(table, table.symbols[left.name]) if value in others]


def node_count(table, formula, environment):
    """How many nodes a formula has under an environment; without numbers that is the same under each."""
    return nodes_counted(table, formula, environment, is_plain(formula))


def nodes_counted(table, formula, environment, plain):
    if isinstance(formula, str):
        return 1
    sign = formula[0]
    if sign in ("=", "<", "=<"):
        return comparison_count(table, formula, environment)
    if sign in ("/\\", "\\/"):
        instances = bracket_environments(table, formula, environment)
        if instances and plain:
            return len(instances) * nodes_counted(table, formula[3], instances[0], plain) + 1
        return sum(nodes_counted(table, formula[3], inner, plain) for inner in instances) + 1
    inner = sum(nodes_counted(table, part, environment, plain) for part in formula[1:])
    return inner + (2 if sign == "->>" else 1)


def comparison_count(table, formula, environment):
    names = names_in(table, formula, environment)
    if not names or None in names:
        return 1
    if is_judged(formula):
        return len(true_lists(table, formula, environment)) * (len(set(names)) + 1) + 1
    if len(names) == 2:
        return 3 * len(common_values(table, formula[1], formula[2])) + 1
    return 1


def is_plain(formula):
    """Whether a formula has no number, no sum and no sign of order: all of its constants exist, under each environment."""
    if isinstance(formula, Constant):
        return all(is_plain(argument) for argument in formula.arguments)
    if not isinstance(formula, tuple):
        return True
    if isinstance(formula, (Plus, Minus)) or is_number(formula) or formula[0] in ("<", "=<"):
        return False
    return isinstance(formula, (Value, Variable)) or all(is_plain(part) for part in formula[1:])


def list_count(table, formula, environment):
    """For the limit of choices: how many lists of values are looked at, for all comparisons of which that is said."""
    return 0 if is_plain(formula) else lists_counted(table, formula, environment)


def lists_counted(table, formula, environment):
    if isinstance(formula, str):
        return 0
    sign = formula[0]
    if sign in ("=", "<", "=<"):
        if not is_judged(formula) or not constants_of_sides(formula):
            return 0
        return math.prod(len(domain) for domain in domains_in(table, formula, environment).values())
    if sign in ("/\\", "\\/"):
        instances = bracket_environments(table, formula, environment)
        return sum(lists_counted(table, formula[3], inner) for inner in instances)
    return sum(lists_counted(table, part, environment) for part in formula[1:])


def boolean_actions(table):
    return [
        applied(symbol.name, arguments)
        for symbol, arguments in ground_constants(table)
        if symbol.kind == "action" and is_boolean_constant(symbol)
    ]


def action_pairs(table):
    """Each two ground Boolean actions, an earlier one first."""
    return list(itertools.combinations(boolean_actions(table), 2))


def pair_count(table):
    actions = len(boolean_actions(table))
    return actions * (actions - 1) // 2


def check_ground_limits(table, laws, is_wide=False):
    """The limits of ground laws. Where wide, heads count beside the parts."""
    check_limit("law instances", sum(choice_count(table, law) for law in laws), None)
    check_limit("choices", sum(sum_over_instances(table, law, list_count, is_wide) for law in laws), None)
    pairs = (5 if is_wide else 4) * pair_count(table)
    check_limit("ground nodes", sum(pairs if isinstance(law, NoConcurrency) else sum_over_instances(table, law, node_count, is_wide) for law in laws), None)


def head_formula(head):
    if isinstance(head, Wide):
        return head.formula
    return ("=", *head) if head else "false"


def sum_over_instances(table, law, count, is_wide):
    """What the parts of a law count, and where wide its head, over its instances; a law without numbers counts the same in each."""
    if isinstance(law, NoConcurrency):
        return 0
    parts = [part for part in (law.body, law.after) if part is not None] + ([head_formula(law.head)] if is_wide else [])
    if all(is_plain(part) for part in parts):
        instances = list(itertools.islice(environments(table, law), 1))
        if not instances:
            return 0
        number = sum(1 for _ in environments(table, law))
        return number * sum(count(table, part, instances[0]) for part in parts)
    return sum(count(table, part, environment) for environment in environments(table, law) for part in parts)


def check_asked_limits(table, parts):
    """The limits of the formulas that a query asks or denies."""
    check_limit("choices", sum(list_count(table, part.formula, {}) for part in parts), None)
    check_limit("ground nodes", sum(node_count(table, part.formula, {}) for part in parts), None)


def ground_lines(table, laws):
    """The ground laws of a description in order, as lines."""
    try:
        check_ground_limits(table, laws)
    except Refused as refused:
        return ["ground refused " + refused.text([])]
    return [line for number, law in enumerate(laws) for line in ground_lines_of(table, number, law)]


def ground_lines_of(table, number, law):
    if isinstance(law, NoConcurrency):
        pairs = action_pairs(table)
        return [f"ground {number} fluent false if true after {a}=true {b}=true &2" for a, b in pairs]
    return [ground_line(table, number, law, environment) for environment in environments(table, law)]


def ground_line(table, number, law, environment):
    head = "false"
    if law.head:
        head = f"{ground_name(table, law.head[0], environment)}={value_of(table, law.head[1], environment, {})}"
    line = f"ground {number} {law.kind} {head} if {' '.join(nodes_of(table, law.body, environment))}"
    if law.after is not None:
        line += f" after {' '.join(nodes_of(table, law.after, environment))}"
    return line


# ---------------------------------------------------------------------------------------------------------------
# What is printed
# ---------------------------------------------------------------------------------------------------------------


def term_text(term):
    if isinstance(term, Variable):
        return f"X{term.number}"
    if isinstance(term, (Plus, Minus)):
        return f"({term_text(term.left)}{'+' if isinstance(term, Plus) else '-'}{term_text(term.right)})"
    return applied(str(term.name), [term_text(argument) for argument in getattr(term, "arguments", ())])


def formula_text(formula):
    if isinstance(formula, str):
        return formula
    sign = formula[0]
    if sign in ("=", "<", "=<"):
        return f"{term_text(formula[1])}{sign}{term_text(formula[2])}"
    if sign == "-":
        return "-" + formula_text(formula[1])
    if sign in ("/\\", "\\/"):
        return f"[{sign}X{formula[1]}:{formula[2]} | {formula_text(formula[3])}]"
    return f"({formula_text(formula[1])} {sign} {formula_text(formula[2])})"


def law_line(law, file_names):
    if isinstance(law, NoConcurrency):
        return f"law {place_text(law.place, file_names)} noconcurrency"
    head = f"{term_text(law.head[0])}={term_text(law.head[1])}" if law.head else "false"
    line = f"law {place_text(law.place, file_names)} {law.kind} {head} if {formula_text(law.body)}"
    if law.after is not None:
        line += f" after {formula_text(law.after)}"
    line += f" where {formula_text(law.test)}"
    if law.ranges:
        line += " over " + " ".join(f"{what} {name}" for what, name in law.ranges)
    return line


def table_lines(table):
    lines = [" ".join([f"sort {sort}:"] + [str(one) for one in table.objects_of(sort)]) for sort in table.sorts]
    lines += [f"variable {name}: {sort}" for name, sort in table.variables.items()]
    for symbol in table.symbols.values():
        line = f"symbol {applied(symbol.name, symbol.sorts)}: {symbol.kind} {symbol.domain}"
        lines.append(line if symbol.attribute_of is None else f"{line} of {symbol.attribute_of}")
    for symbol, arguments in ground_constants(table):
        values = " ".join(map(str, domain_of(table, symbol)))
        lines.append(f"constant {applied(symbol.name, arguments)}: {symbol.kind}: {values}")
    return lines


def query_lines(table, query, file_names):
    label = "-" if query.label is None else query.label
    tried = "-" if query.range is None else f"{query.range.lo}..{query.range.hi}"
    lines = [f"query {label} {tried} {place_text(query.place, file_names)}"]
    runs = True
    try:
        check_steps(table, query)
    except Refused as refused:
        runs = False
        lines.append("steps refused " + refused.text(file_names))
    lines += [f"condition {condition.at}: {formula_text(condition.formula)}" for condition in query.conditions]
    if query.claim:
        lines.append(f"claim {query.claim.at}: {formula_text(query.claim.formula)}")
    return lines + (asked_lines(table, query) if runs else [])


def asked_lines(table, query):
    parts = [("asks", condition) for condition in query.conditions]
    parts += [("denies", query.claim)] if query.claim else []
    try:
        check_asked_limits(table, [part for _, part in parts])
    except Refused as refused:
        return ["asks refused " + refused.text([])]
    return [f"{word} {part.at}: {' '.join(nodes_of(table, part.formula, {}))}" for word, part in parts]


def case_lines(files, main):
    description, stop = described(files, main)
    if stop is not None:
        return [stop]
    table, file_names = description.table, description.file_names
    lines = [f"file {name}" for name in file_names]
    lines += table_lines(table)
    lines += [law_line(law, file_names) for law in description.laws]
    lines += ground_lines(table, description.laws)
    for query in description.queries:
        lines += query_lines(table, query, file_names)
    return lines


# ---------------------------------------------------------------------------------------------------------------
# Books
# ---------------------------------------------------------------------------------------------------------------


def cases_of(book):
    """The cases of a book: each a title and a list of files, which are pairs of a name and bytes."""
    cases = []
    for line in re.findall(rb"[^\n]*\n|[^\n]+", book):
        if line.startswith(b"=== "):
            cases.append((line[4:].rstrip(b"\n").decode("latin-1"), []))
        elif line.startswith(b"--- ") and cases:
            cases[-1][1].append([line[4:].rstrip(b"\n").decode("latin-1"), b""])
        elif cases and cases[-1][1]:
            cases[-1][1][-1][1] += line
    return cases


def first_files(files):
    """The bytes of each file by its name; the first of a name counts."""
    found = {}
    for name, text in files:
        found.setdefault(name, text)
    return found


def show_book(book, lines_of):
    """Prints each case of a book: its title, and what `lines_of` says of its files, in their order."""
    for title, files in cases_of(book):
        sys.stdout.write("\n".join([f"=== {title}"] + lines_of(files)) + "\n")


def show_books(lines_of):
    """Does so with the books that the words of the command line name."""
    if len(sys.argv) < 2:
        sys.exit(f"usage: {sys.argv[0]} BOOK..")
    for name in sys.argv[1:]:
        with open(name, "rb") as file:
            show_book(file.read(), lines_of)


def run_deep(function):
    """What a function gives, run with room for deeply nested formulas."""
    ends = []

    def run():
        try:
            ends.append((function(), None))
        except BaseException as stop:
            ends.append((None, stop))

    sys.setrecursionlimit(1000000)
    threading.stack_size(512 * 1024 * 1024)
    thread = threading.Thread(target=run)
    thread.start()
    thread.join()
    value, stop = ends[0]
    if stop is not None:
        raise stop
    return value


if __name__ == "__main__":
    run_deep(lambda: show_books(lambda files: case_lines(first_files(files), files[0][0])))
