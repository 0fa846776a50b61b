#!/usr/bin/env python3
"""Descriptions that grow with a size, for measuring, and whether they mean what they say.

checks/families.py FAMILY SIZE
checks/families.py --check [--program PATH] [FAMILY ..]

The first form prints the description of a family at a size; checks/speed measures these. The second asks the program about small
sizes of each family (all states, all shortest plans, a claim that fails when a guard is left out) and compares the numbers with
those of a search over states that is written here a second time, without laws: breadth first for plans, by counting for the rest.
PATH is a built program; without it the one that ./ccalc runs. Ends with 1 where one number differs.
"""
import itertools
import math
import pathlib
import re
import subprocess
import sys
import tempfile
from collections import namedtuple

HOME = pathlib.Path(__file__).resolve().parent.parent

# A description: its laws, the least and the greatest horizon of its query, and the further items of the query, each with its `at`.
Description = namedtuple("Description", "laws lo hi items")


def text_of(description):
    items = [f"maxstep :: {description.lo}..{description.hi}", *description.items]
    return description.laws.strip() + "\n:- query " + "; ".join(items) + ".\n"


def asked(description, lo, hi, items=()):
    """The same laws with another query."""
    return Description(description.laws, lo, hi, tuple(items))


# ---------------------------------------------------------------------------------------------------------------
# Searches over states, without laws
# ---------------------------------------------------------------------------------------------------------------


def layers(start, moves):
    """The states at each distance from a start, each with the number of ways to it; `moves` gives the next states, one for each way."""
    seen, layer = {start}, {start: 1}
    while layer:
        yield layer
        further = {}
        for state, ways in layer.items():
            for after in moves(state):
                if after not in seen:
                    further[after] = further.get(after, 0) + ways
        seen.update(further)
        layer = further


def shortest(start, is_goal, moves):
    """The length of a shortest way to a goal, and how many there are."""
    for length, layer in enumerate(layers(start, moves)):
        ways = sum(count for state, count in layer.items() if is_goal(state))
        if ways:
            return length, ways
    return None


# ---------------------------------------------------------------------------------------------------------------
# Sliding puzzles
# ---------------------------------------------------------------------------------------------------------------

SLIDING = """
% A tile next to the gap, which is 0, slides into it; `up` is where the gap goes.
:- sorts row; column; tile.
:- objects 1..{rows} :: row; 1..{columns} :: column; 0..{last} :: tile.
:- variables R, S :: row; C, D :: column; T :: tile.
:- constants at(row, column) :: inertialFluent(tile); up, down, left, right :: exogenousAction.
up causes at(R,C)=T & at(R-1,C)=0 if at(R,C)=0 & at(R-1,C)=T.
down causes at(R,C)=T & at(R+1,C)=0 if at(R,C)=0 & at(R+1,C)=T.
left causes at(R,C)=T & at(R,C-1)=0 if at(R,C)=0 & at(R,C-1)=T.
right causes at(R,C)=T & at(R,C+1)=0 if at(R,C)=0 & at(R,C+1)=T.
nonexecutable up if at(1,C)=0.
nonexecutable down if at({rows},C)=0.
nonexecutable left if at(R,1)=0.
nonexecutable right if at(R,{columns})=0.
noconcurrency.
constraint -(at(R,C)=T & at(S,D)=T) where R<S ++ (R=S & C<D).
"""


def slides(rows, columns):
    """The moves of a board, a tuple of tiles row by row."""

    def moves(board):
        gap = board.index(0)
        row, column = divmod(gap, columns)
        for down, right in ((-1, 0), (1, 0), (0, -1), (0, 1)):
            if 0 <= row + down < rows and 0 <= column + right < columns:
                other = gap + down * columns + right
                after = list(board)
                after[gap], after[other] = after[other], 0
                yield tuple(after)

    return moves


def solved(rows, columns):
    return (*range(1, rows * columns), 0)


def board_at(distance, rows=3, columns=3):
    """The middle one, in order, of the boards at a distance from the solved one."""
    layer = next(itertools.islice(layers(solved(rows, columns), slides(rows, columns)), distance, None))
    return sorted(layer)[len(layer) // 2]


def board_formula(board, columns):
    return " & ".join(f"at({place // columns + 1},{place % columns + 1})={tile}" for place, tile in enumerate(board))


def sliding_on(rows, columns, steps):
    laws = SLIDING.format(rows=rows, columns=columns, last=rows * columns - 1)
    start, goal = board_at(steps, rows, columns), solved(rows, columns)
    return Description(laws, 0, steps, ("0: " + board_formula(start, columns), "maxstep: " + board_formula(goal, columns)))


def sliding(steps):
    return sliding_on(3, 3, steps)


def sliding_checks():
    small = sliding_on(2, 2, 4)
    yield "2 by 2: boards", asked(small, 0, 0), (0, 24)
    yield "2 by 2: moves and rests", asked(small, 1, 1), (1, 24 * 3)
    for rows, columns, steps in ((2, 2, 4), (2, 2, 6), (2, 3, 9)):
        start, goal = board_at(steps, rows, columns), solved(rows, columns)
        plans = shortest(start, lambda it: it == goal, slides(rows, columns))
        yield f"{rows} by {columns}: {steps} steps", sliding_on(rows, columns, steps), plans
    yield "3 by 3: 8 steps", sliding(8), shortest(board_at(8), lambda it: it == solved(3, 3), slides(3, 3))


# ---------------------------------------------------------------------------------------------------------------
# Towers of Hanoi
# ---------------------------------------------------------------------------------------------------------------

HANOI = """
% Disks on three pegs; a smaller disk has a smaller number.
:- sorts disk; peg.
:- objects 1..{disks} :: disk; a, b, c :: peg.
:- variables D, E :: disk; P :: peg.
:- constants on(disk) :: inertialFluent(peg); move(disk) :: exogenousAction; to(disk) :: attribute(peg) of move(disk).
move(D) causes on(D)=P if to(D)=P.
nonexecutable move(D) if to(D)=on(D).
% No disk moves from under a smaller one, or onto one.
nonexecutable move(D) if on(D)=on(E) where E<D.
nonexecutable move(D) if to(D)=on(E) where E<D.
noconcurrency.
"""


def hanoi(disks):
    return Description(HANOI.format(disks=disks), 0, 2**disks - 1, ("0: [/\\D | on(D)=a]", "maxstep: [/\\D | on(D)=c]"))


def disk_moves(pegs):
    """The moves of disks, which are given by their pegs, the smallest first."""
    for disk, peg in enumerate(pegs):
        for other in range(3):
            if other != peg and not {peg, other} & set(pegs[:disk]):
                yield (*pegs[:disk], other, *pegs[disk + 1 :])


def hanoi_checks():
    for disks in (1, 2, 3):
        yield f"{disks} disks: states", asked(hanoi(disks), 0, 0), (0, 3**disks)
        ways = sum(1 + len(list(disk_moves(pegs))) for pegs in itertools.product(range(3), repeat=disks))
        yield f"{disks} disks: moves and rests", asked(hanoi(disks), 1, 1), (1, ways)
        yield f"{disks} disks", hanoi(disks), shortest((0,) * disks, lambda pegs: set(pegs) == {2}, disk_moves)


# ---------------------------------------------------------------------------------------------------------------
# Gripper
# ---------------------------------------------------------------------------------------------------------------

GRIPPER = """
% A robot with two grippers, which work side by side, brings balls to another room.
:- sorts place >> room; place >> gripper; ball.
:- objects kitchen, hall :: room; left, right :: gripper; 1..{balls} :: ball.
:- variables R :: room; G :: gripper; B, C :: ball.
:- constants robot :: inertialFluent(room); at(ball) :: inertialFluent(place);
  move, pick(gripper), drop(gripper) :: exogenousAction; what(gripper) :: attribute(ball) of pick(gripper).
move causes robot=hall if robot=kitchen.
move causes robot=kitchen if robot=hall.
pick(G) causes at(B)=G if what(G)=B.
nonexecutable pick(G) if what(G)=B & at(B)\\=robot.
nonexecutable pick(G) if at(B)=G.
drop(G) causes at(B)=R if at(B)=G & robot=R.
nonexecutable drop(G) if [/\\B | at(B)\\=G].
nonexecutable move & pick(G).
nonexecutable move & drop(G).
constraint -(at(B)=G & at(C)=G) where B<C.
"""


def gripper(balls):
    hi = 4 * ((balls + 1) // 2) - 1
    items = ("0: robot=kitchen & [/\\B | at(B)=kitchen]", "maxstep: [/\\B | at(B)=hall]")
    return Description(GRIPPER.format(balls=balls), 0, hi, items)


def gripper_moves(state):
    """One next state for each way to act: a move, or for each gripper a pick of one ball, a drop or nothing."""
    robot, balls = state
    yield "kitchen" if robot == "hall" else "hall", balls
    choices = []
    for gripper_name in ("left", "right"):
        if gripper_name in balls:
            choices.append([(), ((balls.index(gripper_name), robot),)])
        else:
            choices.append([(), *(((ball, gripper_name),) for ball, place in enumerate(balls) if place == robot)])
    for changes in itertools.product(*choices):
        changed = [change for some in changes for change in some]
        # both grippers cannot have one ball
        if len({ball for ball, _ in changed}) == len(changed):
            after = list(balls)
            for ball, place in changed:
                after[ball] = place
            yield robot, tuple(after)


def gripper_states(balls):
    for places in itertools.product(("kitchen", "hall", "left", "right"), repeat=balls):
        if places.count("left") < 2 and places.count("right") < 2:
            yield from ((robot, places) for robot in ("kitchen", "hall"))


def gripper_checks():
    for balls in (1, 2, 3):
        states = list(gripper_states(balls))
        yield f"{balls} balls: states", asked(gripper(balls), 0, 0), (0, len(states))
        if balls < 3:
            yield f"{balls} balls: steps", asked(gripper(balls), 1, 1), (1, sum(len(list(gripper_moves(state))) for state in states))
        start = ("kitchen", ("kitchen",) * balls)
        yield f"{balls} balls", gripper(balls), shortest(start, lambda state: set(state[1]) == {"hall"}, gripper_moves)


# ---------------------------------------------------------------------------------------------------------------
# Blocks
# ---------------------------------------------------------------------------------------------------------------

BLOCKS = """
% Blocks on a table. A height has no cause but the height of what is below, so there are no circles.
:- sorts place >> block; level.
:- objects {blocks} :: block; table :: place; 1..{count} :: level.
:- variables B, C :: block; P :: place; L :: level.
:- constants on(block) :: inertialFluent(place); height(block) :: sdFluent(level);
  move(block) :: exogenousAction; to(block) :: attribute(place) of move(block).
move(B) causes on(B)=P if to(B)=P.
constraint -(on(B)=P & on(C)=P) where B\\=C & P\\=table.
caused height(B)=1 if on(B)=table.
caused height(B)=L+1 if on(B)=C & height(C)=L.
nonexecutable move(B) if on(C)=B.
nonexecutable move(B) if to(B)=on(B).
noconcurrency.
"""


def tower(names):
    """That blocks stand on each other, the first one on top."""
    return " & ".join(f"on({upper})={lower}" for upper, lower in zip(names, [*names[1:], "table"]))


def blocks(count):
    """A tower is turned over."""
    names = [f"b{number}" for number in range(1, count + 1)]
    laws = BLOCKS.format(blocks=", ".join(names), count=count)
    return Description(laws, 0, count, ("0: " + tower(names), "maxstep: " + tower(names[::-1])))


def block_moves(below):
    """The moves of blocks, which are given by what each stands on: another one's number, or None for the table."""
    for block in range(len(below)):
        if block not in below:
            for place in (None, *range(len(below))):
                if place not in (block, below[block]) and (place is None or place not in below):
                    yield (*below[:block], place, *below[block + 1 :])


def blocks_checks():
    for count, states in ((2, 3), (3, 13), (4, 73)):
        start = (*range(1, count), None)
        goal = (None, *range(count - 1))
        yield f"{count} blocks: states", asked(blocks(count), 0, 0), (0, states)
        ways = [1 + len(list(block_moves(state))) for layer in layers(start, block_moves) for state in layer]
        if count < 4:
            yield f"{count} blocks: moves and rests", asked(blocks(count), 1, 1), (1, sum(ways))
        yield f"{count} blocks", blocks(count), shortest(start, lambda state: state == goal, block_moves)


# ---------------------------------------------------------------------------------------------------------------
# Locks, pigeons, swaps, rows
# ---------------------------------------------------------------------------------------------------------------


def locks(count):
    """As make mode makes them: docs/formats.md, 'Made descriptions'."""
    names = [f"k{number}" for number in range(1, count + 1)]
    laws = [
        ":- sorts lock.",
        f":- objects {', '.join(names)} :: lock.",
        ":- variables L :: lock.",
        ":- constants unlocked(lock) :: inertialFluent; turn(lock) :: exogenousAction.",
        "turn(L) causes unlocked(L).",
        "nonexecutable turn(L) if unlocked(L).",
        *(f"nonexecutable turn({later}) if -unlocked({name})." for name, later in zip(names, names[1:])),
    ]
    return Description("\n".join(laws), 0, count, ("0: [/\\L | -unlocked(L)]", f"maxstep: unlocked({names[-1]})"))


def locks_checks():
    for count in (1, 2, 3, 8):
        yield f"{count} locks", locks(count), (count, 1)


PIGEONS = """
% Each pigeon is in a hole, and no two are in one.
:- sorts pigeon; hole.
:- objects 1..{pigeons} :: pigeon; 1..{holes} :: hole.
:- variables P, Q :: pigeon; H :: hole.
:- constants in(pigeon) :: inertialFluent(hole).
constraint -(in(P)=H & in(Q)=H) where P<Q.
"""


def pigeons_in(pigeons, holes):
    return Description(PIGEONS.format(pigeons=pigeons, holes=holes), 0, 0, ())


def pigeons(holes):
    """One more than there are holes."""
    return pigeons_in(holes + 1, holes)


def pigeons_checks():
    for pigeons_there, holes in ((2, 2), (3, 5), (5, 5)):
        yield f"{pigeons_there} pigeons in {holes} holes", pigeons_in(pigeons_there, holes), (0, math.perm(holes, pigeons_there))
    for holes in (1, 2, 4):
        yield f"{holes + 1} pigeons in {holes} holes", pigeons(holes), None


SWAPS = """
% Items in places, one in each. A swap takes two of them; no law names one, so there are many ground laws.
:- sorts number.
:- objects 1..{items} :: number.
:- variables X, Y, P :: number.
:- constants at(number) :: inertialFluent(number); swap :: exogenousAction; first, second :: attribute(number) of swap.
swap causes at(X)=P if first=X & second=Y & at(Y)=P.
swap causes at(Y)=P if first=X & second=Y & at(X)=P.
nonexecutable swap if first>=second.
constraint -(at(X)=P & at(Y)=P) where X<Y.
"""


def swaps(items):
    """The first item is to be elsewhere: the least horizon is 1, and has one history for each other item."""
    return Description(SWAPS.format(items=items), 0, 1, ("0: [/\\X | at(X)=X]", "maxstep: at(1)\\=1"))


def swaps_checks():
    for items in (2, 3, 4):
        yield f"{items} items: states", asked(swaps(items), 0, 0), (0, math.factorial(items))
        ways = math.factorial(items) * (1 + math.comb(items, 2))
        yield f"{items} items: swaps and rests", asked(swaps(items), 1, 1), (1, ways)
        yield f"{items} items", swaps(items), (1, items - 1)


ROWS = """
% Fluents without a law: each interpretation is a state.
:- sorts number.
:- objects 1..{fluents} :: number.
:- constants p(number) :: simpleFluent.
"""


def rows_of(fluents):
    return Description(ROWS.format(fluents=fluents), 0, 0, ())


def rows(count):
    """So many of the first histories are asked for (OPTIONS)."""
    return rows_of(20)


def rows_checks():
    for fluents in (1, 4, 10):
        yield f"{fluents} fluents", rows_of(fluents), (0, 2**fluents)


# ---------------------------------------------------------------------------------------------------------------
# Mutual exclusion
# ---------------------------------------------------------------------------------------------------------------

MUTEX = """
% Two processes that keep each other out by a flag each and whose turn it is, one step at a time (Peterson).
:- sorts process; point.
:- objects p, q :: process; rest, want, wait, inside :: point.
:- variables X, Y :: process.
:- constants at(process) :: inertialFluent(point); flag(process) :: inertialFluent; turn :: inertialFluent(process);
  step(process) :: exogenousAction.
step(X) causes at(X)=want & flag(X) if at(X)=rest.
step(X) causes at(X)=wait & turn=Y if at(X)=want where X\\=Y.
step(X) causes at(X)=inside if at(X)=wait{guard} where X\\=Y.
step(X) causes at(X)=rest & -flag(X) if at(X)=inside.
noconcurrency.
"""


def mutex_with(guard, horizon):
    start = "0: at(p)=rest & at(q)=rest & -flag(p) & -flag(q)"
    return Description(MUTEX.format(guard=guard), 0, horizon, (start, "claim :: maxstep: -(at(p)=inside & at(q)=inside)"))


def mutex(horizon):
    return mutex_with(" & (-flag(Y) ++ turn=X)", horizon)


def mutex_moves(state):
    points, flags, turn = state
    for own in (0, 1):
        other = 1 - own
        at = points[own]
        if at == "wait" and flags[other] and turn != own:
            yield state
            continue
        after = {"rest": "want", "want": "wait", "wait": "inside", "inside": "rest"}[at]
        new_points, new_flags = list(points), list(flags)
        new_points[own] = after
        new_flags[own] = after != "rest"
        yield tuple(new_points), tuple(new_flags), other if after == "wait" else turn


def mutex_histories(steps):
    """How many histories of so many steps there are from the start, rests included."""
    ways = {(("rest", "rest"), (False, False), turn): 1 for turn in (0, 1)}
    for _ in range(steps):
        further = {}
        for state, count in ways.items():
            for after in (state, *mutex_moves(state)):
                further[after] = further.get(after, 0) + count
        ways = further
    assert not any(state[0] == ("inside", "inside") for state in ways)
    return sum(ways.values())


def mutex_checks():
    states = 4 * 4 * 2 * 2 * 2
    yield "states", asked(mutex(1), 0, 0), (0, states)
    for steps in (1, 3, 6):
        yield f"histories of {steps} steps", asked(mutex(1), steps, steps, mutex(1).items[:1]), (steps, mutex_histories(steps))
    yield "the claim", mutex(12), "claim holds"
    # Where each process goes in by three steps of its own, whatever the other one does, both are inside after six.
    no_guard = " & (-flag(Y) ++ flag(Y))"
    yield "without the guard, 5 steps", mutex_with(no_guard, 5), "claim holds"
    yield "without the guard, 6 steps", mutex_with(no_guard, 6), "claim fails"


# ---------------------------------------------------------------------------------------------------------------
# Random clauses of three literals
# ---------------------------------------------------------------------------------------------------------------

# Of each number of variables the first seed whose clauses have no model, and the first whose clauses have one.
WITHOUT_MODEL = {100: 1, 110: 1, 120: 3, 130: 1, 140: 1, 150: 1}
WITH_MODEL = {100: 2, 110: 6, 120: 1, 130: 4, 140: 3, 150: 2}


def random_numbers(seed):
    """Numbers below 2^32, the same on each machine (the multiplier is Knuth's for 64 bits)."""
    state = seed
    while True:
        state = (state * 6364136223846793005 + 1442695040888963407) % 2**64
        yield state >> 32


def random_clauses(variables, clauses, seed):
    numbers = random_numbers(seed * 1000 + variables)
    found = []
    while len(found) < clauses:
        chosen = sorted({1 + next(numbers) % variables for _ in range(3)})
        if len(chosen) == 3:
            found.append([variable if next(numbers) % 65536 < 32768 else -variable for variable in chosen])
    return found


def clauses_of(variables, clauses):
    laws = ["% Random clauses of three literals.", ":- sorts number.", f":- objects 1..{variables} :: number.",
            ":- constants v(number) :: simpleFluent."]
    for clause in clauses:
        laws.append("constraint " + " ++ ".join(f"v({it})" if it > 0 else f"-v({-it})" for it in clause) + ".")
    return Description("\n".join(laws), 0, 0, ())


def random_description(variables, seed):
    return clauses_of(variables, random_clauses(variables, round(4.3 * variables), seed))


def unsatisfiable(variables):
    return random_description(variables, WITHOUT_MODEL[variables])


def satisfiable(variables):
    return random_description(variables, WITH_MODEL[variables])


def random_checks():
    for variables, count, seed in ((6, 12, 1), (8, 20, 2), (10, 43, 3)):
        clauses = random_clauses(variables, count, seed)
        models = sum(
            all(any(values[abs(it) - 1] == (it > 0) for it in clause) for clause in clauses)
            for values in itertools.product((False, True), repeat=variables)
        )
        yield f"{count} clauses over {variables} variables", clauses_of(variables, clauses), (0, models) if models else None


# ---------------------------------------------------------------------------------------------------------------
# The families
# ---------------------------------------------------------------------------------------------------------------

# What the size is, the sizes that are measured, the description at a size, the checks of small ones, and the option of a run: the
# first history, all of them, or as many as the size says.
Family = namedtuple("Family", "size sizes make checks listed")

FAMILIES = {
    "sliding": Family("steps of the plan", (8, 12, 16, 20), sliding, sliding_checks, "first"),
    "hanoi": Family("disks", (3, 4, 5, 6), hanoi, hanoi_checks, "first"),
    "gripper": Family("balls", (5, 6, 7, 8), gripper, gripper_checks, "first"),
    "blocks": Family("blocks of the tower", (6, 9, 12, 15), blocks, blocks_checks, "first"),
    "locks": Family("locks", (20, 40, 60, 80), locks, locks_checks, "first"),
    "pigeons": Family("holes", (6, 7, 8, 9), pigeons, pigeons_checks, "first"),
    "swaps": Family("items", (30, 40, 50), swaps, swaps_checks, "all"),
    "rows": Family("histories", (1000, 10000, 100000), rows, rows_checks, "size"),
    "mutex": Family("greatest horizon", (10, 20, 30), mutex, mutex_checks, "all"),
    "unsatisfiable": Family("variables", tuple(WITHOUT_MODEL), unsatisfiable, random_checks, "first"),
    "satisfiable": Family("variables", tuple(WITH_MODEL), satisfiable, lambda: (), "first"),
}


def count_words(family, size):
    """The words that say how many histories are listed."""
    return {"first": ["--count", "1"], "all": [], "size": ["--count", str(size)]}[family.listed]


# ---------------------------------------------------------------------------------------------------------------
# Checks
# ---------------------------------------------------------------------------------------------------------------


def printed(program, description):
    """What the program prints of a description: the horizon and the number of its histories, None without one, else the last line."""
    with tempfile.TemporaryDirectory() as folder:
        file = pathlib.Path(folder) / "f.cc"
        file.write_text(text_of(description))
        run = subprocess.run([program, "--budget", "2000000", file], capture_output=True, text=True)
    last = (run.stdout or run.stderr).rstrip("\n").split("\n")[-1]
    complete = re.fullmatch(r"horizon ([0-9]+): complete, ([0-9]+) listed", last)
    if complete:
        return tuple(map(int, complete.groups()))
    return None if last == "no history" else last


def check(program, names):
    wrong = 0
    for name in names:
        for title, description, expected in FAMILIES[name].checks():
            found = printed(program, description)
            wrong += found != expected
            print(f"{name}, {title}: {found}" + ("" if found == expected else f", and {expected} was expected"))
    return 1 if wrong else 0


def built():
    """The program that ./ccalc runs, as its --version says."""
    said = subprocess.run([HOME / "ccalc", "--version"], stdin=subprocess.DEVNULL, capture_output=True, text=True)
    if said.returncode:
        sys.exit(said.stderr.strip())
    return pathlib.Path(said.stdout.splitlines()[-1])


def main(words):
    if words[:1] == ["--check"]:
        words, program = words[1:], None
        if words[:1] == ["--program"]:
            program, words = pathlib.Path(words[1]).resolve(), words[2:]
        return check(program or built(), words or FAMILIES)
    if len(words) != 2:
        sys.exit("usage: checks/families.py FAMILY SIZE, or checks/families.py --check [--program PATH] [FAMILY ..]")
    sys.stdout.write(text_of(FAMILIES[words[0]].make(int(words[1]))))
    return 0


if __name__ == "__main__":
    sys.exit(main(sys.argv[1:]))
