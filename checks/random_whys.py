#!/usr/bin/env python3
"""Makes a book of random runs in why mode, for cc_rows and checks/runs.py.

The descriptions are those of checks/random_runs.py. Three keys in four are of paths, where there are any, found by the second reading (checks/sections.py);
the others are of random rows, and about one case in ten has a key or words that are refused, or a description that is. The same number
of cases and the same seed give the same book.

Usage: checks/random_whys.py CASES SEED      (the book goes to standard output)
"""
import random
import sys

from random_runs import Description, chance
from reference import Refused, check_ground_limits, described, run_deep
from sections import Theory, paths


def random_key(theory):
    """The key of a random row, which may lack an index or have one too many or too great."""
    indexes = [random.randrange(size + chance(0.02)) for size in theory.sizes]
    if chance(0.03):
        indexes.append(0)
    if chance(0.03):
        indexes = indexes[:-1]
    horizon = str(theory.horizon)
    if chance(0.04):
        horizon = random.choice(["0" + horizon, "1001", "", "-1", horizon + ":", "1000000000"])
    return horizon + ":" + ",".join(map(str, indexes))


def path_key(description, horizon):
    """The key of some path; none where there is none, or where the description is refused."""
    theory, found = paths(description, horizon)
    if not found:
        return None
    return f"{horizon}:" + ",".join(map(str, theory.indexes(random.choice(found))))


def key_for(text, horizon):
    description, stop = described({"f.cc": text.encode()}, "f.cc")
    if stop is not None:
        return "0:0"
    try:
        check_ground_limits(description.table, description.laws)
    except Refused:
        return "0:0"
    key = path_key(description, horizon) or path_key(description, 0) if chance(0.75) else None
    return key or random_key(Theory(description, horizon))


def more_words():
    """Words that do not go with the mode, now and then."""
    extra = [["--query", "first"], ["--count", "1"], ["--budget", "9"], ["--after", "0:0"], ["--log", "l"], ["--size", "1"]]
    return random.choice(extra) if chance(0.04) else []


def case(number):
    made = Description()
    lines = made.lines + ([made.query("first")[0]] if chance(0.3) else [])
    text = "".join(line + "\n" for line in lines)
    key = key_for(text, random.choice([0, 1, 1, 2, 2]))
    words = ["--mode", "why"] + (["--key", key] if chance(0.98) else []) + more_words() + ["f.cc"]
    return f"=== {number}\n--- words\n" + "".join(word + "\n" for word in words) + f"--- f.cc\n{text}"


def main():
    if len(sys.argv) != 3:
        sys.exit("usage: checks/random_whys.py CASES SEED")
    random.seed(int(sys.argv[2]))
    for number in range(int(sys.argv[1])):
        sys.stdout.write(case(number))


if __name__ == "__main__":
    run_deep(main)
