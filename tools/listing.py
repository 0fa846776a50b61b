"""Reads what `ccalc` prints of histories, for all tools that do, and says what of them is shown."""
from __future__ import annotations

import argparse
import dataclasses
import fnmatch
import os
import pathlib
import re
import shutil
import signal
import subprocess
import sys
from collections.abc import Callable, Iterable, Iterator, Sequence
from typing import Union

from endings import BY_CODE, OTHER

Value = Union[bool, str]  # a Boolean is shown by its name where it is true, and not at all where it is false
Values = dict[str, Value]  # by constant, in declared order
HEADING = re.compile(r"horizon ([0-9]+): (history|example|counterexample)(?: ([0-9]+))?")


class Wrong(Exception):
    """What is wrong with a listing."""


@dataclasses.dataclass(frozen=True)
class History:
    """A history: what was printed above it, its horizon, key, states and the actions between them."""

    heading: str
    horizon: int
    title: str
    key: str
    states: list[Values]
    actions: list[Values]


@dataclasses.dataclass(frozen=True)
class Listing:
    """What was printed, in order: histories, and the other lines as they are."""

    entries: list[History | str]

    @property
    def histories(self) -> list[History]:
        return [entry for entry in self.entries if isinstance(entry, History)]

    @property
    def notes(self) -> list[str]:
        """What a reader has to know: that the listing was cut, or ended before all histories were there."""
        last = self.entries[-1] if self.entries else ""
        if not isinstance(last, str) or not any(ending and ending.kind != OTHER for ending in (of(last, None) for of in BY_CODE.values())):
            return ["the listing has no last line that says how it ended: it may be cut"]
        return [f"there may be more histories: {last}"] if "spent" in last or "asked number" in last else []


def values_in(line: str) -> Values:
    """The constants of a line with their values."""
    found: Values = {}
    for part in line.split("  ")[1:]:
        name, sign, value = part.partition("=")
        found[name] = value if sign else True
    return found


def history_of(lines: list[str]) -> History:
    """The history that lines tell, from its heading to its key."""
    heading = HEADING.fullmatch(lines[0])
    assert heading is not None
    body = lines[1:-1]
    horizon = len(body) // 2
    fronts = [front for step in range(horizon + 1) for front in ("ACTIONS:", f"{step}:")][1:]
    if [line.split("  ")[0] for line in body] != fronts:
        raise Wrong(f"the lines after `{lines[0]}` are no history: a line for each step, and one with ACTIONS between two of them")
    values = [values_in(line) for line in body]
    title = " ".join(word for word in (heading[2], heading[3]) if word)
    return History(lines[0], horizon, title, lines[-1].removeprefix("key "), values[0::2], values[1::2])


def listing_of(lines: Iterable[str]) -> Listing:
    entries: list[History | str] = []
    open_lines: list[str] = []
    for line in lines:
        if open_lines or HEADING.fullmatch(line):
            open_lines.append(line)
            if line.startswith("key "):
                entries.append(history_of(open_lines))
                open_lines = []
        else:
            entries.append(line)
    if open_lines:
        raise Wrong(f"the listing ends within the history of `{open_lines[0]}`")
    return Listing(entries)


def histories(lines: Iterable[str]) -> list[list[tuple[str, ...]]]:
    """The histories of a listing as texts alone: each is a list of states and actions in turn, with what is true or done as it is printed."""
    found: list[list[tuple[str, ...]]] = []
    history: list[tuple[str, ...]] | None = None
    for line in lines:
        line = line.rstrip("\n")
        if HEADING.fullmatch(line):
            history = []
        elif history is not None and line.startswith("key "):
            found.append(history)
            history = None
        elif history is not None:
            history.append(tuple(line.split("  ")[1:]))
    return found


def read_listing(name: str | None) -> Listing:
    if name is None:
        text = sys.stdin.buffer.read()
    else:
        try:
            text = pathlib.Path(name).read_bytes()
        except OSError as fault:
            raise Wrong(f"{name}: {fault.strerror}") from fault
    lines = text.decode("utf-8", "replace").split("\n")
    return listing_of(lines[:-1] if not lines[-1] else lines)


# ---------------------------------------------------------------------------------------------------------------
# What is shown
# ---------------------------------------------------------------------------------------------------------------


@dataclasses.dataclass(frozen=True)
class Chosen:
    """Which constants are shown: those that are named, or all, without those that are hidden and, if so, attributes without a value."""

    shown: Sequence[str] = ()
    hidden: Sequence[str] = ()
    with_none: bool = False

    def is_chosen(self, name: str) -> bool:
        return (not self.shown or any(matches(name, one) for one in self.shown)) and not any(matches(name, one) for one in self.hidden)

    def of(self, values: Values) -> Values:
        return {name: value for name, value in values.items() if self.is_chosen(name) and (self.with_none or value != "none")}


def matches(name: str, pattern: str) -> bool:
    """Whether a constant is meant: by its name without arguments, or by the whole of it, where * stands for any letters."""
    return name.partition("(")[0] == pattern or fnmatch.fnmatchcase(name, pattern)


def part(name: str, value: Value) -> str:
    if isinstance(value, bool):
        return name if value else f"-{name}"
    return f"{name}={value}"


def parts(values: Values) -> list[str]:
    return [part(name, value) for name, value in values.items()]


def order_of(rows: Iterable[Values]) -> list[str]:
    """All constants in declared order, as far as rows tell it: what is new in a row follows what stands before it there."""
    order: list[str] = []
    known: set[str] = set()
    for row in rows:
        if row.keys() <= known:
            continue
        at = 0
        for name in row:
            if name in known:
                at = order.index(name) + 1
            else:
                order.insert(at, name)
                known.add(name)
                at += 1
    return order


def changes(before: Values, after: Values, order: Sequence[str]) -> Values:
    """What is otherwise than before; a Boolean that is not there any more is false."""
    return {name: after.get(name, False) for name in order if after.get(name, False) != before.get(name, False)}


# ---------------------------------------------------------------------------------------------------------------
# The words of the tools
# ---------------------------------------------------------------------------------------------------------------


def names_in(text: str) -> list[str]:
    """The names of a list with commas; those in parentheses part none."""
    return [name.strip() for name in re.split(r",(?![^(]*\))", text) if name.strip()]


def add_options(parser: argparse.ArgumentParser) -> None:
    add = parser.add_argument
    add("listing", nargs="?", metavar="LISTING", help="a file with what ccalc printed; standard input where there is none")
    names = "names, as `at,paid`, or with arguments, as `at(wolf)` or 'at(*)'"
    add("--show", action="append", default=[], metavar="NAMES", help=f"show these constants alone: {names}")
    add("--hide", action="append", default=[], metavar="NAMES", help="show all constants but these")
    changed = "after the first state show only what changes, nothing where nothing does; a Boolean that becomes false has a `-`"
    add("--changes", action="store_true", help=changed)
    add("--none", action="store_true", help="show attributes without a value, as `to(b)=none`, too")


def chosen_by(asked: argparse.Namespace) -> Chosen:
    return Chosen([name for text in asked.show for name in names_in(text)], [name for text in asked.hide for name in names_in(text)], asked.none)


def notes_on(found: Listing, chosen: Chosen) -> Iterator[str]:
    """What is to be said beside a picture: how the listing ended, and names that are in it nowhere."""
    yield from found.notes
    names = {name for history in found.histories for values in history.states + history.actions for name in values}
    for pattern in [*chosen.shown, *chosen.hidden]:
        if not any(matches(name, pattern) for name in names):
            yield f"the listing has no {pattern}; a Boolean that is never true is not printed"


def read_and_note(tool: str, asked: argparse.Namespace) -> tuple[Listing, Chosen]:
    """The listing and what of it is shown, with notes on standard error; wrong where it has no history."""
    found, chosen = read_listing(asked.listing), chosen_by(asked)
    if not found.histories:
        raise NoHistory("there is no history in this listing")
    for note in notes_on(found, chosen):
        print(f"{tool}: note: {note}", file=sys.stderr)
    return found, chosen


def check_place(place: str, read_from: Iterable[str | None]) -> None:
    """Refuses a place where a file lies that is read."""
    if os.path.exists(place) and any(name and os.path.exists(name) and os.path.samefile(name, place) for name in read_from):
        raise Wrong(f"{place}: this file is read, and would be written over; name another one")


class NoHistory(Exception):
    """A listing without a history, or without what is to be drawn."""


def ended(tool: str, run: Callable[[], int]) -> int:
    """Runs a tool, and says what is wrong; a reader that goes away ends it."""
    signal.signal(signal.SIGPIPE, signal.SIG_DFL)
    try:
        return run()
    except NoHistory as fault:
        print(f"{tool}: {fault}", file=sys.stderr)
        return 1
    except (Wrong, OSError) as fault:
        print(f"{tool}: {fault}", file=sys.stderr)
        return 2


# ---------------------------------------------------------------------------------------------------------------
# Pictures
# ---------------------------------------------------------------------------------------------------------------

Edges = dict[tuple[str, str], list[str]]  # by the names of two nodes, the labels between them


def quoted(text: str) -> str:
    return '"' + text.replace("\\", "\\\\").replace('"', '\\"').replace("\n", "\\n") + '"'


def graph(title: str, nodes: Sequence[tuple[str, str]], edges: Edges, ranks: Sequence[Sequence[str]] = ()) -> str:
    """The text of a graph for Graphviz; nodes have a name and a label, and the nodes of a rank stand below each other in this order."""
    lines = [f"digraph {quoted(title)} {{", "  rankdir=LR;"]
    lines += ["  node [shape=box, style=rounded, fontname=Helvetica];", "  edge [fontname=Helvetica, fontsize=10];"]
    lines += [f"  {name} [label={quoted(label)}];" for name, label in nodes]
    lines += [f"  {{ rank=same; {' -> '.join(rank)} [style=invis]; }}" for rank in ranks if len(rank) > 1]
    lines += [f"  {start} -> {end} [label={quoted(chr(10).join(labels))}];" for (start, end), labels in edges.items()]
    return "\n".join(lines + ["}"]) + "\n"


def arrow(actions: Values, changed: Values | None) -> str:
    """What stands at an arrow: what is done, and what changes where that is asked for."""
    done = ", ".join(parts(actions)) or "nothing"
    return done if changed is None else f"{done}: {', '.join(parts(changed)) or 'no change'}"


def frozen(values: Values) -> tuple[tuple[str, Value], ...]:
    return tuple(values.items())


def add_picture_options(parser: argparse.ArgumentParser) -> None:
    add_options(parser)
    parser.add_argument("--join", action="store_true", help="join states that look alike with what is shown; an arrow then holds for some of them")
    parser.add_argument("--svg", metavar="FILE", help="draw a picture into FILE with Graphviz, in place of the graph's text")


def drawn(tool: str, text: str, asked: argparse.Namespace) -> int:
    """Prints the graph, or draws it; where Graphviz is not there its text is kept."""
    svg: str | None = asked.svg
    if not svg:
        sys.stdout.write(text)
        return 0
    for place in (svg, svg + ".dot"):
        check_place(place, [asked.listing])
    if shutil.which("dot") is None:
        pathlib.Path(svg + ".dot").write_text(text)
        print(f"{tool}: `dot` is not there: apt-get install -y graphviz; the graph stands in {svg}.dot", file=sys.stderr)
        return 0
    made = subprocess.run(["dot", "-Tsvg"], input=text.encode(), capture_output=True, check=False)
    if made.returncode == 0:
        pathlib.Path(svg).write_bytes(made.stdout)
    else:
        print(f"{tool}: dot: {made.stderr.decode(errors='replace').strip()}", file=sys.stderr)
    return 0 if made.returncode == 0 else 2
