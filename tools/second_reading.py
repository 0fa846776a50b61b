"""The second reading of the language and of logs, in checks/, as the tools call it.

checks/reference.py reads descriptions, checks/sections.py and checks/clause_lists.py make clause lists and judge logs, checks/runs.py
puts them together; they were written from docs/language.md and docs/formats.md, and have no code in common with the calculator. This
module names what the tools take from them, with types.
"""
from __future__ import annotations

import importlib
import pathlib
import re
import sys
import types
from collections.abc import Iterator
from typing import Any

CHECKS = pathlib.Path(__file__).resolve().parent.parent / "checks"


class Refused(Exception):
    """A description that is refused; the text says where and as what."""


def module(name: str) -> types.ModuleType:
    """A module of checks/."""
    if str(CHECKS) not in sys.path:
        sys.path.append(str(CHECKS))
    return importlib.import_module(name)


class Folder(dict[str, bytes]):
    """The files of a folder, read when they are asked for."""

    def __init__(self, folder: pathlib.Path) -> None:
        super().__init__()
        self.folder = folder

    def __contains__(self, name: object) -> bool:
        return isinstance(name, str) and "\0" not in name and (self.folder / name).is_file()

    def __getitem__(self, name: str) -> bytes:
        return (self.folder / name).read_bytes()


def described(name: str, folder: pathlib.Path = pathlib.Path(), is_wide: bool = False) -> Any:
    """A description, with included files taken from a folder; heads may be of any form where that is said."""
    reference = module("reference")
    description, stop = reference.run_deep(lambda: reference.described(Folder(folder), name, is_wide))
    if stop == "read fault":
        raise Refused("the file, or one that it includes, cannot be read")
    if stop:
        raise Refused(refusal_line(stop))
    return description


def refusal_line(stop: str) -> str:
    """`refused NUMBER NAME .. FILE:LINE`, as checks/reference.py has it, as the line that ccalc prints."""
    found = re.fullmatch(r"refused ([0-9]+ (?:Limit [a-z ]+ [0-9]+|[A-Za-z]+))(?: (.*:[0-9]+))?", stop, re.DOTALL)
    assert found is not None
    return f"{found[2]}: {found[1]}" if found[2] else found[1]


def positions_of(table: Any, horizon: int) -> Iterator[tuple[int, bool, str, list[str], bool]]:
    """What each index of a key stands for: the step, whether it is of a fluent, the constant, its values, and whether it is Boolean."""
    reference = module("reference")
    constants = [(str(reference.applied(symbol.name, arguments)), symbol) for symbol, arguments in reference.ground_constants(table)]
    for step in range(horizon + 1):
        for is_fluent in (True, False):
            for name, symbol in constants:
                if (symbol.kind != "action") == is_fluent and (is_fluent or step < horizon):
                    values = [str(value) for value in reference.domain_of(table, symbol)]
                    yield step, is_fluent, name, values, bool(reference.is_boolean_constant(symbol))
