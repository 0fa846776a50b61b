"""Runs the calculator, and checkers, within limits of time and memory."""
from __future__ import annotations

import dataclasses
import os
import pathlib
import resource
import shutil
import signal
import subprocess
import sys
import threading
import time
from collections.abc import Sequence
from typing import BinaryIO

HOME = pathlib.Path(__file__).resolve().parent.parent


class NoProgram(Exception):
    """There is no program to run; the text says what is to be done."""


@dataclasses.dataclass(frozen=True)
class Limits:
    """How long a run may take, in seconds, and how much memory, in bytes."""

    seconds: float | None = None
    memory: int | None = None


@dataclasses.dataclass(frozen=True)
class Ended:
    """How a run ended: its exit code (a signal's is negative), whether its time was over, and how long it took."""

    code: int
    out_of_time: bool
    seconds: float


def program_named(name: str | None) -> str:
    """The calculator: the one that is named, else `ccalc` of this checkout, else the one on the PATH."""
    if name is not None:
        found = shutil.which(name)
    else:
        beside = HOME / "ccalc"
        found = str(beside) if os.access(beside, os.X_OK) else shutil.which("ccalc")
    if found is None:
        raise NoProgram(f"there is no program {name or 'ccalc'}; name it with --ccalc PROGRAM")
    return os.path.abspath(found)


def ask_once(program: str) -> None:
    """Runs words that are refused, so that a program which has to be built first is built, once and without a limit; what it says of
    that goes on to standard error."""
    with subprocess.Popen([program, "--mode", "check"], stdin=subprocess.DEVNULL, stdout=subprocess.DEVNULL, stderr=subprocess.PIPE) as process:
        assert process.stderr is not None
        last = ""
        for line in process.stderr:
            last = line.decode(errors="replace").strip() or last
            if not line.startswith((b"ccalc: 1 Words", b"usage: ")):
                print(last, file=sys.stderr, flush=True)
    if process.returncode != 2:
        raise NoProgram(f"{program} does not run: {last or f'its exit code is {process.returncode}'}")


class Runner:
    """Runs programs, from several threads too; `stop` ends all that are running."""

    def __init__(self) -> None:
        self.lock = threading.Lock()
        self.running: set[int] = set()
        self.is_stopped = False

    def run(self, words: Sequence[str], out: BinaryIO, err: BinaryIO, limits: Limits = Limits(), folder: pathlib.Path | None = None) -> Ended:
        begun = time.monotonic()
        with self.lock:
            if self.is_stopped:
                raise KeyboardInterrupt
            process = subprocess.Popen(words, stdin=subprocess.DEVNULL, stdout=out, stderr=err, cwd=folder, start_new_session=True)
            self.running.add(process.pid)
        try:
            if limits.memory is not None:
                limit_memory(process.pid, limits.memory)
            code = process.wait(limits.seconds)
            return Ended(code, False, time.monotonic() - begun)
        except subprocess.TimeoutExpired:
            return Ended(end(process), True, time.monotonic() - begun)
        finally:
            with self.lock:
                self.running.discard(process.pid)

    def stop(self) -> None:
        with self.lock:
            self.is_stopped = True
            for pid in self.running:
                end_group(pid)


def limit_memory(pid: int, memory: int) -> None:
    """Bounds the address space of a process that has begun; one that is over needs no bound."""
    try:
        resource.prlimit(pid, resource.RLIMIT_AS, (memory, memory))
    except ProcessLookupError:
        pass


def end(process: subprocess.Popen[bytes]) -> int:
    end_group(process.pid)
    return process.wait()


def end_group(pid: int) -> None:
    """Ends the processes of a run: it leads a group of its own, and none of them is anybody else's."""
    try:
        os.killpg(pid, signal.SIGKILL)
    except ProcessLookupError:
        pass


def printable(text: str) -> str:
    """A text on one line without control characters, as a name from the file system may have them."""
    return "".join(letter if letter.isprintable() else letter.encode("unicode_escape", "surrogatepass").decode("ascii") for letter in text)
