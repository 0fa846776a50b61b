"""Runs of programs: each under limits, a few at a time, its lines handed on as they come, and ended where nobody waits for it."""
import contextlib
import dataclasses
import os
import pathlib
import selectors
import signal
import subprocess
import sys
import threading
import time
from typing import Iterator, List, Optional, Sequence

TICK = 0.25  # seconds; so often somebody who waits hears of a run, lines or not, and so soon a page that went away is noticed
CHUNK = 1 << 16
ERRORS = 1 << 16  # bytes of standard error that are kept
LIMITER = pathlib.Path(__file__).resolve().parent / "limits.py"


@dataclasses.dataclass(frozen=True)
class Limits:
    """What one run may take, and how many may run at a time."""

    seconds: int = 60
    memory: int = 2048  # megabytes
    output: int = 64  # megabytes
    at_a_time: int = 4


@dataclasses.dataclass
class Batch:
    """The lines that came within a tick, and how long the run has taken."""

    lines: List[str]
    seconds: float


@dataclasses.dataclass
class Ending:
    """How a run ended: its exit code, what it printed on standard error, and why it ended where it was not by itself."""

    code: int
    errors: List[str]
    reason: str  # 'ended', or the limit: 'time', 'memory', 'output'


class Busy(Exception):
    """As many runs as may be are under way."""


class Runner:
    """Starts runs, at most so many at a time."""

    def __init__(self, limits: Limits) -> None:
        self.limits = limits
        self.free = threading.BoundedSemaphore(limits.at_a_time)
        self.lock = threading.Lock()
        self.under_way: List["subprocess.Popen[bytes]"] = []

    @contextlib.contextmanager
    def started(self, words: Sequence[str], folder: pathlib.Path, given: bytes) -> Iterator["subprocess.Popen[bytes]"]:
        """A process in a group of its own; at the end of the block the whole group is ended."""
        if not self.free.acquire(timeout=2):
            raise Busy
        try:
            limits = self.limits
            limited = [sys.executable, "-I", "-S", str(LIMITER), str(limits.seconds), str(limits.memory), "512", *words]
            process = subprocess.Popen(
                limited, cwd=folder, stdin=subprocess.PIPE if given else subprocess.DEVNULL, stdout=subprocess.PIPE,
                stderr=subprocess.PIPE, start_new_session=True,
            )
            with self.lock:
                self.under_way.append(process)
            feeder = threading.Thread(target=feed, args=(process, given), daemon=True)
            try:
                if given:
                    feeder.start()
                yield process
            finally:
                end(process)
                with self.lock:
                    self.under_way.remove(process)
        finally:
            self.free.release()

    def end_all(self) -> None:
        with self.lock:
            left = list(self.under_way)
        for process in left:
            end(process)

    def run(self, words: Sequence[str], folder: pathlib.Path, given: bytes = b"") -> Iterator[object]:
        """Batches of lines, one a tick at least, and then the Ending. Closing this iterator ends the run."""
        with self.started(words, folder, given) as process:
            yield from self.read(process)

    def read(self, process: "subprocess.Popen[bytes]") -> Iterator[object]:
        assert process.stdout is not None and process.stderr is not None
        begin, said, errors, rest, reason = time.monotonic(), 0, b"", b"", "ended"
        with selectors.DefaultSelector() as selector:
            selector.register(process.stdout, selectors.EVENT_READ)
            selector.register(process.stderr, selectors.EVENT_READ)
            while selector.get_map():
                found = b""
                until = time.monotonic() + TICK
                while selector.get_map() and time.monotonic() < until and len(found) < 16 * CHUNK:
                    for key, _ in selector.select(max(0.0, until - time.monotonic())):
                        data = os.read(key.fd, CHUNK)
                        if not data:
                            selector.unregister(key.fileobj)
                        elif key.fileobj is process.stdout:
                            found += data
                        else:
                            errors = (errors + data)[:ERRORS]
                said += len(found)
                *whole, rest = (rest + found).split(b"\n")
                seconds = time.monotonic() - begin
                reason = self.passed(said, seconds)
                yield Batch([decoded(line) for line in whole], seconds)
                if reason != "ended":
                    break
        if reason != "ended":
            end(process)
        code = process.wait()
        if rest and reason == "ended":
            yield Batch([decoded(rest)], time.monotonic() - begin)
        if code == -signal.SIGXCPU:
            reason = "time"
        told = [decoded(line) for line in errors.split(b"\n") if line]
        if code == 6 or "MemoryError" in told[-1:] or (code in (-signal.SIGSEGV, -signal.SIGABRT, -signal.SIGKILL) and reason == "ended"):
            reason = "memory"
        yield Ending(code, told, reason)

    def passed(self, said: int, seconds: float) -> str:
        """The limit that a run has passed, or 'ended'."""
        if said > self.limits.output << 20:
            return "output"
        return "time" if seconds > self.limits.seconds else "ended"


def decoded(line: bytes) -> str:
    return line.decode("utf-8", "replace")


def feed(process: "subprocess.Popen[bytes]", given: bytes) -> None:
    """Hands a text to the program's standard input, which it may leave unread."""
    assert process.stdin is not None
    with contextlib.suppress(OSError):
        process.stdin.write(given)
    with contextlib.suppress(OSError):
        process.stdin.close()


def end(process: "subprocess.Popen[bytes]") -> None:
    """Ends a process and those that it started."""
    with contextlib.suppress(ProcessLookupError):
        os.killpg(process.pid, signal.SIGKILL)
    process.wait()
    for stream in (process.stdout, process.stderr):
        if stream is not None:
            stream.close()


def last(events: Iterator[object]) -> Optional[Ending]:
    """The ending of a run whose lines nobody reads."""
    found = None
    for event in events:
        if isinstance(event, Ending):
            found = event
    return found
