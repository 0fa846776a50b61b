"""What the page asks, each as a stream of events that ends with one that says how it ended.

An event has a `kind`. Events of listings are those of answers.py; `tick` says how long the run has taken, `end` how it ended.
"""
import dataclasses
import json
import pathlib
import re
import secrets
import shutil
import sys
import tempfile
from typing import Callable, Dict, Iterator, List, Optional, Sequence, Tuple

from page.answers import LABELLED, Event, Reader, explained, listing_of, refusal_in
from page.folder import Folder, Refused
from page.program import HOME, Program
from page.runs import Batch, Busy, Ending, Runner
from page.texts import law_at, queries, step_query

MOST_DRAWN = 300  # histories in one picture
MOST_STEPS = 1000  # histories of one step that are listed
MOST_QUERIES = 40  # queries whose steps are looked at while one writes
JUDGES = {"list": "check", "sure": "surecheck", "forever": "forevercheck"}  # of each mode with a log, the one that judges it
PROVED = re.compile(r"(?:claim holds at every|no history at any) horizon from [0-9]+ on")
ENDED = {
    "time": "the time limit ended the run", "memory": "the memory limit ended the run", "output": "the output limit ended the run",
}


@dataclasses.dataclass
class Task:
    """A text under the name of its file, with what is asked of it."""

    name: str
    text: str
    asked: Dict[str, object]

    def word(self, key: str) -> Optional[str]:
        """A word of the program that was handed in, which is no option."""
        value = self.asked.get(key)
        if value is None:
            return None
        if not isinstance(value, str) or not re.fullmatch(r"[A-Za-z0-9_:,]{1,4000000}", value):
            raise Refused(f"the value of {key} is none")
        return value

    def number(self, key: str) -> int:
        value = self.asked.get(key)
        if not isinstance(value, int) or not 0 <= value <= 1000000:
            raise Refused(f"the value of {key} is none")
        return value


class Desk:
    """Answers tasks by runs of the program in the folder."""

    def __init__(self, folder: Folder, program: Program, runner: Runner, hints: Dict[int, str]) -> None:
        self.folder, self.program, self.runner, self.hints = folder, program, runner, hints
        self.jobs: Dict[str, Callable[["Work"], Iterator[Event]]] = {
            "check": check, "list": list_histories, "sure": tell_sure, "forever": tell_forever, "judge": judge_log, "why": tell_why,
            "whynot": tell_whynot, "states": list_states, "step": list_steps, "picture": draw,
        }

    def answer(self, task: Task) -> Iterator[bytes]:
        """The events of a task, a JSON text on each line; a run is ended where this is closed."""
        job = self.jobs.get(str(task.asked.get("kind")))
        try:
            if job is None:
                raise Refused(f"there is no job {task.asked.get('kind')}")
            with tempfile.TemporaryDirectory(prefix="ccalc-page-") as made:
                lines: List[bytes] = []
                for event in job(Work(self, task, pathlib.Path(made))):
                    lines.append(line_of(event))
                    if event["kind"] in ("tick", "end"):  # one write for all that came within a tick
                        yield b"".join(lines)
                        lines = []
        except Refused as refused:
            yield line_of(no_run("refused", str(refused)))
        except OSError as error:
            yield line_of(no_run("refused", f"the run could not begin: {error.strerror}"))
        except Busy:
            yield line_of(no_run("busy", f"{self.runner.limits.at_a_time} runs are under way; stop one of them, or wait"))


def no_run(reason: str, text: str) -> Event:
    """The end of what did not run."""
    return {"kind": "end", "code": None, "reason": reason, "text": text, "refusal": None}


def line_of(event: Event) -> bytes:
    return json.dumps(event, ensure_ascii=True).encode() + b"\n"


class Work:
    """One task under way: its text lies in a folder of its own, and the program runs in the page's folder."""

    def __init__(self, desk: Desk, task: Task, made: pathlib.Path) -> None:
        self.desk, self.task, self.made = desk, task, made
        self.ending: Optional[Ending] = None

    def laid(self, text: str) -> str:
        """A file with a text, for the program."""
        self.desk.folder.check_includes(text)
        path = self.made / "text.cc"
        path.write_text(text, encoding="utf-8", newline="")
        return str(path)

    def named(self, line: str) -> str:
        """A line with the name of the file in place of that of its copy."""
        return line.replace(str(self.made / "text.cc"), self.task.name)

    def lines(self, words: Sequence[str], text: Optional[str] = None) -> Iterator[Tuple[List[str], float]]:
        """The lines of a run over the text, tick by tick; the ending is kept."""
        file = self.laid(self.task.text if text is None else text)
        for event in self.desk.runner.run([str(self.desk.program.path), *words, file], self.desk.folder.root):
            if isinstance(event, Batch):
                yield [self.named(line) for line in event.lines], event.seconds
            elif isinstance(event, Ending):
                self.ending = event

    def events(self, words: Sequence[str], text: Optional[str] = None) -> Iterator[Event]:
        """The events of a listing, with a tick after each batch of lines."""
        reader = Reader()
        for lines, seconds in self.lines(words, text):
            yield from reader.all(lines)
            yield {"kind": "tick", "seconds": round(seconds, 2)}

    def all_lines(self, words: Sequence[str], found: List[str], text: Optional[str] = None) -> Iterator[Event]:
        """Ticks; the lines of the run are put into `found`."""
        for lines, seconds in self.lines(words, text):
            found += lines
            yield {"kind": "tick", "seconds": round(seconds, 2)}

    def end(self) -> Event:
        """The last event: how the run ended, with its refusal where there is one."""
        ending = self.ending
        if ending is None:
            return no_run("ended", "")
        refusal = refusal_in(map(self.named, ending.errors)) if ending.reason == "ended" else None
        if refusal:
            self.explain(refusal)
        text = ENDED.get(ending.reason) or (refusal and str(refusal["text"])) or " ".join(map(self.named, ending.errors[-2:]))
        return {"kind": "end", "code": ending.code, "reason": ending.reason, "text": text, "refusal": refusal}

    def explain(self, refusal: Event) -> None:
        """Gives a refusal the words of docs/messages.md, and the last line of its statement; a fault of reading its place, too."""
        lacking = self.desk.folder.lacking(self.task.name, self.task.text) if refusal["name"] == "read fault" else None
        if lacking and not refusal["words"]:
            refusal["file"], refusal["line"], name = lacking
            root = self.desk.folder.root
            refusal["words"] = [f"`{name}` is not there, or cannot be read. Included files are named from the page's folder, `{root}`."]
        number, line = refusal["number"], refusal["line"]
        if not refusal["words"] and isinstance(number, int) and number in self.desk.hints:
            refusal["words"] = [self.desk.hints[number]]
        refusal["last"] = line
        if isinstance(line, int) and refusal["file"] == self.task.name:
            refusal["last"] = law_at(self.task.text, line)[0]

    def file_text(self, name: str) -> str:
        """The text of the description, or of a file that it includes."""
        if name == self.task.name:
            return self.task.text
        try:
            return self.desk.folder.read(self.desk.folder.place(name, endings=False), name)[0].decode("utf-8", "replace")
        except Refused:
            return ""


def check(work: Work) -> Iterator[Event]:
    """What is wrong in the text, and which queries it has, with those of the files that it includes."""
    found: List[Event] = []
    has_explain = work.desk.program.modes()["explain"]
    asked = asked_in(work)
    lines: List[str] = []
    if has_explain:
        yield from work.all_lines(["--mode", "explain"], lines)
        found = explained(lines)
        for problem in found:
            work.explain(problem)
    else:
        yield from work.all_lines(["--query", fresh_label()], lines)
    end = work.end()
    refusal = end["refusal"]
    if not has_explain and isinstance(refusal, dict) and refusal["number"] == 15:
        yield from check_queries(work, asked, found)
    elif not has_explain and isinstance(refusal, dict):
        found = [refusal]
    if has_explain and work.ending is not None and work.ending.code == 0:
        labels = {match.group(1) for match in map(LABELLED.fullmatch, lines) if match}
        asked = [query for query in asked if query["label"] in labels]
    yield {"kind": "checked", "problems": found, "queries": asked, "explain": has_explain}
    yield dict(end, refusal=None, text="" if end["reason"] == "ended" else end["text"])


def asked_in(work: Work) -> List[Event]:
    """The queries of the text, and of the files that it includes."""
    texts = [(None, work.task.text), *work.desk.folder.included_texts(work.task.text)]
    return [
        {"label": query.label, "line": query.line, "claim": query.claim, "file": name} for name, text in texts for query in queries(text)
    ]


def check_queries(work: Work, asked: List[Event], found: List[Event]) -> Iterator[Event]:
    """What is wrong with the steps of each query that can be asked: check mode is asked of it, which searches nothing, over a log that is
    none."""
    log = work.made / "none"
    log.write_text("none\n")
    for query in [query for place, query in enumerate(asked) if place == 0 or query["label"] is not None][:MOST_QUERIES]:
        words = [] if query["label"] is None else ["--query", str(query["label"])]
        yield from work.all_lines(["--mode", "check", *words, "--log", str(log)], [])
        refusal = work.end()["refusal"]
        if isinstance(refusal, dict):
            if refusal["line"] is None:
                refusal["file"], refusal["line"] = query["file"] or work.task.name, query["line"]
                work.explain(refusal)
            found.append(refusal)


def fresh_label() -> str:
    """A label that no query has."""
    return "page" + secrets.token_hex(8)


def asked_words(work: Work) -> List[str]:
    """The words for the query, the key and the count of a task."""
    words: List[str] = []
    label, after = work.task.word("label"), work.task.word("after")
    if label is not None:
        words += ["--query", label]
    if after is not None:
        words += ["--after", after]
    if "count" in work.task.asked:
        words += ["--count", str(work.task.number("count"))]
    return words


def list_histories(work: Work) -> Iterator[Event]:
    yield from work.events(asked_words(work))
    yield work.end()


def tell_sure(work: Work) -> Iterator[Event]:
    yield from work.events(["--mode", "sure", *asked_words(work)])
    yield work.end()


def tell_forever(work: Work) -> Iterator[Event]:
    yield from work.events(["--mode", "forever", *asked_words(work)])
    yield work.end()


def judge_log(work: Work) -> Iterator[Event]:
    """Writes the log of a listing, or of another mode, and has its checker judge it; of forever mode where an induction holds, since others
    show nothing of every horizon."""
    log = str(work.made / "log")
    of = str(work.task.asked.get("of"))
    mode = of if of in JUDGES else "list"
    words = asked_words(work)
    lines: List[str] = []
    yield from work.all_lines(["--mode", mode, *words, "--log", log], lines)
    answer = lines[-1] if lines else ""
    size = pathlib.Path(log).stat().st_size if pathlib.Path(log).exists() else 0
    yield {"kind": "log", "bytes": size, "answer": answer}
    if work.ending is None or work.ending.code not in (0, 1) or (mode == "forever" and not PROVED.fullmatch(answer)):
        yield work.end()
        return
    verdict: List[str] = []
    yield from work.all_lines(["--mode", JUDGES[mode], *words, "--log", log], verdict)
    yield {"kind": "verdict", "text": verdict[-1] if verdict else "", "code": work.ending.code, "program": work.desk.program.path.name}
    yield work.end()


def tell_why(work: Work) -> Iterator[Event]:
    """The cause of each value of a history; a law comes with its text and its last line."""
    laws: Dict[Tuple[str, int], Tuple[int, str]] = {}
    key = work.task.word("key") or ""
    for event in work.events(["--mode", "why", "--key", key]):
        file, line = event.get("file"), event.get("line")
        if event["kind"] == "cause" and isinstance(file, str) and isinstance(line, int):
            if (file, line) not in laws:
                laws[file, line] = law_at(work.file_text(file), line)
            event["last"], event["law"] = laws[file, line]
        yield event
    yield work.end()


def tell_whynot(work: Work) -> Iterator[Event]:
    """A conflict of conditions, laws and constants, where the program has that mode."""
    if not work.desk.program.modes()["whynot"]:
        raise Refused(
            "this program has no whynot mode yet. Ask in this order, each as a query of its own: is there a state (maxstep :: 0)? "
            "Is there a transition (maxstep :: 1)? Which condition is too much? Is the range long enough?"
        )
    for event in work.events(["--mode", "whynot", *asked_words(work)]):
        file, line = event.get("file"), event.get("line")
        if event["kind"] == "part" and isinstance(file, str) and isinstance(line, int):
            event["last"], event["law"] = law_at(work.file_text(file), line)
        yield event
    yield work.end()


def list_states(work: Work) -> Iterator[Event]:
    """All states of the description."""
    label = fresh_label()
    text = work.task.text + step_query(label, 0, {})
    yield from work.events(["--query", label, "--count", str(MOST_STEPS)], text)
    yield work.end()


def list_steps(work: Work) -> Iterator[Event]:
    """The histories of one step that begin in a state, which is that of a step of a history with a key."""
    step, causes = work.task.number("step"), []
    for event in work.events(["--mode", "why", "--key", work.task.word("key") or ""]):
        if event["kind"] == "cause":
            causes.append(event)
        elif event["kind"] == "tick":
            yield event
    if work.ending is None or work.ending.code != 0:
        yield work.end()
        return
    label = fresh_label()
    text = work.task.text + step_query(label, 1, state_at(causes, step))
    yield from work.events(["--query", label, "--count", str(MOST_STEPS)], text)
    yield work.end()


def state_at(causes: List[Event], step: int) -> Dict[str, str]:
    """The values of the fluents at a step: those constants that have a value at the last step, where no action stands."""
    last = max((int(str(cause["step"])) for cause in causes), default=0)
    fluents = {cause["constant"] for cause in causes if cause["step"] == last}
    return {str(one["constant"]): str(one["value"]) for one in causes if one["step"] == step and one["constant"] in fluents}


def draw(work: Work) -> Iterator[Event]:
    """A picture of histories by Graphviz: all steps from left to right, or the transitions alone."""
    given = work.task.asked.get("histories")
    tool = {"histories": "histories", "transitions": "transitions"}.get(str(work.task.asked.get("shape")))
    if not isinstance(given, list) or tool is None or not all(is_history(rows) for rows in given):
        raise Refused("a picture is of histories")
    if shutil.which("dot") is None:
        raise Refused("pictures need Graphviz: apt-get install graphviz")
    listing = "".join(map(listing_of, given[:MOST_DRAWN]))
    graph: List[str] = []
    yield from work_on(work, [sys.executable, str(HOME / "tools" / tool)], listing, graph)
    if work.ending is None or work.ending.code != 0:
        yield work.end()
        return
    drawn: List[str] = []
    yield from work_on(work, [str(shutil.which("dot")), "-Tsvg"], "\n".join(graph) + "\n", drawn)
    if work.ending is not None and work.ending.code == 0:
        yield {"kind": "picture", "svg": "\n".join(drawn), "left": max(0, len(given) - MOST_DRAWN)}
    yield work.end()


def work_on(work: Work, words: List[str], given: str, found: List[str]) -> Iterator[Event]:
    """The lines that another program makes of a text."""
    for event in work.desk.runner.run(words, work.made, given.encode()):
        if isinstance(event, Batch):
            found += event.lines
            yield {"kind": "tick", "seconds": round(event.seconds, 2)}
        elif isinstance(event, Ending):
            work.ending = event


def is_history(rows: object) -> bool:
    """Whether this is rows of texts, as those of a history, without line ends in them."""
    return isinstance(rows, list) and len(rows) % 2 == 1 and all(
        isinstance(row, list) and all(isinstance(part, str) and re.fullmatch(r"[!-~]+", part) for part in row) for row in rows
    )
