"""The folder whose descriptions are shown: its files by names that stay in it, read and saved."""
import contextlib
import dataclasses
import os
import pathlib
import stat
import tempfile
from typing import Iterator, List, Optional, Set

from page.texts import CONTROL, included, includes

ENDINGS = (".cc", ".ccalc")
MOST_FILES = 2000
MOST_FOLDERS = 4000
MOST_BYTES = 8 << 20
MOST_DEPTH = 8


class Refused(Exception):
    """A name or a file that the page does not take; its text says why."""


@dataclasses.dataclass(frozen=True)
class Opened:
    """A text with what saving it needs to know."""

    name: str
    text: str
    changed: int  # nanoseconds, as the system has it
    ends: str  # how its lines end
    note: str


class Folder:
    def __init__(self, root: pathlib.Path) -> None:
        self.root = root.resolve(strict=True)

    def names(self) -> List[str]:
        """The descriptions, by their names from the folder; hidden folders and links out of the folder aside."""
        found: List[str] = []
        for seen, (place, folders, files) in enumerate(os.walk(self.root)):
            depth = len(pathlib.Path(place).relative_to(self.root).parts)
            folders[:] = sorted(name for name in folders if not name.startswith(".")) if depth < MOST_DEPTH else []
            for name in files:
                path = os.path.relpath(os.path.join(place, name), self.root)
                if name.endswith(ENDINGS) and not CONTROL.search(path) and not has_surrogate(path) and self.is_within(path):
                    found.append(path)
            if len(found) > MOST_FILES or seen > MOST_FOLDERS:
                break
        return sorted(found[:MOST_FILES])

    def is_within(self, name: str) -> bool:
        return (self.root / name).resolve().is_relative_to(self.root)

    def place(self, name: str, endings: bool = True) -> pathlib.Path:
        """The path of a name; refused where it leads out of the folder, or is not that of a description."""
        if not name or CONTROL.search(name) or has_surrogate(name):
            raise Refused("a file's name has no control character, and is not empty")
        if os.path.isabs(name) or not self.is_within(name):
            raise Refused(f"{name} leads out of the folder {self.root}")
        if endings and not name.endswith(ENDINGS):
            raise Refused(f"{name} is no description: its name ends with {' or '.join(ENDINGS)}")
        return (self.root / name).resolve()

    def open(self, name: str) -> Opened:
        data, changed = self.read(self.place(name), name)
        note = ""
        try:
            text = data.decode("utf-8")
        except UnicodeDecodeError:
            text, note = data.decode("latin-1"), f"{name} is not UTF-8: it is shown as Latin-1, and saved as UTF-8"
        ends = "\r\n" if "\r\n" in text else "\n"
        return Opened(name, text.replace("\r\n", "\n"), changed, ends, note)

    def read(self, path: pathlib.Path, name: str) -> "tuple[bytes, int]":
        try:
            with open(os.open(path, os.O_RDONLY | os.O_NONBLOCK), "rb") as file:
                found = os.fstat(file.fileno())
                if not stat.S_ISREG(found.st_mode):
                    raise Refused(f"{name} is not a file")
                if found.st_size > MOST_BYTES:
                    raise Refused(f"{name} has more than {MOST_BYTES >> 20} megabytes")
                return file.read(MOST_BYTES), found.st_mtime_ns
        except OSError as error:
            raise Refused(f"{name} cannot be read: {error.strerror}") from error

    def save(self, name: str, text: str, ends: str, since: Optional[int]) -> int:
        """Saves a text where the file is as it was when it was opened, and answers when it was changed now."""
        path = self.place(name)
        if len(text) > MOST_BYTES:
            raise Refused(f"the text has more than {MOST_BYTES >> 20} megabytes")
        try:
            if (path.stat().st_mtime_ns if path.exists() else None) != since:
                raise Refused(f"{name} was changed by another program after it was opened; copy your text, and load the page again")
            mode = stat.S_IMODE(path.stat().st_mode) if path.exists() else 0o644
            handle, made = tempfile.mkstemp(dir=path.parent, prefix=".ccalc-page-")
            try:
                with open(handle, "w", encoding="utf-8", newline="") as file:
                    file.write(text.replace("\n", ends) if ends == "\r\n" else text)
                os.chmod(made, mode)
                changed = os.stat(made).st_mtime_ns
                os.replace(made, path)
            except BaseException:
                with contextlib.suppress(OSError):
                    os.unlink(made)
                raise
            return changed
        except OSError as error:
            raise Refused(f"{name} cannot be saved: {error.strerror}") from error

    def check_includes(self, text: str) -> None:
        """Refuses a text that includes, or whose included files include, what lies outside the folder or is no plain file."""
        for _ in self.included_texts(text):
            pass

    def included_texts(self, text: str) -> Iterator["tuple[str, str]"]:
        """The names and texts of the files that a text includes, and of those that these include; those that are not there aside."""
        seen: Set[str] = set()
        left = included(text)
        while left:
            name = left.pop(0)
            if name in seen:
                continue
            seen.add(name)
            path = self.place(name, endings=False)
            if not path.exists():
                continue
            inner = self.read(path, name)[0].decode("utf-8", "replace")
            yield name, inner
            left += included(inner)


    def lacking(self, name: str, text: str) -> Optional["tuple[str, int, str]"]:
        """Of the files that a text includes, and those that these include, the first that cannot be read: the file and the line of the
        include, and its name."""
        seen: Set[str] = set()
        left = [(name, line, inner) for line, inner in includes(text)]
        while left:
            outer, line, inner = left.pop(0)
            if inner in seen:
                continue
            seen.add(inner)
            try:
                found = self.read(self.place(inner, endings=False), inner)[0].decode("utf-8", "replace")
            except Refused:
                return outer, line, inner
            left[:0] = [(inner, at, deeper) for at, deeper in includes(found)]
        return None


def has_surrogate(name: str) -> bool:
    return any(0xD800 <= ord(letter) <= 0xDFFF for letter in name)
