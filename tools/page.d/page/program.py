"""The calculator itself: where it is, which of its modes there are, and the words of docs/messages.md for its refusals."""
import os
import pathlib
import re
import shutil
import subprocess
import tempfile
import threading
from typing import Dict, Optional, Tuple

HOME = pathlib.Path(__file__).resolve().parents[3]
BUILT = HOME / "crates/ccalc/out/ccalc"
PROBE = ":- constants on :: inertialFluent.\n:- query maxstep :: 0.\n"
ASKED_MODES = ("explain", "whynot")


def found_program(named: Optional[str]) -> Optional[pathlib.Path]:
    """The program that is named, that which was built here, or that on the PATH; None where there is none."""
    if named is not None:
        path = shutil.which(named)
        return pathlib.Path(path).resolve() if path else None
    if os.access(BUILT, os.X_OK):
        return BUILT
    path = shutil.which("ccalc")
    return pathlib.Path(path).resolve() if path else None


class Program:
    def __init__(self, path: pathlib.Path) -> None:
        self.path = path
        self.lock = threading.Lock()
        self.asked: Tuple[int, Dict[str, bool]] = (-1, {})

    def modes(self) -> Dict[str, bool]:
        """Of the modes that a program may not have yet, whether this one has them; asked again where the program was built anew."""
        with self.lock:
            built = self.path.stat().st_mtime_ns
            if self.asked[0] != built:
                self.asked = (built, {mode: self.has(mode) for mode in ASKED_MODES})
            return self.asked[1]

    def has(self, mode: str) -> bool:
        """Whether the words that ask for a mode are not refused as words."""
        with tempfile.TemporaryDirectory(prefix="ccalc-page-") as folder:
            probe = pathlib.Path(folder, "probe.cc")
            probe.write_text(PROBE)
            try:
                run = subprocess.run([self.path, "--mode", mode, probe], capture_output=True, text=True, timeout=20, cwd=folder)
            except (OSError, subprocess.TimeoutExpired):
                return False
        return run.returncode in (0, 1, 3, 7) and not run.stderr.startswith("ccalc: 1 Words")


def hints() -> Dict[int, str]:
    """For the number of each refusal the first paragraph that docs/messages.md has on it."""
    try:
        text = (HOME / "docs/messages.md").read_text(encoding="utf-8")
    except OSError:
        return {}
    found = {}
    for number, body in re.findall(r"^## ([0-9]+) \w+\n\n(.*?)(?=^## |\Z)", text, flags=re.M | re.S):
        paragraph = body.split("\n\n")[0].replace("\n", " ")
        found[int(number)] = re.sub(r"\[([^\]]*)\]\([^)]*\)", r"\1", paragraph).rstrip(":")
    return found
