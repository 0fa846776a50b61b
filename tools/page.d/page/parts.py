"""The parts that the page takes from Debian's packages, and how those that are not there are installed."""
import pathlib
import shutil
from typing import Dict, List

SHARE = pathlib.Path("/usr/share/javascript")
CODEMIRROR = SHARE / "codemirror"
D3 = SHARE / "d3"


def missing() -> List[Dict[str, str]]:
    """The parts that are not there: what the page is without them, and the line that installs them."""
    found = []
    if not (CODEMIRROR / "lib/codemirror.js").is_file():
        found.append({"part": "codemirror", "without": "the text has no highlighting", "install": "apt-get install libjs-codemirror"})
    if not (D3 / "d3.min.js").is_file():
        found.append({"part": "d3", "without": "pictures cannot be dragged by the mouse", "install": "apt-get install libjs-d3"})
    if shutil.which("dot") is None:
        found.append({"part": "dot", "without": "there are no pictures", "install": "apt-get install graphviz"})
    return found
