"""The command `tools/page`."""
import argparse
import importlib.util
import os
import pathlib
import secrets
import signal
import sys
import webbrowser
from typing import Any, List, Optional

from page.folder import Folder
from page.parts import missing
from page.program import BUILT, Program, found_program, hints
from page.runs import Limits, Runner

SYSTEM_PYTHON = "/usr/bin/python3"  # Debian's packages are packages of this one
NOT_THERE = 3
EPILOG = """Exit codes: 0 where it was ended by Ctrl-C or by a signal, 2 where the words or the folder are wrong, 3 where the program or
a part without which there is no page is not there; a line on standard error says what, and how to install it."""


def whole(text: str) -> int:
    number = int(text)
    if not 1 <= number <= 1 << 20:
        raise ValueError(text)
    return number


def parser() -> argparse.ArgumentParser:
    limits = Limits()
    made = argparse.ArgumentParser(
        prog="tools/page", epilog=EPILOG,
        description="Serves one local page for the descriptions of a folder: their text, answers, pictures, causes, and steps by hand.",
    )
    made.add_argument("folder", metavar="FOLDER", help="the folder; the program runs in it, so included files are named from it")
    made.add_argument("--program", metavar="FILE", help="the calculator; without it the one that ./ccalc built, or ccalc on the PATH")
    made.add_argument("--port", type=int, default=0, metavar="N", help="the port on the loopback address; any free one without it")
    made.add_argument("--open", action="store_true", help="open the page in the browser")
    made.add_argument("--seconds", type=whole, default=limits.seconds, metavar="S", help=f"time limit of a run ({limits.seconds})")
    made.add_argument("--memory", type=whole, default=limits.memory, metavar="MB", help=f"memory limit of a run ({limits.memory})")
    made.add_argument("--output", type=whole, default=limits.output, metavar="MB", help=f"how much of a run is shown ({limits.output})")
    return made


def has_bottle() -> bool:
    return importlib.util.find_spec("bottle") is not None


def fail(message: str, code: int) -> int:
    print(f"tools/page: {message}", file=sys.stderr)
    return code


def main(words: Optional[List[str]] = None) -> int:
    given = parser().parse_args(words)
    if not has_bottle():
        if os.path.exists(SYSTEM_PYTHON) and not os.path.samefile(sys.executable, SYSTEM_PYTHON):
            os.execv(SYSTEM_PYTHON, [SYSTEM_PYTHON, *sys.argv])
        return fail("bottle is not there; install it by: apt-get install python3-bottle", NOT_THERE)
    if not os.path.isdir(given.folder):
        return fail(f"{given.folder} is no folder", 2)
    path = found_program(given.program)
    if path is None:
        where = given.program or f"{BUILT}, and ccalc on the PATH"
        return fail(f"the calculator is not there ({where}); build it by ./ccalc examples/lamp.cc, or name it by --program", NOT_THERE)
    return serve(given, path)


def serve(given: argparse.Namespace, path: pathlib.Path) -> int:
    from page.jobs import Desk
    from page.server import address, made_server

    limits = Limits(seconds=given.seconds, memory=given.memory, output=given.output)
    folder, runner, token = Folder(pathlib.Path(given.folder)), Runner(limits), secrets.token_urlsafe(24)
    try:
        server = made_server(folder, Desk(folder, Program(path), runner, hints()), given.port, token)
    except (OSError, OverflowError) as error:
        return fail(f"port {given.port} cannot be had: {error}", 2)
    for part in missing():
        print(f"tools/page: {part['part']} is not there, so {part['without']}; install it by: {part['install']}", file=sys.stderr)
    print(f"tools/page: {folder.root} is shown at\n{address(server, token)}\nEnd it with Ctrl-C.", flush=True)
    if given.open:
        webbrowser.open(address(server, token))
    signal.signal(signal.SIGTERM, interrupted)
    try:
        server.serve_forever()
    except KeyboardInterrupt:
        pass
    finally:
        runner.end_all()
        server.server_close()
    return 0


def interrupted(number: int, frame: Any) -> None:
    raise KeyboardInterrupt
