"""What `tools/prove` and `checks/release` share: the crates that the program stands on, a sum of their sources, and how it is built and linked."""
from __future__ import annotations

import glob
import hashlib
import os
import pathlib
import re
import shutil
import subprocess
from typing import Callable, NamedTuple

HOME = pathlib.Path(__file__).resolve().parent.parent
PROGRAM = "ccalc"
PARTS = ("src", "specs", "proofs")
TARGET = "x86_64-unknown-linux-gnu"


class Lacking(Exception):
    """What is missing on this machine, or did not work, in words for its user."""


class Kit(NamedTuple):
    folder: pathlib.Path
    version: str


class CLibrary(NamedTuple):
    """A C library to link with for good: its name, the files in the order of the link, around the program's own, and a sum of them."""

    name: str
    first: list[str]
    last: list[str]
    sum: str


def sum_of(data: bytes) -> str:
    return hashlib.sha256(data).hexdigest()


def sum_of_file(file: pathlib.Path | str) -> str:
    return sum_of(pathlib.Path(file).read_bytes())


# ---------------------------------------------------------------------------------------------------------------
# Sources
# ---------------------------------------------------------------------------------------------------------------


def uses_of(home: pathlib.Path) -> dict[str, list[str]]:
    """The libraries that each crate of crates.txt uses, those of the kit too."""
    lines = [line.partition(":") for line in (home / "crates.txt").read_text().splitlines() if ":" in line and not line.startswith("#")]
    return {name.split()[0]: rest.split() for name, _, rest in lines}


def needed(home: pathlib.Path, program: str = PROGRAM) -> list[str]:
    """The crates that a program stands on, each after those that it uses itself, and last the program."""
    uses, order = uses_of(home), []

    def add(name: str) -> None:
        if name in uses and name not in order:
            for it in uses[name]:
                add(it)
            order.append(name)

    add(program)
    return order


def lines_of_sources(home: pathlib.Path, crates: list[str]) -> dict[bytes, bytes]:
    """For crates.txt and each file of the crates' src, specs and proofs, the line that sha256sum prints of it."""
    files = [b"crates.txt"]
    for crate in crates:
        for part in PARTS:
            for at, _, names in os.walk(os.fsencode(home / "crates" / crate / part)):
                inside = os.path.relpath(at, os.fsencode(home))
                files += [os.path.join(inside, name) for name in names]
    lines = {}
    for file in sorted(files):
        name = file.replace(b"\\", b"\\\\").replace(b"\n", b"\\n")
        mark = b"\\" if name != file else b""
        with open(os.path.join(os.fsencode(home), file), "rb") as it:
            lines[file] = mark + sum_of(it.read()).encode() + b"  " + name + b"\n"
    return lines


def sum_of_sources(home: pathlib.Path, crates: list[str]) -> str:
    """What `./ccalc` computes of the same files by find, sort and sha256sum."""
    return sum_of(b"".join(lines_of_sources(home, crates).values()))


def sums_by_crate(home: pathlib.Path, crates: list[str]) -> dict[str, str]:
    """A sum of each crate's own files, and of crates.txt, by which it is told what has changed."""
    lines = lines_of_sources(home, crates)
    sums = {"crates.txt": sum_of(lines.pop(b"crates.txt"))}
    for crate in crates:
        sums[crate] = sum_of(b"".join(line for file, line in lines.items() if file.startswith(f"crates/{crate}/".encode())))
    return sums


# ---------------------------------------------------------------------------------------------------------------
# Manifests
# ---------------------------------------------------------------------------------------------------------------


def read_manifest(file: pathlib.Path) -> dict[str, str]:
    """The lines of a manifest, by the word before their colon; nothing where the file is not there."""
    lines = [line.partition(": ") for line in file.read_text(errors="replace").splitlines()] if file.is_file() else []
    return {word: value for word, colon, value in lines if colon}


def note_built(home: pathlib.Path, kit: Kit, crates: list[str], sources: str) -> None:
    """Writes beside the program that was built here of what it is, so that `./ccalc` answers by it."""
    program = home / "crates" / PROGRAM / "out" / PROGRAM
    lines = {"kit": kit.version, "sources": sources, "program": sum_of_file(program), "crates": " ".join(crates)}
    write_whole(program.with_name(f"{PROGRAM}.of"), "".join(f"{word}: {value}\n" for word, value in lines.items()).encode())


def write_whole(file: pathlib.Path, data: bytes) -> None:
    """Writes a file so that no reader meets half of it."""
    new = file.with_name(f"{file.name}.{os.getpid()}")
    new.write_bytes(data)
    os.replace(new, file)


# ---------------------------------------------------------------------------------------------------------------
# Building
# ---------------------------------------------------------------------------------------------------------------


def find_kit() -> Kit:
    if not shutil.which("rt"):
        raise Lacking("the Rattle kit is needed, with rt on the PATH (README.md, 'What is needed')")
    said = [subprocess.run(["rt", word], capture_output=True, text=True) for word in ("doc", "version")]
    if any(it.returncode for it in said):
        raise Lacking("rt does not say where its kit is: " + (said[0].stderr or said[1].stderr).strip())
    return Kit(pathlib.Path(said[0].stdout.strip()).parent, said[1].stdout.strip())


def build(kit: Kit, home: pathlib.Path, crate: str, library: Callable[[str], pathlib.Path], to: pathlib.Path, jobs: int, log: pathlib.Path) -> None:
    """Proves a crate over the libraries of those that it uses, and builds it: a library of statements, or a program's object file."""
    used = uses_of(home)[crate]
    own = [it for it in needed(home, crate) if it != crate]
    is_program = (home / "crates" / crate / "src" / "main.rt").is_file()
    words = [str(kit.folder / "bin/rattle"), "build", "src/main.rt" if is_program else "src/lib.rt", "--crate-name", crate, "--jobs", str(jobs)]
    words += ["--links", f"{crate}=", "-L", f"dependency={kit.folder}/rlibs"]
    for folder in sorted({str(library(it).parent) for it in own}):
        words += ["-L", f"dependency={folder}"]
    for it in ["std", *used]:
        words += ["--extern", f"{it}={library(it) if it in own else kit.folder / 'rlibs' / f'{it}.rlib'}"]
    words += ["--antt-project", f"{kit.folder}/rattle/logic/antt-project.json", "--logic-built", f"{kit.folder}/logic_built"]
    words += ["--backend", "llvm", "--toolchain", f"{kit.folder}/toolchain"] if is_program else ["--statements"]
    with open(log, "wb") as out:
        ran = subprocess.run([*words, "-o", str(to)], cwd=home / "crates" / crate, stdin=subprocess.DEVNULL, stdout=out, stderr=subprocess.STDOUT)
    if ran.returncode:
        raise Lacking(f"{crate} was not proved and built; see {log}")


def run_linker(words: list[str]) -> None:
    ran = subprocess.run(words, stdin=subprocess.DEVNULL, stdout=subprocess.PIPE, stderr=subprocess.STDOUT, text=True, errors="replace")
    if ran.returncode:
        raise Lacking(f"{os.path.basename(words[0])} did not link the program: {ran.stdout[-900:].strip()}")


def c_parts(kit: Kit) -> list[str]:
    return [str(kit.folder / "c" / name) for name in ("libos_c.a", "liblibc_c.a")]


def link_as_gate(kit: Kit, made: pathlib.Path, program: pathlib.Path) -> None:
    """Links a program as `rt ci` does, against the shared C library of the machine that runs it."""
    run_linker([str(kit.folder / "bin/rattle-link"), "--target", TARGET, "--toolchain", str(kit.folder / "toolchain"), "-o", str(program), str(made), *c_parts(kit)])


def link_for_good(kit: Kit, library: CLibrary, made: pathlib.Path, program: pathlib.Path) -> None:
    """Links a program with all that it needs of the C library, so that it runs on any Linux; without symbols, dates and names of places."""
    words = [str(kit.folder / "toolchain/bin/ld.lld"), "-m", "elf_x86_64", "-static", "--strip-all", "--gc-sections", "--build-id=none", "--eh-frame-hdr"]
    words += ["-z", "relro", "-z", "now", "-z", "noexecstack", "--fatal-warnings", "--threads=1", "-o", str(program)]
    run_linker([*words, *library.first, str(made), *c_parts(kit), "--start-group", *library.last[:-1], f"{kit.folder}/toolchain/lib/libgcc.a", "--end-group", library.last[-1]])


def find_c_library() -> CLibrary | None:
    """The machine's C library for such a link, as packages of compilers bring it (Debian: libc6-dev and libgcc-12-dev); None where there is none."""
    folders = [it for it in ("/usr/lib/x86_64-linux-gnu", "/usr/lib64", "/usr/lib") if os.path.isfile(f"{it}/libc.a")]
    unwinders = glob.glob("/usr/lib/gcc/x86_64*linux*/*/libgcc_eh.a")
    if not folders or not unwinders:
        return None
    unwinder = max(unwinders, key=lambda it: [int(number) for number in re.findall(r"\d+", it)])
    first, last = [f"{folders[0]}/{it}" for it in ("crt1.o", "crti.o")], [f"{folders[0]}/libc.a", unwinder, f"{folders[0]}/crtn.o"]
    said = re.search(rb"GNU C Library \(([ -~]+?)\)", pathlib.Path(last[0]).read_bytes())
    sums = "".join(sum_of_file(it) for it in [*first, *last])
    return CLibrary(said[1].decode() if said else "a C library without a name", first, last, sum_of(sums.encode()))
