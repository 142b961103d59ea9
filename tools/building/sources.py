"""The programs, the sources that each is built from, and the file release/SOURCES."""

from __future__ import annotations

import hashlib
import os
import platform
import shutil
import subprocess
from pathlib import Path
from typing import Dict, Iterator, List, Optional

ROOT = Path(__file__).resolve().parent.parent.parent
RELEASE = ROOT / "release"
PROGRAMS = ("icrun", "icmore", "icserve", "iclive")
PARTS = ("src", "specs", "proofs")


class Problem(Exception):
    """Why something can't be done, in one line."""


def needed(root: Path, program: str) -> List[str]:
    """The lines of crates.txt of a program and of the crates on which it stands, by name, with single blanks."""
    lines: Dict[str, List[str]] = {}
    for line in (root / "crates.txt").read_text().splitlines():
        words = line.partition("#")[0].split()
        if words:
            lines[words[0].rstrip(":")] = words
    if program not in lines:
        raise Problem(f"crates.txt has no {program}")
    taken, left = set(), [program]
    while left:
        name = left.pop()
        if name not in taken:
            taken.add(name)
            left += [word for word in lines[name][1:] if word in lines]
    return [" ".join(lines[name]) for name in sorted(taken)]


def crates_of(lines: List[str]) -> List[str]:
    return [line.split()[0].rstrip(":") for line in lines]


def files_of(root: Path, crate: str) -> Iterator[Path]:
    """The files that a crate is built from, in the order of their paths."""
    found = [path for part in PARTS for path in (root / "crates" / crate / part).rglob("*") if path.is_file()]
    return iter(sorted(found, key=lambda path: path.relative_to(root).as_posix()))


def sum_of(root: Path, program: str) -> str:
    """The SHA-256 of what a program is built from: HANDLES; the lines of crates.txt that it needs, ordered by name, with single
    blanks; and each file in src, specs and proofs of these crates, ordered by crate and then by path. Each is counted as its path
    from the top of the repository, a byte 0, its length in bytes as a decimal number, a byte 0, and its bytes."""
    lines = needed(root, program)
    total = hashlib.sha256()

    def add(name: str, data: bytes) -> None:
        total.update(b"%s\0%d\0%s" % (name.encode(), len(data), data))

    add("HANDLES", (root / "HANDLES").read_bytes())
    add("crates.txt", "".join(f"{line}\n" for line in lines).encode())
    for crate in crates_of(lines):
        for path in files_of(root, crate):
            add(path.relative_to(root).as_posix(), path.read_bytes())
    return total.hexdigest()


def kit() -> Optional[str]:
    """The kit's line about itself, or None where there is no kit."""
    if shutil.which("rt") is None:
        return None
    done = subprocess.run(["rt", "version"], stdout=subprocess.PIPE, stderr=subprocess.DEVNULL)
    return done.stdout.decode().strip() if done.returncode == 0 else None


def processor() -> str:
    return platform.machine()


def loader_of(program: bytes) -> str:
    """What loads a program, as its header names it: for a program of 64 bits, least byte first."""
    if program[:6] != b"\x7fELF\x02\x01":
        raise Problem("the program is none of the kind that Linux executes")

    def number(at: int, size: int) -> int:
        return int.from_bytes(program[at:at + size], "little")

    for index in range(number(56, 2)):
        at = number(32, 8) + index * number(54, 2)
        if number(at, 4) == 3:  # (the entry that names it)
            start, size = number(at + 8, 8), number(at + 32, 8)
            return program[start:start + size].rstrip(b"\0").decode()
    raise Problem("the program names nothing that loads it")


def read_release(file: Path) -> Dict[str, str]:
    """The keys of release/SOURCES: kit, processor, loader, and the sum of each program."""
    if not file.is_file():
        return {}
    return dict(line.split(": ", 1) for line in file.read_text().splitlines() if ": " in line)


def put(path: Path, data: bytes, mode: int) -> None:
    """A file, whole or not at all."""
    new = path.with_name(path.name + ".new")
    try:
        new.write_bytes(data)
        new.chmod(mode)
        os.replace(str(new), str(path))
    except OSError as error:
        error.filename = error.filename or str(path)
        raise
    finally:
        if new.exists():
            new.unlink()


def place_of(root: Path) -> Path:
    """Where what is built of a repository is kept, in the user's cache. ./icrun looks for it there, too."""
    cache = os.environ.get("XDG_CACHE_HOME") or os.path.join(os.environ.get("HOME") or "/tmp", ".cache")
    done = subprocess.run(["cksum"], input=os.fsencode(str(root)), stdout=subprocess.PIPE, check=True)
    return Path(cache) / "zaimorus" / done.stdout.decode().strip().replace(" ", "-")


def built_program(name: str) -> Path:
    """The program that ./icrun would run: that of the release where it is for this machine, else the one that was built."""
    found = read_release(RELEASE / "SOURCES")
    is_here = found.get("processor", processor()) == processor() and os.path.exists(found.get("loader", "/"))
    for program in ([RELEASE / name] if is_here else []) + [place_of(ROOT) / name]:
        if program.is_file() and os.access(str(program), os.X_OK) and program.read_bytes()[:4] == b"\x7fELF":
            return program
    raise Problem(f"release/{name} isn't there or can't be executed on this machine; tools/build builds the program where the kit is")
