"""Builds the programs from their sources, in a copy in the user's cache."""

from __future__ import annotations

import argparse
import fcntl
import os
import re
import shutil
import signal
import subprocess
import sys
import time
from contextlib import contextmanager
from pathlib import Path
from typing import Dict, Iterator, List

from .sources import PARTS, PROGRAMS, ROOT, Problem, crates_of, files_of, kit, needed, place_of, put, sum_of

ABOUT = """Proves and builds the programs from the sources, as the gate does, in a copy in the user's cache. From nothing that takes an
hour or more; what the gate or an earlier build on this machine proved is taken over."""
RUN_FILES = ("args", "stdin", "stdout", "status", "data")  # with which the kit runs a program that it built
SECONDS = 5_000.0  # of processor time that all crates take from nothing: a first guess
PROVED = re.compile(r"rt: (\w+) (?:proved$|is kept:)")
FAILED = re.compile(r"rt: (\w+)(?:: its tests are)? NOT PROVED")


class Progress:
    """How far a build is: a line that is written over on a terminal, a line for each crate elsewhere."""

    def __init__(self, name: str, weights: Dict[str, int]) -> None:
        self.name, self.weights, self.done = name, weights, set()
        self.proved = 0  # lines that were proved in this build, and not taken over
        self.began = time.monotonic()
        self.is_terminal = sys.stderr.isatty()
        self.shown = ""

    def take(self, line: str) -> None:
        """A line of the kit."""
        found = PROVED.match(line)
        if not found or found[1] not in self.weights or found[1] in self.done:
            return
        self.done.add(found[1])
        if line.endswith(" proved"):
            self.proved += self.weights[found[1]]
        self.show(f"{self.name}: {len(self.done)} of {len(self.weights)} crates are proved, {self.left()}")

    def left(self) -> str:
        """A guess of the time that is left: by the lines proved so far, and at first by what all took once."""
        whole = sum(self.weights.values()) or 1
        first = SECONDS / whole / (os.cpu_count() or 1)
        prior = whole / 20
        pace = (first * prior + time.monotonic() - self.began) / (prior + self.proved)
        seconds = pace * (whole - sum(self.weights[it] for it in self.done))
        return f"about {seconds / 60:.0f} min are left" if seconds >= 60 else "less than a minute is left"

    def begin(self, log: Path) -> None:
        sys.stderr.write(f"{self.name}: {len(self.weights)} crates are to be proved, {self.left()}; the log: {log}\n")

    def show(self, line: str) -> None:
        if self.is_terminal:
            sys.stderr.write(f"\r\x1b[K{line}")
            self.shown = line
        else:
            sys.stderr.write(f"{line}\n")
        sys.stderr.flush()

    def end(self) -> None:
        if self.is_terminal and self.shown:
            sys.stderr.write("\r\x1b[K")
            sys.stderr.flush()


@contextmanager
def lock(place: Path) -> Iterator[None]:
    """Held while a build goes on; another one is refused."""
    with open(str(place / "lock"), "w") as file:
        try:
            fcntl.flock(file, fcntl.LOCK_EX | fcntl.LOCK_NB)
        except BlockingIOError:
            raise Problem("another build of this repository is going on") from None
        yield


def copy(name: str, lines: List[str], to: Path) -> None:
    """What the program needs, as the top of a repository."""
    (to / ".git").mkdir(parents=True)
    (to / "crates.txt").write_text("".join(f"{line}\n" for line in lines))
    shutil.copy(str(ROOT / "HANDLES"), str(to / "HANDLES"))
    for crate in crates_of(lines):
        for part in PARTS + (RUN_FILES if crate == name else ()):
            given, taken = ROOT / "crates" / crate / part, to / "crates" / crate / part
            taken.parent.mkdir(parents=True, exist_ok=True)
            if given.is_dir():
                shutil.copytree(str(given), str(taken))
            elif given.is_file():
                shutil.copy(str(given), str(taken))


def prove(name: str, folder: Path, log: Path, progress: Progress) -> None:
    """Has the kit prove and build all in the copy."""
    failed: List[str] = []
    told = ""
    with open(str(log), "w", errors="replace") as kept:
        process = subprocess.Popen(["rt", "ci"], cwd=str(folder), stdin=subprocess.DEVNULL, stdout=subprocess.PIPE,
                                   stderr=subprocess.STDOUT, errors="replace", start_new_session=True)
        try:
            assert process.stdout is not None
            for line in process.stdout:
                kept.write(line)
                kept.flush()
                found = FAILED.match(line)
                failed += [found[1]] if found and found[1] not in failed else []
                told = line[4:].rstrip() if line.startswith("rt: ") else told
                progress.take(line.rstrip())
            status = process.wait()
        finally:
            if process.poll() is None:
                os.killpg(process.pid, signal.SIGTERM)
                process.wait()
            progress.end()
    if status != 0:
        why = f"{failed[0]} isn't proved" if failed else told or f"rt ci ended with status {status}"
        raise Problem(f"{name} isn't built: {why}; the log: {log}")


def build(name: str, identity: str) -> None:
    place = place_of(ROOT)
    program, log, mark, folder = place / name, place / f"{name}.log", place / f"{name}.sources", place / "copy"
    removal = f"rm -r {place}"
    place.mkdir(parents=True, exist_ok=True)
    with lock(place):
        wanted = f"kit: {identity}\n{name}: {sum_of(ROOT, name)}\n"
        if program.is_file() and mark.is_file() and mark.read_text() == wanted:
            print(f"{program} is built of these sources already; remove it with: {removal}")
            return
        lines = needed(ROOT, name)
        weights = {crate: sum(path.read_bytes().count(b"\n") for path in files_of(ROOT, crate)) for crate in crates_of(lines)}
        progress = Progress(name, weights)
        progress.begin(log)
        shutil.rmtree(str(folder), ignore_errors=True)
        try:
            copy(name, lines, folder)
            prove(name, folder, log, progress)
            made = folder / "crates" / name / "out" / name
            if not made.is_file():
                raise Problem(f"{name} isn't built: rt ci left no program; the log: {log}")
            put(program, made.read_bytes(), 0o755)
            put(mark, wanted.encode(), 0o644)
        finally:
            shutil.rmtree(str(folder), ignore_errors=True)
    print(f"{program} is built; ./{name} runs it where release/{name} can't be. Remove it with: {removal}")


def main() -> int:
    parser = argparse.ArgumentParser(prog="build", description=ABOUT)
    parser.add_argument("program", nargs="*", help=f"a program, of {', '.join(PROGRAMS)}; all where none is named")
    words = parser.parse_args()
    unknown = [name for name in words.program if name not in PROGRAMS]
    if unknown:
        raise Problem(f"there is no program {unknown[0]}")
    identity = kit()
    if identity is None:
        raise Problem("the kit isn't here: its command rt isn't on the path, or doesn't run")
    for name in words.program or PROGRAMS:
        build(name, identity)
    return 0
