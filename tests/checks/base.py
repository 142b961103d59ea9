"""What the checks share: what a check is, calls of the program, and how a difference is shown."""

from __future__ import annotations

import difflib
import errno
import os
import subprocess
import sys
import tempfile
import time
from contextlib import contextmanager
from dataclasses import dataclass
from pathlib import Path
from typing import Callable, Dict, Iterator, List, Optional

ROOT = Path(__file__).resolve().parent.parent.parent
EXAMPLES = ROOT / "examples"
sys.path.insert(0, str(ROOT / "tools"))

from building.sources import PROGRAMS, Problem, built_program  # noqa: E402, F401

LINES = 40  # of a difference that are shown
LOG = "{}.{:02}.log2"  # the name of a log, of a program and the number of a component
FIRST_GATE, FRESH = 9_257, 9_258  # where the first gate of a log stands, and how many bytes a log without a record has
SECONDS = 600  # that a call may take

Logs = Dict[str, bytes]


class Skipped(Exception):
    """What a check needs isn't on this machine; the text says what."""


@dataclass
class Check:
    """A check of a group: its name, and what gives None where it holds, or else what is wrong."""

    group: str
    name: str
    body: Callable[[], Optional[str]]
    cost: float = 0.1  # about how many seconds it takes, so that long ones begin first


@dataclass
class Done:
    """How a call ended, and what it wrote."""

    status: int
    out: bytes
    err: bytes


@contextmanager
def new_folder(is_in_memory: bool = False) -> Iterator[Path]:
    """An empty folder, among the temporary files, or in memory where the machine has such a place."""
    memory = "/dev/shm"
    at = memory if is_in_memory and os.access(memory, os.W_OK) else None
    with tempfile.TemporaryDirectory(prefix="icrun-check-", dir=at) as name:
        yield Path(name)


def run(words: List[str], folder: Path, env: Optional[Dict[str, str]] = None, given: bytes = b"") -> Done:
    for wait in (0.01, 0.1, 1.0, None):
        try:
            done = subprocess.run(words, cwd=str(folder), input=given, stdout=subprocess.PIPE, stderr=subprocess.PIPE,
                                  timeout=SECONDS, env=None if env is None else {**os.environ, **env})
            break
        except OSError as error:
            # a file that was just copied may still be open for writing in a process that another thread starts
            if error.errno != errno.ETXTBSY or wait is None:
                raise
            time.sleep(wait)
    return Done(done.returncode, done.stdout, done.stderr)


def logs_in(folder: Path, name: str = "icrun") -> Logs:
    """The logs of the program of this name that aren't blank, by their names."""
    return {path.name: path.read_bytes() for path in sorted(folder.glob(f"{name}.*.log2")) if path.is_file() and path.stat().st_size}


def former_logs_in(folder: Path) -> Logs:
    """The logs of the former format, of icrun."""
    return {path.name: path.read_bytes() for path in sorted(folder.glob("icrun.*.log"))}


def text_difference(what: str, wanted: bytes, got: bytes) -> Optional[str]:
    """What differs in two texts, as `diff -u` shows it, or None."""
    if wanted == got:
        return None
    one, other = (text.decode("utf-8", "backslashreplace").splitlines() for text in (wanted, got))
    lines = list(difflib.unified_diff(one, other, "wanted", "got", lineterm=""))
    if not lines:
        return f"{what}: the lines are the same, but not their ends"
    more = len(lines) - LINES
    return "\n".join([f"{what}:", *lines[:LINES], *([f".. and {more} lines more"] if more > 0 else [])])


def log_difference(name: str, wanted: bytes, got: bytes) -> Optional[str]:
    """Where two logs differ first, or None."""
    if wanted == got:
        return None
    at = next((i for i, (one, other) in enumerate(zip(wanted, got)) if one != other), min(len(wanted), len(got)))
    return (f"{name}: {len(wanted)} bytes are wanted, it has {len(got)}; they differ first at {at}: "
            f"wanted {wanted[at:at + 16].hex() or 'the end'}, got {got[at:at + 16].hex() or 'the end'}")
