"""Streams that are closed or full, logs that another program holds, and files that can't be used; of icrun and of iclive."""

from __future__ import annotations

import fcntl
import hashlib
import os
from dataclasses import dataclass
from pathlib import Path
from typing import Callable, Dict, List, Optional, Tuple

from .base import FIRST_GATE, LOG, ROOT, Check, Done, new_folder, run

TALLY = ROOT / "examples" / "tally"
LONGEST = 1_048_576  # bytes of a text
OK, USAGE, SCENARIO, PLAN, READ, NO_OUTPUT, DISK_FAULT = 0, 2, 3, 4, 8, 9, 10
FORMS = {"icrun": "usage: run SCENARIO SCHEDULE [POLICY], resume SCENARIO SCHEDULE [POLICY], audit SCENARIO, make NUMBER, migrate SCENARIO",
         "iclive": "usage: SCENARIO PLAN [POLICY]"}
VERBS = {"icrun": ["run"], "iclive": []}  # what stands before the names of texts

# What the shell changes before the program begins, and the status that is wanted.
STREAMS = {
    "": OK,
    "<&-": OK,
    "2>&-": OK,
    ">&-": NO_OUTPUT,
    "<&- >&-": NO_OUTPUT,
    "<&- >&- 2>&-": NO_OUTPUT,
    ">/dev/full": NO_OUTPUT,
}
# Texts by their length: which one is long, by how much it is too long, and the status and the line that are wanted.
LONG: List[Tuple[str, int, int, str]] = [
    ("scenario", 0, OK, "settled"), ("scenario", 1, SCENARIO, "bad scenario at line 0: limit"),
    ("schedule", 0, OK, "settled"), ("schedule", 1, PLAN, "bad schedule at line 0: limit"),
    ("policy", 0, OK, "settled"), ("policy", 1, PLAN, "bad policy: out of range"),
]


@dataclass
class Tool:
    """A program that runs a scenario: its name, and the file."""

    name: str
    program: str

    def words(self, scenario: Path, *texts: str) -> List[str]:
        return [self.program, *VERBS[self.name], str(scenario), *texts]

    def log(self, folder: Path) -> Path:
        """That of the first component."""
        return folder / LOG.format(self.name, 0)

    def line(self, text: str) -> str:
        """A last line; other lines stand for themselves."""
        return text if text == "settled" else f"{self.name}: {text}"


def checks(programs: Dict[str, str]) -> List[Check]:
    return [check for name in VERBS if name in programs for check in of_a_tool(Tool(name, programs[name]))]


def of_a_tool(tool: Tool) -> List[Check]:
    def check(name: str, body: Callable[[], Optional[str]], cost: float = 0.1) -> Check:
        return Check("streams and files", f"{tool.name}, {name}", body, cost)

    found = [check(f"streams {streams or 'as they are'}", lambda it=streams: with_streams(tool, it)) for streams in STREAMS]
    found += [check(f"{text} of {LONGEST + more:,} bytes", lambda it=(text, more, status, line): with_a_long_text(tool, *it), 1)
              for text, more, status, line in LONG]
    if tool.name == "icrun":
        found += [check("migrate, a former log that is locked", lambda: with_a_former_log(tool, True)),
                  check("migrate, a former log", lambda: with_a_former_log(tool, False))]
    return found + [check("a log that is locked", lambda: with_a_lock(tool)),
                    check("a log that is a folder", lambda: with_a_folder(tool)),
                    check("a log that is a link", lambda: with_a_link(tool)),
                    check("a text that is a folder", lambda: with_a_text_that_is_none(tool)),
                    check("a word that is no text", lambda: with_a_word_that_is_no_text(tool))]


def tally(tool: Tool, folder: Path, streams: str = "") -> Done:
    script = f'exec "$0" {" ".join(VERBS[tool.name])} "$1/scenario" "$1/schedule" {streams}'
    return run(["sh", "-c", script, tool.program, str(TALLY)], folder)


def is_whole(log: bytes) -> bool:
    """Whether the log ends with the closed gate behind its last batch."""
    gate = FIRST_GATE
    while log[gate: gate + 1] == b"\x01":
        gate += 5 + int.from_bytes(log[gate + 1: gate + 5], "big")
    return log[gate:] == b"\x00"


def ended(done: Done, status: int, last: str) -> Optional[str]:
    if done.status == status and done.out.decode().endswith(f"{last}\n") and not done.err:
        return None
    return f"status {status} and the last line {last!r} are wanted; status {done.status}, output {done.out[-500:]!r}, error {done.err[-500:]!r}"


def with_streams(tool: Tool, streams: str) -> Optional[str]:
    """No stream that was closed before is a log's, and no log is cut."""
    with new_folder() as folder:
        done = tally(tool, folder, streams)
        if done.status != STREAMS[streams]:
            return f"status {STREAMS[streams]} is wanted, it ends with {done.status}"
        log = tool.log(folder).read_bytes()
        return None if is_whole(log) else f"the log isn't whole: {log.hex()}"


def with_a_long_text(tool: Tool, text: str, more: int, status: int, line: str) -> Optional[str]:
    with new_folder() as folder:
        for name in ("scenario", "schedule", "policy"):
            (folder / name).write_bytes(b"#" * (LONGEST + more) if name == text else b"")
        return ended(run(tool.words(Path("scenario"), "schedule", "policy"), folder), status, tool.line(line))


def with_a_word_that_is_no_text(tool: Tool) -> Optional[str]:
    """The usage, and no log."""
    with new_folder() as folder:
        done = run([tool.program, *VERBS[tool.name], os.fsdecode(b"\xff"), str(TALLY / "schedule")], folder)
        return ended(done, USAGE, tool.line(FORMS[tool.name])) or ("there are files" if list(folder.iterdir()) else None)


def with_a_lock(tool: Tool) -> Optional[str]:
    """A log that another program holds locked is a fault, and stays as it is."""
    with new_folder() as folder:
        path = tool.log(folder)
        path.touch()
        with path.open("rb") as log:
            fcntl.flock(log, fcntl.LOCK_EX)
            done = tally(tool, folder)
        return ended(done, DISK_FAULT, tool.line("disk fault of tally")) or (None if path.stat().st_size == 0 else "the log is changed")


def former_tally() -> bytes:
    """A log of the former format, of the tally, with an input of 5."""
    payload = b"\x03" + (1).to_bytes(8, "big") + b"\x00\x01" + (5).to_bytes(8, "big")
    fingerprint = hashlib.sha256((TALLY / "scenario").read_bytes()).digest()
    return b"ICLOG001" + fingerprint + b"\x01" + len(payload).to_bytes(4, "big") + payload + b"\x00"


def with_a_former_log(tool: Tool, is_locked: bool) -> Optional[str]:
    """It keeps its bytes; where another program holds it, no new log is made."""
    with new_folder() as folder:
        former = folder / "icrun.00.log"
        former.write_bytes(former_tally())
        with former.open("rb") as held:
            if is_locked:
                fcntl.flock(held, fcntl.LOCK_EX)
            done = run([tool.program, "migrate", str(TALLY / "scenario")], folder)
        new = tool.log(folder).read_bytes() if tool.log(folder).exists() else b""
        if former.read_bytes() != former_tally():
            return "the former log is changed"
        if is_locked:
            return ended(done, DISK_FAULT, tool.line("disk fault of tally")) or ("a new log is made" if new else None)
        return ended(done, OK, "migrated tally 9282") or (None if new[FIRST_GATE:] == former_tally()[40:] else "the new log has other batches")


def with_a_folder(tool: Tool) -> Optional[str]:
    with new_folder() as folder:
        tool.log(folder).mkdir()
        return ended(tally(tool, folder), DISK_FAULT, tool.line("disk fault of tally"))


def with_a_link(tool: Tool) -> Optional[str]:
    with new_folder() as folder:
        tool.log(folder).symlink_to("elsewhere")
        return ended(tally(tool, folder), DISK_FAULT, tool.line("disk fault of tally")) or ("a log is made" if (folder / "elsewhere").exists() else None)


def with_a_text_that_is_none(tool: Tool) -> Optional[str]:
    with new_folder() as folder:
        (folder / "schedule").mkdir()
        done = run(tool.words(TALLY / "scenario", "schedule"), folder)
        return ended(done, READ, tool.line("read fault")) or ("a log is made" if tool.log(folder).exists() else None)
