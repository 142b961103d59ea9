"""Logs of the former format that wait to be migrated, and migrations that are killed on their way: the old logs keep their bytes, and either all new logs are whole or an audit refuses one; once the
new ones are taken away, another call makes them whole."""

from __future__ import annotations

import hashlib
import random
import subprocess
import time
from pathlib import Path
from typing import Dict, List, Optional

from .base import FIRST_GATE, LOG, Check, Logs, former_logs_in, logs_in, new_folder, run

COUNT, COMPONENTS, INPUTS = 20, 6, 300
SCENARIO = "".join(f"pcom c{com}\n  var sum 0\n  on add n\n    set sum sum + n\n  end\nend\n" for com in range(COMPONENTS))
OK, BAD_LOG, LOGS_THERE = 0, 6, 11


def checks(programs: Dict[str, str]) -> List[Check]:
    return [Check("former logs", "nothing is begun beside them", lambda: begins_nothing(programs)),
            *(Check("killed migrations", str(number), lambda it=number: killed(programs["icrun"], random.Random(f"migrations {it}")))
              for number in range(COUNT))]


def batches() -> bytes:
    """So many inputs, each in a batch of its own."""
    payloads = [b"\x03" + stamp.to_bytes(8, "big") + b"\x00\x01" + stamp.to_bytes(8, "big") for stamp in range(1, INPUTS + 1)]
    return b"".join(b"\x01" + len(payload).to_bytes(4, "big") + payload for payload in payloads) + b"\x00"


def former_logs() -> Logs:
    fingerprint = hashlib.sha256(SCENARIO.encode()).digest()
    return {f"icrun.{com:02}.log": b"ICLOG001" + fingerprint + batches() for com in range(COMPONENTS)}


def new_logs() -> Logs:
    fingerprint = hashlib.sha256(SCENARIO.encode()).digest()
    slots = bytes(FIRST_GATE - 41)
    return {LOG.format("icrun", com): b"ICLOG002" + fingerprint + bytes([com]) + slots + batches() for com in range(COMPONENTS)}


def put(folder: Path) -> None:
    (folder / "s").write_text(SCENARIO)
    for name, log in former_logs().items():
        (folder / name).write_bytes(log)


def migrated(program: str, folder: Path) -> Optional[str]:
    """What is wrong with a migration that isn't killed."""
    done = run([program, "migrate", "s"], folder)
    size = len(new_logs()[LOG.format("icrun", 0)])
    wanted = "".join(f"migrated c{com} {size}\n" for com in range(COMPONENTS)).encode()
    if (done.status, done.out, done.err) != (OK, wanted, b""):
        return f"status {done.status}, output {done.out!r}, error {done.err!r}"
    return None if logs_in(folder) == new_logs() else "the new logs aren't those of the old ones"


def begins_nothing(programs: Dict[str, str]) -> Optional[str]:
    """What is wrong with calls in a folder whose logs wait to be migrated: they end with 11 and make no log; behind the migration they do as
    ever."""
    with new_folder() as folder:
        put(folder)
        (folder / "c").write_text("input c0 add 1\n")
        for name, words in (("icrun", ["run", "s", "c"]), ("icrun", ["make", "1"]), ("icserve", ["s"])):
            done = run([programs[name], *words], folder)
            line = f"{name}: logs of the former format are here: icrun migrate makes new ones\n".encode()
            if (done.status, done.out, done.err) != (LOGS_THERE, line, b"") or logs_in(folder) or former_logs_in(folder) != former_logs():
                return f"{name} {' '.join(words)}: status {done.status}, output {done.out!r}, error {done.err!r}, or a log is made or changed"
        why = migrated(programs["icrun"], folder)
        if why:
            return why
        done = run([programs["icrun"], "run", "s", "c"], folder)
        if (done.status, done.out) != (LOGS_THERE, b"icrun: log of c0 is not blank\n"):
            return f"behind the migration, run: status {done.status}, output {done.out!r}"
        done = run([programs["icserve"], "s"], folder)
        return None if done.status == OK else f"behind the migration, icserve: status {done.status}, output {done.out!r}"


def seconds(program: str) -> float:
    """How long a migration takes here."""
    with new_folder() as folder:
        put(folder)
        began = time.monotonic()
        run([program, "migrate", "s"], folder)
        return time.monotonic() - began


def killed(program: str, rng: random.Random) -> Optional[str]:
    whole = seconds(program)
    with new_folder() as folder:
        put(folder)
        with subprocess.Popen([program, "migrate", "s"], cwd=str(folder), stdin=subprocess.DEVNULL, stdout=subprocess.DEVNULL) as process:
            time.sleep(rng.random() * whole)
            process.kill()
        audit = run([program, "audit", "s"], folder)
        if former_logs_in(folder) != former_logs():
            return "an old log has other bytes"
        if logs_in(folder) == new_logs():
            return None if audit.status == OK else f"all new logs are whole, and the audit ends with {audit.status}: {audit.out!r}"
        if audit.status != BAD_LOG:
            return f"a new log isn't whole, and the audit ends with {audit.status}: {audit.out!r}"
        for log in folder.glob("icrun.*.log2"):
            log.unlink()
        return migrated(program, folder)
