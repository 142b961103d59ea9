"""Runs that are killed at random moments: each printed some `taken` lines; the audit of the logs that it left counts at least as many
inputs, in their order, and is legal, and so is the audit behind a resume. And folders in which one run after another is killed: the
audit counts what all of them told as taken."""

from __future__ import annotations

import random
import subprocess
import time
from pathlib import Path
from typing import List, Optional, Tuple

from .base import Check, new_folder, run

COUNT, FOLDERS, LIVES = 40, 6, 6
INPUTS = 400
TRIES = 10  # for a run that ends before it is killed

SCENARIO = """pcom shop
  var orders 0
  var pieces 0
  on order n
    set orders orders + 1
    set pieces pieces + n
    send store take n
  end
end
pcom store
  var stock 0
  on take n
    set stock stock + n
  end
end
"""
EVENTS = ["deliver shop store", "lose shop store", "force store", "crash store", "recover store"]


def checks(program: str) -> List[Check]:
    return [Check("killed runs", str(seed), lambda it=seed: killed(program, random.Random(it)), 0.5) for seed in range(1, COUNT + 1)] + [
        Check("killed runs", f"{LIVES} in one folder, {seed}", lambda it=seed: lives(program, random.Random(it)), 1) for seed in range(1, FOLDERS + 1)]


def schedule(rng: random.Random) -> str:
    lines = []
    for number in range(1, INPUTS + 1):
        lines.append(f"input shop order {number}")
        if rng.random() < 0.3:
            lines.append(rng.choice(EVENTS))
    return "".join(f"{line}\n" for line in lines)


def killed(program: str, rng: random.Random) -> Optional[str]:
    with new_folder() as folder:
        (folder / "s").write_text(SCENARIO)
        (folder / "c").write_text(schedule(rng))
        (folder / "none").write_text("")
        moment = rng.randint(0, INPUTS)
        for _ in range(TRIES):
            for log in folder.glob("icrun.*.log2"):
                log.unlink()
            is_killed, printed = kill_behind([program, "run", "s", "c"], folder, moment, rng.random() / 1000)
            if is_killed:
                return what_is_wrong(program, folder, printed)
            moment //= 2
    return f"it ended before it was killed, {TRIES} times"


def lives(program: str, rng: random.Random) -> Optional[str]:
    """Each life but the first takes up what the one before left, and each is killed behind some lines."""
    with new_folder() as folder:
        orders = "input shop order 1\n" * INPUTS
        (folder / "s").write_text(SCENARIO)
        (folder / "c").write_text(orders)
        (folder / "again").write_text(f"recover shop\nrecover store\n{orders}")
        (folder / "none").write_text("")
        taken = 0
        for life in range(LIVES):
            words = [program, "resume", "s", "again"] if life else [program, "run", "s", "c"]
            taken += taken_in(kill_behind(words, folder, rng.randint(5, INPUTS), rng.random() / 1000)[1])
        resume = run([program, "resume", "s", "none"], folder)
        audit = run([program, "audit", "s"], folder)
        report = audit.out.decode()
        if (resume.status, audit.status) != (0, 0) or not report.endswith("legal\n"):
            return f"the resume ends with {resume.status}, the audit with {audit.status}: {report}"
        found = [value(report, name) for name in ("orders", "pieces", "stock")]
        return None if found == found[:1] * 3 and taken <= found[0] <= taken + LIVES else f"{taken} inputs were taken, and the audit prints\n{report}"


def taken_in(printed: str) -> int:
    return sum(line.endswith(": taken") and " input " in line for line in printed.split("\n"))


def kill_behind(words: List[str], folder: Path, lines: int, wait: float) -> Tuple[bool, str]:
    """Kills a run behind so many lines and this time: whether it was on its way, and the whole lines that it printed."""
    with subprocess.Popen(words, cwd=str(folder), stdout=subprocess.PIPE, universal_newlines=True) as process:
        assert process.stdout is not None
        printed = "".join(process.stdout.readline() for _ in range(lines))
        time.sleep(wait)
        process.kill()
        printed += process.stdout.read()
    return process.returncode < 0, printed[: printed.rfind("\n") + 1]


def value(report: str, name: str) -> int:
    return int(next(word for word in report.split() if word.startswith(f"{name}=")).split("=")[1])


def what_is_wrong(program: str, folder: Path, printed: str) -> Optional[str]:
    """The taken inputs are there, in order, and a resume gets the rest of them through."""
    taken = taken_in(printed)
    audit = [program, "audit", "s"]
    first = run(audit, folder)
    if first.status != 0:
        # (no log is whole, or not even begun, before the first input is taken)
        return None if taken == 0 else f"{taken} inputs were taken, and the audit ends with {first.status}: {first.out!r}"
    before = first.out.decode()
    orders = value(before, "orders")
    if not before.endswith("legal\n") or not taken <= orders <= taken + 1 or value(before, "pieces") != orders * (orders + 1) // 2:
        return f"{taken} inputs were taken, and the audit prints\n{before}"
    resume = run([program, "resume", "s", "none"], folder)
    if resume.status != 0:
        return f"the resume ends with {resume.status}: {resume.out!r}"
    second = run(audit, folder)
    behind = second.out.decode()
    if second.status != 0 or not behind.endswith("legal\n"):
        return f"the audit behind the resume ends with {second.status}: {behind}"
    stock = value(behind, "stock")
    if value(behind, "orders") != orders or stock != value(behind, "pieces") or f"stock={stock}" not in resume.out.decode():
        return f"the resume prints\n{resume.out.decode()}and the audit behind it\n{behind}"
    return None
