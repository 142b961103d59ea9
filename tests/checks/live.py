"""Runs in threads, of iclive: what they print and leave whatever order the threads take, and what stands where one is killed.

An audit of icrun reads the logs of iclive, under its own names, and so does a resume."""

from __future__ import annotations

import random
import re
import subprocess
import time
from pathlib import Path
from typing import Dict, Iterator, List, Optional

from .base import FRESH, LOG, Check, Done, logs_in, new_folder, run, text_difference

COUNT = 24
INPUTS = 2_000
BATCH = 24  # bytes of a log that an input takes at least
TRIES = 10  # for a run that ends before it is killed
SECONDS = 60  # in which a log must have begun
POLICY = 'report = "summary"\nturns = 1000000\n'
SCENARIO = """pcom shop
  var orders 0
  var pieces 0
  on order n
    set orders orders + 1
    set pieces pieces + n
    send store take n
  end
end
pcom store
  var stock 0
  on take n
    set stock stock + n
  end
end
"""


def checks(programs: Dict[str, str]) -> List[Check]:
    if not {"icrun", "iclive"} <= set(programs):
        return []
    return [Check("runs in threads", f"killed, {seed}", lambda it=seed: killed(programs, random.Random(it)), 0.5) for seed in range(1, COUNT + 1)]


# -- what is printed


def is_summary_like(wanted: str, got: str) -> bool:
    """Whether a text is wanted, in which `*` stands for any number."""
    return re.fullmatch(re.escape(wanted).replace(re.escape("*"), "[0-9]+"), got) is not None


def summary_difference(wanted: bytes, got: bytes) -> Optional[str]:
    """What differs from a summary that is wanted, or in the lines of outputs before it. `*` stands for a number that hangs on the order
    of the threads."""
    lines = got.decode(errors="replace").splitlines(keepends=True)
    at = next((i for i, line in enumerate(lines) if line.startswith("inputs ")), 0)
    summary = "".join(lines[at:])
    if not is_summary_like(wanted.decode(), summary):
        return text_difference("it prints another summary", wanted, summary.encode())
    told = [line.split()[0] for line in lines[:at]]
    _, _, first, _, again = lines[at + 1].split()
    if told and (told.count("out"), told.count("again"), len(told)) != (int(first), int(again), int(first) + int(again)):
        return f"the lines of its outputs aren't those that it counts:\n{got.decode(errors='replace')}"
    return None


# -- what its logs hold


def as_logs_of_icrun(place: Path) -> None:
    """The logs of iclive under the names of those of icrun."""
    for log in place.glob("iclive.*.log2"):
        log.rename(log.with_name(log.name.replace("iclive", "icrun", 1)))


def values_of(report: str) -> bytes:
    """What a summary and an audit have in common, in one order: the values, the outputs and the history."""
    return "".join(sorted(f"{line}\n" for line in common_lines(report))).encode()


def common_lines(report: str) -> Iterator[str]:
    for line in report.splitlines():
        word, *words = line.split()
        if word in ("pcom", "tcom"):
            yield " ".join([word, words[0], *(value for value in words[1:] if value != "up")])
        elif word == "outputs":
            yield f"outputs {words[1] if words[0] == 'first' else words[0]}"
        elif word == "history":
            yield line


def audit_difference(programs: Dict[str, str], place: Path, scenario: Path, done: Done) -> Optional[str]:
    """An audit of the logs that a run left prints the values of its summary, where it had one."""
    with new_folder() as other:
        for name, log in logs_in(place, "iclive").items():
            (other / name).write_bytes(log)
        as_logs_of_icrun(other)
        audit = run([programs["icrun"], "audit", str(scenario)], other)
    report = audit.out.decode()
    if audit.status != 0 or not report.endswith("legal\n"):
        return f"the audit of its logs ends with {audit.status}: {report}"
    if done.status != 0:
        return None
    return text_difference("the audit of its logs has other values", values_of(done.out.decode()), values_of(report))


# -- killed runs


def killed(programs: Dict[str, str], rng: random.Random) -> Optional[str]:
    """A run is killed once its log has so many bytes: an audit of what stands is legal, and has the first inputs of the plan, each once;
    a resume of icrun gets them through."""
    with new_folder() as folder:
        (folder / "s").write_text(SCENARIO)
        (folder / "c").write_text("".join(f"input shop order {number}\n" for number in range(1, INPUTS + 1)))
        (folder / "p").write_text(f"{POLICY}workers = {rng.randint(1, 8)}\nlane = {rng.choice([1, 2, 64])}\n")
        (folder / "none").write_text("")
        least = rng.randint(0, INPUTS * BATCH)
        for _ in range(TRIES):
            for log in folder.glob("*.log2"):
                log.unlink()
            if kill_at([programs["iclive"], "s", "c", "p"], folder, least, rng.random() / 1000):
                return what_is_wrong(programs["icrun"], folder)
            least //= 2
    return f"it ended before it was killed, {TRIES} times"


def kill_at(words: List[str], folder: Path, least: int, wait: float) -> bool:
    """Kills a run once all logs have begun and the first has so many bytes, and this time has passed. Whether it was on its way."""
    ends = time.monotonic() + SECONDS
    logs = [folder / LOG.format("iclive", number) for number in range(2)]
    with subprocess.Popen(words, cwd=str(folder), stdin=subprocess.DEVNULL, stdout=subprocess.DEVNULL) as process:
        while process.poll() is None and time.monotonic() < ends:
            sizes = [log.stat().st_size if log.exists() else 0 for log in logs]
            if sizes[1] > FRESH and sizes[0] > FRESH + max(least, BATCH):
                break
            time.sleep(0.0005)
        time.sleep(wait)
        process.kill()
    return process.returncode < 0


def value(report: str, name: str) -> int:
    return int(next(word for word in report.split() if word.startswith(f"{name}=")).split("=")[1])


def what_is_wrong(icrun: str, folder: Path) -> Optional[str]:
    as_logs_of_icrun(folder)
    first = run([icrun, "audit", "s"], folder)
    before = first.out.decode()
    if first.status != 0 or not before.endswith("legal\n"):
        return f"the audit ends with {first.status}: {before}"
    orders, pieces = value(before, "orders"), value(before, "pieces")
    if not 0 < orders <= INPUTS or pieces != orders * (orders + 1) // 2 or value(before, "stock") > pieces:
        return f"the audit prints\n{before}"
    resume = run([icrun, "resume", "s", "none"], folder)
    second = run([icrun, "audit", "s"], folder)
    behind = second.out.decode()
    if (resume.status, second.status) != (0, 0) or not behind.endswith("legal\n"):
        return f"the resume ends with {resume.status}, the audit behind it with {second.status}: {behind}"
    found = [value(behind, name) for name in ("orders", "pieces", "stock")]
    return None if found == [orders, pieces, pieces] else f"the audits print\n{before}and behind a resume\n{behind}"
