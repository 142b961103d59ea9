"""The worked runs in tests/runs, the examples, and the logs of the tools' tests: each call of the program is compared with what stands
there, in its status, its output and the logs that it leaves."""

from __future__ import annotations

import hashlib
import shutil
from dataclasses import dataclass
from pathlib import Path
from typing import Dict, Iterator, List, Optional, Set

from . import live
from .base import EXAMPLES, ROOT, Check, Done, Logs, former_logs_in, log_difference, logs_in, new_folder, run, text_difference

RUNS, DATA = ROOT / "tests" / "runs", ROOT / "tools" / "tests" / "data"
OK, LIMIT = 0, 7


@dataclass
class Printed:
    """What a call must print: all of it, or the summary of a run in threads alone, with `*` for numbers that hang on their order."""

    text: bytes
    is_summary: bool = False


def checks(programs: Dict[str, str]) -> List[Check]:
    """Those of the programs that are named."""
    found = [Check("worked runs", folder.name, lambda it=folder: worked(programs, it), 30 if any(folder.glob("*/sums")) else 0.1)
             for folder in folders(RUNS) if programs_of(folder) <= set(programs)]
    found += [Check("examples", folder.name, lambda it=folder: example(programs, it)) for folder in folders(EXAMPLES) if (folder / "report").exists() and example_of(folder) in programs]
    if {"icrun", "iclive"} <= set(programs):
        found += [Check("examples", f"{folder.name}, in threads", lambda it=folder: in_threads(programs, it)) for folder in folders(EXAMPLES) if (folder / "live").exists()]
    if "icrun" in programs:
        found += [Check("examples", f"tools/tests/data/{folder.name}", lambda it=folder: of_the_tools(programs["icrun"], it)) for folder in folders(DATA)]
    return found


def name_of(case: Path) -> str:
    """The name of a worked run's program."""
    said = case / "program"
    return said.read_text().strip() if said.exists() else "icrun"


def programs_of(case: Path) -> Set[str]:
    """The names of all programs of a worked run: one that isn't its own stands in front of a call's words, with a colon."""
    words = [word for line in (case / "calls").read_text().splitlines() for word in line.split()[1:2]]
    return {name_of(case), *(word[:-1] for word in words if word.endswith(":"))}


def example_of(folder: Path) -> str:
    """The name of an example's program."""
    return "icrun" if call_of(folder)[0] == "run" else "icmore"


def call_of(folder: Path) -> List[str]:
    """The words of an example: moves over books are a script; numbered clients, and what a standby does, are schedules of their own."""
    if (folder / "script").exists():
        return ["two", "script"]
    if (folder / "clients").exists():
        return ["clients", "scenario", "clients"]
    if (folder / "failover").exists():
        return ["standby", "store", "scenario", "failover"]
    return ["run", *(name for name in ("scenario", "schedule", "policy") if (folder / name).exists())]


def folders(of: Path) -> Iterator[Path]:
    return (folder for folder in sorted(of.iterdir()) if folder.is_dir())


def logs_of(name: str) -> str:
    """How the files of its logs begin: icserve goes on over those of icrun."""
    return "icrun" if name == "icserve" else name


def worked(programs: Dict[str, str], case: Path) -> Optional[str]:
    """What differs in the calls of a worked run. It syncs its logs often, which takes long on a disk."""
    name = name_of(case)
    with new_folder(is_in_memory=True) as place:
        former = former_logs_in(case)
        for text in case.iterdir():
            if text.is_file() and text.name not in ("calls", "program") and not text.name.endswith((".printed", ".summary")):
                shutil.copy(str(text), str(place))
        for number, line in enumerate((case / "calls").read_text().splitlines(), 1):
            call, _, lines = line.partition(" < ")
            status, *words = call.split()
            program = words.pop(0)[:-1] if words[:1] and words[0].endswith(":") else name
            found = case / f"{number}.found"
            if found.is_dir():
                put_logs(place, found, logs_of(name))
            before = logs_in(place, logs_of(name))
            done = run([programs[program], *words], place, given=(case / lines).read_bytes() if lines else b"")
            why = call_difference(words, int(status), printed_by(case, number), done)
            if not why:
                logs, left = case / f"{number}.logs", logs_in(place, logs_of(name))
                if logs.is_dir():
                    why = logs_difference(logs, left)
                elif name == "iclive" and int(status) in (OK, LIMIT):
                    why = live.audit_difference(programs, place, case / "scenario", done) if "icrun" in programs else None
                else:
                    why = kept_difference(before, left)
                why = why or kept_difference(former, former_logs_in(place))
            if why:
                return f"call {number}, {' '.join(words)}: {why}"
    return None


def printed_by(case: Path, number: int) -> Printed:
    """What a call must print: all of it, or a summary."""
    summary = case / f"{number}.summary"
    return Printed(summary.read_bytes(), True) if summary.exists() else Printed((case / f"{number}.printed").read_bytes())


def call_difference(words: List[str], status: int, wanted: Printed, done: Done) -> Optional[str]:
    if done.err:
        return text_difference("it writes to standard error", b"", done.err)
    why = live.summary_difference(wanted.text, done.out) if wanted.is_summary else text_difference("it prints other lines", wanted.text, done.out)
    return why or (f"status {status} is wanted, it ends with {done.status}" if done.status != status else None)


def put_logs(place: Path, found: Path, name: str) -> None:
    """These logs in place of those that are there."""
    for log in place.glob(f"{name}.*.log2"):
        log.unlink()
    for log in found.iterdir():
        shutil.copy(str(log), str(place))


def kept_difference(before: Logs, after: Logs) -> Optional[str]:
    for name in sorted(before.keys() | after.keys()):
        why = log_difference(name, before.get(name, b""), after.get(name, b""))
        if why:
            return f"it must leave the logs as they are; {why}"
    return None


def logs_difference(folder: Path, left: Logs) -> Optional[str]:
    """The logs left, each against its bytes or its sum."""
    sums = dict(reversed(line.split()) for line in (folder / "sums").read_text().splitlines()) if (folder / "sums").exists() else {}
    wanted = {log.name: log.read_bytes() for log in folder.glob("*.log2")}
    for name in sorted(wanted.keys() | sums.keys() | left.keys()):
        log = left.get(name, b"")
        if name in sums:
            if hashlib.sha256(log).hexdigest() != sums[name]:
                return f"{name}: its {len(log)} bytes haven't the SHA-256 that is wanted"
        else:
            why = log_difference(name, wanted.get(name, b""), log)
            if why:
                return why
    return None


def example(programs: Dict[str, str], folder: Path) -> Optional[str]:
    """A run of an example prints its report."""
    verb, *texts = call_of(folder)  # (the others are texts, or names of components)
    with new_folder() as place:
        words = [verb, *(str(folder / text) if (folder / text).exists() else text for text in texts)]
        done = run([programs[example_of(folder)], *words], place)
        return call_difference(words, 0, Printed((folder / "report").read_bytes()), done)


def in_threads(programs: Dict[str, str], folder: Path) -> Optional[str]:
    """An example whose values hang on no order of threads, its schedule as the plan: its values stand in its logs, too."""
    texts, wanted = call_of(folder)[1:], (folder / "live").read_bytes()
    with new_folder() as place:
        done = run([programs["iclive"], *(str(folder / text) for text in texts)], place)
        why = call_difference(texts, 0, Printed(wanted, wanted.startswith(b"inputs ")), done)
        return why or live.audit_difference(programs, place, folder / "scenario", done)


def of_the_tools(program: str, folder: Path) -> Optional[str]:
    """The report and the logs by which the tools are tested."""
    with new_folder() as place:
        later = folder / "later"
        calls = [("run", "schedule", "report")] + ([("resume", "later", "later-report")] if later.exists() else [])
        for verb, schedule, report in calls:
            words = [verb, str(folder / "scenario"), str(folder / schedule)]
            why = call_difference(words, 0, Printed((folder / report).read_bytes()), run([program, *words], place))
            if why:
                return why
        return logs_difference(folder, logs_in(place))
