#!/usr/bin/env python3
"""Runs a built icrun over files of the host, and looks at the calls that it makes of it; and a built iclive.

The words are the program icrun, and iclive where it is there. A library that is preloaded (preload.c, built by `cc`) records each call on a log, a text, the folder and
the output, and lets one of them fail.

- The order of calls is that of docs/FORMATS.md: what a batch, a gate and a load ask for, and all synced before a line is printed.
  A record without one of its syncs or locks is refused, so the comparison sees each.
- Each call in turn fails, by an error or by doing half, in a run, a resume and an audit of three scenarios. Behind it a resume and
  an audit find each input that was told as taken, in order and once.
- Links, second names, modes, locks, a limit of file sizes and an output that takes nothing.
- Of a run in threads, too, each call in turn fails, and each request for memory is refused. One by its number is another one in each such
  run, as the threads go.
"""

from __future__ import annotations

import errno
import fcntl
import os
import re
import resource
import shutil
import signal
import subprocess
import sys
import tempfile
from concurrent.futures import ThreadPoolExecutor
from contextlib import contextmanager
from dataclasses import dataclass
from pathlib import Path
from typing import Callable, Dict, Iterator, List, Optional, Set, Tuple

HERE = Path(__file__).resolve().parent
SCENES = {  # what balances in the end, by the values that an audit prints
    "inputs": lambda v: True,
    "orders": lambda v: v["store.stock"] == v["shop.sum"],
    "payments": lambda v: v["bank.paid"] + v["till.declined"] == v["till.sum"] and v["bank.cash"] + v["bank.paid"] == 100,
}
FIRST = 3  # inputs of a scene's first schedule
RUN, RESUME, NOTHING_NEW, AUDIT = (["run", "scenario", "first"], ["resume", "scenario", "later"], ["resume", "scenario", "none"],
                                   ["audit", "scenario"])
FIRST_SLOT, HEADER = 41, 9257  # bytes of a log before its directory, and before its first gate
OK, BAD_LOG, READ, OUTPUT, DISK, MEMORY = 0, 6, 8, 9, 10, 12
TAKEN = re.compile(rb"^\d+ input [^\n]*: taken\n", re.MULTILINE)
HALF = ""  # the failing call does half
FAILURES = {"EIO": str(errno.EIO), "ENOSPC": str(errno.ENOSPC), "EINTR": str(errno.EINTR), "half": HALF}

Problem = Optional[str]
Logs = Dict[str, bytes]


@dataclass(frozen=True)
class Done:
    """How a call of the program ended, what it printed, and the calls that it made of the host."""

    status: int
    out: bytes
    calls: List[List[str]]


@dataclass(frozen=True)
class Host:
    """The program, and the library that is preloaded."""

    program: str
    library: str

    def call(self, folder: Path, words: List[str], failing: int = 0, how: str = HALF, refused: int = 0) -> Done:
        with tempfile.NamedTemporaryFile(dir=folder.parent) as record:
            env = {**os.environ, "LD_PRELOAD": self.library, "HOST_RECORD": record.name, "HOST_FAILING": str(failing), "HOST_REFUSED": str(refused)}
            if how:
                env["HOST_HOW"] = how
            done = subprocess.run([self.program, *words], cwd=folder, env=env, capture_output=True, timeout=60, check=False)
            return Done(done.returncode, done.stdout, [line.split() for line in Path(record.name).read_text().splitlines()])

    def plain(self, folder: Path, words: List[str]) -> Done:
        """A call of the program without the library."""
        done = subprocess.run([self.program, *words], cwd=folder, capture_output=True, timeout=60, check=False)
        return Done(done.returncode, done.stdout, [])


def in_memory() -> Optional[str]:
    """A folder in memory, where there is one: a sync of a file there takes no time."""
    return "/dev/shm" if os.access("/dev/shm", os.W_OK) else None


@contextmanager
def scene(name: str, where: Optional[str] = None) -> Iterator[Path]:
    """A folder with the texts of a scene."""
    with tempfile.TemporaryDirectory(prefix="icrun-host-", dir=where or in_memory()) as top:
        folder = Path(top) / "logs"
        shutil.copytree(HERE / "scenes" / name, folder)
        (folder / "none").touch()
        yield folder


def logs_in(folder: Path) -> Logs:
    return {path.name: path.read_bytes() for path in folder.glob("*.log2")}


def is_log(name: str) -> bool:
    return name.endswith(".log2")


# -- the order of calls


def last_open_gate(log: bytes) -> int:
    """The offset of the last open gate of a log, or of its first gate where none is open."""
    last = at = HEADER
    while log[at:at + 1] == b"\x01" and at + 5 <= len(log):
        last, at = at, at + 5 + int.from_bytes(log[at + 1:at + 5], "big")
    return last


class Order:
    """What stands of the calls so far: it refuses one that comes too early."""

    def __init__(self, found: Logs, audits: bool) -> None:
        self.found, self.audits = found, audits
        self.opened: Dict[str, str] = {}  # how each log was opened and isn't locked yet
        self.written: Dict[str, List[Tuple[int, bytes]]] = {}  # the writes of each log that aren't synced
        self.doubtful = set(found)  # found logs that aren't written back and synced yet
        self.batches: Dict[str, int] = {}  # the closed gate before the batch that was synced last
        self.unsynced_names: Set[str] = set()  # logs whose names aren't synced yet
        self.folder_syncs = 0

    def needs(self, call: str, name: str) -> bool:
        """Whether a call can't be left out: a lock, or a sync of what isn't synced yet."""
        return call == "lock" or (call == "sync" and (name == "." or name in self.doubtful or bool(self.written.get(name))))

    def take(self, call: str, name: str, words: List[str]) -> Problem:
        if call == "put":
            return self.may_print()
        if call == "look" and self.written.get(name):
            return f"the length of {name} is asked before its sync"
        if not is_log(name) and call != "sync":
            return None
        if is_log(name) and name in self.opened and call in ("read", "write", "sync"):
            return f"{call} of {name} before its lock"
        if self.audits and (call in ("write", "sync") or (call == "open" and words[0] != "read")):
            return f"an audit makes {call} of {name}"
        step: Dict[str, Callable[[str, List[str]], Problem]] = {"open": self.open, "lock": self.lock, "read": self.read,
                                                               "write": self.write, "sync": self.sync}
        return step[call](name, words) if call in step else None

    def open(self, name: str, words: List[str]) -> Problem:
        self.opened[name] = words[0]
        if words[0] == "new":
            if words[1] != "600":
                return f"{name} is made with mode {words[1]}"
            self.unsynced_names.add(name)
        elif not self.audits and not self.folder_syncs:
            self.unsynced_names.add(name)
        return None

    def lock(self, name: str, words: List[str]) -> Problem:
        del self.opened[name]
        return None if words[0] == ("shared" if self.audits else "alone") else f"{name} is locked {words[0]}"

    def read(self, name: str, words: List[str]) -> Problem:
        is_early = name not in self.doubtful and self.written.get(name)
        return f"{name} is read before its sync" if is_early else None

    def write(self, name: str, words: List[str]) -> Problem:
        at, bytes_ = int(words[0]), bytes.fromhex(words[1])
        before = self.written.setdefault(name, [])
        if name in self.doubtful:
            was = self.found[name]
            if was[at:at + len(bytes_)] != bytes_:
                return f"{name} is changed at {at} before its first sync"
        elif bytes_ == b"\x01":
            if before or self.batches.get(name) != at:
                return f"the gate at {at} of {name} is opened before its batch is synced"
        elif before:
            return f"{name} is written twice before a sync"
        before.append((at, bytes_))
        return None

    def sync(self, name: str, words: List[str]) -> Problem:
        if name == ".":
            self.folder_syncs += 1
            self.unsynced_names.clear()
            return None
        writes = self.written.pop(name, [])
        if name in self.doubtful:
            self.doubtful.remove(name)
            return self.covers(name, writes)
        self.batches[name] = writes[0][0] - 1 if writes else -1
        return None

    def covers(self, name: str, writes: List[Tuple[int, bytes]]) -> Problem:
        """The writes are all of the log's directory, and all that it had from its last open gate on."""
        was = self.found[name]
        written = {place for at, bytes_ in writes for place in range(at, at + len(bytes_))}
        for first, end in ((FIRST_SLOT, min(HEADER, len(was))), (last_open_gate(was), len(was))):
            missed = [place for place in range(first, end) if place not in written]
            if missed:
                return f"{name} isn't written back at {missed[0]}"
        return None

    def may_print(self) -> Problem:
        waiting = [name for name, writes in self.written.items() if writes]
        if waiting or self.unsynced_names:
            return f"a line is printed before the sync of {', '.join([*waiting, *sorted(self.unsynced_names)])}"
        return None


def disorder(calls: List[List[str]], found: Logs, audits: bool) -> Problem:
    """What is wrong with the order of the calls that were done, or None."""
    order = Order(found, audits)
    for call, name, *words in calls:
        why = order.take(call, name, words)
        if why:
            return why
    made = sum(1 for call, _, *words in calls if call == "open" and words[0] == "new")
    wanted = 0 if audits else made + bool(found)
    return None if order.folder_syncs == wanted else f"the folder is synced {order.folder_syncs} times, not {wanted}"


def needed(calls: List[List[str]], found: Logs, audits: bool) -> List[int]:
    """The places of the calls of which none can be left out."""
    order, places = Order(found, audits), []
    for at, (call, name, *words) in enumerate(calls):
        if order.needs(call, name):
            places.append(at)
        order.take(call, name, words)
    return places


def order_of_calls(host: Host, name: str) -> Problem:
    """A run, a resume and an audit make their calls in order, and each sync and lock is seen."""
    with scene(name) as folder:
        for words in (RUN, RESUME, AUDIT):
            found, audits = logs_in(folder), words is AUDIT
            done = host.call(folder, words)
            if done.status != OK:
                return f"{words[0]}: status {done.status}"
            why = disorder(done.calls, found, audits)
            if why:
                return f"{words[0]}: {why}"
            for at in needed(done.calls, found, audits):
                if not disorder([*done.calls[:at], *done.calls[at + 1:]], found, audits):
                    return f"{words[0]}: call {at + 1}, {' '.join(done.calls[at])}, isn't missed where it is taken out"
    return None


def written_back_in_pieces(host: Host) -> Problem:
    """A log without an open gate, and with much behind its closed one, is written back as a whole, and stays as it is."""
    with scene("inputs") as folder:
        host.call(folder, ["run", "scenario", "none"])
        log = folder / "icrun.00.log2"
        log.write_bytes(log.read_bytes() + bytes(range(1, 251)) * 40)
        found = logs_in(folder)
        done = host.call(folder, NOTHING_NEW)
        if done.status != OK or logs_in(folder) != found:
            return f"status {done.status}, or another log"
        return disorder(done.calls, found, audits=False)


# -- failing calls


def values(report: bytes) -> Dict[str, int]:
    """The values of an audit, by component and name."""
    found = {}
    for line in report.decode().splitlines():
        kind, *words = line.split()
        if kind in ("pcom", "tcom"):
            for word in words[1:]:
                key, number = word.split("=")
                found[f"{words[0]}.{key}"] = int(number)
    return found


def is_opening(logs: Logs, components: int) -> bool:
    """Whether the logs are those of an opening that was cut off: not all are made, and none has a record."""
    return len(logs) < components or any(len(log) < HEADER + 1 for log in logs.values())


def kept(host: Host, name: str, folder: Path, told: int, most: int, untold: int = 1) -> Problem:
    """A resume and an audit behind a failed call: the inputs that were told are there, in order, each once, and few more."""
    cut = is_opening(logs_in(folder), {"inputs": 1}.get(name, 2))
    if cut and told:
        return "an input is told over a log that isn't whole"
    resumed, audited = host.plain(folder, NOTHING_NEW), host.plain(folder, AUDIT)
    if cut:
        return None if (resumed.status, audited.status) == (BAD_LOG, BAD_LOG) else f"statuses {resumed.status} and {audited.status}"
    if (resumed.status, audited.status) != (OK, OK):
        return f"resume {resumed.status}, audit {audited.status}: {(resumed.out + audited.out).decode()[-300:]}"
    found = values(audited.out)
    taken, total = next((found[key], found[key.split(".")[0] + ".sum"]) for key in found if key.endswith(".taken"))
    if not told <= taken <= min(told + untold, most):
        return f"{told} inputs were told as taken, and {taken} are kept"
    if total != 2 ** taken - 1:
        return f"{taken} inputs are kept, and their sum is {total}"
    return None if SCENES[name](found) else f"the values don't balance: {found}"


def status_of(call: List[str]) -> int:
    """The status of a program one of whose calls failed, and that is done with that."""
    if call[0] == "look" and call[1].endswith(".log"):
        return OK  # a log of the former format that can't be looked at counts as none
    return {"take": READ, "put": OUTPUT}.get(call[0], READ if call[0] == "open" and not is_log(call[1]) and call[1] != "." else DISK)


def with_failing_calls(host: Host, name: str, words: List[str], how: str, every: int = 1) -> Problem:
    """Each call of a run, a resume or an audit fails in turn."""
    number = 1
    while True:
        with scene(name) as folder:
            if words is not RUN:
                host.plain(folder, RUN)
            before = logs_in(folder)
            done = host.call(folder, words, number, FAILURES[how])
            if number > len(done.calls):
                return None if number > 10 else "hardly a call was seen"
            call = done.calls[number - 1]
            where = f"call {number}, {' '.join(call)[:80]}"
            allowed = (OK,) if how == "half" else (OK, status_of(call)) if how == "EINTR" else (status_of(call),)
            if done.status not in allowed:
                return f"{where}: status {done.status}, not {allowed}"
            if words is AUDIT and logs_in(folder) != before:
                return f"{where}: an audit changed a log"
            told = len(TAKEN.findall(done.out)) + (0 if words is RUN else FIRST)
            why = kept(host, name, folder, told, {"run": FIRST, "resume": FIRST + 2, "audit": FIRST}[words[0]])
            if why:
                return f"{where}: {why}"
        number += every


# -- refused memory


def with_refused_memory(host: Host, name: str, words: List[str], every: int = 1) -> Problem:
    """Each request for memory of a run or a resume is refused in turn: it ends with 12, or does without, and what was told is kept."""
    number = 1
    while True:
        with scene(name) as folder:
            if words is not RUN:
                host.plain(folder, RUN)
            done = host.call(folder, words, refused=number)
            if ["refuse", "memory", "-1"] not in done.calls:
                return None if number > 10 else "hardly a request for memory was seen"
            if done.status not in (OK, MEMORY):
                return f"request {number}: status {done.status}, not {MEMORY}"
            told = len(TAKEN.findall(done.out)) + (0 if words is RUN else FIRST)
            why = kept(host, name, folder, told, {"run": FIRST, "resume": FIRST + 2}[words[0]])
            if why:
                return f"request {number}: {why}"
        number += every


# -- runs in threads


THREADS = "workers = 3\nturns = 300\nreport = \"summary\"\n"
LAST = {READ: "iclive: read fault\n", OUTPUT: "", DISK: "iclive: disk fault of {}\n"}


def in_threads(host: Host, folder: Path, failing: int = 0, how: str = HALF, refused: int = 0) -> Done:
    """A run of the first schedule in threads. Its logs then stand there under the names of those of icrun."""
    (folder / "policy").write_text(THREADS)
    done = host.call(folder, ["scenario", "first", "policy"], failing, how, refused)
    for log in folder.glob("iclive.*.log2"):
        log.rename(log.with_name(log.name.replace("iclive", "icrun")))
    return done


def order_in_threads(host: Host, icrun: Host, name: str) -> Problem:
    """Each log is written and synced in order, whatever the others do meanwhile, and all before the first line."""
    with scene(name) as folder:
        done = in_threads(host, folder)
        if done.status != OK:
            return f"status {done.status}"
        return disorder(done.calls, {}, audits=False) or kept(icrun, name, folder, FIRST, FIRST)


def with_failing_calls_in_threads(host: Host, icrun: Host, name: str, how: str, every: int = 1) -> Problem:
    """Each call of a run in threads fails in turn: the inputs that are kept are the first of the plan, and icrun goes on from there."""
    number = 1
    while True:
        with scene(name) as folder:
            done = in_threads(host, folder, number, FAILURES[how])
            if number > len(done.calls):
                return None if number > 10 else "hardly a call was seen"
            call = done.calls[number - 1]
            where = f"call {number}, {' '.join(call)[:80]}"
            allowed = (OK,) if how == "half" else (OK, status_of(call)) if how == "EINTR" else (status_of(call),)
            if done.status not in allowed:
                return f"{where}: status {done.status}, not {allowed}"
            names = [line.split()[1] for line in (folder / "scenario").read_text().splitlines() if line.startswith(("pcom ", "tcom "))]
            if done.status != OK and done.out.decode() not in [LAST[done.status].format(it) for it in names]:
                return f"{where}: it prints {done.out!r}"
            why = kept(icrun, name, folder, FIRST if done.status in (OK, OUTPUT) else 0, FIRST, FIRST)
            if why:
                return f"{where}: {why}"
        number += every


def with_refused_memory_in_threads(host: Host, icrun: Host, name: str, every: int = 1) -> Problem:
    """Each request for memory of a run in threads is refused in turn: it ends with 12 and prints nothing, or does without. A thread that isn't
    started for want of memory is one that it does without. The inputs that are kept are the first of the plan, and icrun goes on from there."""
    number = 1
    while True:
        with scene(name) as folder:
            done = in_threads(host, folder, refused=number)
            if ["refuse", "memory", "-1"] not in done.calls:
                return None if number > 10 else "hardly a request for memory was seen"
            if done.status not in (OK, MEMORY):
                return f"request {number}: status {done.status}, not {MEMORY}"
            if done.status == MEMORY and done.out:
                return f"request {number}: it prints {done.out!r}"
            why = kept(icrun, name, folder, FIRST if done.status == OK else 0, FIRST, FIRST)
            if why:
                return f"request {number}: {why}"
        number += every


# -- what a log and an output may be


def status(host: Host, folder: Path, words: List[str], **how: object) -> int:
    """The status of the program as it is, without the library."""
    done = subprocess.run([host.program, *words], cwd=folder, stdout=how.pop("stdout", subprocess.DEVNULL), timeout=60, check=False, **how)
    return done.returncode


def over_a_log_that(host: Host, change: Callable[[Path], object]) -> Problem:
    """A log that was changed so is a fault of its disk, for a resume and an audit."""
    with scene("inputs") as folder:
        host.call(folder, RUN)
        change(folder)
        found = [status(host, folder, words) for words in (NOTHING_NEW, AUDIT)]
        return None if found == [DISK, DISK] else f"statuses {found}"


def move_behind_a_link(folder: Path) -> None:
    (folder / "icrun.00.log2").rename(folder / "elsewhere")
    (folder / "icrun.00.log2").symlink_to("elsewhere")


def put_a_pipe(folder: Path) -> None:
    (folder / "icrun.00.log2").unlink()
    os.mkfifo(folder / "icrun.00.log2")


def mode_of_a_log(host: Host) -> Problem:
    with scene("inputs") as folder:
        status(host, folder, RUN, umask=0)
        mode = (folder / "icrun.00.log2").stat().st_mode & 0o777
        return None if mode == 0o600 else f"mode {mode:o}"


def locks(host: Host) -> Problem:
    """Audits share a log, and neither a run nor an audit takes one that the other holds."""
    wanted = {(fcntl.LOCK_SH, "audit"): OK, (fcntl.LOCK_EX, "audit"): DISK, (fcntl.LOCK_SH, "resume"): DISK, (fcntl.LOCK_EX, "resume"): DISK}
    with scene("inputs") as folder:
        host.call(folder, RUN)
        for (lock, word), status_wanted in wanted.items():
            with open(folder / "icrun.00.log2", "rb") as log:
                fcntl.flock(log, lock)
                ended = status(host, folder, AUDIT if word == "audit" else NOTHING_NEW)
            if ended != status_wanted:
                return f"{word} over lock {lock}: status {ended}"
    return None


def audit_with_read_rights(host: Host) -> Problem:
    """Who may only read the logs and their folder can audit them, and not resume."""
    nobody = {"user": 65534, "group": 65534, "extra_groups": []} if os.geteuid() == 0 else {}
    with scene("inputs", tempfile.gettempdir()) as folder:
        host.call(folder, RUN)
        shutil.copy(host.program, folder / "icrun")
        (folder / "icrun").chmod(0o755)
        folder.parent.chmod(0o755)
        (folder / "icrun.00.log2").chmod(0o444)
        folder.chmod(0o555)
        readers = Host(str(folder / "icrun"), "")
        found = [status(readers, folder, words, **nobody) for words in (AUDIT, NOTHING_NEW)]
        folder.chmod(0o755)
        return None if found == [OK, DISK] else f"statuses {found}"


def limited(size: int) -> None:
    signal.signal(signal.SIGXFSZ, signal.SIG_IGN)
    resource.setrlimit(resource.RLIMIT_FSIZE, (size, size))


def past_a_limit_of_sizes(host: Host) -> Problem:
    """A write past the limit is a fault of the disk, where the signal is ignored as the script icrun has it."""
    with scene("inputs") as folder:
        host.call(folder, RUN)
        size = len(logs_in(folder)["icrun.00.log2"])
        ended = status(host, folder, RESUME, preexec_fn=lambda: limited(size + 10), restore_signals=False)
        return kept(host, "inputs", folder, FIRST, FIRST) if ended == DISK else f"status {ended}"


def into_a_full_pipe(host: Host) -> Problem:
    """An output that takes nothing and doesn't wait is one that fails."""
    with scene("inputs") as folder:
        out, into = os.pipe()
        os.set_blocking(into, False)
        try:
            while True:
                os.write(into, bytes(4096))
        except BlockingIOError:
            pass
        ended = status(host, folder, RUN, stdout=into)
        os.close(out)
        os.close(into)
        return kept(host, "inputs", folder, 0, 1) if ended == OUTPUT else f"status {ended}"


def cases(host: Host, every: int = 1) -> List[Tuple[str, Callable[[], Problem]]]:
    """The cases, by name. Each gives None where it holds, else what is wrong. Of the calls that fail in turn one in so many is tried."""
    found: List[Tuple[str, Callable[[], Problem]]] = []
    for name in SCENES:
        found.append((f"the order of calls, {name}", lambda n=name: order_of_calls(host, n)))
        for how in FAILURES:
            for words in (RUN, RESUME, AUDIT):
                found.append((f"{words[0]} of {name}, each call failing by {how}",
                              lambda n=name, w=words, h=how: with_failing_calls(host, n, w, h, every)))
        for words in (RUN, RESUME):
            found.append((f"{words[0]} of {name}, each request for memory refused",
                          lambda n=name, w=words: with_refused_memory(host, n, w, 3 * every)))
    return found + [
        ("a log with much behind its closed gate", lambda: written_back_in_pieces(host)),
        ("a log that is a symbolic link", lambda: over_a_log_that(host, move_behind_a_link)),
        ("a log with a second name", lambda: over_a_log_that(host, lambda folder: os.link(folder / "icrun.00.log2", folder / "second"))),
        ("a log that is a pipe", lambda: over_a_log_that(host, put_a_pipe)),
        ("the mode of a log", lambda: mode_of_a_log(host)),
        ("locks", lambda: locks(host)),
        ("an audit with read rights alone", lambda: audit_with_read_rights(host)),
        ("a limit of file sizes", lambda: past_a_limit_of_sizes(host)),
        ("a full output that doesn't wait", lambda: into_a_full_pipe(host)),
    ]


def cases_in_threads(host: Host, icrun: Host, every: int = 1) -> List[Tuple[str, Callable[[], Problem]]]:
    """The cases of a run in threads, as those of `cases`."""
    found: List[Tuple[str, Callable[[], Problem]]] = []
    for name in SCENES:
        found.append((f"the order of calls in threads, {name}", lambda n=name: order_in_threads(host, icrun, n)))
        for how in FAILURES:
            found.append((f"{name} in threads, each call failing by {how}",
                          lambda n=name, h=how: with_failing_calls_in_threads(host, icrun, n, h, every)))
        found.append((f"{name} in threads, each request for memory refused", lambda n=name: with_refused_memory_in_threads(host, icrun, n, 3 * every)))
    return found


def build(folder: Path) -> Optional[str]:
    """The library, or None where there is no C compiler."""
    compiler = shutil.which("cc")
    if not compiler:
        return None
    library = folder / "preload.so"
    subprocess.run([compiler, "-shared", "-fPIC", "-O1", "-pthread", "-o", str(library), str(HERE / "preload.c")], check=True)
    return str(library)


def main() -> int:
    programs = [str(Path(word).resolve()) for word in sys.argv[1:]]
    with tempfile.TemporaryDirectory(prefix="icrun-host-") as folder:
        library = build(Path(folder))
        if library is None:
            print("no C compiler is here: the calls of the host aren't tested")
            return 0
        failed = 0
        icrun = Host(programs[0], library)
        found = cases(icrun)
        for program in programs[1:]:
            found += cases_in_threads(Host(program, library), icrun)
        with ThreadPoolExecutor(os.cpu_count()) as pool:
            for (name, _), why in zip(found, pool.map(lambda case: case[1](), found)):
                if why:
                    failed += 1
                    print(f"FAILED {name}: {why}")
    print(f"calls of the host: {len(found) - failed} cases passed, {failed} failed")
    return 1 if failed else 0


if __name__ == "__main__":
    sys.exit(main())
