"""What inputs, orders, a start and a resume cost on this machine, beside the bare calls of a disk and beside SQLite."""

from __future__ import annotations

import os
import shutil
import statistics
import subprocess
import tempfile
import time
from dataclasses import dataclass
from typing import Callable, Dict, List, Optional, Tuple

from .common import ANY_LOG_NAME, DONE, LOG_LIMIT, ToolError, read_file, word_parser
from .frame import PRESENT, Frame, walk
from .program import add_word, find_program, log_path

ABOUT = """Measures, in a few minutes, longer on a slow disk, what icrun costs on this machine and in this folder: a forced
input and an order over two components, beside the same forces made bare (two writes and two syncs each) and beside
SQLite's commits; the start of a run; a resume over a long log. What is compared takes turns, and of each the median of
the rounds is told, with the least and the most. With --iclive it measures in their place how many inputs a second four
components take that have nothing to do with each other, and how many orders a second go through a chain of four, in
threads and in icrun."""

TALLY = """pcom tally
  var total 0
  on add n
    set total total + n
  end
end
"""
ORDERS = """xcom desk
pcom shop
  var taken 0
  on order pieces
    send store reserve pieces
  end
  on reserved pieces
    set taken taken + 1
    out desk pieces
  end
end
pcom store
  var stock 0
  on reserve pieces
    set stock stock - pieces
    send shop reserved pieces
  end
end
"""
ORDER = """input shop order 1
deliver shop store
force store
deliver store shop
deliver store shop
force shop
deliver shop store"""
CHAIN = """xcom desk
pcom shop
  var orders 0
  on order pieces
    set orders orders + 1
    send store take pieces
  end
end
pcom store
  var stock 100000
  on take pieces
    set stock stock - pieces
    send till charge pieces
  end
end
pcom till
  var paid 0
  on charge pieces
    txn bank
      get buyer_now buyer
      need buyer_now >= pieces
      put buyer buyer_now - pieces
      get seller_now seller
      put seller seller_now + pieces
      set paid paid + 1
    else
    end
    out desk paid
  end
end
tcom bank
  key buyer 100000
  key seller 0
end
"""
CHAIN_ORDERS = 400
WORKERS = (1, 2, 4)
FOUR_NAMES = ("east", "north", "south", "west")
FOUR = "".join("pcom %s\n  var total 0\n  on add n\n    set total total + n\n  end\nend\n" % name for name in FOUR_NAMES)
ALONE = 400  # inputs of each of them
TURNS = (2, 10, 30, 100, 300)  # of all workers together, for each input or order: the best of these is taken
QUIET = 'report = "summary"\n'
LONG = 20000  # inputs of the log that is resumed: the most that a run takes
LOG_MODE = os.O_RDWR | os.O_CREAT


@dataclass
class Work:
    """A scenario with one input many times, and how many forces one input leads to."""

    title: str
    scenario: str
    line: str
    inputs: int
    forces: float = 0
    size: int = 0  # bytes of the logs


class Place:
    """A folder of a run, made anew for each."""

    def __init__(self, parent: str, program: str) -> None:
        self.parent, self.program = parent, program

    def __enter__(self) -> "Place":
        self.folder = tempfile.mkdtemp(prefix="icrun-bench.", dir=self.parent)
        return self

    def __exit__(self, *_: object) -> None:
        shutil.rmtree(self.folder, ignore_errors=True)

    def write(self, name: str, text: str) -> None:
        with open(os.path.join(self.folder, name), "w", encoding="ascii") as file:
            file.write(text)

    def call(self, *words: str) -> float:
        """The seconds that a call takes, which must end well."""
        began = time.perf_counter()
        done = subprocess.run([self.program, *words], cwd=self.folder, stdin=subprocess.DEVNULL,
                              stdout=subprocess.PIPE, stderr=subprocess.STDOUT, check=False)
        seconds = time.perf_counter() - began
        if done.returncode != DONE:
            raise ToolError("%s: %s" % (" ".join(words), done.stdout.decode("ascii", "replace").strip() or "no line"))
        return seconds

    def run(self, work: Work, inputs: int) -> float:
        self.write("scenario", work.scenario)
        self.write("schedule", (work.line + "\n") * inputs)
        self.write("policy", QUIET)
        return self.call("run", "scenario", "schedule", "policy")

    def batches(self) -> List[List[int]]:
        """The sizes of the batches of each log: each was a force."""
        logs = sorted(name for name in os.listdir(self.folder) if ANY_LOG_NAME.match(name))
        return [[batch.end - batch.start for batch in walk(read_file(os.path.join(self.folder, name), LOG_LIMIT), Frame())]
                for name in logs]


def icrun_seconds(parent: str, program: str, work: Work) -> float:
    """Of the inputs alone: a run of them without the start of an empty one."""
    with Place(parent, program) as place:
        empty = place.run(work, 0)
    with Place(parent, program) as place:
        return place.run(work, work.inputs) - empty


def bare_seconds(parent: str, batches: List[List[int]]) -> float:
    """The device calls of these forces alone: a write, a sync, a write of one byte, a sync."""
    with Place(parent, "") as place:
        files = [os.open(os.path.join(place.folder, "%02d" % at), LOG_MODE) for at in range(len(batches))]
        began = time.perf_counter()
        for file, sizes in zip(files, batches):
            offset = PRESENT.header
            for size in sizes:
                os.pwrite(file, bytes(size + 5), offset + 1)
                os.fsync(file)
                os.pwrite(file, b"\x01", offset)
                os.fsync(file)
                offset += size + 5
        seconds = time.perf_counter() - began
        for file in files:
            os.close(file)
        return seconds


def sqlite_seconds(parent: str, batches: List[List[int]], mode: str) -> Optional[float]:
    """A commit in SQLite for each of these forces, in a database for each log, made durable (synchronous=FULL)."""
    try:
        import sqlite3
    except ImportError:
        return None
    with Place(parent, "") as place:
        seconds = 0.0
        for at, sizes in enumerate(batches):
            base = sqlite3.connect(os.path.join(place.folder, "%02d.db" % at), isolation_level=None)
            base.execute("PRAGMA journal_mode=%s" % mode)
            base.execute("PRAGMA synchronous=FULL")
            base.execute("CREATE TABLE log (place INTEGER PRIMARY KEY, bytes BLOB)")
            base.execute("CREATE TABLE state (name TEXT PRIMARY KEY, value INTEGER)")
            base.execute("INSERT INTO state VALUES ('total', 0)")
            began = time.perf_counter()
            for size in sizes:
                base.execute("BEGIN IMMEDIATE")
                base.execute("INSERT INTO log (bytes) VALUES (?)", (bytes(size),))
                base.execute("UPDATE state SET value = value + 1 WHERE name = 'total'")
                base.execute("COMMIT")
            seconds += time.perf_counter() - began
            base.close()
        return seconds


def spread(found: List[float], unit: float, word: str) -> str:
    return "%8.1f %s  (%.1f to %.1f)" % (statistics.median(found) * unit, word, min(found) * unit, max(found) * unit)


def compare(parent: str, program: str, work: Work, rounds: int) -> List[str]:
    with Place(parent, program) as place:
        place.run(work, work.inputs)
        batches = place.batches()
        work.size = sum(map(sum, batches)) + 5 * sum(map(len, batches))
    forces = sum(map(len, batches))
    work.forces = forces / work.inputs
    ways: Dict[str, Callable[[], Optional[float]]] = {
        "icrun": lambda: icrun_seconds(parent, program, work),
        "bare device calls": lambda: bare_seconds(parent, batches),
        "SQLite, WAL": lambda: sqlite_seconds(parent, batches, "WAL"),
        "SQLite, rollback": lambda: sqlite_seconds(parent, batches, "DELETE"),
    }
    found: Dict[str, List[float]] = {name: [] for name in ways}
    for _ in range(rounds):  # in turn, so that what else the machine does falls on all alike
        for name, way in ways.items():
            seconds = way()
            if seconds is not None:
                found[name].append(seconds / work.inputs)
    lines = ["%s: %d times, %.1f forces (%.1f syncs) and %.0f bytes of log each" %
             (work.title, work.inputs, work.forces, 2 * work.forces, work.size / work.inputs)]
    bare = statistics.median(found["bare device calls"])
    for name, each in found.items():
        if each:
            lines.append("  %-18s %s  %5.2f of bare" % (name, spread(each, 1e6, "us"), statistics.median(each) / bare))
        else:
            lines.append("  %-18s isn't here" % name)
    return lines


@dataclass
class Plan:
    """What is done in threads: its lines, so often, and how many of what is counted these are."""

    title: str
    one: str
    scenario: str
    lines: str
    times: int
    count: int


def plans() -> Tuple[Plan, Plan]:
    return (Plan("inputs a second of four components with nothing between them", "an input", FOUR,
                 "".join("input %s add 1\n" % name for name in FOUR_NAMES), ALONE, len(FOUR_NAMES) * ALONE),
            Plan("orders a second through a chain of four components", "an order", CHAIN, "input shop order 1\n", CHAIN_ORDERS,
                 CHAIN_ORDERS))


@dataclass
class Way:
    """How a plan is done: in icrun, where there are no workers, or in threads."""

    plan: Plan
    program: str
    workers: int = 0
    turns: int = 0

    def run(self, place: Place) -> float:
        """The seconds of a run."""
        place.write("scenario", self.plan.scenario)
        place.write("plan", self.plan.lines * self.plan.times)
        place.write("policy", QUIET + ("workers = %d\nturns = %d\n" % (self.workers, self.turns) if self.workers else ""))
        return place.call(*([] if self.workers else ["run"]), "scenario", "plan", "policy")

    def seconds(self, parent: str) -> float:
        with Place(parent, self.program) as place:
            return self.run(place)

    def forces(self, parent: str) -> float:
        """How many forces each of what is counted leads to."""
        with Place(parent, self.program) as place:
            self.run(place)
            return sum(map(len, place.batches())) / self.plan.count

    @property
    def title(self) -> str:
        return "iclive, %d workers" % self.workers if self.workers > 1 else "iclive, 1 worker" if self.workers else "icrun"


def in_threads(parent: str, plan: Plan, program: str, workers: int) -> Way:
    """With the turns that are quickest. With too few the rest is done behind the joins, and with too many the workers look for work in vain."""
    ways = [Way(plan, program, workers, turns * plan.count // workers) for turns in TURNS]
    return min(ways, key=lambda way: way.seconds(parent))


def compare_threads(parent: str, plan: Plan, icrun: str, iclive: str, rounds: int) -> List[str]:
    ways = [Way(plan, icrun)] + [in_threads(parent, plan, iclive, workers) for workers in WORKERS]
    found: List[List[float]] = [[] for _ in ways]
    for _ in range(rounds):
        for way, each in zip(ways, found):
            each.append(plan.count / way.seconds(parent))
    serial = statistics.median(found[0])
    lines = ["%s: %d, which come at once" % (plan.title, plan.count)]
    for way, each in zip(ways, found):
        turns = ", %d turns each" % way.turns if way.workers else ""
        lines.append("  %-18s %s  %5.2f of icrun, %.1f forces %s%s" %
                     (way.title, spread(each, 1, "/s"), statistics.median(each) / serial, way.forces(parent), plan.one, turns))
    return lines


def start(parent: str, program: str, rounds: int) -> List[str]:
    work = Work("", TALLY, "input tally add 1", 0)
    found = []
    for _ in range(2 * rounds):
        with Place(parent, program) as place:
            found.append(place.run(work, 0))
    return ["start and end of an empty run, with its new log", "  %-18s %s" % ("icrun", spread(found, 1e3, "ms"))]


def resume(parent: str, program: str, rounds: int) -> List[str]:
    """A resume over a log of many records, without a checkpoint, and one behind a checkpoint."""
    lines = []
    for title, last in (("without a checkpoint", ""), ("with one at its end", "checkpoint tally\n")):
        with Place(parent, program) as place:
            place.write("scenario", TALLY)
            place.write("schedule", "input tally add 1\n" * LONG + last)
            place.write("none", "")
            place.write("policy", QUIET)
            place.call("run", "scenario", "schedule", "policy")
            size = os.path.getsize(log_path(place.folder, "icrun", 0))
            found = [place.call("resume", "scenario", "none", "policy") for _ in range(rounds)]
        lines.append("  %-18s %s  %d records, %d bytes" % (title, spread(found, 1e3, "ms"), LONG, size))
    return ["resume over a long log"] + lines


def instructions(parent: str, program: str) -> List[str]:
    """By valgrind, where it is: repeatable, whatever else the machine does."""
    tool = shutil.which("valgrind")
    if tool is None:
        return ["instructions: valgrind isn't here"]

    def counted(work: Work, inputs: int) -> int:
        with Place(parent, program) as place:
            place.write("scenario", work.scenario)
            place.write("schedule", (work.line + "\n") * inputs)
            place.write("policy", QUIET)
            done = subprocess.run([tool, "--tool=callgrind", "--callgrind-out-file=/dev/null", program, "run", "scenario",
                                   "schedule", "policy"], cwd=place.folder, stdin=subprocess.DEVNULL,
                                  stdout=subprocess.DEVNULL, stderr=subprocess.PIPE, check=False)
        totals = [line.rsplit(":", 1)[1] for line in done.stderr.decode().splitlines() if "Collected" in line]
        if not totals:
            raise ToolError("valgrind told no count of instructions")
        return int(totals[0])

    lines = ["instructions, by valgrind"]
    for work in works():
        base, more = counted(work, 500), counted(work, 1500)
        lines.append("  %-18s %d" % (work.title, (more - base) // 1000))
    lines.append("  %-18s %d" % ("an empty run", counted(works()[0], 0)))
    return lines


def works() -> Tuple[Work, Work]:
    return (Work("a forced input", TALLY, "input tally add 1", 400),
            Work("an order over two", ORDERS, ORDER, 100))


def at_once(orders: int) -> str:
    """A schedule of orders that come at once, and are forced and delivered together."""
    return ("input shop order 1\n" * orders + "deliver shop store\n" * orders + "force store\n"
            + "deliver store shop\n" * 2 * orders + "force shop\n" + "deliver shop store\n" * 2 * orders)


def memory(parent: str, program: str) -> List[str]:
    """What runs take from the allocator over their whole time, by valgrind, where it is."""
    tool = shutil.which("valgrind")
    if tool is None:
        return []
    lines = ["memory taken over the whole run, by valgrind"]
    for orders in (250, 500):
        for title, schedule in (("one by one", (ORDER + "\n") * orders), ("at once", at_once(orders))):
            with Place(parent, program) as place:
                place.write("scenario", ORDERS)
                place.write("schedule", schedule)
                place.write("policy", QUIET)
                done = subprocess.run([tool, "--tool=dhat", "--dhat-out-file=/dev/null", program, "run", "scenario", "schedule",
                                       "policy"], cwd=place.folder, stdin=subprocess.DEVNULL, stdout=subprocess.DEVNULL,
                                      stderr=subprocess.PIPE, check=False)
            totals = [line.split("Total:", 1)[1].split() for line in done.stderr.decode().splitlines() if "Total:" in line]
            if not totals:
                raise ToolError("valgrind told no count of bytes")
            taken, blocks = (int(totals[0][at].replace(",", "")) for at in (0, 3))
            lines.append("  %d orders, %-10s %d bytes in %d blocks" % (orders, title, taken, blocks))
    return lines


def main() -> int:
    words = word_parser("bench", ABOUT, "exit status: 0 measured; 2 the words are wrong, or a call failed")
    words.add_argument("--folder", default=".", help="where the logs stand while it measures: a folder of the disk that is to be "
                       "measured; without it the present one")
    words.add_argument("--rounds", type=int, default=5, help="how often each is measured (5)")
    words.add_argument("--instructions", action="store_true", help="count instructions and memory too (a minute more)")
    words.add_argument("--iclive", metavar="PROGRAM", help="measure orders in threads, with this program")
    add_word(words)
    given = words.parse_args()
    if not os.path.isdir(given.folder):
        raise ToolError("%s: not a folder" % given.folder)
    if given.rounds < 1:
        raise ToolError("--rounds: at least 1")
    program = os.path.abspath(find_program(given.icrun))
    if given.iclive is not None:
        if not os.access(given.iclive, os.X_OK) or os.path.isdir(given.iclive):
            raise ToolError("%s: not a program" % given.iclive)
        for plan in plans():
            print("\n".join(compare_threads(given.folder, plan, program, os.path.abspath(given.iclive), given.rounds)), flush=True)
        return DONE
    for work in works():
        print("\n".join(compare(given.folder, program, work, given.rounds)), flush=True)
    print("\n".join(start(given.folder, program, given.rounds)), flush=True)
    print("\n".join(resume(given.folder, program, given.rounds)), flush=True)
    if given.instructions:
        print("\n".join(instructions(given.folder, program) + memory(given.folder, program)), flush=True)
    print(GIVES)
    return DONE


GIVES = """What each gives: icrun keeps each request that it took, hands each message on once, and goes on behind a crash with the
replies that it gave; SQLite keeps each commit, and who calls it makes sure that nothing is done twice or forgotten between
two databases; the bare calls keep bytes."""
