"""The inputs of a schedule under many random schedules, each audited; one that fails is made small and drawn."""

from __future__ import annotations

import os
import random
import subprocess
import sys
import tempfile
import time
from collections import Counter
from concurrent.futures import ProcessPoolExecutor
from dataclasses import dataclass, field
from typing import Callable, Dict, List, Optional, Tuple

from .chart import draw
from .common import BAD, DONE, LOG_LIMIT, TEXT_LIMIT, ToolError, count, read_file, word_parser
from .disturb import Cut, Disturber, Item, lives_of
from .expression import BadExpression, Expression, Values
from .frame import Frame, walk
from .program import Call, add_word, call, find_program, log_names, memory_folder, values_of
from .records import read_records
from .report import SHOWN_LINE, ReportError
from .scenario import Program, load_scenario
from .schedule import check_schedule
from .texts import TextRefused, split_lines

ABOUT = """Runs the inputs of a schedule under random schedules of deliveries, losses, repeats, reorderings, forces,
checkpoints, crashes, recoveries, stops in device calls, halts with a resume behind them, and kills. Of each run
is tested: that it ends settled; that its logs are legal for `icrun audit`, with the same values; that each output of
the audit was shown, and never with other values; that each input told as taken is in the logs, and no other one is;
and the expressions that are given. The first run that fails is made small and drawn. It samples: what it doesn't find may be there."""
NOTES = """exit status:
  0  no run failed
  1  a run failed; the schedule and its chart are written
  2  the words are wrong, or a file can't be used

An expression has values as `bank.cash`, the counts inputs, outputs and history, and the operators of Python:
  tools/chaos scenario schedule --check 'bank.cash >= 0' --check 'bank.cash + bank.paid == 100'"""
PIECE = 5  # runs that a process does at a time
DID_NOTHING = (": empty", ": unknown", ": idle", ": down", ": already")  # ends of event lines
TRIES = 3  # runs of a schedule with a kill, which doesn't end at the same place each time
SHRINKS = 400  # runs at most by which a schedule is made small


@dataclass
class Task:
    """What each process needs."""

    program: str
    scenario: str
    inputs: List[str]
    checks: List[str]
    seed: int


@dataclass
class Ended:
    """What the calls of a run came to."""

    shown: Dict[Tuple[str, str], str] = field(default_factory=dict)  # by Pcom and number
    taken: int = 0  # as told: a call that was killed may have taken one more than it told
    killed: bool = False
    counts: Counter = field(default_factory=Counter)
    last: Optional[Call] = None
    reports: List[List[str]] = field(default_factory=list)


@dataclass(frozen=True)
class Failure:
    kind: str  # the same kind of failure is looked for where a schedule is made small
    text: str


class Failed(Exception):
    def __init__(self, kind: str, text: str) -> None:
        super().__init__(text)
        self.failure = Failure(kind, text)


def killed_call(program: str, folder: str, words: List[str], lines: int) -> Call:
    """A call that is killed once it has printed so many lines, if it doesn't end before."""
    process = subprocess.Popen([program] + words, cwd=folder, stdout=subprocess.PIPE, stderr=subprocess.STDOUT,
                               stdin=subprocess.DEVNULL)
    assert process.stdout is not None
    printed = b""
    for _ in range(lines):
        line = process.stdout.readline()
        printed += line
        if not line:
            break
    else:
        process.kill()
    printed += process.stdout.read()
    process.stdout.close()
    status = process.wait()
    whole = printed if printed.endswith(b"\n") or status >= 0 else printed[:printed.rfind(b"\n") + 1]
    return Call(status, whole.decode("ascii", "replace").splitlines())


class Trial:
    """One schedule in a folder."""

    def __init__(self, task: Task, folder: str) -> None:
        self.task = task
        self.folder = folder
        self.expressions = [Expression(text) for text in task.checks]
        self.ended = Ended()  # of the last run

    def failure(self, items: List[Item]) -> Optional[Failure]:
        """Why the run fails, or None."""
        try:
            self.run(items)
        except Failed as failed:
            return failed.failure
        return None

    def run(self, items: List[Item]) -> Ended:
        for name in log_names(self.folder):
            os.unlink(os.path.join(self.folder, name))
        ended = self.ended = Ended()
        for number, (lines, cut) in enumerate(lives_of(items)):
            self.live(ended, "resume" if number else "run", lines, cut)
        assert ended.last is not None
        if ended.last.last != "settled":
            raise Failed("end", "the run ends with: %s" % ended.last.last)
        self.test(ended)
        return ended

    def live(self, ended: Ended, word: str, lines: List[str], cut: Optional[Cut]) -> None:
        halts = cut is not None and cut.kill is None
        with open(os.path.join(self.folder, "schedule"), "w", encoding="ascii") as file:
            file.write("".join(line + "\n" for line in lines + (["halt"] if halts else [])))
        words = [word, self.task.scenario, "schedule"]
        if cut is not None and cut.kill is not None:
            done = killed_call(self.task.program, self.folder, words, cut.kill)
            ended.killed |= done.status < 0
        else:
            done = call(self.task.program, self.folder, *words)
        ended.last = done
        ended.reports.append(done.lines)
        if done.status > 0:
            raise Failed("status %d" % done.status, "status %d: %s" % (done.status, done.last))
        self.note(ended, done.lines)

    def note(self, ended: Ended, lines: List[str]) -> None:
        """Inputs that were taken, and outputs that were shown."""
        for line in lines:
            if line[:1].isdigit():
                word = line.split(" ", 2)[1]
                ended.counts[word] += not line.endswith(DID_NOTHING)
                ended.counts["stop"] += ": stopped" in line or line.endswith((" stopped", ": kept", ": lost"))
                ended.taken += word == "input" and line.endswith((": taken", ": kept"))
            elif line.startswith(("out ", "again ")):
                found = SHOWN_LINE.match(line)
                if found is None:
                    continue
                _, xcom, pcom, m, values = found.groups()
                before = ended.shown.setdefault((pcom, m), xcom + values)
                if before != xcom + values:
                    raise Failed("output", "output %s of %s was shown as `%s`, and as `%s`" % (m, pcom, before, xcom + values))

    def inputs_in_logs(self) -> int:
        total = 0
        for name in log_names(self.folder):
            data = read_file(os.path.join(self.folder, name), LOG_LIMIT)
            total += sum(record.name == "Input" for batch in walk(data, Frame()) for record in read_records(data, batch))
        return total

    def test(self, ended: Ended) -> None:
        assert ended.last is not None
        audit = call(self.task.program, self.folder, "audit", self.task.scenario)
        if audit.status != 0:
            raise Failed("audit", "the audit ends with: %s" % audit.last)
        values = values_of(audit.lines)
        if values != values_of(ended.last.lines):
            raise Failed("values", "the run's values aren't those of the audit: %s and %s" % (values_of(ended.last.lines), values))
        counts = {words[0]: int(words[1]) for words in map(str.split, audit.lines) if words[0] in ("outputs", "history")}
        if len(ended.shown) != counts["outputs"]:
            raise Failed("outputs", "%d of %d outputs were shown" % (len(ended.shown), counts["outputs"]))
        counts["inputs"] = self.inputs_in_logs()
        if counts["inputs"] < ended.taken or counts["inputs"] > ended.taken and not ended.killed:
            raise Failed("inputs", "%s told as taken, and the logs have %d" % (count(ended.taken, "input"), counts["inputs"]))
        self.evaluate(values, counts)

    def evaluate(self, values: Values, counts: Dict[str, int]) -> None:
        for expression in self.expressions:
            if not expression.value(values, counts):
                known = ["%s.%s = %d" % (com, name, value) for com, cells in values.items() for name, value in cells.items()
                         if com in expression.text]
                raise Failed("check " + expression.text, "`%s` doesn't hold: %s" % (expression.text, ", ".join(known)))


# Many runs


@dataclass
class Batch:
    """What some runs came to: the events that were done, and the number of the first run that failed."""

    runs: int
    counts: Counter
    failed: Optional[int] = None
    trouble: str = ""


def drawn(task: Task, number: int) -> List[Item]:
    _, program = load_scenario(task.scenario)
    return Disturber(random.Random("%d %d" % (task.seed, number)), program).draw(task.inputs)


def do_batch(task: Task, first: int, number: int) -> Batch:
    """Runs from the first on, up to one that fails."""
    counts: Counter = Counter()
    with tempfile.TemporaryDirectory(prefix="icrun-chaos-", dir=memory_folder()) as folder:
        trial = Trial(task, folder)
        for at in range(first, first + number):
            items = drawn(task, at)
            counts["kill"] += sum(isinstance(item, Cut) and item.kill is not None for item in items)
            counts["resume"] += sum(isinstance(item, Cut) for item in items)
            try:
                counts += trial.run(items).counts
            except Failed:
                return Batch(at - first + 1, counts, at)
            except (BadExpression, ToolError) as error:
                return Batch(at - first + 1, counts, None, str(error))
    return Batch(number, counts)


class Progress:
    """How many runs are done, on standard error: over one line at a terminal, else a line now and then."""

    def __init__(self, total: int) -> None:
        self.total = total
        self.begun = self.told = time.monotonic()
        self.is_terminal = sys.stderr.isatty()

    def tell(self, done: int) -> None:
        now = time.monotonic()
        if now - self.told < (0.2 if self.is_terminal else 5):
            return
        self.told = now
        left = (now - self.begun) / max(done, 1) * (self.total - done)
        text = "%d of %d runs, about %d s left" % (done, self.total, left)
        print("\r\x1b[K" + text if self.is_terminal else text, end="" if self.is_terminal else "\n", file=sys.stderr, flush=True)

    def end(self) -> None:
        if self.is_terminal:
            print("\r\x1b[K", end="", file=sys.stderr, flush=True)


def do_runs(task: Task, runs: int, jobs: int) -> Tuple[int, Counter, Optional[int]]:
    """How many runs were done, their events, and the least number of one that failed."""
    progress, done, counts = Progress(runs), 0, Counter()
    piece = max(1, min(PIECE, runs // (jobs * 4) or 1))
    failed: Optional[int] = None
    with ProcessPoolExecutor(jobs) as pool:
        begun = [pool.submit(do_batch, task, first, min(piece, runs - first)) for first in range(0, runs, piece)]
        try:
            for one in begun:
                batch = one.result()
                if batch.trouble:
                    raise ToolError(batch.trouble)
                done += batch.runs
                counts += batch.counts
                if batch.failed is not None:
                    failed = batch.failed
                    break
                progress.tell(done)
        finally:
            for one in begun:
                one.cancel()
            progress.end()
    return done, counts, failed


# A run that fails


def shrunk(items: List[Item], fails: Callable[[List[Item]], bool]) -> List[Item]:
    """The fewest items that were found with which it still fails: parts are left out, large ones first."""
    size, left = max(1, len(items) // 2), SHRINKS
    while left > 0:
        at, is_less = 0, False
        while at < len(items) and left > 0:
            part = items[:at] + items[at + size:]
            left -= 1
            if fails(part):
                items, is_less = part, True
            else:
                at += size
        if size == 1 and not is_less:
            break
        size = max(1, size // 2)
    return items


def without_stops(items: List[Item], fails: Callable[[List[Item]], bool]) -> List[Item]:
    """Stops are left out where it fails without them."""
    for at, item in enumerate(items):
        if isinstance(item, str) and " stop " in item:
            part = items[:at] + [item.partition(" stop ")[0]] + items[at + 1:]
            items = part if fails(part) else items
    return items


def tell_failure(task: Task, number: int) -> int:
    items = drawn(task, number)
    with tempfile.TemporaryDirectory(prefix="icrun-chaos-", dir=memory_folder()) as folder:
        trial = Trial(task, folder)

        def failure(part: List[Item]) -> Optional[Failure]:
            tries = TRIES if any(isinstance(item, Cut) and item.kill is not None for item in part) else 1
            return next(filter(None, (trial.failure(part) for _ in range(tries))), None)

        found = failure(items)
        if found is None:
            print("run %d failed once, and not again: it has a kill, which doesn't end at the same place each time" % (number + 1))
            small, kind = items, ""
        else:
            print("run %d of seed %d: %s" % (number + 1, task.seed, found.text))
            kind = found.kind

            def fails(part: List[Item]) -> bool:
                again = failure(part)
                return again is not None and again.kind == kind

            small = without_stops(shrunk(items, fails), fails)
            found = failure(small) or found
            print("made small, %s of %d: %s" % (count(len(small), "line"), len(items), found.text))
        write_found(trial, small)
    return BAD


def write_found(trial: Trial, items: List[Item]) -> None:
    """The schedule of each call and its chart, in a folder of their own."""
    place = next(name for name in ("chaos-%d" % number for number in range(1, 10 ** 6)) if not os.path.lexists(name))
    try:
        os.mkdir(place)
    except OSError as error:
        raise ToolError("%s: %s" % (place, error.strerror or error)) from None
    for number, (lines, cut) in enumerate(lives_of(items), 1):
        end = [] if cut is None else ["halt"] if cut.kill is None else ["# killed behind line %d of its report" % cut.kill]
        with open(os.path.join(place, "schedule-%d" % number), "w", encoding="ascii") as file:
            file.write("".join(line + "\n" for line in lines + end))
        print("\n%s/schedule-%d, done by `%s`:" % (place, number, "resume" if number > 1 else "run"))
        print("".join("  %s\n" % line for line in lines + end) or "  (no line)\n", end="")
    trial.failure(items)
    reports = trial.ended.reports
    for number, report in enumerate(reports, 1):
        try:
            picture = draw(("\n".join(report) + "\n").encode("ascii", "replace"), "report-%d" % number)
        except ReportError:
            continue
        with open(os.path.join(place, "chart-%d.svg" % number), "w", encoding="utf-8") as file:
            file.write(picture)
    print("\nDrawn in %s." % ", ".join("%s/chart-%d.svg" % (place, number) for number in range(1, len(reports) + 1)))


# Words and files


def inputs_of(program: Program, name: str) -> List[str]:
    """The input lines of a schedule, without stops."""
    data = read_file(name, TEXT_LIMIT)
    try:
        check_schedule(program, data)
    except TextRefused as refused:
        raise ToolError("%s: bad schedule at line %d: %s. %s" % (name, refused.line, refused.cause, refused.detail)) from None
    lines = [" ".join(line.split(b"#")[0].decode("ascii").split()) for line in split_lines(data)]
    inputs = [line.partition(" stop ")[0] for line in lines if line.startswith("input ")]
    if not inputs:
        raise ToolError("%s: it has no input" % name)
    return inputs


def expressions_in(name: str) -> List[str]:
    """The expressions of a file, without comments."""
    lines = read_file(name, TEXT_LIMIT).decode("utf-8", "replace").splitlines()
    return [text for text in (line.split("#")[0].strip() for line in lines) if text]


def numbered(text: str) -> int:
    if not text.isdigit() or not 0 < int(text) <= 10 ** 9:
        raise ValueError(text)
    return int(text)


def parser():
    words = word_parser("chaos", ABOUT, NOTES)
    words.add_argument("scenario", metavar="SCENARIO")
    words.add_argument("inputs", metavar="INPUTS", help="a schedule, of which the inputs are taken")
    words.add_argument("-n", "--runs", type=numbered, default=1000, metavar="N", help="how many schedules; 1000 where it isn't given")
    words.add_argument("-c", "--check", action="append", default=[], metavar="EXPRESSION", help="what must hold behind each run")
    words.add_argument("-f", "--checks", metavar="FILE", help="a file of expressions, one on a line; # begins a comment")
    words.add_argument("-s", "--seed", type=numbered, default=1, metavar="S", help="from which the schedules are drawn")
    words.add_argument("-j", "--jobs", type=numbered, default=len(os.sched_getaffinity(0)), metavar="J",
                       help="how many processes run side by side")
    add_word(words)
    return words


def main(words: Optional[list] = None) -> int:
    given = parser().parse_args(words)
    _, program = load_scenario(given.scenario)
    checks = given.check + ([] if given.checks is None else expressions_in(given.checks))
    task = Task(find_program(given.icrun), os.path.realpath(given.scenario), inputs_of(program, given.inputs), checks, given.seed)
    try:
        for text in task.checks:
            Expression(text)
    except BadExpression as error:
        raise ToolError(str(error)) from None
    begun = time.monotonic()
    done, counts, failed = do_runs(task, given.runs, given.jobs)
    if failed is not None:
        return tell_failure(task, failed)
    told = ["%d %s" % (counts[word], name) for word, name in (
        ("input", "inputs"), ("deliver", "deliveries"), ("lose", "losses"), ("packet", "repeats"), ("checkpoint", "checkpoints"),
        ("crash", "crashes"), ("stop", "stops"), ("resume", "resumes"), ("kill", "kills"))]
    print("%s of %s in %.1f s, none failed: %s." % (count(done, "run"), count(len(task.inputs), "input"), time.monotonic() - begun,
                                                    ", ".join(told)))
    print("This is a sample: other schedules weren't tried.")
    return DONE
