"""The merged history of all logs with contents: who took what from whom, what changed, what was sent and shown."""

from __future__ import annotations

import csv
import hashlib
import json
import os
import sys
from dataclasses import dataclass
from typing import Dict, Iterator, List, Optional, Tuple

from .common import BAD, DONE, LOG_LIMIT, ToolError, read_file, word_parser
from .frame import Frame, kept_fingerprint, walk
from .program import log_path
from .records import Names, NoRecord, Record, bad_slot, ending_words, read_records
from .scenario import PCOM, XCOM, Component, Program, load_scenario
from .world import Illegal, Step, World

ABOUT = """Shows the merged history of the logs of a scenario with contents: each input and message with its
values and its sender, what it changed, sent and showed, each commit with the ledger before and
after, and each abort with its cause. The last lines are those of `icrun audit`. It only reads."""
NOTES = """exit status:
  0  done, and the history is legal
  1  a log is bad or foreign, or an entry may not come where it stands
  2  the words are wrong, or a file can't be used"""
TABLES = ("ledgers", "outputs")


@dataclass(frozen=True)
class Entry:
    """A record that counts in the history."""

    stamp: int
    com: int
    record: Record


@dataclass
class Told:
    """An entry in words and numbers, and what it did."""

    number: int
    stamp: int
    com: str
    kind: str  # input, take, abort or commit
    by: str  # the sender of a message, the Pcom of a commit
    n: int  # of the message or the transaction, else 0
    handler: str
    values: List[int]
    cause: str
    step: Step


def log_of(folder: str, number: int) -> str:
    return log_path(folder, "icrun", number)


def entries(program: Program, given: bytes, folder: str) -> List[Entry]:
    """The entries of all logs in order of stamp and component. A log that is foreign or bad is refused."""
    found: List[Entry] = []
    for number, com in enumerate(program.components):
        if com.kind != XCOM:
            found += [Entry(record.fields["stamp"], number, record)
                      for record in records_of(log_of(folder, number), number, com, given) if is_entry(record)]
    return sorted(found, key=lambda entry: (entry.stamp, entry.com))


def records_of(log: str, number: int, com: Component, given: bytes) -> Iterator[Record]:
    data = read_file(log, LOG_LIMIT)
    kept = kept_fingerprint(data)
    if kept is not None and kept != given:
        raise ToolError("%s: the log of `%s` is of another scenario" % (log, com.name), BAD)
    frame, slot = Frame(number), None
    try:
        for batch in walk(data, frame):
            for record in read_records(data, batch):
                yield record
            slot = slot or bad_slot(batch, record)
    except NoRecord as bad:
        raise ToolError("%s: bad at %d: here begins no whole record: %s" % (log, bad.args[1], bad.args[0]), BAD) from None
    damage = frame.damage or slot
    if damage is not None:
        raise ToolError("%s: bad at %d: %s" % (log, damage.place, damage.cause), BAD)


def is_entry(record: Record) -> bool:
    """Inputs, receipts and aborts of a Pcom, commits of a Tcom."""
    if record.name == "Outcome":
        return record.fields["ending"]["end"] != "committed"
    return "stamp" in record.fields


class History:
    """Plays the entries one after another."""

    def __init__(self, program: Program, found: List[Entry]) -> None:
        self.program = program
        self.entries = found
        self.world = World(program)
        self.illegal = ""

    def told(self) -> Iterator[Told]:
        """Each entry, up to the first that may not come there."""
        for number, entry in enumerate(self.entries):
            try:
                yield self.play(number, entry)
            except Illegal as why:
                self.illegal = "illegal history at entry %d: %s" % (number, why)
                return

    def component(self, number: int) -> Component:
        found = self.program.component(number)
        if found is None:
            raise Illegal("there is no component %d" % number)
        return found

    def play(self, number: int, entry: Entry) -> Told:
        com, f, kind = self.component(entry.com), entry.record.fields, entry.record.name
        told = Told(number, entry.stamp, com.name, "input", "", 0, "", [], "", Step())
        if kind == "Input":
            told.handler, told.values, told.step = self.world.input(com, f["handler"], f["values"])
        elif kind in ("Take", "TakeWhole"):
            sender = self.component(f["from"])
            told.kind, told.by, told.n = "take", sender.name, f["k"]
            told.handler, told.values, told.step = self.world.take(com, sender, f["k"])
        elif kind == "Outcome":
            told.kind, told.n, told.cause = "abort", f["n"], ending_words(Names(self.program, entry.com), f["ending"])
            told.by = self.world.in_hand[com.name].asked if com.name in self.world.in_hand else ""
            told.step = self.world.abort(com, f["n"])
        else:
            pcom = self.component(f["c"])
            told.kind, told.by, told.n = "commit", pcom.name, f["n"]
            told.step = self.world.commit(com, pcom, f["n"])
        return told

    def end_lines(self) -> List[str]:
        """Those of an audit."""
        return self.world.summary() + ["outputs %d" % self.world.outputs, "history %d" % len(self.entries), "legal"]


def open_history(scenario: str, folder: str) -> History:
    text, program = load_scenario(scenario)
    return History(program, entries(program, hashlib.sha256(text).digest(), folder))


# What no audit looks at


def doubts(history: History, scenario: str, folder: str) -> List[str]:
    """Records that those of the other logs contradict. The history has been played."""
    text, program = load_scenario(scenario)
    given = hashlib.sha256(text).digest()
    found: List[str] = []
    decided = {(entry.record.fields["c"], entry.record.fields["n"]) for entry in history.entries if entry.record.name == "Decided"}
    for number, com in enumerate(program.components):
        if com.kind != PCOM:
            continue
        log = log_of(folder, number)
        for record in records_of(log, number, com, given):
            why = doubt(history, program, decided, number, record)
            if why is not None:
                found.append("%s at %d: %s" % (log, record.offset, why))
    return found


def doubt(history: History, program: Program, decided: set, number: int, record: Record) -> Optional[str]:
    own, f = program.components[number].name, record.fields
    if record.name == "Released":
        to = program.components[f["to"]].name if f["to"] < len(program.components) else str(f["to"])
        if (own, to, f["k"]) not in history.world.taken:
            return "message %d to %s is told as installed, and the log of %s has no receipt of it" % (f["k"], to, to)
    if record.name == "Shown" and f["m"] > history.world.made.get(own, 0):
        return "output %d was shown, and %d were made" % (f["m"], history.world.made.get(own, 0))
    if record.name == "Outcome" and f["ending"]["end"] == "committed" and (number, f["n"]) not in decided:
        return "transaction %d is told as committed, and no log decides it" % f["n"]
    return None


# Words


def call_words(program: Program, told: Told) -> str:
    com = program.named(told.com)
    handler = com.handler(told.handler) if com else None
    return " ".join([told.handler] + ["%s=%d" % pair for pair in zip(handler.params if handler else [], told.values)])


def head_words(program: Program, told: Told) -> str:
    if told.kind == "input":
        return "input " + call_words(program, told)
    if told.kind == "take":
        return "message %d from %s: %s" % (told.n, told.by, call_words(program, told))
    if told.kind == "abort":
        return "transaction %d at %s %s" % (told.n, told.by, told.cause)
    return "transaction %d of %s committed" % (told.n, told.by)


def change_lines(told: Told) -> List[str]:
    """What changed, a line for each component."""
    of: Dict[str, Dict[str, Tuple[int, int]]] = {}
    for change in told.step.changes:
        cells = of.setdefault(change.com, {})
        old = cells[change.cell][0] if change.cell in cells else change.old
        cells[change.cell] = (old, change.new)
    return ["%s: %s" % (com, ", ".join("%s %d -> %d" % (cell, old, new) for cell, (old, new) in cells.items()))
            for com, cells in of.items()]


def step_lines(told: Told) -> List[str]:
    step = told.step
    lines = change_lines(told)
    lines += ["sends %s message %d: %s" % (to, k, " ".join([handler] + list(map(str, values))))
              for to, k, handler, values in step.sent]
    lines += ["shows %s: %s (output %d)" % (to, " ".join(map(str, values)) or "no values", m) for to, m, values in step.shown]
    return lines + (["asks %s for a transaction" % step.asks] if step.asks else [])


def text_lines(history: History) -> Iterator[str]:
    width = max([len(com.name) for com in history.program.components] + [9])
    yield "entry  stamp  %-*s  what" % (width, "component")
    for told in history.told():
        yield "%5d  %5d  %-*s  %s" % (told.number, told.stamp, width, told.com, head_words(history.program, told))
        for line in step_lines(told):
            yield " " * (16 + width) + line
    yield ""
    yield from [history.illegal] if history.illegal else history.end_lines()


def told_json(told: Told) -> dict:
    step = told.step
    return {"entry": told.number, "stamp": told.stamp, "component": told.com, "kind": told.kind, "by": told.by or None,
            "number": told.n or None, "handler": told.handler or None, "values": told.values, "cause": told.cause or None,
            "changes": [{"component": it.com, "name": it.cell, "before": it.old, "after": it.new} for it in step.changes],
            "sends": [{"to": to, "number": k, "handler": handler, "values": values} for to, k, handler, values in step.sent],
            "shows": [{"to": to, "number": m, "values": values} for to, m, values in step.shown], "asks": step.asks or None}


def json_lines(history: History) -> Iterator[str]:
    yield '{"history": ['
    comma = ""
    for told in history.told():
        yield comma + json.dumps(told_json(told))
        comma = ","
    yield '], "values": %s, "outputs": %d, "illegal": %s}' % (
        json.dumps({com.name: history.world.values[com.name] for com in history.program.components if com.kind != XCOM}),
        history.world.outputs, json.dumps(history.illegal or None))


def write_table(history: History, table: str) -> None:
    out = csv.writer(sys.stdout, lineterminator="\n")
    if table == "ledgers":
        out.writerow(["entry", "stamp", "tcom", "key", "before", "after", "pcom", "transaction"])
    else:
        out.writerow(["entry", "stamp", "pcom", "xcom", "output", "values"])
    for told in history.told():
        if table == "ledgers" and told.kind == "commit":
            out.writerows([told.number, told.stamp, told.com, it.cell, it.old, it.new, told.by, told.n]
                          for it in told.step.changes if it.com == told.com)
        elif table == "outputs":
            pcom = told.by if told.kind == "commit" else told.com
            out.writerows([told.number, told.stamp, pcom, to, m] + values for to, m, values in told.step.shown)


def parser():
    words = word_parser("history", ABOUT, NOTES)
    words.add_argument("scenario", metavar="SCENARIO")
    words.add_argument("folder", metavar="FOLDER", nargs="?", default=".", help="the folder of the logs; this one, where it isn't given")
    forms = words.add_mutually_exclusive_group()
    forms.add_argument("--json", action="store_true", help="print one JSON object")
    forms.add_argument("--doubt", action="store_true", help="print what no audit looks at, and nothing else")
    forms.add_argument("--csv", choices=TABLES, help="print the changes of the ledgers, or the outputs, as a table")
    return words


def tell_doubts(history: History, scenario: str, folder: str) -> int:
    """Status 1 where there is one."""
    for _ in history.told():
        pass
    found = [history.illegal] if history.illegal else doubts(history, scenario, folder)
    for line in found or ["no doubt"]:
        print(line)
    return BAD if found else DONE


def main(words: Optional[list] = None) -> int:
    given = parser().parse_args(words)
    history = open_history(given.scenario, given.folder)
    if given.doubt:
        return tell_doubts(history, given.scenario, given.folder)
    if given.csv:
        write_table(history, given.csv)
    else:
        for line in (json_lines if given.json else text_lines)(history):
            print(line)
    if history.illegal and (given.csv or given.json):
        raise ToolError(history.illegal, BAD)
    return BAD if history.illegal else DONE
