"""A log as a table."""

from __future__ import annotations

import hashlib
import json
import os
import sys
from dataclasses import dataclass
from itertools import islice
from typing import Iterator, Optional

from .common import (ANY_LOG_NAME, BAD, DONE, LOG_LIMIT, STATUSES, ToolError, count, read_file,
                     word_parser)
from .frame import FORMER, Damage, Frame, format_of, has_header, kept_fingerprint, kept_owner, open_slots, walk
from .image import BadImage, image_lines, read_image
from .misfits import is_checkpoint, watch
from .records import CHECKPOINT, Names, NoRecord, Record, bad_slot, end_of_record, read_records, record_words
from .scenario import PCOM, XCOM, Program, load_scenario

ABOUT = """Shows a log of icrun as a table: whose log it is, and which of its slots are open; each record
with its offset, its batch and its fields in words; where the log ends and why; and whether it is
of the scenario. It only reads. Logs of the former format are shown too."""

NOTES = """A log tells the number of its component, and a name like icrun.03.log2 does; where the two differ,
the log is bad. With a scenario, names stand for numbers, and records are looked at that a recovery
would refuse, as far as one log tells it.

""" + STATUSES + """
Status 1 means that the log is bad or foreign."""

AT_ONCE = 1000  # lines that are written together
NEAR_BEFORE = 3  # records before the one that is asked for
DUMP = 16  # bytes that are shown of what can't be read
SLOTS_SHOWN = 8  # of many open slots


@dataclass
class Subject:
    """What is looked at: the file, and what is known of it."""

    name: str
    data: bytes
    scenario: Optional[str]  # the scenario's file
    given: Optional[bytes]  # its fingerprint
    names: Names
    due: Optional[int] = None  # the component whose log it should be, where it is that of another one

    @property
    def owner(self) -> Optional[int]:
        """The component whose log it should be, where that is known."""
        return self.names.own if self.due is None else self.due

    @property
    def kept(self) -> Optional[bytes]:
        return kept_fingerprint(self.data)

    @property
    def is_foreign(self) -> bool:
        return self.given is not None and self.kept is not None and self.kept != self.given


@dataclass(frozen=True)
class Row:
    """A record, and what is to be said of it."""

    record: Record
    misfit: Optional[str] = None  # why it may not stand there, if it is the first such one
    counts: bool = True  # whether its batch is whole


class Reading:
    """The records of a log in order; behind them, how it ends."""

    def __init__(self, subject: Subject) -> None:
        self.subject = subject
        self.frame = Frame(subject.owner)
        self.bad_record: Optional[Damage] = None
        self.bad_slot: Optional[Damage] = None
        self.misfit: Optional[Damage] = None
        self.count = 0

    def rows(self) -> Iterator[Row]:
        """Each record; behind those that count, the ones of a batch that isn't whole."""
        watcher = watch(self.subject.names, self.last_checkpoint())
        for batch in walk(self.subject.data, self.frame):
            if self.bad_record is None:
                yield from self.batch_rows(watcher, batch)
        if self.frame.cut is not None and self.bad_record is None:
            yield from self.cut_rows(self.frame.cut)

    def batch_rows(self, watcher, batch) -> Iterator[Row]:
        try:
            for record in read_records(self.subject.data, batch):
                self.count += 1
                yield Row(record, self.look(watcher, record))
            self.bad_slot = self.bad_slot or bad_slot(batch, record)
        except NoRecord as bad:
            self.bad_record = Damage(bad.args[1], "here begins no whole record: " + bad.args[0])

    def cut_rows(self, batch) -> Iterator[Row]:
        try:
            for record in read_records(self.subject.data, batch):
                yield Row(record, counts=False)
        except NoRecord:
            return

    def look(self, watcher, record: Record) -> Optional[str]:
        if self.misfit is not None:
            return None
        why = watcher.misfit(record)
        if why is not None:
            self.misfit = Damage(record.offset, "the record may not stand here: " + why)
        return why

    def last_checkpoint(self) -> Optional[int]:
        """The offset of the last Checkpoint record, with which a replay begins."""
        if self.subject.names.known(self.subject.names.own) is None:
            return None
        data, last = self.subject.data, None
        for batch in walk(data, Frame()):
            at: Optional[int] = batch.start
            while at is not None and at < batch.end:
                last = at if data[at] == CHECKPOINT else last
                at = end_of_record(data, at)
            if at != batch.end:
                return None
        return last

    @property
    def damage(self) -> Optional[Damage]:
        """What icrun tells: the frame first, then the records, then the slots, then records that may not stand."""
        return self.frame.damage or self.bad_record or self.bad_slot or self.misfit


# Words and files


def parser():
    words = word_parser("showlog", ABOUT, NOTES)
    words.add_argument("log", metavar="LOG", help="a log, such as icrun.00.log2")
    words.add_argument("-s", "--scenario", metavar="SCENARIO", help="the scenario of the run")
    words.add_argument("-c", "--component", metavar="COMPONENT",
                       help="the name or the number of the log's component")
    words.add_argument("--near", metavar="OFFSET", type=int,
                       help="show only what stands near this offset")
    words.add_argument("--json", action="store_true", help="print one JSON object")
    return words


def own_number(program: Optional[Program], given: Optional[str], log: str) -> Optional[int]:
    """The number of the log's component, from the words or from the file's name."""
    if given is None:
        found = ANY_LOG_NAME.match(os.path.basename(log))
        return int(found.group(1)) if found else None
    if given.isascii() and given.isdigit():
        number: Optional[int] = int(given[:9])
    else:
        number = program.numbers.get(given) if program else None
    if number is None or program and (program.component(number) is None
                                      or program.is_kind(number, XCOM)):
        raise ToolError("%s: no component with a log%s" % (
            given, "" if program else ", as far as is known without a scenario"))
    return number


def subject_of(log: str, scenario: Optional[str], component: Optional[str]) -> Subject:
    program = given = None
    if scenario is not None:
        text, program = load_scenario(scenario)
        given = hashlib.sha256(text).digest()
    data = read_file(log, LOG_LIMIT)
    due, own = own_number(program, component, log), kept_owner(data)
    if program is not None:  # an Xcom has no log
        due, own = (None if number is not None and program.is_kind(number, XCOM) else number for number in (due, own))
    subject = Subject(log, data, scenario, given, Names(program, due if own is None else own), due)
    if subject.is_foreign:  # names of another scenario would mislead
        subject.names = Names(None, subject.names.own)
    return subject


# The table


def component_words(subject: Subject) -> str:
    own = subject.names.own
    if own is None:
        return "of an unknown component"
    found = subject.names.known(own)
    if found is None:
        missing = ", which isn't in the scenario" if subject.names.program else ""
        return "component %d%s" % (own, missing)
    return "component %d, %s %s" % (own, found.kind, found.name)


def fingerprint_words(subject: Subject) -> list:
    kept = subject.kept
    if kept is None:
        return ["fingerprint: none, since the header isn't whole"]
    lines = ["fingerprint: " + kept.hex()]
    if subject.given is None:
        lines.append("  not compared: no scenario is given")
    elif subject.given == kept:
        lines.append("  that of %s" % subject.scenario)
    else:
        lines.append("  not that of %s, which is %s" % (subject.scenario, subject.given.hex()))
    return lines


def slot_words(subject: Subject) -> list:
    """Which slots are open, and the gates that they name: the last ones of many."""
    form = format_of(subject.data)
    if not has_header(subject.data) or not form.slots:
        return []
    slots = open_slots(subject.data)
    if not slots:
        return ["open slots: none of %d" % form.slots]
    if len(slots) == 1:
        return ["open slots: 1 of %d; it names the gate at %d" % (form.slots, slots[0])]
    who = "they" if len(slots) <= SLOTS_SHOWN else "the last %d" % SLOTS_SHOWN
    return ["open slots: %d of %d; %s name the gates at %s" % (
        len(slots), form.slots, who, ", ".join(map(str, slots[-SLOTS_SHOWN:])))]


def image_rows(subject: Subject, record: Record) -> list:
    own = subject.names.known(subject.names.own)
    if own is not None and own.kind != PCOM:
        return []
    try:
        return image_lines(subject.names, read_image(record.fields["image"], subject.names))
    except BadImage as bad:
        return ["no image: at %d of its bytes, %s" % (bad.place, bad.cause)]


def row_lines(subject: Subject, row: Row, widths: tuple) -> list:
    record = row.record
    lines = ["%*d  %*d  %-10s  %s" % (widths[0], record.offset, widths[1], record.batch, record.name,
                                      record_words(subject.names, record))]
    if row.misfit is None and row.counts and not is_checkpoint(record):
        return lines
    behind = " " * (sum(widths) + 16)
    if is_checkpoint(record):
        lines += [behind + line for line in image_rows(subject, record)]
    if row.misfit is not None:
        lines.append(behind + "^ may not stand here: " + row.misfit)
    if not row.counts:
        lines.append(behind + "^ doesn't count, since its batch isn't whole")
    return lines


def dump(data: bytes, place: int) -> str:
    piece = data[place:place + DUMP]
    more = " .." if len(data) > place + DUMP else ""
    return " ".join("%02x" % byte for byte in piece) + more


def end_lines(reading: Reading) -> list:
    """Where the log ends and why, and what stands behind."""
    subject, frame = reading.subject, reading.frame
    has = "It has %s and %s." % (count(frame.batches, "whole batch", "whole batches"),
                                 count(reading.count, "record"))
    if subject.is_foreign:
        return foreign_lines(reading, has)
    if reading.damage is None:
        behind = len(subject.data) - frame.gate - 1
        return ["The log ends at %d: the gate there is closed (byte %02x). %s"
                % (frame.gate, subject.data[frame.gate], has),
                "Its size is %s; behind it %s." % (
                    count(frame.gate + 1, "byte"), stand(behind, " and are ignored"))]
    lines = ["The log is bad at %d: %s. %s" % (reading.damage.place, reading.damage.cause, has)]
    behind = max(0, len(subject.data) - reading.damage.place)
    lines.append("From there on %s%s" % (
        stand(behind), "." if not behind else ": " + dump(subject.data, reading.damage.place)))
    lines += further_damage(reading)
    return lines


def stand(number: int, more: str = "") -> str:
    if number == 0:
        return "no byte stands"
    if number == 1:
        return "1 byte stands" + more.replace("are", "is")
    return "%d bytes stand%s" % (number, more)


def foreign_lines(reading: Reading, has: str) -> list:
    damage = reading.damage
    frame = reading.frame
    end = "its gate at %d is closed" % frame.gate if frame.gate is not None else ""
    lines = ["The log is of another scenario, and icrun looks no further."]
    if damage is not None:
        lines.append("Apart from that it is bad at %d: %s. %s" % (damage.place, damage.cause, has))
    else:
        behind = len(reading.subject.data) - frame.gate - 1
        lines.append("Apart from that it is whole: %s. %s Behind it %s." % (
            end, has, stand(behind, " and are ignored")))
    return lines


def further_damage(reading: Reading) -> list:
    """What icrun doesn't tell, since it tells one damage alone."""
    others = [damage for damage in (reading.bad_record, reading.bad_slot, reading.misfit)
              if damage is not None and damage is not reading.damage]
    return ["Besides, at %d: %s." % (damage.place, damage.cause) for damage in others]


def widths_of(subject: Subject) -> tuple:
    return (max(6, len(str(len(subject.data)))), max(5, len(str(len(subject.data) // 6))))


def table_lines(reading: Reading, near: Optional[int] = None) -> Iterator[str]:
    subject = reading.subject
    widths = widths_of(subject)
    former = ", of the former format" if format_of(subject.data) is FORMER else ""
    yield "log %s: %s%s, %s" % (subject.name, size_words(subject), former, component_words(subject))
    yield from fingerprint_words(subject)
    yield from slot_words(subject)
    yield ""
    yield "%*s  %*s  %-10s  %s" % (widths[0], "offset", widths[1], "batch", "record", "fields")
    for row in reading.rows() if near is None else near_rows(reading, near):
        yield from row_lines(subject, row, widths)
    yield ""
    yield from end_lines(reading)


def size_words(subject: Subject) -> str:
    size = len(subject.data)
    limit = format_of(subject.data).limit
    return count(size, "byte") if size <= limit else "more than %d bytes" % limit


def near_rows(reading: Reading, near: int) -> Iterator[Row]:
    """The record at or before an offset, the few before it, and one behind it."""
    before: list = []
    behind = 0
    for row in reading.rows():
        if row.record.end <= near:
            before = (before + [row])[-NEAR_BEFORE:]
        elif behind < 2:
            yield from before
            before = []
            behind += 1
            yield row
    yield from before


# JSON


def row_json(subject: Subject, row: Row) -> dict:
    record = row.record
    fields = dict(record.fields)
    if is_checkpoint(record):
        fields["image"] = image_json(subject, record)
    return {"offset": record.offset, "bytes": record.end - record.offset,
            "batch": record.batch, "record": record.name, "fields": fields,
            "words": record_words(subject.names, record), "counts": row.counts,
            "misfit": row.misfit}


def image_json(subject: Subject, record: Record) -> dict:
    data = record.fields["image"]
    own = subject.names.known(subject.names.own)
    try:
        if own is not None and own.kind != PCOM:
            raise BadImage(0, "the component is no Pcom")
        return {"bytes": len(data), "values": read_image(data, subject.names)}
    except BadImage as bad:
        return {"bytes": len(data), "bad": {"place": bad.place, "cause": bad.cause}}


def head_json(subject: Subject) -> dict:
    own = subject.names.known(subject.names.own)
    return {"log": subject.name, "bytes": len(subject.data),
            "format": 1 if format_of(subject.data) is FORMER else 2, "owner": kept_owner(subject.data), "slots": open_slots(subject.data),
            "component": subject.names.own,
            "name": own.name if own else None,
            "kind": own.kind if own else None,
            "fingerprint": {"kept": subject.kept.hex() if subject.kept is not None else None,
                            "given": subject.given.hex() if subject.given is not None else None,
                            "foreign": subject.is_foreign}}


def end_json(reading: Reading) -> dict:
    subject, damage, gate = reading.subject, reading.damage, reading.frame.gate
    end = {"batches": reading.frame.batches, "records": reading.count, "gate": gate,
           "size": None if gate is None else gate + 1, "bad": None}
    if damage is not None:
        end["bad"] = {"place": damage.place, "cause": damage.cause}
    place = gate + 1 if damage is None else damage.place
    end["bytes_behind"] = max(0, len(subject.data) - place)
    return end


def json_lines(reading: Reading, near: Optional[int] = None) -> Iterator[str]:
    """One object, with a line for each record, so that a long log takes little memory."""
    subject = reading.subject
    yield json.dumps(head_json(subject))[:-1] + ', "records": ['
    comma = ""
    for row in reading.rows() if near is None else near_rows(reading, near):
        yield comma + json.dumps(row_json(subject, row))
        comma = ","
    yield '], "end": %s}' % json.dumps(end_json(reading))


def show(subject: Subject, as_json: bool, near: Optional[int]) -> int:
    reading = Reading(subject)
    lines = (json_lines if as_json else table_lines)(reading, near)
    while True:
        some = list(islice(lines, AT_ONCE))
        if not some:
            break
        sys.stdout.write("\n".join(some) + "\n")
    return BAD if subject.is_foreign or reading.damage is not None else DONE


def main(words: Optional[list] = None) -> int:
    given = parser().parse_args(words)
    return show(subject_of(given.log, given.scenario, given.component), given.json, given.near)
