"""Records: from bytes to fields, and from fields to words."""

from __future__ import annotations

from dataclasses import dataclass
from struct import Struct
from typing import Iterator, Optional

from .common import COMPONENT_LIMIT, NUMBER_LIMIT, VALUES_LIMIT
from .frame import Batch, Damage, slot_place
from .scenario import Component, Program

WRITES_LIMIT = 256
CHECKPOINT = 8

KINDS = {
    1: "Take",
    2: "TakeWhole",
    3: "Input",
    4: "Value",
    5: "Outcome",
    6: "Released",
    7: "Shown",
    8: "Checkpoint",
    9: "Epoch",
    10: "Decided",
}
FIELDS = {  # their names with how each is read
    1: (("from", "component"), ("k", "counted"), ("stamp", "number")),
    2: (("from", "component"), ("k", "counted"), ("stamp", "number"), ("handler", "u8"),
        ("values", "values")),
    3: (("stamp", "number"), ("handler", "u8"), ("values", "values")),
    4: (("n", "counted"), ("place", "u16"), ("epoch", "number"), ("counter", "number"),
        ("value", "i64")),
    5: (("stamp", "number"), ("n", "counted"), ("ending", "ending")),
    6: (("to", "component"), ("k", "counted")),
    7: (("m", "counted"),),
    8: (("image", "image"),),
    9: (("epoch", "number"),),
    10: (("stamp", "number"), ("c", "component"), ("n", "counted"), ("writes", "writes")),
}


class NoRecord(Exception):
    """The bytes begin no whole record, for this cause."""


class Cursor:
    """Reads the fields of a record from an offset on, up to the end of the batch."""

    def __init__(self, data: bytes, at: int, end: int) -> None:
        self.data = data
        self.at = at
        self.end = end

    def raw(self, length: int) -> bytes:
        if self.at + length > self.end:
            raise NoRecord("the batch ends at %d, inside the record" % self.end)
        self.at += length
        return self.data[self.at - length:self.at]

    def unsigned(self, width: int) -> int:
        return int.from_bytes(self.raw(width), "big")

    def u8(self, _: str) -> int:
        return self.unsigned(1)

    def u16(self, _: str) -> int:
        return self.unsigned(2)

    def u32(self, _: str) -> int:
        return self.unsigned(4)

    def i64(self, _: str) -> int:
        return int.from_bytes(self.raw(8), "big", signed=True)

    def component(self, name: str) -> int:
        value = self.unsigned(1)
        if value >= COMPONENT_LIMIT:
            raise NoRecord("its `%s` is component %d, and numbers of components are below %d"
                           % (name, value, COMPONENT_LIMIT))
        return value

    def number(self, name: str, least: int = 0) -> int:
        value = self.unsigned(8)
        if not least <= value <= NUMBER_LIMIT:
            raise NoRecord("its `%s` is %d, and goes from %d to %d"
                           % (name, value, least, NUMBER_LIMIT))
        return value

    def counted(self, name: str) -> int:
        return self.number(name, 1)

    def values(self, _: str) -> list:
        length = self.unsigned(1)
        if length > VALUES_LIMIT:
            raise NoRecord("it has %d values, and at most %d are allowed"
                           % (length, VALUES_LIMIT))
        return [self.i64("") for _ in range(length)]

    def ending(self, _: str) -> dict:
        """How a transaction ended."""
        word = self.unsigned(1)
        if word == 0:
            return {"end": "committed"}
        if word == 1:
            return {"end": "need", "line": self.unsigned(4)}
        if word == 2:
            return {"end": "held", "holder": self.component("holder"), "n": self.counted("n")}
        if word == 3:
            return {"end": "epoch", "old": self.number("old"),
                    "present": self.number("present")}
        raise NoRecord("its ending has the first byte %d, and 0 to 3 are endings" % word)

    def writes(self, _: str) -> list:
        length = self.unsigned(2)
        if length > WRITES_LIMIT:
            raise NoRecord("it has %d writes, and at most %d are allowed"
                           % (length, WRITES_LIMIT))
        return [{"key": self.unsigned(2), "value": self.i64("")} for _ in range(length)]

    def image(self, _: str) -> bytes:
        return self.raw(self.unsigned(4))


@dataclass
class Record:
    kind: int
    fields: dict
    offset: int  # in the file
    end: int
    batch: int

    @property
    def name(self) -> str:
        return KINDS[self.kind]


FIXED = {  # kinds whose fields have a fixed length: how they are unpacked, their names, and their least values
    1: (Struct(">xBQQ"), ("from", "k", "stamp"), (0, 1, 0)),
    4: (Struct(">xQHQQq"), ("n", "place", "epoch", "counter", "value"), (1, 0, 0, 0, None)),
    6: (Struct(">xBQ"), ("to", "k"), (0, 1)),
    7: (Struct(">xQ"), ("m",), (1,)),
    9: (Struct(">xQ"), ("epoch",), (0,)),
}
INPUT, INPUT_HEAD = 3, Struct(">xQBB")
VALUES = [Struct(">%dq" % length) for length in range(VALUES_LIMIT + 1)]


def quick_fields(kind: int, data: bytes, at: int, end: int) -> Optional[tuple]:
    """The fields and the end of a record of the frequent kinds, or None where it is another one or its bytes are none."""
    if kind == INPUT and at + INPUT_HEAD.size <= end:
        stamp, handler, length = INPUT_HEAD.unpack_from(data, at)
        behind = at + INPUT_HEAD.size + 8 * length
        if stamp > NUMBER_LIMIT or length > VALUES_LIMIT or behind > end:
            return None
        return {"stamp": stamp, "handler": handler, "values": list(VALUES[length].unpack_from(data, behind - 8 * length))}, behind
    layout = FIXED.get(kind)
    if layout is None or at + layout[0].size > end:
        return None
    form, names, least = layout
    values = form.unpack_from(data, at)
    for value, low in zip(values, least):
        if low is not None and not low <= value <= NUMBER_LIMIT:
            return None
    if kind in (1, 6) and values[0] >= COMPONENT_LIMIT:
        return None
    return dict(zip(names, values)), at + form.size


SIZES = {kind: layout[0].size for kind, layout in FIXED.items()}
COUNTED = {2: (20, 19, 1, 8), 3: (11, 10, 1, 8), 8: (5, 1, 4, 1), 10: (20, 18, 2, 10)}  # head, count's offset and width, size of each
ENDINGS = {0: 18, 1: 22, 2: 27, 3: 34}  # sizes of an Outcome, by its ending


def end_of_record(data: bytes, at: int) -> Optional[int]:
    """Where a record ends, by its kind and its counts alone, or None where that isn't told."""
    kind = data[at]
    size = SIZES.get(kind)
    if size is None and kind in COUNTED:
        head, place, width, each = COUNTED[kind]
        size = head + each * int.from_bytes(data[at + place:at + place + width], "big")
    elif size is None and kind == 5:
        size = ENDINGS.get(int.from_bytes(data[at + 17:at + 18], "big"))
    return None if size is None else at + size


def read_record(data: bytes, at: int, end: int, batch: int) -> Record:
    quick = quick_fields(data[at], data, at, end)
    if quick is not None:
        return Record(data[at], quick[0], at, quick[1], batch)
    cursor = Cursor(data, at, end)
    kind = cursor.unsigned(1)
    if kind not in KINDS:
        raise NoRecord("the byte %02x is no kind of record" % kind)
    fields = {name: getattr(cursor, how)(name) for name, how in FIELDS[kind]}
    return Record(kind, fields, at, cursor.at, batch)


def read_records(data: bytes, batch: Batch) -> Iterator[Record]:
    """The records of a batch. Where none begins, `NoRecord` comes with its place as second
    argument."""
    at = batch.start
    while at < batch.end:
        try:
            record = read_record(data, at, batch.end, batch.number)
        except NoRecord as bad:
            raise NoRecord(str(bad), at) from None
        yield record
        at = record.end


def bad_slot(batch: Batch, last: Record) -> Optional[Damage]:
    """A batch that a slot names ends with a Checkpoint record."""
    if batch.slot is None or last.kind == CHECKPOINT:
        return None
    return Damage(slot_place(batch.slot), "slot %d names the gate at %d, whose batch doesn't end with a Checkpoint record"
                  % (batch.slot, batch.gate))


class Names:
    """What numbers stand for: names, where the scenario and the log's component are known."""

    def __init__(self, program: Optional[Program] = None, own: Optional[int] = None) -> None:
        self.program = program
        self.own = own

    def known(self, number: Optional[int]) -> Optional[Component]:
        if self.program is None or number is None:
            return None
        return self.program.component(number)

    def component(self, number: int) -> str:
        found = self.known(number)
        if found is not None:
            return found.name
        return "component %d" % number

    def values(self, values: list) -> str:
        return " ".join(str(value) for value in values) if values else "no values"

    def call(self, owner: Optional[int], handler: int, values: list) -> str:
        """A handler with the values that are handed to it."""
        found = self.known(owner)
        if found is None or handler >= len(found.handlers):
            return "handler %d, %s" % (handler, self.values(values))
        known = found.handlers[handler]
        if len(known.params) != len(values):
            return "%s, %s" % (known.name, self.values(values))
        return " ".join([known.name] + ["%s=%d" % pair for pair in zip(known.params, values)])

    def cell(self, number: int) -> str:
        """A variable of a Pcom, or a key of a Tcom, of the log's component."""
        found = self.known(self.own)
        if found is not None and number < len(found.cells):
            return found.cells[number]
        return str(number)

    def cells(self, pairs) -> str:
        return " ".join("%s=%d" % (self.cell(number), value) for number, value in pairs)


def ending_words(names: Names, ending: dict) -> str:
    if ending["end"] == "committed":
        return "committed"
    if ending["end"] == "need":
        return "aborted: the `need` of line %d failed" % ending["line"]
    if ending["end"] == "held":
        return "aborted: a key was held by transaction %d of %s" % (
            ending["n"], names.component(ending["holder"]))
    return "aborted: its session is of epoch %d, and the present one is %d" % (
        ending["old"], ending["present"])


def record_words(names: Names, record: Record) -> str:
    """The fields of a record in words."""
    f = record.fields
    kind = record.name
    if kind == "Take":
        return "stamp %d, message %d from %s" % (f["stamp"], f["k"], names.component(f["from"]))
    if kind == "TakeWhole":
        return "stamp %d, message %d from %s: %s" % (
            f["stamp"], f["k"], names.component(f["from"]),
            names.call(names.own, f["handler"], f["values"]))
    if kind == "Input":
        return "stamp %d: %s" % (f["stamp"], names.call(names.own, f["handler"], f["values"]))
    if kind == "Value":
        return "transaction %d, place %d, session %d of epoch %d: value %d" % (
            f["n"], f["place"], f["counter"], f["epoch"], f["value"])
    if kind == "Outcome":
        return "stamp %d, transaction %d %s" % (f["stamp"], f["n"],
                                                ending_words(names, f["ending"]))
    if kind == "Released":
        return "message %d to %s" % (f["k"], names.component(f["to"]))
    if kind == "Shown":
        return "output %d" % f["m"]
    if kind == "Checkpoint":
        return "an image of %d bytes" % len(f["image"])
    if kind == "Epoch":
        return "epoch %d" % f["epoch"]
    writes = names.cells([(w["key"], w["value"]) for w in f["writes"]]) or "no writes"
    return "stamp %d, transaction %d of %s committed: %s" % (
        f["stamp"], f["n"], names.component(f["c"]), writes)
