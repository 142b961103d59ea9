"""The frame of a log: its header with the directory, its gates and its batches. A log is of the present format or of the former
one, as its letters say."""

from __future__ import annotations

from dataclasses import dataclass, field
from struct import Struct
from typing import Iterator, List, NamedTuple, Optional

from .common import FORMER_LIMIT, LOG_LIMIT, count

LENGTH = Struct(">I")  # of a batch
FINGERPRINT = 8  # its offset
OWNER = 40  # the offset of the component's number
FIRST_SLOT, SLOT, SLOTS = 41, Struct(">BQ"), 1024  # where the slots stand, how one is read, and how many there are


class Format(NamedTuple):
    """A format of logs."""

    letters: bytes
    header: int  # bytes before the first gate
    limit: int  # bytes of a log
    slots: int  # of its directory

    @property
    def fresh(self) -> int:
        """Bytes of a log without a record; a record needs more."""
        return self.header + 1


FORMER = Format(b"ICLOG001", 40, FORMER_LIMIT, 0)
PRESENT = Format(b"ICLOG002", FIRST_SLOT + SLOTS * SLOT.size, LOG_LIMIT, SLOTS)


class Batch(NamedTuple):
    number: int  # from 1
    start: int  # offset of its payload in the file
    end: int  # offset of the gate behind it
    slot: Optional[int] = None  # the number of the slot that names it

    @property
    def gate(self) -> int:
        return self.start - 5


@dataclass(frozen=True)
class Damage:
    """Where a log is bad, and why."""

    place: int
    cause: str


@dataclass
class Frame:
    """What reading a frame came to: the closed gate, or a damage."""

    owner: Optional[int] = None  # the component whose log it should be, where that is known
    gate: Optional[int] = None
    damage: Optional[Damage] = None
    batches: int = 0
    cut: Optional[Batch] = None  # what is there of a batch that isn't whole
    slots: List[int] = field(default_factory=list)  # the offsets in the open slots


def format_of(data: bytes) -> Format:
    """The format of a file: the former one where its letters stand there."""
    return FORMER if data.startswith(FORMER.letters) else PRESENT


def has_header(data: bytes) -> bool:
    """Whether the file is long enough, not too long, and begins with the eight letters."""
    form = format_of(data)
    return form.header <= len(data) <= form.limit and data.startswith(form.letters)


def kept_fingerprint(data: bytes) -> Optional[bytes]:
    return data[FINGERPRINT:OWNER] if has_header(data) else None


def kept_owner(data: bytes) -> Optional[int]:
    """The number of the component whose log it is. The former format doesn't tell it."""
    return data[OWNER] if has_header(data) and format_of(data) is PRESENT else None


def slot_place(number: int) -> int:
    return FIRST_SLOT + SLOT.size * number


def open_slots(data: bytes) -> List[int]:
    """The offsets in the slots up to the first that isn't open."""
    found: List[int] = []
    if has_header(data):
        for number in range(format_of(data).slots):
            gate, offset = SLOT.unpack_from(data, slot_place(number))
            if gate != 1:
                break
            found.append(offset)
    return found


def header_damage(data: bytes) -> Optional[Damage]:
    form = format_of(data)
    if len(data) > form.limit:
        return Damage(form.limit, "the file is longer than %d bytes" % form.limit)
    for place, letter in enumerate(form.letters[:len(data)]):
        if data[place] != letter:
            return Damage(place, "here stands the byte %02x, and a log begins with the letters "
                          "`%s`" % (data[place], form.letters.decode("ascii")))
    if len(data) < form.header:
        return Damage(len(data), "the file ends inside the header of %d bytes" % form.header)
    return None


def owner_damage(data: bytes, owner: Optional[int]) -> Optional[Damage]:
    kept = kept_owner(data)
    if owner is None or kept is None or kept == owner:
        return None
    return Damage(OWNER, "it is the log of component %d, and not of component %d" % (kept, owner))


def walk(data: bytes, frame: Frame) -> Iterator[Batch]:
    """The batches in order. What ends them stands in `frame` afterwards."""
    frame.slots = open_slots(data)
    frame.damage = header_damage(data) or owner_damage(data, frame.owner)
    gate, size, named = format_of(data).header, len(data), 0
    while frame.damage is None:
        if gate >= len(data):
            frame.damage = Damage(len(data), "the file ends where a gate is due")
        elif data[gate] != 1:
            frame.gate = gate
            frame.damage = slot_damage(frame.slots, named)
            return
        elif gate + 5 <= size and 0 < LENGTH.unpack_from(data, gate + 1)[0] <= size - gate - 5:
            frame.batches += 1
            is_named = named < len(frame.slots) and frame.slots[named] == gate
            start = gate + 5
            gate = start + LENGTH.unpack_from(data, gate + 1)[0]
            yield Batch(frame.batches, start, gate, named if is_named else None)
            named += is_named
        else:
            set_damage(data, gate, frame)


def slot_damage(slots: List[int], named: int) -> Optional[Damage]:
    """The batches went by in order: this many slots, one behind the other, name one of them."""
    if named == len(slots):
        return None
    return Damage(slot_place(named), "slot %d names the gate at %d, where no batch begins behind that of the slot before"
                  % (named, slots[named]))


def set_damage(data: bytes, gate: int, frame: Frame) -> None:
    """Why no whole batch stands behind an open gate."""
    number, start = frame.batches + 1, gate + 5
    if start > len(data):
        frame.damage = Damage(len(data), "the file ends inside the length of batch %d" % number)
        return
    length = int.from_bytes(data[gate + 1:start], "big")
    if length == 0:
        frame.damage = Damage(gate + 1, "the length of batch %d is 0" % number)
        return
    frame.damage = Damage(len(data), "the file ends inside batch %d, of which %s of %d are there"
                          % (number, count(len(data) - start, "byte"), length))
    frame.cut = Batch(number, start, len(data))
