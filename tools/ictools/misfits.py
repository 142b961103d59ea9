"""Records that may not stand where they stand, as far as one log and the scenario tell it.

What hangs on playing a handler isn't tested here: a recovery may refuse more.
"""

from __future__ import annotations

from typing import Optional

from .image import BadImage, read_image
from .records import CHECKPOINT, Names, Record
from .scenario import PCOM, TCOM


class TcomLog:
    """What the log of a Tcom has come to."""

    def __init__(self, names: Names) -> None:
        self.names = names
        self.clock = 0
        self.epoch = 1
        self.decided: set = set()

    def misfit(self, record: Record) -> Optional[str]:
        """Why the record may not stand here, or None; then it counts."""
        fields = record.fields
        if record.name == "Epoch":
            if fields["epoch"] != self.epoch + 1:
                return "epoch %d was due here" % (self.epoch + 1)
            self.epoch += 1
            return None
        if record.name != "Decided":
            return "the log of a Tcom has Epoch and Decided records alone"
        return self.decided_misfit(fields)

    def decided_misfit(self, fields: dict) -> Optional[str]:
        own = self.names.known(self.names.own)
        pair = (fields["c"], fields["n"])
        if fields["stamp"] <= self.clock:
            return "its stamp isn't above the clock, which is %d" % self.clock
        if pair in self.decided:
            return "this transaction is decided already"
        if not self.names.program.is_kind(fields["c"], PCOM):
            return "`c` is component %d, which is no Pcom" % fields["c"]
        keys = len(own.cells)
        if any(write["key"] >= keys for write in fields["writes"]):
            return "it writes a key that the Tcom hasn't"
        self.clock = fields["stamp"]
        self.decided.add(pair)
        return None


class PcomLog:
    """What the log of a Pcom has come to, from its last checkpoint on."""

    def __init__(self, names: Names, last_checkpoint: Optional[int]) -> None:
        self.names = names
        self.own = names.known(names.own)
        self.begins = last_checkpoint  # the offset of the record with which a replay begins
        self.clock = 0
        self.taken: set = set()  # (from, k)
        self.released: set = set()  # (to, k)
        self.begun = 0  # transactions that ended
        self.place = 0  # of the next answer; above 0 while a transaction is open
        self.session: Optional[tuple] = None
        self.image: Optional[dict] = None
        self.shown = 0  # outputs shown behind the last checkpoint

    def misfit(self, record: Record) -> Optional[str]:
        """Why the record may not stand here, or None; then it counts."""
        if self.begins is not None and record.offset < self.begins:
            return None
        if record.name in ("Epoch", "Decided"):
            return "the log of a Pcom has no such record"
        stamp = record.fields.get("stamp")
        if stamp is not None and stamp <= self.clock:
            return "its stamp isn't above the clock, which is %d" % self.clock
        why = getattr(self, "check_" + record.name.lower())(record.fields)
        if why is None and stamp is not None:
            self.clock = stamp
        return why

    def check_free(self) -> Optional[str]:
        if self.place:
            return "transaction %d isn't ended, so a message is in hand" % (self.begun + 1)
        return None

    def check_receipt(self, fields: dict, whole: bool) -> Optional[str]:
        sender, k = fields["from"], fields["k"]
        if self.own.immediate != whole:
            return "receipts of this Pcom are %s records" % ("Take" if whole else "TakeWhole")
        if not self.names.program.is_kind(sender, PCOM) or sender == self.names.own:
            return "`from` is component %d, which is no other Pcom" % sender
        if (sender, k) in self.taken or self.is_taken_in_image(sender, k):
            return "this message is taken already"
        self.taken.add((sender, k))
        return None

    def is_taken_in_image(self, sender: int, k: int) -> bool:
        if self.image is None:
            return False
        return any(s["from"] == sender and (k <= s["up_to"] or k in s["above"])
                   for s in self.image["senders"])

    def check_call(self, fields: dict) -> Optional[str]:
        handlers = self.own.handlers
        if fields["handler"] >= len(handlers):
            return "the component has no handler %d" % fields["handler"]
        wanted = len(handlers[fields["handler"]].params)
        if len(fields["values"]) != wanted:
            return "the handler has %d parameters, and the record %d values" % (
                wanted, len(fields["values"]))
        return None

    def check_take(self, fields: dict) -> Optional[str]:
        return self.check_free() or self.check_receipt(fields, False)

    def check_takewhole(self, fields: dict) -> Optional[str]:
        return self.check_free() or self.check_call(fields) or self.check_receipt(fields, True)

    def check_input(self, fields: dict) -> Optional[str]:
        return self.check_free() or self.check_call(fields)

    def check_value(self, fields: dict) -> Optional[str]:
        session = (fields["epoch"], fields["counter"])
        if (fields["n"], fields["place"]) != (self.begun + 1, self.place):
            return "the answer to transaction %d, place %d was due" % (self.begun + 1,
                                                                       self.place)
        if self.place and session != self.session:
            return "its session isn't that of place 0"
        self.session = session
        self.place += 1
        return None

    def check_outcome(self, fields: dict) -> Optional[str]:
        if fields["n"] != self.begun + 1:
            return "the end of transaction %d was due" % (self.begun + 1)
        if fields["ending"]["end"] == "committed" and not self.place:
            return "the transaction got no answer, so it doesn't commit yet"
        self.begun += 1
        self.place = 0
        return None

    def check_released(self, fields: dict) -> Optional[str]:
        to, k = fields["to"], fields["k"]
        if not self.names.program.is_kind(to, PCOM) or to == self.names.own:
            return "`to` is component %d, which is no other Pcom" % to
        if (to, k) in self.released or self.is_gone_in_image(to, k):
            return "this message isn't held"
        self.released.add((to, k))
        return None

    def is_gone_in_image(self, to: int, k: int) -> bool:
        """Whether the image had sent the message, and holds it no more."""
        if self.image is None:
            return False
        sent = {link["to"]: link["sent"] for link in self.image["links"]}
        held = any((h["to"], h["k"]) == (to, k) for h in self.image["held"])
        return k <= sent.get(to, 0) and not held

    def check_shown(self, fields: dict) -> Optional[str]:
        waiting = [] if self.image is None else self.image["outputs"]["waiting"]
        made = 0 if self.image is None else self.image["outputs"]["made"]
        due = made + self.shown - len(waiting) + 1
        if self.shown < len(waiting):
            due = waiting[self.shown]["m"]
        if fields["m"] != due:
            return "output %d was due here" % due
        self.shown += 1
        return None

    def check_checkpoint(self, fields: dict) -> Optional[str]:
        """The last checkpoint: a replay begins with its image."""
        try:
            image = read_image(fields["image"], self.names)
        except BadImage as bad:
            return "its bytes are no image: at %d of the image, %s" % (bad.place, bad.cause)
        self.image = image
        self.clock = image["clock"]
        self.begun = image["transactions"]["begun"]
        return None


class AnyLog:
    """A log of which nothing is known but its bytes: every record may stand there."""

    def misfit(self, _: Record) -> Optional[str]:
        return None


def watch(names: Names, last_checkpoint: Optional[int]):
    """What looks at the records of a log in order."""
    own = names.known(names.own)
    if own is None:
        return AnyLog()
    if own.kind == TCOM:
        return TcomLog(names)
    return PcomLog(names, last_checkpoint)


def is_checkpoint(record: Record) -> bool:
    return record.kind == CHECKPOINT
