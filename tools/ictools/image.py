"""The image of a Checkpoint record: a component's whole state with nothing in hand."""

from __future__ import annotations

from typing import Optional

from .common import COMPONENT_LIMIT, NUMBER_LIMIT, VALUES_LIMIT, count
from .records import Names
from .scenario import PCOM, TCOM, XCOM


class BadImage(Exception):
    """The bytes are no image: the offset in the image, and the cause."""

    def __init__(self, place: int, cause: str) -> None:
        super().__init__(cause)
        self.place = place
        self.cause = cause


class ImageReader:
    """Reads an image field by field. What hangs on the scenario is tested where it is known."""

    def __init__(self, data: bytes, names: Names) -> None:
        self.data = data
        self.names = names
        self.own = names.known(names.own)
        self.at = 0
        self.field = 0  # where the field last read begins

    def check(self, holds: bool, cause: str) -> None:
        if not holds:
            raise BadImage(self.field, cause)

    def raw(self, width: int, what: str) -> bytes:
        self.field = self.at
        self.check(self.at + width <= len(self.data), "the image ends inside: " + what)
        self.at += width
        return self.data[self.field:self.at]

    def unsigned(self, width: int, what: str) -> int:
        return int.from_bytes(self.raw(width, what), "big")

    def signed(self, what: str) -> int:
        return int.from_bytes(self.raw(8, what), "big", signed=True)

    def number(self, what: str, least: int, greatest: int = NUMBER_LIMIT) -> int:
        value = self.unsigned(8, what)
        greatest = min(greatest, NUMBER_LIMIT)
        self.check(least <= value <= greatest, "%s is %d, and goes from %d to %d here"
                   % (what, value, least, greatest))
        return value

    def of_kind(self, what: str, kind: str, other: bool = False) -> int:
        """The number of a component of this kind, which isn't the log's own where `other`."""
        value = self.unsigned(1, what)
        if self.names.program is None:
            self.check(value < COMPONENT_LIMIT, "%s is component %d" % (what, value))
        else:
            self.check(self.names.program.is_kind(value, kind),
                       "%s is component %d, which is no %s" % (what, value, kind))
        if other and self.names.own is not None:
            self.check(value != self.names.own, what + " is the component itself")
        return value

    def values(self, what: str, wanted: Optional[int] = None) -> list:
        length = self.unsigned(1, "the number of values of " + what)
        self.check(length <= VALUES_LIMIT and wanted in (None, length),
                   "%s has %s" % (what, count(length, "value")))
        return [self.signed("a value of " + what) for _ in range(length)]

    def read(self) -> dict:
        image: dict = {"clock": self.number("the clock", 0)}
        image["variables"] = self.read_variables()
        image["transactions"] = self.read_transactions()
        image["outputs"] = self.read_outputs()
        image["links"] = self.read_links()
        image["held"] = self.read_held(image)
        image["senders"] = self.read_senders()
        self.field = self.at
        self.check(self.at == len(self.data), "something stands behind the image")
        return image

    def read_variables(self) -> list:
        length = self.unsigned(1, "the number of variables")
        if self.own is not None:
            self.check(length == len(self.own.cells), "the number of variables is %d, and the "
                       "component has %d" % (length, len(self.own.cells)))
        return [self.signed("a variable") for _ in range(length)]

    def read_transactions(self) -> dict:
        begun = self.number("the number of transactions begun", 0)
        word = self.unsigned(1, "the mark of a last transaction")
        self.check(word in (0, 1), "the mark of a last transaction is %d, and is 0 or 1" % word)
        last = None
        if word == 1:
            tcom = self.of_kind("the Tcom of the last transaction", TCOM)
            last = {"tcom": tcom, "n": self.number("the number of the last transaction", 1,
                                                   begun)}
        return {"begun": begun, "last": last}

    def read_outputs(self) -> dict:
        made = self.number("the number of outputs made", 0)
        waiting: list = []
        for _ in range(self.unsigned(4, "the number of outputs not shown")):
            least = waiting[-1]["m"] + 1 if waiting else 1
            m = self.number("the number of an output", least, made)
            to = self.of_kind("the receiver of an output", XCOM)
            waiting.append({"m": m, "to": to, "values": self.values("an output")})
        return {"made": made, "waiting": waiting}

    def read_links(self) -> list:
        links: list = []
        for _ in range(self.unsigned(1, "the number of links")):
            to = self.of_kind("the receiver of a link", PCOM, other=True)
            self.check(not links or to > links[-1]["to"], "the receivers of links don't rise")
            links.append({"to": to, "sent": self.number("the number of messages sent", 1)})
        return links

    def read_held(self, image: dict) -> list:
        sent = {link["to"]: link["sent"] for link in image["links"]}
        greatest: dict = {}
        held = []
        for _ in range(self.unsigned(4, "the number of held messages")):
            to = self.of_kind("the receiver of a held message", PCOM, other=True)
            k = self.number("the number of a held message", greatest.get(to, 0) + 1,
                            sent.get(to, 0))
            greatest[to] = k
            stamp = self.number("the stamp of a held message", 0, image["clock"])
            handler, wanted = self.read_handler(to)
            held.append({"to": to, "k": k, "stamp": stamp, "handler": handler,
                         "values": self.values("a held message", wanted)})
        return held

    def read_handler(self, to: int) -> tuple:
        """The handler of a message, and how many values it has, where that is known."""
        handler = self.unsigned(1, "the handler of a held message")
        receiver = self.names.known(to)
        if receiver is None:
            return handler, None
        self.check(handler < len(receiver.handlers),
                   "`%s` has no handler %d" % (receiver.name, handler))
        return handler, len(receiver.handlers[handler].params)

    def read_senders(self) -> list:
        senders: list = []
        for _ in range(self.unsigned(1, "the number of senders")):
            sender = self.of_kind("a sender", PCOM, other=True)
            self.check(not senders or sender > senders[-1]["from"], "the senders don't rise")
            low = self.number("the number up to which all are taken", 0)
            length = self.unsigned(4, "the number of taken numbers above")
            self.check(low > 0 or length > 0, "a sender has no receipt")
            above: list = []
            for _ in range(length):
                least = (above[-1] if above else low + 1) + 1
                above.append(self.number("a taken number", least))
            senders.append({"from": sender, "up_to": low, "above": above})
        return senders


def read_image(data: bytes, names: Names) -> dict:
    """The fields of an image, or `BadImage`."""
    return ImageReader(data, names).read()


def image_lines(names: Names, image: dict) -> list:
    """The values of an image in words, a line for each part."""
    transactions, outputs = image["transactions"], image["outputs"]
    last = transactions["last"]
    lines = ["clock %d" % image["clock"],
             "variables: " + (names.cells(enumerate(image["variables"])) or "none"),
             "transactions begun: %d" % transactions["begun"]
             + ("" if last is None else ", the last one ended at %s: %d"
                % (names.component(last["tcom"]), last["n"])),
             "outputs made: %d, not shown: %d" % (outputs["made"], len(outputs["waiting"]))]
    lines += ["  output %d to %s: %s" % (o["m"], names.component(o["to"]),
                                         names.values(o["values"])) for o in outputs["waiting"]]
    lines += ["messages sent to %s: %d" % (names.component(link["to"]), link["sent"])
              for link in image["links"]]
    lines += ["held: message %d to %s, stamp %d: %s" % (
        h["k"], names.component(h["to"]), h["stamp"],
        names.call(h["to"], h["handler"], h["values"])) for h in image["held"]]
    lines += [sender_line(names, sender) for sender in image["senders"]]
    return lines


def sender_line(names: Names, sender: dict) -> str:
    parts = ["1 to %d" % sender["up_to"]] if sender["up_to"] else []
    parts += [str(k) for k in sender["above"]]
    return "taken from %s: %s" % (names.component(sender["from"]), ", ".join(parts))
