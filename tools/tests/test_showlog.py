"""Logs: whole ones, damaged ones, and records that may not stand where they stand."""

import hashlib
import json
import os
import random

from support import LOG_CASES, ROOT, ToolTest, expected, logs, printed

from ictools import showlog
from ictools.frame import FORMER, PRESENT, SLOT, SLOTS
from ictools.image import BadImage, read_image
from ictools.records import Names
from ictools.scenario import read_scenario

SCENARIO = """pcom a
  var x 0
  var y 0
  on h p
  end
  on g
  end
end
pcom b immediate
  on k q r
  end
end
tcom t
  key s 1
end
xcom u
pcom c
end
"""


def number(value, width=8):
    """A number's bytes, which may be out of the range of its field."""
    return value.to_bytes(width, "big", signed=value < 0)


FIRST = 9257  # the first gate


def frame(payloads, behind=b"\0", given=SCENARIO, owner=0, slots=()):
    head = b"ICLOG002" + hashlib.sha256(given.encode()).digest() + number(owner, 1) + directory(slots)
    return head + batches(payloads) + behind


def former_frame(payloads, behind=b"\0", given=SCENARIO):
    return b"ICLOG001" + hashlib.sha256(given.encode()).digest() + batches(payloads) + behind


def directory(slots):
    return b"".join(SLOT.pack(1, offset) for offset in slots) + bytes(SLOT.size * (SLOTS - len(slots)))


def batches(payloads):
    return b"".join(b"\1" + number(len(p), 4) + p for p in payloads)


def take(sender, k, stamp):
    return b"\1" + number(sender, 1) + number(k) + number(stamp)


def take_whole(sender, k, stamp, handler, *values):
    return b"\2" + take(sender, k, stamp)[1:] + number(handler, 1) + listed(values)


def input_(stamp, handler, *values):
    return b"\3" + number(stamp) + number(handler, 1) + listed(values)


def listed(values):
    return number(len(values), 1) + b"".join(map(number, values))


def value(n, place, epoch, counter, got):
    return b"\4" + number(n) + number(place, 2) + b"".join(map(number, (epoch, counter, got)))


def outcome(stamp, n, ending=b"\0"):
    return b"\5" + number(stamp) + number(n) + ending


def released(to, k):
    return b"\6" + number(to, 1) + number(k)


def shown(m):
    return b"\7" + number(m)


def checkpoint(data):
    return b"\x08" + number(len(data), 4) + data


def epoch(e):
    return b"\x09" + number(e)


def decided(stamp, c, n, *writes):
    return (b"\x0a" + number(stamp) + number(c, 1) + number(n) + number(len(writes), 2)
            + b"".join(number(k, 2) + number(v) for k, v in writes))


IMAGE = [  # an image of `a`, field by field
    ("clock", number(9)), ("variables", b"\2"), ("x", number(1)), ("y", number(2)),
    ("begun", number(3)), ("mark", b"\1"), ("tcom", b"\2"), ("last", number(3)),
    ("made", number(3)), ("waiting", number(2, 4)),
    ("m", number(2)), ("xcom", b"\3"), ("values", b"\1"), ("value", number(5)),
    ("second m", number(3)), ("second xcom", b"\3"), ("no values", b"\0"),
    ("links", b"\2"), ("link b", b"\1"), ("sent b", number(3)),
    ("link c", b"\4"), ("sent c", number(1)),
    ("held", number(2, 4)),
    ("to", b"\1"), ("k", number(2)), ("stamp", number(8)), ("handler", b"\0"), ("args", b"\2"),
    ("q", number(6)), ("r", number(7)),
    ("second to", b"\1"), ("second k", number(3)), ("second stamp", number(9)),
    ("second handler", b"\0"), ("second args", b"\2"), ("second q", number(6)),
    ("second r", number(7)),
    ("senders", b"\2"),
    ("from b", b"\1"), ("w", number(1)), ("above", number(2, 4)), ("taken", number(3)),
    ("more taken", number(5)),
    ("from c", b"\4"), ("w of c", number(2)), ("none above", number(0, 4)),
]
WHOLE_IMAGE = b"".join(part for _, part in IMAGE)
BAD_IMAGES = [  # a field, what stands in its place, and the field that is bad, if it is another
    ("clock", number(2 ** 63)), ("variables", b"\1"), ("begun", number(2 ** 63)),
    ("mark", b"\2"), ("tcom", b"\0"), ("last", number(0)), ("last", number(4)),
    ("made", number(2 ** 63)), ("m", number(0)), ("m", number(4)), ("second m", number(2)),
    ("xcom", b"\2"), ("values", b"\x09"), ("link b", b"\0"), ("link b", b"\2"),
    ("link c", b"\1"), ("sent b", number(0)), ("to", b"\0"), ("k", number(0)),
    ("second k", number(2)), ("second k", number(4)), ("stamp", number(10)), ("handler", b"\1"),
    ("args", b"\1"), ("from b", b"\0"), ("from b", b"\2"), ("from c", b"\1"),
    ("w", number(2 ** 63)), ("taken", number(2)), ("taken", number(2 ** 63)),
    ("more taken", number(3)), ("w of c", number(0), "none above"),
]

ENDS = [  # payloads and what stands behind them; the end, from the first gate on; whether it is bad there; among the words
    ([], b"\0", 0, False, ["the gate there is closed (byte 00)", "0 whole batches and 0 records", "behind it no byte stands"]),
    ([], b"\7abc", 0, False, ["(byte 07)", "behind it 3 bytes stand and are ignored"]),
    ([], b"\0z", 0, False, ["behind it 1 byte stands and is ignored"]),
    ([], b"", 0, True, [": the file ends where a gate is due"]),
    ([shown(1)], b"", 14, True, [": the file ends where a gate is due", "1 record."]),
    ([], b"\1\0", 2, True, [": the file ends inside the length of batch 1"]),
    ([], b"\1\0\0\0\0", 1, True, [": the length of batch 1 is 0", "From there on 4 bytes stand: 00 00 00 00"]),
    ([], b"\1\0\0\0\5ab", 7, True, [": the file ends inside batch 1, of which 2 bytes of 5"]),
    ([shown(1)], b"\1\0\0\0\x12" + shown(2), 28, True, ["doesn't count", "1 whole batch and 1 record"]),
]
SLOTS_THAT_ARE_BAD = [  # open slots over three batches, which begin at 9257, 9273 and 9287; the place; among the cause
    ([9257], 41, "whose batch doesn't end with a Checkpoint"), ([9273, 9257], 50, "slot 1 names the gate at 9257, where no batch"),
    ([9273, 9273], 50, "slot 1 names the gate at 9273, where no batch"), ([9274], 41, "slot 0 names the gate at 9274, where no batch"),
    ([9273, 9287, 9301], 59, "slot 2 names the gate at 9301, where no batch"), ([0], 41, "slot 0"), ([2 ** 64 - 1], 41, "slot 0"),
]
NO_RECORDS = [  # a payload; the place in it; among the cause
    (b"\0", 0, "the byte 00 is no kind of record"),
    (b"\x0b", 0, "the byte 0b is no kind of record"),
    (take(1, 2, 9)[:17], 0, "the batch ends at 9279, inside the record"),
    (shown(1) + b"\x0c", 9, "the byte 0c"),
    (take(32, 1, 1), 0, "its `from` is component 32"),
    (take(1, 0, 1), 0, "its `k` is 0"),
    (take(1, 2 ** 63, 1), 0, "its `k` is 9223372036854775808"),
    (take(1, 1, 2 ** 63), 0, "its `stamp` is 9223372036854775808"),
    (input_(1, 0, *range(9)), 0, "it has 9 values"),
    (shown(0), 0, "its `m` is 0"),
    (value(0, 0, 1, 1, 0), 0, "its `n` is 0"),
    (outcome(1, 1, b"\4"), 0, "its ending has the first byte 4"),
    (outcome(1, 1, b"\2\x20" + number(1)), 0, "its `holder` is component 32"),
    (outcome(1, 1, b"\2\1" + number(0)), 0, "its `n` is 0"),
    (outcome(1, 1, b"\3" + number(1) + number(2 ** 63)), 0, "its `present` is"),
    (epoch(2 ** 63), 0, "its `epoch` is"),
    (decided(1, 32, 1), 0, "its `c` is component 32"),
    (decided(1, 0, 1, *[(0, 0)] * 257), 0, "it has 257 writes"),
    (checkpoint(b"xyz")[:7], 0, "inside the record"),
]
AT_THE_ENDS = [  # records whose fields are at the ends of their ranges
    take(31, 2 ** 63 - 1, 0), take(0, 1, 2 ** 63 - 1), input_(0, 255, *range(8)), input_(0, 0),
    take_whole(31, 1, 0, 255, *[-2 ** 63, 2 ** 63 - 1] * 4), value(1, 65535, 0, 2 ** 63 - 1, -1),
    outcome(0, 1, b"\1" + number(2 ** 32 - 1, 4)), outcome(0, 1, b"\2\x1f" + number(1)),
    outcome(0, 1, b"\3" + number(0) + number(2 ** 63 - 1)), released(31, 1), shown(2 ** 63 - 1),
    checkpoint(b""), epoch(0), epoch(2 ** 63 - 1), decided(0, 31, 1),
    decided(0, 0, 1, *[(65535, -2 ** 63)] * 256),
]
MISFITS = [  # the component, its records, which of them may not stand there, among the cause
    ("a", [epoch(2)], 0, "no such record"),
    ("a", [decided(1, 0, 1)], 0, "no such record"),
    ("a", [input_(1, 0, 5), input_(1, 1)], 1, "isn't above the clock, which is 1"),
    ("a", [input_(0, 0, 5)], 0, "isn't above the clock"),
    ("a", [input_(1, 2)], 0, "no handler 2"),
    ("a", [input_(1, 0)], 0, "has 1 parameters, and the record 0"),
    ("a", [take_whole(1, 1, 1, 0, 5)], 0, "receipts of this Pcom are Take records"),
    ("b", [take(0, 1, 1)], 0, "receipts of this Pcom are TakeWhole records"),
    ("a", [take(0, 1, 1)], 0, "`from` is component 0"),
    ("a", [take(2, 1, 1)], 0, "`from` is component 2"),
    ("a", [take(1, 1, 1), take(1, 1, 2)], 1, "taken already"),
    ("a", [value(2, 0, 1, 1, 0)], 0, "transaction 1, place 0 was due"),
    ("a", [value(1, 0, 1, 1, 0), value(1, 1, 1, 2, 0)], 1, "isn't that of place 0"),
    ("a", [value(1, 0, 1, 1, 0), input_(1, 1)], 1, "a message is in hand"),
    ("a", [outcome(1, 2)], 0, "the end of transaction 1 was due"),
    ("a", [outcome(1, 1)], 0, "got no answer"),
    ("a", [released(2, 1)], 0, "`to` is component 2"),
    ("a", [released(1, 1), released(1, 1)], 1, "isn't held"),
    ("a", [shown(2)], 0, "output 1 was due"),
    ("a", [checkpoint(WHOLE_IMAGE), released(1, 1)], 1, "isn't held"),
    ("a", [checkpoint(WHOLE_IMAGE), take(1, 3, 10)], 1, "taken already"),
    ("a", [checkpoint(WHOLE_IMAGE), shown(2), shown(2)], 2, "output 3 was due"),
    ("a", [checkpoint(WHOLE_IMAGE), input_(9, 1)], 1, "clock, which is 9"),
    ("a", [checkpoint(b"x")], 0, "no image: at 0 of the image"),
    ("t", [epoch(3)], 0, "epoch 2 was due"),
    ("t", [epoch(2), epoch(2)], 1, "epoch 3 was due"),
    ("t", [shown(1)], 0, "Epoch and Decided records alone"),
    ("t", [decided(3, 0, 1), decided(3, 0, 2)], 1, "clock, which is 3"),
    ("t", [decided(1, 0, 1), decided(2, 0, 1)], 1, "decided already"),
    ("t", [decided(1, 2, 1)], 0, "no Pcom"),
    ("t", [decided(1, 0, 1, (1, 5))], 0, "a key that the Tcom hasn't"),
]
WHOLE = [  # records that may stand there: nothing is told of them
    ("a", [take(1, 1, 1), input_(2, 0, -5), shown(1), released(1, 1)]),
    ("a", [epoch(7), checkpoint(WHOLE_IMAGE), released(1, 2), shown(2), shown(3), shown(4),
           take(1, 2, 10), value(4, 0, 1, 1, 5), value(4, 1, 1, 1, 5), outcome(11, 4)]),
    ("b", [take_whole(0, 1, 1, 0, 1, 2), value(1, 0, 1, 1, 0),
           outcome(2, 1, b"\1" + number(3, 4)), outcome(3, 2, b"\2\0" + number(1))]),
    ("t", [epoch(2), decided(1, 0, 1, (0, -1)), decided(5, 1, 1), epoch(3)]),
]


class Whole(ToolTest):
    def test_records_are_those_of_the_model(self):
        kinds = set()
        for case, name, _ in logs():
            status, out, _ = self.run_tool("showlog", name, "-s", "scenario", "--json",
                                           folder=case)
            told = json.loads(out)
            self.assertEqual(([1, 2][name.endswith("2")], expected(case)[name]["slots"]), (told["format"], told["slots"]))
            rows = [[row["offset"], row["record"], row["fields"]]
                    for row in told["records"]]
            for row in rows:
                kinds.add(row[1])
                if row[1] == "Checkpoint":
                    row[2]["image"] = row[2]["image"]["values"]
            self.assertEqual((0, expected(case)[name]["records"]), (status, rows), (case, name))
        self.assertEqual(10, len(kinds))

    def test_first_session(self):
        """The log whose bytes docs/FORMATS.md shows."""
        scenario = ROOT / "examples" / "tally" / "scenario"
        data = frame([input_(1, 0, 5), input_(2, 0, 7)], given=scenario.read_text())
        self.assertEqual(9306, len(data))
        self.assert_tool(0, ["  9262      1  Input       stamp 1: add n=5\n",
                             "  9286      2  Input       stamp 2: add n=7\n",
                             "The log ends at 9305:", "component 0, pcom tally", "open slots: none of 1024"],
                         "showlog", self.write("icrun.00.log2", data), "--scenario", scenario)
        data = former_frame([input_(1, 0, 5), input_(2, 0, 7)], given=scenario.read_text())
        self.assert_tool(0, ["89 bytes, of the former format, component 0, pcom tally", "    45      1  Input       stamp 1: add n=5\n",
                             "The log ends at 88:"], "showlog", self.write("icrun.00.log", data), "--scenario", scenario)

    def test_nothing_is_written(self):
        before = [(f, f.stat().st_mtime_ns, f.read_bytes())
                  for folder in LOG_CASES for f in sorted(folder.iterdir())]
        for case, name, _ in logs():
            self.run_tool("showlog", name, "-s", "scenario", folder=case)
            self.run_tool("explain", "-s", "scenario", folder=case,
                          given=b"icrun: bad log of till at 45\n")
        self.assertEqual(before, [(f, f.stat().st_mtime_ns, f.read_bytes())
                                  for folder in LOG_CASES for f in sorted(folder.iterdir())])


class Damaged(ToolTest):
    def places(self, subject):
        """Where a log is told as bad, by the table and by JSON, which both must end."""
        reading = showlog.Reading(subject)
        text = "\n".join(showlog.table_lines(reading))
        found = json.loads("".join(showlog.json_lines(showlog.Reading(subject))))
        list(showlog.table_lines(showlog.Reading(subject), len(subject.data) // 2))
        if found["fingerprint"]["foreign"]:
            self.assertIn("of another scenario", text)
            return "foreign"
        damage = reading.frame.damage or reading.bad_record or reading.bad_slot
        if damage is None:
            return None
        self.assertIn("bad at %d: " % damage.place, text)
        self.assertEqual(damage.place, found["end"]["bad"]["place"])
        return damage.place

    def subject(self, case, name, data):
        scenario = (case / "scenario").read_bytes()
        names = Names(read_scenario(scenario), int(name[6:8]))
        subject = showlog.Subject(name, data, "scenario", hashlib.sha256(scenario).digest(),
                                  names)
        if subject.is_foreign:
            subject.names = Names(None, names.own)
        return subject

    def test_cut_at_each_offset(self):
        for case, name, data in logs():
            told = expected(case)[name]
            got = [self.places(self.subject(case, name, data[:size])) for size in told["places"]]
            self.assertEqual(told["cut"], got, (case, name))

    def test_each_byte_changed(self):
        for case, name, data in logs():
            told = expected(case)[name]
            for change, to in (("flipped", lambda byte: byte ^ 1), ("high", lambda byte: 255)):
                got = [self.places(self.subject(
                    case, name, data[:i] + bytes([to(data[i])]) + data[i + 1:]))
                    for i in told["places"]]
                self.assertEqual(told[change], got, (case, name, change))

    def test_slots(self):
        """Each names a batch that ends with a Checkpoint, behind that of the slot before."""
        payloads = [input_(1, 1), checkpoint(b"x" * 4), checkpoint(b"y" * 4)]
        scenario = self.write("other", "pcom b\nend\n")
        for slots, place, part in SLOTS_THAT_ARE_BAD:
            log = self.write("x", frame(payloads, slots=slots))
            self.assert_tool(1, ["bad at %d: " % place, part, "open slots: %d of 1024; " % len(slots)], "showlog", log)
            self.assert_tool(1, "of another scenario", "showlog", log, "-s", scenario)
        for slots, part in (([9273], "1 of 1024; it names the gate at 9273\n"), ([9273, 9287], "2 of 1024; they name the gates at 9273, 9287\n")):
            self.assert_tool(0, part, "showlog", self.write("x", frame(payloads, slots=slots)))
        # a frame comes before the records, and these before the slots; what stands behind a closed slot is nothing
        self.assert_tool(1, ["bad at 9301: the file ends", "Besides, at 41: slot 0 names"], "showlog",
                         self.write("x", frame(payloads, slots=[9257])[:-1]))
        self.assert_tool(1, "bad at 9278: here begins", "showlog", self.write("x", frame([input_(1, 1), b"\0" * 9], slots=[9257])))
        behind = bytearray(frame(payloads, slots=[9273]))
        behind[59:68] = SLOT.pack(1, 9273)
        self.assert_tool(0, "1 of 1024", "showlog", self.write("x", bytes(behind)))
        many = [checkpoint(b"") for _ in range(1025)]
        self.assert_tool(0, "1024 of 1024; the last 8 name the gates at %d, " % (FIRST + 10 * 1016), "showlog",
                         self.write("x", frame(many, slots=[FIRST + 10 * at for at in range(1024)])))

    def test_a_log_of_another_component(self):
        scenario = self.write("s", SCENARIO)
        log = self.write("icrun.01.log2", frame([input_(1, 0, 5)], owner=0))
        self.assert_tool(1, ["component 0, pcom a", "bad at 40: it is the log of component 0, and not of component 1"], "showlog", log, "-s", scenario)
        self.assert_tool(0, "component 0, pcom a", "showlog", log, "-s", scenario, "-c", "a")
        self.assert_tool(1, ["of another scenario", "bad at 40"], "showlog", log, "-s", self.write("o", SCENARIO + " "))
        self.assert_tool(0, "component 0, pcom a", "showlog", self.write("x", frame([], owner=0)), "-s", scenario)
        self.assert_tool(0, "component 77", "showlog", self.write("x", frame([], owner=77)), "-s", scenario)
        self.assert_tool(0, "an unknown component", "showlog", self.write("x", frame([input_(1, 1)], owner=3)), "-s", scenario)

    def test_any_bytes(self):
        """Whatever stands in a file, the tool ends in words."""
        rng = random.Random(1)
        for case, name, data in logs() * 40:
            piece = bytearray(data[:rng.randrange(len(data) + 1)])
            piece += bytes(rng.choice([0, 1, 2, 8, 10, 255, rng.randrange(256)])
                           for _ in range(rng.randrange(80)))
            for _ in range(rng.randrange(4)):
                if piece:
                    piece[rng.randrange(len(piece))] = rng.randrange(256)
            self.places(self.subject(case, name, bytes(piece)))
            nameless = showlog.Subject(name, bytes(piece), None, None, Names())
            self.places(nameless)

    def test_ends(self):
        scenario = self.write("s", SCENARIO)
        for payloads, behind, offset, is_bad, parts in ENDS:
            for made, form, name in ((frame, PRESENT, "icrun.00.log2"), (former_frame, FORMER, "icrun.00.log")):
                log, place = self.write(name, made(payloads, behind)), form.header + offset
                end = ["bad at %d: " % place] if is_bad else ["The log ends at %d: " % place, "Its size is %d bytes" % (place + 1)]
                self.assert_tool(int(is_bad), parts + end, "showlog", log, "-s", scenario)
                _, out, _ = self.run_tool("showlog", log, "--json")
                end = json.loads(out)["end"]
                self.assertEqual(place, end["bad"]["place"] if is_bad else end["gate"])

    def test_headers(self):
        fresh = frame([])
        for data, part in ((b"", "bad at 0: the file ends inside the header"),
                           (fresh[:39], "bad at 39: the file ends inside the header"),
                           (b"ICLOX", "bad at 4: here stands the byte 58"),
                           (b"X" + fresh[1:], "bad at 0: here stands the byte 58"),
                           (fresh[:9256], "bad at 9256: the file ends inside the header of 9257 bytes"),
                           (fresh[:9257], "bad at 9257: the file ends where a gate is due"),
                           (former_frame([])[:40], "bad at 40: the file ends where a gate is due")):
            self.assert_tool(1, part, "showlog", self.write("x.log", data))

    def test_too_long(self):
        for data, limit, ignored in ((frame([]), 134217728, 134208470), (former_frame([]), 67108864, 67108823)):
            log = self.write("x", data)
            os.truncate(log, limit + 1)
            self.assert_tool(1, ["bad at %d: the file is longer" % limit, "more than %d bytes" % limit], "showlog", log)
            os.truncate(log, limit)
            self.assert_tool(0, "%d bytes stand and are ignored" % ignored, "showlog", log)

    def test_what_begins_no_record(self):
        for payload, place, part in NO_RECORDS:
            log = self.write("icrun.00.log2", frame([payload, shown(1)]))
            self.assertEqual(1, printed(showlog.main, [log])[0])
            self.assertIn("bad at %d: here begins no whole record: " % (9262 + place),
                          printed(showlog.main, [log])[1])
            self.assertIn(part, printed(showlog.main, [log])[1])

    def test_fields_at_the_ends_of_their_ranges(self):
        log = self.write("icrun.00.log2", frame([b"".join(AT_THE_ENDS)]))
        status, out = printed(showlog.main, [log])
        self.assertEqual(0, status, out)
        self.assertIn("It has 1 whole batch and %d records." % len(AT_THE_ENDS), out)

    def test_frame_is_told_before_records(self):
        log = self.write("icrun.00.log2", frame([b"\0"], b""))
        self.assert_tool(1, ["bad at 9263: the file ends where a gate is due",
                             "Besides, at 9262: here begins no whole record"], "showlog", log)


class Fitting(ToolTest):
    def show(self, component, records):
        owner = {"a": 0, "b": 1, "t": 2}[component]
        log = self.write("x.log", frame([b"".join(records)], owner=owner))
        return printed(showlog.main, [log, "-s", self.write("s", SCENARIO), "-c", component])

    def test_misfits(self):
        for component, records, index, part in MISFITS:
            status, out = self.show(component, records)
            place = 9262 + sum(map(len, records[:index]))
            self.assertEqual(1, status, out)
            self.assertIn("bad at %d: the record may not stand here: " % place, out)
            self.assertIn(part, out)

    def test_what_fits(self):
        for component, records in WHOLE:
            status, out = self.show(component, records)
            self.assertEqual(0, status, out)
            self.assertNotIn("may not", out)

    def test_images(self):
        names = Names(read_scenario(SCENARIO.encode()), 0)
        places, at = {}, 0
        for name, part in IMAGE:
            places[name] = at
            at += len(part)
        read_image(WHOLE_IMAGE, names)
        for name, other, *where in BAD_IMAGES:
            with self.assertRaises(BadImage) as bad:
                read_image(b"".join(other if field == name else part for field, part in IMAGE),
                           names)
            self.assertEqual(places[(where or [name])[0]], bad.exception.place, (name, other))
        for size in range(len(WHOLE_IMAGE)):
            with self.assertRaises(BadImage) as bad:
                read_image(WHOLE_IMAGE[:size], names)
            self.assertIn(bad.exception.place, places.values())
        with self.assertRaises(BadImage) as bad:
            read_image(WHOLE_IMAGE + b"\0", names)
        self.assertEqual(len(WHOLE_IMAGE), bad.exception.place)

    def test_image_in_words(self):
        out = self.show("a", [checkpoint(WHOLE_IMAGE)])[1]
        for line in ("clock 9", "variables: x=1 y=2",
                     "transactions begun: 3, the last one ended at t: 3",
                     "outputs made: 3, not shown: 2", "output 2 to u: 5",
                     "output 3 to u: no values",
                     "messages sent to b: 3", "messages sent to c: 1",
                     "held: message 2 to b, stamp 8: k q=6 r=7", "taken from b: 1 to 1, 3, 5",
                     "taken from c: 1 to 2"):
            self.assertIn(line + "\n", out)


class Words(ToolTest):
    def test_fingerprints(self):
        log = self.write("icrun.00.log2", frame([input_(1, 1)]))
        same, other = self.write("s", SCENARIO), self.write("o", SCENARIO + " ")
        self.assert_tool(0, "not compared", "showlog", log)
        self.assert_tool(0, "that of " + same, "showlog", log, "-s", same)
        self.assert_tool(1, ["not that of %s, which is " % other, "of another scenario",
                             "stamp 1: handler 1, no values"], "showlog", log, "-s", other)

    def test_components(self):
        log, scenario = self.write("x", former_frame([])), self.write("s", SCENARIO)
        for words, part in ((["-c", "1"], "component 1, pcom b"), ([], "an unknown component"),
                            (["-c", "t"], "component 2, tcom t")):
            self.assert_tool(0, part, "showlog", log, "-s", scenario, *words)
        for name, part in (("icrun.07.log", "component 7, which isn't in the scenario"),
                           ("icrun.03.log", "an unknown component")):
            self.assert_tool(0, part, "showlog", self.write(name, former_frame([])), "-s", scenario)
        for wrong in ("u", "3", "9", "nobody", ""):
            self.assert_tool(2, "no component with a log", "showlog", log, "-s", scenario,
                             "-c", wrong)

    def test_near(self):
        log = self.write("x", frame([shown(m) for m in range(1, 50)]))
        _, out, _ = self.run_tool("showlog", log, "--near", 9262 + 14 * 20)
        self.assertEqual(["output %d" % m for m in range(18, 23)],
                         [line[27:] for line in out.splitlines() if " Shown " in line])

    def test_files_that_can_not_be_used(self):
        log, good = self.write("l", frame([])), self.write("s", SCENARIO)
        bad = self.write("bad", "pcom a\n  var x y\nend\n")
        for words, part in ((["absent"], "absent: No such file"), ([self.folder], "directory"),
                            ([log, "-s", "absent"], "absent: No such file"),
                            ([log, "-s", bad], "bad scenario at line 2: bad structure"),
                            ([log, "-s", good, "--near", "x"], "invalid int"), ([], "usage"),
                            ([log, "-s", log], "bad scenario at line 1: not text")):
            self.assert_tool(2, part, "showlog", *words)
