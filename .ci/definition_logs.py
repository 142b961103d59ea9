"""Bytes of logs of format 2 beside the definitions in def_log: what a load answers, the records and their places, sizes, and what a stop
leaves of a force and a mark, on logs that are whole and damaged."""

from __future__ import annotations

import random

from icoracle import gate2, wire
from icoracle import logs as of_model
from icoracle.base import DiskStopped, LogBad, LogForeign, Stop
from icoracle.disk import MemDisk, TornDisk
from icoracle.gate import Batch
from icoracle.migrate import new_log
from speceval import bridge, logs
from speceval.steps import same
from speceval.values import NONE, Con, Pair, err, ok, some

PRINT, OTHER = bytes([7] * 32), bytes([8] * 32)
OWNER = 3


def payload(rng: random.Random) -> bytes:
    records = [logs.any_record(rng) for _ in range(rng.choice([1, 1, 1, 2, 3]))]
    if rng.random() < 0.5:
        records.append(wire.Checkpoint(rng.randbytes(rng.choice([0, 1, 5]))))
    return b"".join(map(wire.record_bytes, records))


def log(rng: random.Random) -> bytes:
    """A log with slots for its checkpoints, or with other ones."""
    batches, at = [], gate2.HEADER_2
    for _ in range(rng.choice([0, 1, 2, 3, 5])):
        batches.append(Batch(at + 5, payload(rng)))
        at += 5 + len(batches[-1].payload)
    made = bytearray(new_log(PRINT, OWNER, batches))
    for i in range(rng.randint(0, 4) if rng.random() < 0.5 else 0):
        offsets = [batch.gate for batch in batches] + [rng.choice([0, 9256, 9257, 9258, len(made) - 1, len(made), 2 ** 64 - 1])]
        made[gate2.slot_place(i):gate2.slot_place(i + 1)] = b"\x01" + rng.choice(offsets).to_bytes(8, "big")
    return bytes(made)


def damaged(rng: random.Random, data: bytes) -> bytes:
    out = bytearray(data)
    for _ in range(rng.choice([0, 0, 1, 1, 2])):
        at = rng.choice([rng.randrange(42), 41 + rng.randrange(36), rng.randrange(min(9250, len(out)), len(out) + 1)])
        way = rng.random()
        if way < 0.7 and at < len(out):
            out[at] = rng.choice([0, 1, 2, 3, 8, 255, out[at] ^ 1])
        elif way < 0.85:
            del out[at:]
        else:
            out[at:at] = bytes([rng.randrange(3)])
    return bytes(out)


def answer(call, data: bytes):
    """What the model's call gives, or how it refuses."""
    try:
        return call(MemDisk(data))
    except LogBad as bad:
        return err(bad.place)
    except LogForeign as foreign:
        return Con("foreign", (tuple(foreign.kept),))


def batches_of(batches):
    return ok(tuple({"at": batch.offset, "payload": tuple(batch.payload)} for batch in batches))


def placed(records):
    return ok(tuple(Pair(it.offset, bridge.record(it.record)) for it in records))


def load_of(defs, given: bytes, owner: int, data: bytes):
    got = defs.value("def_log.specs.Loads.load_of")(tuple(given), owner, tuple(data))
    tag = got.tag.split(".")[-1]
    return ok(got.args[0]) if tag == "Holds" else err(got.args[0]) if tag == "Bad" else Con("foreign", (got.args[0],))


def compare_case(defs, seed: int, totals) -> None:
    rng = random.Random(seed)
    for _ in range(12):
        logs.compare_record(defs, rng, logs.any_record(rng))
        totals.add("records", 1)
    for _ in range(5):
        logs.compare_torn(defs, rng)
    totals.add("torn images", 5)
    for _ in range(4):
        data = damaged(rng, log(rng))
        compare_load(defs, rng, data)
        compare_stop(defs, rng, data)
    totals.add("logs", 4)


def compare_load(defs, rng: random.Random, data: bytes) -> None:
    given, owner = rng.choice([PRINT] * 9 + [OTHER]), rng.choice([OWNER] * 9 + [4])
    same("load_of", load_of(defs, given, owner, data), answer(lambda disk: batches_of(gate2.Log2.load(disk, given, owner)[1]), data))
    if data[8:40] != PRINT or data[40:41] != bytes([OWNER]):
        return
    same("placed_log_of", defs.value("def_log.specs.Log.placed_log_of")(tuple(data)),
         answer(lambda disk: placed(of_model.load_log(disk, PRINT, OWNER)[2]), data))
    size = answer(lambda disk: some(gate2.Log2.load(disk, PRINT, OWNER)[0].size), data)
    same("size_in", defs.value("def_log.specs.Sizes.size_in")(tuple(data)), size if size.tag.endswith("Some") else NONE)


def compare_stop(defs, rng: random.Random, data: bytes) -> None:
    """A step that adds records over a sound log, with a stop within its force or its mark."""
    disk = TornDisk(MemDisk(data))
    try:
        found, _, _ = of_model.load_log(disk, PRINT, OWNER)
    except (LogBad, LogForeign):
        return
    records = [logs.any_record(rng)] + ([wire.Checkpoint(b"\x05")] if rng.random() < 0.6 else [])
    is_marked = isinstance(records[-1], wire.Checkpoint)
    stop = Stop(rng.randint(1, 8 if is_marked else 4), rng.choice([0, 1, 1, 2, 9, 300]), rng.choice([None, 0, 1, 255]))
    gate = found.size - 1
    found.append(b"".join(map(wire.record_bytes, records)))
    disk.arm(stop)
    try:
        found.force()
        found.mark()
    except DiskStopped:
        pass
    writes = defs.value("def_log.specs.Gated.log_writes")(tuple(data), gate, tuple(map(bridge.record, records)))
    image = defs.value("def_log.specs.Stops.stop_torn")(bridge.stop(stop), 0, tuple(data), writes)
    same("stop_torn", tuple(image), tuple(disk.inner.bytes()))
