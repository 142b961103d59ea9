#!/usr/bin/env python3
"""Makes the reports, the logs and the expected values in data/ and in former/ anew, by the plain model.

The word is the folder of the model. The texts are written by hand; all else comes from the model,
so that no tool is tested against itself. The logs in former/ are of the former format.
"""

import dataclasses
import json
import sys
from pathlib import Path

HERE = Path(__file__).resolve().parent
FOLDERS = {HERE / "data": 2, HERE / "former": 1}  # with the formats of their logs
SHOWN_SLOTS, BEFORE_GATES = 96, 9240  # what of a header with slots is cut and changed: all but what stands between
CHANGES = {"flipped": lambda byte: byte ^ 1, "high": lambda byte: 255}
FIELDS = {"sender": "from", "com": "c"}


def run(words, folder, disks):
    """One call of the model's program; what it printed."""
    sink = MemSink()
    texts = MemTexts([(f.name.encode(), f.read_bytes()) for f in folder.iterdir()])
    Call(texts, sink, disks).run([word.encode() for word in words])
    return sink.bytes()


def make(folder):
    disks = [MemDisk() for _ in range(32)]
    (folder / "report").write_bytes(run(["run", "scenario", "schedule"], folder, disks))
    if (folder / "later").exists():
        (folder / "later-report").write_bytes(run(["resume", "scenario", "later"], folder, disks))
    text = (folder / "scenario").read_bytes()
    program = read_scenario(text)
    expected = {}
    for com in program.with_disk():
        name, data = f"icrun.{com:02}.{log_suffix()}", bytes(disks[com].bytes())
        (folder / name).write_bytes(data)
        log, read = load(fingerprint(text), com, data)
        expected[name] = {"slots": log.slots, "records": [[it.offset, type(it.record).__name__, fields(program, com, it.record)] for it in read],
                          **damage(fingerprint(text), com, data)}
    lines = json.dumps(expected).replace('"records"', '\n"records"').replace("}, {", "},\n{")
    for key in ("places", "cut"):
        lines = lines.replace(f', "{key}"', f',\n"{key}"')
    (folder / "expected.json").write_text(lines + "\n")


def load(given, com, data):
    """A log that is read whole, with its records."""
    log, _, read = load_log(MemDisk(data), given, com)
    return log, read


def place(given, com, data):
    """Where the model refuses a log: an offset, `foreign`, or None."""
    try:
        load(given, com, data)
    except LogBad as bad:
        return bad.place
    except LogForeign:
        return "foreign"
    return None


def damage(given, com, data):
    """Where a log is refused that is cut at each of some places, or in which a byte there is changed."""
    some = [i for i in range(len(data)) if RULES.format == 1 or not SHOWN_SLOTS <= i < BEFORE_GATES]
    places = {"places": some, "cut": [place(given, com, data[:size]) for size in some]}
    for name, change in CHANGES.items():
        places[name] = [place(given, com, data[:i] + bytes([change(data[i])]) + data[i + 1:]) for i in some]
    return places


def fields(program, com, record):
    """A record's fields, named as the tools name them."""
    if isinstance(record, Checkpoint):
        return {"image": image(read_image(program, com, record.image))}
    out = {FIELDS.get(key, key): value for key, value in dataclasses.asdict(record).items()}
    if "args" in out:
        out["values"] = list(out.pop("args"))
    if "session" in out:
        out.update(out.pop("session"))
    if "writes" in out:
        out["writes"] = [{"key": key, "value": value} for key, value in out["writes"]]
    if "abort" in out:
        out["ending"] = ending(record.abort)
        del out["abort"]
    return out


def ending(cause):
    if cause is None:
        return {"end": "committed"}
    word = {"NeedCause": "need", "HeldCause": "held", "EpochCause": "epoch"}
    out = dataclasses.asdict(cause)
    if "number" in out:
        out["n"] = out.pop("number")
    return {"end": word[type(cause).__name__], **out}


def image(state):
    last = state.txn.last
    return {"clock": state.clock, "variables": state.vars,
            "transactions": {"begun": state.txn.n,
                             "last": last and {"tcom": last[0], "n": last[1]}},
            "outputs": {"made": state.shelf.made,
                        "waiting": [{"m": w.output.m, "to": w.output.to,
                                     "values": list(w.output.args)} for w in state.shelf.waiting]},
            "links": [{"to": to, "sent": sent} for to, sent in sorted(state.outbox.counts.items())],
            "held": [{"to": h.msg.to, "k": h.msg.k, "stamp": h.msg.stamp, "handler": h.msg.handler,
                      "values": list(h.msg.args)} for h in state.outbox.held.values()],
            "senders": [{"from": sender, "up_to": numbers.low, "above": sorted(numbers.above)}
                        for sender, numbers in sorted(state.inbox.taken.items())]}


if __name__ == "__main__":
    sys.path.insert(0, sys.argv[1])
    from icoracle.base import LogBad, LogForeign
    from icoracle.ckpt import read_image
    from icoracle.disk import MemDisk, MemSink, MemTexts
    from icoracle.logs import load_log
    from icoracle.rules import RULES, log_suffix
    from icoracle.syntax import fingerprint, read_scenario
    from icoracle.top import Call
    from icoracle.wire import Checkpoint
    RULES.forgets = True
    for folder, RULES.format in FOLDERS.items():
        for case in sorted(folder.iterdir()):
            make(case)
