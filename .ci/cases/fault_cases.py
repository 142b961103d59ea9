"""Cases of runs over devices in memory some calls of which fail: two inputs around a crash."""

from __future__ import annotations

import words
from typing import Sequence

# A component that adds up its inputs.
TALLY = b"pcom tally\n  var total 0\n  on add n\n    set total total + n\n  end\nend\n"

# Two inputs, with a crash and a recovery between them.
AROUND_A_CRASH = b"input tally add 5\ncrash tally\nrecover tally\ninput tally add 7\n"

# What the run prints, in the order of its puts.
PIECES = [b"1 input tally add 5: taken\n", b"2 crash tally: done\n", b"3 recover tally: up\n", b"4 input tally add 7: taken\n",
          b"inputs taken 2 kept 0 lost 0 missed 0\noutputs first 0 again 0\npcom tally up total=12\nplayed 1\nhistory 2\nsettled\n"]

# What stands at the head of the tally's log: letters, fingerprint, its number and a directory without an open slot.
HEADER = b"ICLOG002" + bytes.fromhex("fe16c63498cc8891d32cedec7ee0f751a6da73fd8754e3e6e101c308064a5964") + bytes(1 + 1024 * 9)

# A batch of one input, and the bytes around it: whether it is in effect stands before it.
FIRST = bytes.fromhex("00000013") + b"\3" + (1).to_bytes(8, "big") + bytes([0, 1]) + (5).to_bytes(8, "big")
SECOND = bytes.fromhex("00000013") + b"\3" + (2).to_bytes(8, "big") + bytes([0, 1]) + (7).to_bytes(8, "big")
NO_BATCH, FIRST_STAGED, ONE_BATCH = b"\0", b"\0" + FIRST + b"\0", b"\1" + FIRST + b"\0"
SECOND_STAGED, TWO_BATCHES = b"\1" + FIRST + b"\0" + SECOND + b"\0", b"\1" + FIRST + b"\1" + SECOND + b"\0"

# For each device call, in order: how many events are told before it, and what stands behind the header where it fails.
DEVICE_CALLS = [
    # The disk's length, and a fresh log: a write and a sync.
    (0, b""), (0, b""), (0, NO_BATCH),
    # The first input: the batch and its gate, each a write and a sync.
    (0, NO_BATCH), (0, FIRST_STAGED), (0, FIRST_STAGED), (0, ONE_BATCH),
    # The recovery: a sync, the length, and the reads of the header and of the tail.
    (2, ONE_BATCH), (2, ONE_BATCH), (2, ONE_BATCH), (2, ONE_BATCH),
    # The second input.
    (3, ONE_BATCH), (3, SECOND_STAGED), (3, SECOND_STAGED), (3, TWO_BATCHES)]

# For each put, in order, what stands behind the header where it fails.
PUTS = [ONE_BATCH, ONE_BATCH, ONE_BATCH, TWO_BATCHES, TWO_BATCHES]


def run(script: words.Script, failing: Sequence[int], status: int, printed: bytes, behind: bytes) -> None:
    """A run in which these fail: a read of a text, a put and a call of the first disk, each by its number, or 0 for none."""
    log = HEADER + behind if behind else b""
    script.say("run" + words.numbers(failing), f"{status} true {printed.hex()} {log.hex()}")


def script_of(seed: int) -> words.Script:
    script = words.Script()
    script.say(f"texts {TALLY.hex()} {AROUND_A_CRASH.hex()} -", "texts")
    for number, (told, behind) in enumerate(DEVICE_CALLS, 1):
        run(script, (0, 0, number), 10, b"".join(PIECES[:told]) + b"icrun: disk fault of tally\n", behind)
    run(script, (0, 0, len(DEVICE_CALLS) + 1), 0, b"".join(PIECES), TWO_BATCHES)
    for number, behind in enumerate(PUTS, 1):
        run(script, (0, number, 0), 9, b"".join(PIECES[:number - 1]), behind)
    for number in range(1, 4):
        run(script, (number, 0, 0), 8, b"icrun: read fault\n", b"")
        # Its last line isn't put either.
        run(script, (number, 1, 0), 9, b"", b"")
    # A device that failed leaves no status of 0.
    script.say("texts - - -", "texts")
    script.say("devices 1 1 1", "devices")
    script.say("status", "0")
    script.say(f"put {b'a piece'.hex()}", "Err(SinkFailed)")
    script.say("status", "9")
    script.say("length", "Err(Failed)")
    script.say("status", "10")
    script.say("read scenario", "Failed")
    script.say("status", "8")
    return script
