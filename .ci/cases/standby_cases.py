"""Cases of schedules with a standby: worked ones, and those of the cases of texts with orders between their lines."""

from __future__ import annotations

import random

import served_cases
import shown
import words
from icoracle import syntax
from icoracle.standby import Ship, TakeOver, read_standby

from text_cases import CAUSES, event

STORE = b"""pcom shop
  on order n
    send store take n
  end
end
pcom store
  var stock 0
  on take n
    set stock stock + n
  end
end
xcom desk
"""

SCHEDULES = [
    b"input shop order 3\ndeliver shop store\nforce store\nship\ncrash store\ntakeover\n", b"ship\nship\ntakeover\nship\nhalt\n", b"", b"# ship\n",
    b"ship # now\n\ttakeover\r\n", b"ship ship\n", b"takeover store\n", b"ship stop 1\n", b"ship 1\n", b"shipped\n", b"Ship\n", b"take over\n",
    b"halt\nship\n", b"halt\n\ntakeover\n", b"halt\n# ship\n", b"ship\nhalt\nhalt\n", b"crash ship\n", b"recover takeover\n", b"input ship takeover 3\n",
    b"ship\x00\n", b"ship \xff\n", b"ship", b"takeover", b"\n\n  ship\nforce desk\n", b"ship\ncrash nobody\n", b"ship;\n", b"ship =\n", b"standby\n",
    b"client 1 1 shop order 3\n", b"packet 1\nship\nlose shop store stop 3 1 old\nresend shop\nemit shop\ncheckpoint store\nrecover store\n"]


def order(o: object) -> str:
    match o:
        case Ship():
            return "Ship"
        case TakeOver():
            return "TakeOver"
        case _:
            return f"Run({event(o)})"


def standby(script: words.Script, scenario: bytes, schedule: bytes) -> None:
    try:
        read = read_standby(syntax.read_scenario(scenario), schedule)
        told = f"{shown.listed(map(order, read.events))} {shown.boolean(read.halts)}"
    except syntax.Refused as bad:
        told = shown.struct("ScenarioRefused", line=bad.line, cause=CAUSES[bad.cause])
    script.say(f"standby {words.bytes_word(scenario)} {words.bytes_word(schedule)}", told)


def with_orders(rng: random.Random, schedule: bytes) -> bytes:
    """Orders between the lines, and each request of a client an input of its handler."""
    lines = []
    for line in schedule.split(b"\n"):
        if rng.random() < 0.4:
            lines.append(rng.choice([b"ship", b"ship", b"takeover", b"ship # x", b"takeover 1"] if rng.random() < 0.9 else [b"halt"]))
        tokens = line.split()
        lines.append(b" ".join([b"input", *tokens[3:5], *tokens[1:3], *tokens[5:]]) if tokens[:1] == [b"client"] else line)
    return b"\n".join(lines)


def script_of(seed: int) -> words.Script:
    """All cases of texts."""
    script = served_cases.script_of(seed)
    for schedule in SCHEDULES:
        standby(script, STORE, schedule)
    standby(script, STORE + b"end\n", b"ship\n")
    for at, (scenario, schedule) in enumerate(served_cases.read_pairs(script, 1500)[:24]):
        standby(script, scenario, with_orders(random.Random(at), schedule))
    return script
