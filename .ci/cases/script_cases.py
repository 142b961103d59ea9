"""Cases of scripts of moves: worked ones, one for each cause, and random ones with words changed."""

from __future__ import annotations

import random

import shown
import words
from fuzz_two import ScriptMaker, event_line
from icoracle.base import Stop
from icoracle.script import (DoCrash, DoDeliver, DoLose, DoMove, DoPacket, DoRecover, DoResend, Event2, read_script)
from icoracle.syntax import Refused
from text_cases import CAUSES

NAMES = {DoDeliver: "Deliver", DoPacket: "Packet", DoLose: "Lose", DoCrash: "Crash", DoRecover: "Recover",
         DoResend: "Resend"}
BOOKS = "book east 10\nbook west 0 5\n"
WORDS = ["book", "move", "deliver", "packet", "lose", "crash", "recover", "resend", "stop", "old", "chief", "east", "west",
         "b0", "b1", "end", "set", "0", "1", "7", "-1", "16", "17", "255", "256", "1000000", "1000001", "4294967295",
         "4294967296", "9223372036854775807", "9223372036854775808", "007", "+", "#", "Foo", "\t", "\x01",
         "aaaaaaaaaabbbbbbbbbbccccccccccdd", "aaaaaaaaaabbbbbbbbbbccccccccccdde"]
WORKED = [
    "book east 10\nbook west 0\nmove east 0 west 0 7\nmove east 0 west 0 7\n",
    "book east 10\nbook west 0\nmove east 0 west 0 7\ndeliver chief east stop 3 1\ncrash chief\n",
    "", "# nothing\n\n", "book east 10", "book chief 1\n", "book stop 1\n", "book old 1\n", "book end 1\n", "book east\n",
    "book east -1\n", "book east " + "1 " * 64 + "\n", "book east " + "1 " * 65 + "\n", "move east 0 west 0 7\n",
    "".join(f"book b{i} {i}\n" for i in range(8)), "".join(f"book b{i} {i}\n" for i in range(9)), BOOKS + "book east 1\n",
    BOOKS + "book far 1\ncrash far\nbook late 1\n",
] + [BOOKS + line + "\n" for line in [
    "move east 0 west 1 7 stop 16 4294967295 255", "move east 0 west 0 0", "move east 1 west 0 7", "move east 0 west -1 7",
    "move east 0 east 0 7", "move chief 0 west 0 7", "move end 0 west 0 7", "move east 0 west 2 7", "move east 0 west 65536 7",
    "move east x west 0 7", "deliver chief west stop 1", "deliver west chief stop 1 2 old", "deliver east west stop 17",
    "deliver east west stop 1 2 256", "deliver east", "lose east chief", "lose east chief stop 1", "packet 1 stop 3 1",
    "packet 0", "packet 1000000", "packet 1000001", "crash east", "crash far", "crash end", "crash east stop 1",
    "recover chief stop 3 0 1", "recover", "resend chief", "resend east", "resend", "halt", "12", "east", "crash east # gone",
    "crash \x07"]]


def stop_of(stop: Stop | None) -> str:
    if stop is None:
        return "None"
    fill = "Old" if stop.fill is None else f"Byte({stop.fill})"
    return f"Some({shown.struct('Stop', call=stop.call, keep=stop.keep, fill=fill)})"


def event(e: Event2) -> str:
    fields = list(vars(e.what).values())
    if isinstance(e.what, DoMove):
        names = ["from", "source", "to", "target", "amount"]
        what = shown.struct("Move", **dict(zip(names, fields)))
    else:
        what = f"{NAMES[type(e.what)]}({', '.join(map(str, fields))})"
    return shown.struct("Event2", what=what, stop=stop_of(e.stop))


def answer(text: bytes) -> str:
    try:
        script = read_script(text)
    except Refused as bad:
        return f"Err({shown.struct('ScenarioRefused', line=bad.line, cause=CAUSES[bad.cause])})"
    books = shown.items(f"({shown.items(name.encode())}, {shown.items(values)})" for name, values in script.books)
    return f"Ok({shown.struct('Script', books=books, events=shown.items(map(event, script.events)))})"


def drawn(rng: random.Random) -> str:
    """A script of a few events."""
    maker = ScriptMaker(rng)
    lines = [maker.head]
    for _ in range(rng.randint(0, 5)):
        stop = Stop(rng.randint(1, 16), rng.choice([0, 1, 4294967295]), rng.choice([None, 0, 255]))
        lines.append(event_line(maker.script, Event2(maker.what(), rng.choice([None, None, stop]))) + "\n")
    return "".join(lines)


def changed(rng: random.Random, text: str) -> str:
    """The text with a word or a line changed."""
    lines = text.split("\n")
    at = rng.randrange(len(lines))
    line = lines[at].split(" ")
    match rng.randrange(6):
        case 0:
            line[rng.randrange(len(line))] = rng.choice(WORDS)
        case 1:
            line.insert(rng.randrange(len(line) + 1), rng.choice(WORDS))
        case 2:
            del line[rng.randrange(len(line))]
        case 3:
            other = rng.randrange(len(lines))
            lines[at], lines[other] = lines[other], lines[at]
            return "\n".join(lines)
        case 4:
            return "\n".join(lines[:at + 1] + lines[at:])
    lines[at] = " ".join(line)
    return "\n".join(lines)


def script_of(seed: int) -> words.Script:
    rng = random.Random(seed)
    texts = list(WORKED)
    for _ in range(160):
        text = drawn(rng)
        for _ in range(rng.choice([0, 1, 1, 2])):
            text = changed(rng, text)
        texts.append(text)
    script = words.Script()
    for text in texts:
        script.say(text.encode().hex(), answer(text.encode()))
    return script
