"""Cases of sources of lines: lines at a limit and past it, a last one that isn't ended, bytes that are no text, reads that fail."""

from __future__ import annotations

import random
from typing import Iterator

import shown
import words
from icoracle.serve import LinesFailed, MemLines
from icoracle.syntax import Cause

WORKED = [(b"", 9), (b"\n", 9), (b"\n\n", 0), (b"a", 0), (b"a\n", 0), (b"ab\nabc\nabcd\n", 3), (b"ab\nabc", 3), (b"ab\nabcd", 3),
          (b"pay 5\npay 50", 9), (b"\xff\xfe\x00\n\r\n \t\n", 2), (b"abcdefgh\n", 7), (b"abcdefgh\n", 8), (b"abcdefgh", 7)]


def answer(lines: MemLines, limit: int) -> str:
    """What is read of the model's lines. It refuses a line that isn't ended, unread."""
    line = lines.left.partition(b"\n")[0]
    try:
        read = lines.next(limit)
    except LinesFailed:
        return "Err(Failed)"
    if read is None:
        return "Ok(None)"
    if read.cause is Cause.LIMIT:
        return "Ok(Some(TooLong))"
    return f"Ok(Some({'Line' if read.cause is None else 'Unterminated'}({shown.items(line)})))"


class Pieces:
    """The lines of a reader that gives so many bytes at a read. Of its reads some fail, and each third one is interrupted;
    once one has failed no line is read any more."""

    def __init__(self, text: bytes, capacity: int, failing: list[int]) -> None:
        self.text, self.capacity, self.failing = text, capacity, failing
        self.held, self.made, self.faults, self.broken = b"", 0, 0, False

    def fill(self) -> bool:
        """Reads where nothing is held. False where the read failed."""
        while not self.held:
            self.made += 1
            if self.made in self.failing:
                return False
            if self.made % 3:
                self.held, self.text = self.text[:self.capacity], self.text[self.capacity:]
                return True
        return True

    def next(self, limit: int) -> str:
        line = b""
        while not self.broken and not line.endswith(b"\n"):
            self.broken = not self.fill()
            if not self.held:
                break
            piece, end, rest = self.held.partition(b"\n")
            line, self.held = line + piece + end, rest
        if self.broken:
            self.faults += 1
            return "Err(Failed)"
        return answer(MemLines(line), limit)


class Memory:
    """The lines of a text in memory."""

    def __init__(self, text: bytes, failing: list[int]) -> None:
        self.lines = MemLines(text, failing)

    @property
    def faults(self) -> int:
        return self.lines.faults

    def next(self, limit: int) -> str:
        return answer(self.lines, limit)


def calls(script: words.Script, source: Memory | Pieces, limits: Iterator[int]) -> None:
    """Calls until nothing is left, or four have failed; then two more."""
    more = 2
    while more:
        limit = next(limits)
        told = source.next(limit)
        script.say(f"next {limit}", told)
        more -= told == "Ok(None)" or source.faults > 4
    script.say("faults", source.faults)


def both(script: words.Script, text: bytes, failing: list[int], capacity: int, limits: Iterator[int]) -> None:
    rest = f"{words.bytes_word(text)}{words.numbers(failing)}"
    script.say(f"memory {rest}", "memory")
    calls(script, Memory(text, failing), limits)
    script.say(f"reader {capacity} {rest}", "reader")
    calls(script, Pieces(text, capacity, failing), limits)


def always(limit: int) -> Iterator[int]:
    while True:
        yield limit


def drawn(rng: random.Random) -> Iterator[int]:
    while True:
        yield rng.choice([0, 1, 2, 3, 5, 8, 4096])


def script_of(seed: int) -> words.Script:
    script, rng = words.Script(), random.Random(seed)
    for text, limit in WORKED:
        for capacity in (1, 4, 200):
            both(script, text, [], capacity, always(limit))
    for place in range(1, 9):
        both(script, b"ab\n\nabcde\nc", [place], 2, always(3))
    for _ in range(40):
        text = bytes(rng.choice(b"\n\nab \xff") for _ in range(rng.randrange(40)))
        failing = rng.sample(range(1, 20), rng.choice([0, 0, 1, 2]))
        both(script, text, failing, rng.choice([1, 2, 5, 9, 255]), drawn(rng))
    script.say("go", "no call go")
    return script
