"""Cases of numbered clients: worked ones and random ones with few numbers, so that requests meet again."""

from __future__ import annotations

import random

import shown
import words
from icoracle.base import Args, Output
from icoracle.clients import Front

CALLS = ["ask", "take", "take", "keep", "lose", "show", "show"]
WORKED = """take 0 0 1 1 5
ask 0 0 1 1 5
show 0 1 1 1 9
show 0 2 1 1 8
ask 0 0 1 1 5
ask 0 0 1 1 6
ask 0 1 1 1 5
ask 0 0 1 1
ask 1 0 1 1 5
lose 0 0 1 2 5
keep 0 0 1 2 5
take 0 0 1 2 5
show 0 3 1 2
ask 0 0 1 2 5
show 0 1 7 7
take 0 0 7 7
ask 0 0 7 7
take 0 0
take 0 0 3
ask 0 0 3
show 0 4 3
take 0 0 -9223372036854775808 9223372036854775807 1 2 3 4 5 6
ask 0 0 -9223372036854775808 9223372036854775807 1 2 3 4 5 6
ask 0 0 1 2 3 4 5 6 7 8 9
go
new
ask 0 0 1 1 5
"""


class Clients:
    """Calls on one front; values with fewer than two have no numbers."""

    def __init__(self, script: words.Script) -> None:
        self.script, self.front = script, Front()

    def asked(self, com: int, handler: int, args: Args) -> str:
        answer = self.front.ask(com, handler, args) if len(args) >= 2 else "new"
        return answer.capitalize() if isinstance(answer, str) else f"Again({answer.m}, {shown.args(answer.args)})"

    def answer(self, call: str, numbers: list[int]) -> str:
        if call == "new":
            self.front = Front()
            return "new"
        if call not in CALLS:
            return f"no call {call}"
        (com, second), args = numbers[:2], tuple(numbers[2:])
        if len(args) > 8:
            return "too many values"
        if call == "show":
            self.front.shows(com, Output(second, 0, args))
            return "shown"
        told = self.asked(com, second, args)
        if told == "New" and call in ("take", "keep"):
            self.front.takes(com, second, args)
        return told

    def say(self, line: str) -> None:
        call, *numbers = line.split()
        self.script.say(line, self.answer(call, list(map(int, numbers))))


def drawn(rng: random.Random) -> str:
    call = rng.choice(CALLS)
    args = [rng.randrange(3) for _ in range(rng.choice([0, 1, 2, 2, 3, 3, 3, 8, 9]))]
    second = rng.randint(1, 40) if call == "show" else rng.randrange(2)
    return f"{call} {rng.randrange(2)} {second}{words.numbers(args)}"


def script_of(seed: int) -> words.Script:
    script, rng = words.Script(), random.Random(seed)
    clients = Clients(script)
    for line in WORKED.splitlines():
        clients.say(line)
    for _ in range(12):
        clients.say("new")
        for _ in range(60):
            clients.say(drawn(rng))
    return script
