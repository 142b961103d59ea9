"""Random schedules around given inputs: deliveries, losses, repeats, reorderings, forces, checkpoints, crashes, stops, ends and kills."""

from __future__ import annotations

import random
from dataclasses import dataclass
from typing import List, Optional, Union

from .scenario import PCOM, XCOM, Program

EVENTS_LIMIT = 12  # between two inputs
CALLS = 4  # device calls of a force; a load makes three
KEEPS = 60  # bytes that arrive of what a stop cuts off


@dataclass(frozen=True)
class Cut:
    """The end of a call, behind which `resume` goes on: `halt`, or a kill once so many lines were printed."""

    kill: Optional[int] = None


Item = Union[str, Cut]


class Disturber:
    """Draws one schedule."""

    def __init__(self, rng: random.Random, program: Program) -> None:
        self.rng = rng
        self.pcoms = [com.name for com in program.components if com.kind == PCOM]
        self.live = [com.name for com in program.components if com.kind != XCOM]
        self.down: set = set()
        self.items: List[Item] = []

    def draw(self, inputs: List[str]) -> List[Item]:
        calls = self.rng.choice([0, 0, 0, 1, 1, 2])
        cuts = {self.rng.randrange(len(inputs)) for _ in range(calls)} if inputs else set()
        for at, line in enumerate(inputs):
            if at in cuts:
                self.cut()
            self.before_input(line.split()[1])
            self.items.append(line + self.stop(0.1))
            for _ in range(self.rng.randint(0, EVENTS_LIMIT)):
                self.event()
        return self.items

    def cut(self) -> None:
        self.items.append(Cut(self.rng.randint(1, 30) if self.rng.random() < 0.3 else None))
        self.down = set(self.live)

    def before_input(self, com: str) -> None:
        """Mostly its component is up: an input that is missed tells little."""
        if com in self.down and self.rng.random() < 0.8:
            self.items.append("recover %s" % com)
            self.down.discard(com)

    def event(self) -> None:
        rng = self.rng
        com, other = rng.choice(self.live), rng.choice(self.live)
        drawn = rng.random()
        if drawn < 0.5 and com != other:
            self.items.append("deliver %s %s%s" % (com, other, self.stop(0.1)))
        elif drawn < 0.6:
            self.items.append("packet %d%s" % (rng.randint(1, 4 + 3 * len(self.items)), self.stop(0.1)))
        elif drawn < 0.65 and com != other:
            self.items.append("lose %s %s" % (com, other))
        elif drawn < 0.72:
            self.items.append("force %s%s" % (com, self.stop(0.2)))
        elif drawn < 0.78:
            self.items.append("checkpoint %s%s" % (com, self.stop(0.2)))
        elif drawn < 0.83:
            self.items.append("resend %s" % com)
        elif drawn < 0.88:
            self.items.append("emit %s" % com)
        elif drawn < 0.94:
            self.items.append("crash %s" % com)
            self.down.add(com)
        else:
            com = rng.choice(sorted(self.down) or self.live)
            self.items.append("recover %s%s" % (com, self.stop(0.2)))
            self.down.discard(com)

    def stop(self, often: float) -> str:
        rng = self.rng
        if rng.random() >= often:
            return ""
        return " stop %d %d %s" % (rng.randint(1, CALLS), rng.randint(0, KEEPS), rng.choice(["old", str(rng.randint(0, 255))]))


def lives_of(items: List[Item]) -> List[tuple]:
    """The calls: the lines of each, and how it ends."""
    lives: List[tuple] = []
    lines: List[str] = []
    for item in items:
        if isinstance(item, Cut):
            lives.append((lines, item))
            lines = []
        else:
            lines.append(item)
    return lives + [(lines, None)]
