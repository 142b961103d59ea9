"""Plays a merged history without crashes: values, ledgers, messages and outputs, as docs/RULES.md has them."""

from __future__ import annotations

from dataclasses import dataclass, field
from typing import Dict, Generator, List, Optional, Tuple

from .scenario import XCOM, Component, Program, Statement
from .texts import GREATEST, LEAST, NUMBER, Word

Playing = Generator["Part", bool, None]  # yields the transaction that is begun; is sent whether it commits


class Illegal(Exception):
    """An entry may not come where it stands, for this cause."""


@dataclass
class Change:
    """A variable or a key that got another value."""

    com: str
    cell: str
    old: int
    new: int


@dataclass
class Step:
    """What an entry did."""

    changes: List[Change] = field(default_factory=list)
    sent: List[Tuple[str, int, str, List[int]]] = field(default_factory=list)  # to, number, handler, values
    shown: List[Tuple[str, int, List[int]]] = field(default_factory=list)  # xcom, number, values
    asks: str = ""  # the Tcom whose transaction is in hand behind it


@dataclass
class Part:
    """A transaction in hand: its statement, and the parameters and locals with which it began."""

    tcom: str
    statement: Statement
    scope: Dict[str, int]


@dataclass
class Hand:
    """A message or an input in hand: what it comes to is seen once its handler ends."""

    own: Dict[str, int]  # the variables
    playing: Optional[Playing] = None
    sent: List[Tuple[str, str, List[int]]] = field(default_factory=list)  # to, handler, values
    shown: List[Tuple[str, List[int]]] = field(default_factory=list)
    part: Optional[Part] = None  # the transaction in hand

    @property
    def asked(self) -> str:
        """The Tcom of the transaction in hand."""
        return self.part.tcom if self.part else ""


def saturated(value: int) -> int:
    return max(LEAST, min(GREATEST, value))


def operand(word: Word, *scopes: Dict[str, int]) -> int:
    if word.kind == NUMBER:
        return word.value
    return next(scope[word.text] for scope in scopes if word.text in scope)


def value(words: List[Word], *scopes: Dict[str, int]) -> int:
    """One operand, or two with an operator between them."""
    left = operand(words[0], *scopes)
    if len(words) == 1:
        return left
    right = operand(words[2], *scopes)
    found = {"+": left + right, "-": left - right, "*": left * right, "<": left < right, "<=": left <= right,
             "=": left == right, "!=": left != right, ">=": left >= right, ">": left > right}[words[1].text]
    return saturated(int(found))


class World:
    """All components, up and crash-free."""

    def __init__(self, program: Program) -> None:
        self.program = program
        self.values: Dict[str, Dict[str, int]] = {
            com.name: dict(zip(com.cells, com.first_values)) for com in program.components}
        self.sent: Dict[Tuple[str, str], List[Tuple[str, List[int]]]] = {}
        self.taken: set = set()
        self.made: Dict[str, int] = {}
        self.begun: Dict[str, int] = {}
        self.in_hand: Dict[str, Hand] = {}
        self.step = Step()
        self.outputs = 0

    # Entries

    def input(self, com: Component, handler: int, values: List[int]) -> Tuple[str, List[int], Step]:
        if handler >= len(com.handlers):
            raise Illegal("there is no such handler")
        name = com.handlers[handler].name
        return name, values, self.handle(com, name, values)

    def take(self, com: Component, sender: Component, k: int) -> Tuple[str, List[int], Step]:
        link = self.sent.get((sender.name, com.name), [])
        if k > len(link):
            raise Illegal("message %d of `%s` wasn't sent" % (k, sender.name))
        if (sender.name, com.name, k) in self.taken:
            raise Illegal("message %d of `%s` was taken before" % (k, sender.name))
        self.taken.add((sender.name, com.name, k))
        name, values = link[k - 1]
        return name, values, self.handle(com, name, values)

    def abort(self, com: Component, n: int) -> Step:
        self.check_in_hand(com, n)
        self.step = Step()
        self.go_on(com, False)
        return self.step

    def commit(self, tcom: Component, com: Component, n: int) -> Step:
        self.check_in_hand(com, n)
        asked = self.in_hand[com.name].asked
        if asked != tcom.name:
            raise Illegal("the transaction is of `%s`" % asked)
        self.step = Step()
        self.go_on(com, True)
        return self.step

    def check_in_hand(self, com: Component, n: int) -> None:
        if com.name not in self.in_hand or self.begun[com.name] != n:
            raise Illegal("transaction %d of `%s` isn't in hand" % (n, com.name))

    # Handlers

    def handle(self, com: Component, name: str, values: List[int]) -> Step:
        handler = com.handler(name)
        if com.name in self.in_hand:
            raise Illegal("`%s` has a message in hand" % com.name)
        if handler is None or len(handler.params) != len(values):
            raise Illegal("the handler `%s` doesn't take these values" % name)
        self.step = Step()
        hand = self.in_hand[com.name] = Hand(dict(self.values[com.name]))
        hand.playing = self.play(com, hand, handler.body, dict(zip(handler.params, values)))
        self.go_on(com, None)
        return self.step

    def go_on(self, com: Component, outcome: Optional[bool]) -> None:
        """Up to the next transaction, or to the handler's end."""
        hand = self.in_hand[com.name]
        try:
            hand.part = hand.playing.send(outcome)  # type: ignore[union-attr, arg-type]
            self.step.asks = hand.asked
            self.begun[com.name] = self.begun.get(com.name, 0) + 1
        except StopIteration:
            del self.in_hand[com.name]
            self.end(com.name, hand)

    def end(self, com: str, hand: Hand) -> None:
        """The handler has ended: its variables are set, and its messages and outputs get their numbers."""
        self.write(com, hand.own)
        for to, handler, values in hand.sent:
            link = self.sent.setdefault((com, to), [])
            link.append((handler, values))
            self.step.sent.append((to, len(link), handler, values))
        for to, values in hand.shown:
            self.made[com] = self.made.get(com, 0) + 1
            self.step.shown.append((to, self.made[com], values))
        self.outputs += len(hand.shown)

    def write(self, com: str, new: Dict[str, int]) -> None:
        cells = self.values[com]
        self.step.changes += [Change(com, cell, cells[cell], now) for cell, now in new.items() if cells[cell] != now]
        cells.update(new)

    def play(self, com: Component, hand: Hand, body: List[Statement], scope: Dict[str, int]) -> Playing:
        own = hand.own
        for one in body:
            words = one.words
            if one.kind == "set":
                own[words[1].text] = value(words[2:], scope, own)
            elif one.kind == "send":
                hand.sent.append((words[1].text, words[2].text, [operand(word, scope, own) for word in words[3:]]))
            elif one.kind == "out":
                hand.shown.append((words[1].text, [operand(word, scope, own) for word in words[2:]]))
            elif one.kind == "if":
                yield from self.play(com, hand, one.first if value(words[1:], scope, own) else one.second, scope)
            elif (yield Part(words[1].text, one, dict(scope))):
                self.do_part(com, hand)
            else:
                yield from self.play(com, hand, one.second, scope)

    def do_part(self, com: Component, hand: Hand) -> None:
        """The transaction in hand commits: its whole part at once, on the present ledger."""
        part, writes = hand.part, {}
        assert part is not None
        self.play_part(self.values[part.tcom], writes, hand.own, part.statement.first, dict(part.scope))
        self.write(part.tcom, writes)

    def play_part(self, ledger: Dict[str, int], writes: Dict[str, int], own: Dict[str, int], body: List[Statement],
                  scope: Dict[str, int]) -> None:
        for one in body:
            words = one.words
            if one.kind == "set":
                own[words[1].text] = value(words[2:], scope, own)
            elif one.kind == "get":
                key = words[2].text
                scope[words[1].text] = writes[key] if key in writes else ledger[key]
            elif one.kind == "put":
                writes[words[1].text] = value(words[2:], scope, own)
            elif one.kind == "need":
                if not value(words[1:], scope, own):
                    raise Illegal("the `need` of line %d fails" % one.line)
            else:
                self.play_part(ledger, writes, own, one.first if value(words[1:], scope, own) else one.second, scope)

    # The end

    def summary(self) -> List[str]:
        """The lines of an audit that tell values."""
        lines = []
        for com in self.program.components:
            if com.kind != XCOM:
                cells = ["%s=%d" % pair for pair in self.values[com.name].items()]
                lines.append(" ".join([com.kind, com.name] + cells))
        return lines
