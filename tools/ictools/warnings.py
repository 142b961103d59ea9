"""What a scenario that is accepted may not have been meant to say."""

from __future__ import annotations

from dataclasses import dataclass
from typing import Dict, Iterator, List, Optional, Set, Tuple

from .scenario import PCOM, TCOM, XCOM, Component, Handler, Program, Statement
from .texts import NAME, OPERATOR

Place = Tuple[str, str]  # a Pcom and a handler


@dataclass(frozen=True)
class Remark:
    line: int
    place: int
    length: int
    detail: str


def statements(body: List[Statement]) -> Iterator[Statement]:
    """All statements of a handler, those inside others too."""
    for one in body:
        yield one
        yield from statements(one.first)
        yield from statements(one.second)


def operands(statement: Statement) -> List[str]:
    """The names that a statement reads."""
    first = {"set": 2, "put": 2, "if": 1, "need": 1, "send": 3, "out": 2}.get(statement.kind)
    words = [] if first is None else statement.words[first:]
    return [word.text for word in words if word.kind == NAME]


class Uses:
    """Which names the handlers of a program use."""

    def __init__(self, program: Program) -> None:
        self.program = program
        self.read: Set[Tuple[str, str]] = set()  # component and variable or key
        self.written: Set[Tuple[str, str]] = set()
        self.named: Set[str] = set()  # components
        self.sends: Set[Place] = set()
        for pcom in program.components:
            for handler in pcom.handlers:
                for statement in statements(handler.body):
                    self.note(pcom.name, statement)

    def note(self, pcom: str, statement: Statement) -> None:
        words = [word.text for word in statement.words]
        self.read |= {(pcom, name) for name in operands(statement)}
        if statement.kind == "set":
            self.written.add((pcom, words[1]))
        elif statement.kind in ("get", "put"):
            tcom, key = statement.tcom or "", words[2 if statement.kind == "get" else 1]
            (self.read if statement.kind == "get" else self.written).add((tcom, key))
        elif statement.kind in ("send", "out", "txn"):
            self.named.add(words[1])
            if statement.kind == "send":
                self.sends.add((words[1], words[2]))


class Warner:
    def __init__(self, program: Program, lines: List[bytes], inputs: Optional[Set[Place]]) -> None:
        self.program = program
        self.lines = lines
        self.inputs = inputs  # of the schedule, where there is one
        self.uses = Uses(program)
        self.found: List[Remark] = []

    def warn(self, line: int, name: str, detail: str) -> None:
        """At the first place in the line where the name stands as a word."""
        text = self.lines[line - 1].decode("latin-1")
        places = [at for at in range(len(text)) if text.startswith(name, at)
                  and not is_letter(text[at - 1:at]) and not is_letter(text[at + len(name):at + len(name) + 1])]
        self.found.append(Remark(line, places[0] if places else 0, len(name), detail))

    def all(self) -> List[Remark]:
        for component in self.program.components:
            self.component(component)
            for handler in component.handlers:
                self.handler(component, handler)
                for statement in handler.body:
                    self.ledger(statement)
        self.circles()
        return sorted(self.found, key=lambda it: (it.line, it.place))

    # Names that nobody uses

    def component(self, component: Component) -> None:
        name = component.name
        if component.kind == XCOM and name not in self.uses.named:
            self.warn(component.line, name, "Nothing is shown to `%s`: no `out` names it." % name)
        if component.kind == TCOM and name not in self.uses.named:
            self.warn(component.line, name, "No transaction is done with `%s`: no `txn` names it." % name)
            return
        what = "variable" if component.kind == PCOM else "key"
        for cell, line in zip(component.cells, component.cell_lines):
            if (name, cell) not in self.uses.read | self.uses.written:
                self.warn(line, cell, "No handler uses the %s `%s`." % (what, cell))

    def handler(self, pcom: Component, handler: Handler) -> None:
        place = (pcom.name, handler.name)
        if self.inputs is not None and place not in self.inputs | self.uses.sends:
            self.warn(handler.line, handler.name, "No `send` names the handler `%s`, and the schedule has no input for it."
                      % handler.name)
        inside = list(statements(handler.body))
        read = {name for statement in inside for name in operands(statement)}
        for name in handler.params:
            if name not in read:
                self.warn(handler.line, name, "The parameter `%s` isn't used." % name)
        for one in inside:
            if one.kind == "get" and one.words[1].text not in read:
                self.warn(one.line, one.words[1].text, "The value `%s` isn't used." % one.words[1].text)

    # Ledgers below 0

    def ledger(self, statement: Statement) -> None:
        """The transactions in a statement of a handler."""
        if statement.kind == "txn":
            self.part(statement.first, set())
        for inner in (statement.first if statement.kind == "if" else []) + statement.second:
            self.ledger(inner)

    def part(self, body: List[Statement], guarded: Set[str]) -> None:
        """Each `put` of a difference wants a `need` or an `if` on what is lessened."""
        guarded = guarded | {name for one in body if one.kind == "need" for name in operands(one)}
        for one in body:
            if one.kind == "put" and is_difference(one) and not guarded & {one.words[2].text, one.words[1].text}:
                key, left, right = one.words[1].text, one.words[2].text, one.words[4].text
                self.warn(one.line, key, "`%s` may go below 0: no `need` guards it, as `need %s >= %s`." % (key, left, right))
            self.part(one.first, guarded | set(operands(one)))
            self.part(one.second, guarded | set(operands(one)))

    # Circles of sends

    def circles(self) -> None:
        """Handlers whose sends come back to them in each case."""
        surely: Dict[Place, Set[Place]] = {
            (pcom.name, handler.name): sure_sends(handler.body)
            for pcom in self.program.components for handler in pcom.handlers}
        told: Set[Place] = set()
        for start in surely:
            way = circle(surely, start)
            if way and not told & set(way):
                told |= set(way)
                pcom = self.program.named(start[0])
                handler = pcom.handler(start[1]) if pcom else None
                words = ", then ".join("`%s` of `%s`" % (name, com) for com, name in way[1:] + way[:1])
                self.warn(handler.line if handler else 1, start[1],
                          "A circle of sends without end: `%s` of `%s` sends to %s, and no `if` ends it."
                          % (start[1], start[0], words))


def is_letter(text: str) -> bool:
    return text.isalnum() or text == "_"


def is_difference(statement: Statement) -> bool:
    words = statement.words
    return len(words) == 5 and words[3].kind == OPERATOR and words[3].text == "-" and words[2].kind == NAME


def sure_sends(body: List[Statement]) -> Set[Place]:
    """What is sent in each case."""
    found: Set[Place] = set()
    for one in body:
        if one.kind == "send":
            found.add((one.words[1].text, one.words[2].text))
        elif one.kind == "if":
            found |= sure_sends(one.first) & sure_sends(one.second)
    return found


def circle(edges: Dict[Place, Set[Place]], start: Place) -> List[Place]:
    """A way from a place back to it, or nothing."""
    ways, seen = [[start]], {start}
    while ways:
        way = ways.pop()
        for place in sorted(edges.get(way[-1], ())):
            if place == start:
                return way
            if place not in seen:
                seen.add(place)
                ways.append(way + [place])
    return []
