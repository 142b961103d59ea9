"""Follows a run by its report: what each component holds behind each event, what its log has, and what a crash would leave."""

from __future__ import annotations

from dataclasses import dataclass, field
from typing import Dict, List, Optional, Tuple

from .lifelines import UP, lifelines
from .report import Event, Report
from .scenario import PCOM, TCOM, XCOM, Component, Program
from .world import Hand, Part, Step, World

GATE_CALLS = (3, 4)  # of a force: the gate's byte is written and synced
LOAD_CALLS = 3  # device calls of a load


@dataclass
class Log:
    """The records of a component: those that a crash would leave, and those that it would take."""

    forced: List[str] = field(default_factory=list)
    buffered: List[str] = field(default_factory=list)


@dataclass
class Kept:
    """A Pcom between two handlings, and how many forced and buffered records it had come to then."""

    records: int
    values: Dict[str, int]
    sent: Dict[str, int]
    made: int
    begun: int


@dataclass
class Moment:
    """What changes with an event."""

    event: Event
    states: Dict[str, str] = field(default_factory=dict)
    values: Dict[str, Optional[List[int]]] = field(default_factory=dict)
    added: List[Tuple[str, str]] = field(default_factory=list)  # a component and a record
    forced: List[str] = field(default_factory=list)  # components whose buffered records are forced
    lost: List[str] = field(default_factory=list)  # components whose buffered records are gone
    contents: Dict[int, str] = field(default_factory=dict)  # of packets that are put out


class Follower(World):
    """The components of a run as its report tells of them, one event after another, from the beginning."""

    def __init__(self, program: Program, report: Report) -> None:
        super().__init__(program)
        self.report = report
        self.logs = {com.name: Log() for com in program.components if com.kind != XCOM}
        self.steps: Dict[str, List[Tuple]] = {name: [] for name in self.logs}  # one for each record
        self.kept: Dict[str, List[Kept]] = {com.name: [self.keep_of(com.name)] for com in program.components if com.kind == PCOM}
        self.parts: Dict[Tuple[str, int], Tuple[Part, Dict[str, int]]] = {}
        self.results: Dict[Tuple[str, int], Dict[str, int]] = {}  # the variables behind a part that committed
        self.decided: set = set()
        self.writes: Dict[Tuple[str, int], Dict[str, int]] = {}
        self.state = dict.fromkeys(self.logs, UP)
        self.epochs = dict.fromkeys(self.logs, 1)
        self.replaying = False
        self.moment: Moment = Moment(Event(0, "", "", "", ""))

    def moments(self) -> List[Moment]:
        lines = lifelines(self.report)
        changes: Dict[int, Dict[str, str]] = {}
        for name, line in lines.items():
            for at, state in line:
                changes.setdefault(at, {})[name] = state
        return [self.follow(event, changes.get(at, {})) for at, event in enumerate(self.report.events)]

    # One event

    def follow(self, event: Event, states: Dict[str, str]) -> Moment:
        self.moment = moment = Moment(event)
        com = self.program.named(event.com) if event.com in self.logs else None
        before = {name: list(self.values[name].values()) for name in self.logs}
        if com is not None:
            self.step_of(com, event)
        moment.states = {name: state for name, state in states.items() if self.state.get(name, state) != state or event.number == 1}
        for name, state in moment.states.items():
            self.turn(name, state)
        if com is not None and com.kind == PCOM and moment.states.get(com.name) == UP and event.number > 1:
            self.aborts(com, event)
            if event.answer == "fed" and comes_to_request(event) and self.logs[com.name].buffered:
                self.force(com.name)
        for name in self.logs:
            now = list(self.values[name].values())
            is_up = self.state[name] == UP
            if name in moment.states or is_up and now != before[name]:
                moment.values[name] = now if is_up else None
        for extra in event.extras:
            if extra.put is not None:
                moment.contents[extra.put.number] = self.contents(extra.put)
        return moment

    def turn(self, name: str, state: str) -> None:
        """A component goes down, replays or is up again."""
        com = self.program.named(name)
        was, self.state[name] = self.state[name], state
        if state == "down":
            self.lose(name)
        elif state == UP and was != UP and com is not None:
            self.rebuild(com)

    def lose(self, name: str) -> None:
        log = self.logs[name]
        if log.buffered:
            self.moment.lost.append(name)
        del self.steps[name][len(log.forced):]
        log.buffered = []
        if name in self.kept:
            self.kept[name] = [kept for kept in self.kept[name] if kept.records <= len(log.forced)]

    def step_of(self, com: Component, event: Event) -> None:
        before = len(self.moment.added)
        is_forced = (self.pcom_step if com.kind == PCOM else self.tcom_step)(com, event)
        if event.stopped:
            if not is_kept(event, is_forced):
                del self.moment.added[before:]
                self.lose(com.name)
                return
            is_forced = True
        if is_forced and self.logs[com.name].buffered:
            self.force(com.name)

    def force(self, name: str) -> None:
        log = self.logs[name]
        log.forced += log.buffered
        log.buffered = []
        self.moment.forced.append(name)

    def add(self, name: str, words: str, *step: object) -> None:
        """A record, and what it does in a replay."""
        self.logs[name].buffered.append(words)
        self.moment.added.append((name, words))
        self.steps[name].append(step)

    # Steps of a Pcom

    def pcom_step(self, com: Component, event: Event) -> bool:
        """Whether the step forces the log."""
        word, answer = event.word, event.answer
        if word == "input":
            if answer not in ("taken", "kept", "lost"):
                return False
            handler, values = event.label.split()[0], [int(text) for text in event.label.split()[1:] if text.lstrip("-").isdigit()]
            found = com.handler(handler)
            values = values[:len(found.params)] if found else values
            self.record(com, "Input: %s" % self.call(com, handler, values), "handle", handler, values)
            return True
        if word == "force":
            return answer in ("done", "stopped")
        if word == "checkpoint":
            if answer in ("done", "stopped"):
                self.record(com, "Checkpoint", "none")
            return answer in ("done", "stopped")
        if word == "emit" and answer == "done":
            m = next((extra.text.split()[3] for extra in event.extras if extra.kind in ("out", "again")), "")
            self.record(com, "Shown: output %s" % m, "none")
        if event.put is None or answer not in ("taken", "used", "stopped"):
            return False
        is_forced = self.served(com, event)
        self.aborts(com, event)
        return is_forced or comes_to_request(event)

    def served(self, com: Component, event: Event) -> bool:
        """A packet that the component takes or uses."""
        assert event.put is not None
        sender, parts = event.put.sender, event.put.packet.split()
        kind, number = parts[0], int(parts[1])
        if kind == "data" and event.answer in ("taken", "stopped"):
            handler, values = self.message(sender, com.name, number)
            what = "TakeWhole" if com.immediate else "Take"
            self.record(com, "%s: message %d from %s: %s" % (what, number, sender, self.call(com, handler, values)), "handle", handler, values)
            return com.immediate
        if kind == "installed":
            self.record(com, "Released: message %d to %s" % (number, sender), "none")
        elif kind == "reply":
            self.record(com, "Value: transaction %d, place %s" % (number, parts[2]), "none")
        elif kind == "outcome" and parts[2] == "committed":
            self.record(com, "Outcome: transaction %d committed" % number, "outcome", True)
        return False

    def aborts(self, com: Component, event: Event) -> None:
        """The aborts that the event records."""
        for extra in event.extras:
            if extra.kind == "abort":
                self.record(com, "Outcome: transaction %s aborted" % extra.text.split(" ", 3)[2], "outcome", False)

    def record(self, com: Component, words: str, *step: object) -> None:
        self.add(com.name, words, *step)
        self.do(com, step)
        if com.name not in self.in_hand:
            self.kept[com.name].append(self.keep_of(com.name))

    def do(self, com: Component, step: Tuple) -> None:
        """What a record does to the state."""
        if step[0] == "handle" and com.name not in self.in_hand:
            self.handle(com, step[1], step[2])
        elif step[0] == "outcome" and com.name in self.in_hand:
            self.step = Step()
            self.go_on(com, step[1])
        self.note_part(com.name)

    def note_part(self, name: str) -> None:
        """The transaction in hand, as it is when its commit may be served."""
        hand = self.in_hand.get(name)
        if hand is not None and hand.part is not None:
            self.parts[name, self.begun[name]] = (hand.part, dict(hand.own))

    def do_part(self, com: Component, hand: Hand) -> None:
        hand.own.update(self.results.get((com.name, self.begun[com.name]), {}))

    def keep_of(self, name: str) -> Kept:
        log = self.logs[name]
        sent = {to: len(link) for (sender, to), link in self.sent.items() if sender == name}
        return Kept(len(log.forced) + len(log.buffered), dict(self.values[name]), sent, self.made.get(name, 0), self.begun.get(name, 0))

    def rebuild(self, com: Component) -> None:
        """Up again: the state of the log, a Tcom with an epoch more."""
        if com.kind == TCOM:
            self.values[com.name] = dict(zip(com.cells, com.first_values))
            for step in self.steps[com.name]:
                self.values[com.name].update(self.writes.get(tuple(step[1:]), {}) if step[0] == "decided" else {})
            self.epochs[com.name] += 1
            self.add(com.name, "Epoch: %d" % self.epochs[com.name], "none")
            self.force(com.name)
            return
        kept = self.kept[com.name][-1]
        self.values[com.name] = dict(kept.values)
        self.made[com.name], self.begun[com.name] = kept.made, kept.begun
        for (sender, to), link in self.sent.items():
            if sender == com.name:
                del link[kept.sent.get(to, 0):]
        self.in_hand.pop(com.name, None)
        for step in self.steps[com.name][kept.records:]:
            self.do(com, step)

    # Steps of a Tcom

    def tcom_step(self, com: Component, event: Event) -> bool:
        if event.put is None or not event.put.packet.startswith("commit ") or event.answer not in ("used", "stopped"):
            return False
        key = (event.put.sender, int(event.put.packet.split()[1]))
        part = self.parts.get(key)
        if key in self.decided or part is None or any(step[:1] == ("decided",) and step[1:] == key for step in self.steps[com.name]):
            return False
        if event.answer == "used" and not any(extra.put is not None and extra.put.packet.endswith(" committed") for extra in event.extras):
            return False
        own, writes = dict(part[1]), {}
        self.play_part(self.values[com.name], writes, own, part[0].statement.first, dict(part[0].scope))
        self.results[key], self.writes[key] = own, writes
        self.values[com.name].update(writes)
        pairs = " ".join("%s=%d" % pair for pair in writes.items()) or "no writes"
        self.add(com.name, "Decided: transaction %d of %s: %s" % (key[1], key[0], pairs), "decided", *key)
        return True

    # Words

    def message(self, sender: str, to: str, k: int) -> Tuple[str, List[int]]:
        link = self.sent.get((sender, to), [])
        return link[k - 1] if 0 < k <= len(link) else ("", [])

    def call(self, com: Component, handler: str, values: List[int]) -> str:
        found = com.handler(handler)
        return " ".join([handler] + ["%s=%d" % pair for pair in zip(found.params if found else [], values)])

    def contents(self, put) -> str:
        """What a message says."""
        parts = put.packet.split()
        to = self.program.named(put.to)
        if parts[0] != "data" or to is None:
            return ""
        handler, values = self.message(put.sender, put.to, int(parts[1]))
        return self.call(to, handler, values) if handler else ""


def comes_to_request(event: Event) -> bool:
    """Whether the step came to the first request of a transaction, or to its commit."""
    packets = [extra.put.packet.split() for extra in event.extras if extra.put is not None]
    return any(parts[0] == "commit" or parts[0] == "op" and parts[2] == "0" for parts in packets)


def is_kept(event: Event, _: bool) -> bool:
    """Whether the batch of a step that was stopped is in the log."""
    if event.word == "input":
        return event.answer == "kept"
    words = event.text.split(":")[0].split()
    at = words.index("stop")
    number, keep, fill = int(words[at + 1]), int(words[at + 2]), words[at + 3]
    if event.word == "recover":
        number -= LOAD_CALLS
    return number in GATE_CALLS and (keep >= 1 or fill == "1")
