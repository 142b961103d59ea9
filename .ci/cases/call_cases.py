"""Cases of whole components over disks in memory, call by call."""

from __future__ import annotations

import random
from typing import Callable, Iterable, Optional

import shown
import words
from icoracle import base, gate
from icoracle.base import Kind, Program, Session
from icoracle.disk import MemDisk, TornDisk
from icoracle.logs import log_type
from icoracle.pcom import NotTaken, Pcom
from icoracle.tcom import Ledger, Tcom
from part_cases import CONFLICT, NEXT_EPOCH, commit, op, option, plausible
from samples import FRESH, PRINT, any_cause, any_packet, any_session, bank, market, pcom

G, P = base.GetKey, base.PutKey
ROOM = FRESH + 20_000
NAMES = {0: "first", 1: "second"}


def fold(data: bytes) -> int:
    number = 7
    for byte in data:
        number = (number * 31 + byte) % 2 ** 64
    return number


class Component:
    """A component over its disk, or the disk that its crash left."""

    def __init__(self, script: words.Script, name: str, program: Program, com: int) -> None:
        self.script, self.name, self.program, self.com = script, name, program, com
        self.up: Optional[Pcom | Tcom] = None
        self.disk: Optional[TornDisk] = None

    def say(self, line: str, answer: object) -> None:
        self.script.say(f"{self.name} {line}", answer)

    def blank(self, capacity: int, failing: Iterable[int]) -> Optional[gate.Log]:
        """A fresh log, where its first two calls succeed."""
        try:
            return log_type().create(TornDisk(MemDisk(b"", capacity, failing)), PRINT, self.com)
        except shown.REFUSALS:
            return None

    def crash(self, capacity: int = ROOM, failing: Iterable[int] = ()) -> None:
        inner = self.up.crash().inner
        content = inner.bytes()
        self.say(f"crash {capacity}{words.numbers(failing)}", f"{len(content)} {fold(content)}")
        self.up = None
        self.disk = TornDisk(MemDisk(content, max(capacity, len(content)), failing))

    def arm(self, call: int, keep: int, fill: Optional[int]) -> None:
        self.up.log.disk.arm(base.Stop(call, keep, fill))
        self.say(f"arm {call} {keep} {256 if fill is None else fill}", "armed")

    def disarm(self) -> None:
        self.say("disarm", shown.boolean(self.up.log.disk.disarm()))


# ---------------------------------------------------------------- a Tcom


class Bank(Component):
    """Calls on one Tcom."""

    def __init__(self, script: words.Script, program: Program, com: int, capacity: int = ROOM,
                 failing: Iterable[int] = ()) -> None:
        super().__init__(script, "bank", program, com)
        log = self.blank(capacity, failing)
        self.up = None if log is None else Tcom.fresh(program, com, log)
        self.say(f"new {com} {capacity}{words.numbers(failing)}", shown.boolean(self.up is not None))

    def get(self, p: base.Packet) -> None:
        line = f"get {words.packet(p)}"
        if self.up.is_closed():
            self.say(line, "closed")
            return
        self.say(line, shown.result(lambda: self.up.on_packet(p), lambda answer: option(answer, shown.packet)))

    def many(self, sender: int, count: int) -> None:
        served = 0
        for n in range(1, count + 1):
            for p in [base.Op(sender, self.com, n, 0, None, P(0, 7)),
                      base.Commit(sender, self.com, n, 1, Session(1, n), 0)]:
                served += self.up.on_packet(p) is not None
        self.say(f"many {sender} {count}", served)

    def recover(self) -> None:
        try:
            self.up = Tcom.recover(self.program, self.com, self.disk, PRINT)
            self.say("recover", "up")
        except shown.REFUSALS as why:
            self.say("recover", shown.refused(why))

    def state(self, keys: Iterable[int] = (), decisions: Iterable[tuple[int, int]] = (), records: bool = True) -> None:
        kept = self.kept()
        values, decided = self.entered().values, self.entered().decided
        self.say("state", f"{self.up.epoch()} {len(kept)} {shown.boolean(self.up.is_closed())}")
        for key in keys:
            self.say(f"ledger {key}", option(values[key] if key < len(values) else None))
        for com, n in decisions:
            self.say(f"decided {com} {n}", option(decided.get((com, n)) if n >= self.up.least.get(com, 1) else None))
        if records:
            self.say("records", shown.records(kept))

    def kept(self) -> list:
        """The records that are told: those that were forced."""
        return self.up.records[:self.up.forced_count]

    def entered(self) -> Ledger:
        """What the records give that were forced; no other is entered."""
        ledger = Tcom.first_ledger(self.program, self.com)
        for record in self.kept():
            ledger.apply(record)
        return ledger


def bank_rows(script: words.Script) -> None:
    """Worked rows: two keys, a drop, requests again, other sessions."""
    first, second, third = (1, 1), (1, 2), (1, 3)
    two_keys = [op(1, 1, 0, None, G(0)), op(2, 1, 0, None, P(1, 5)), op(1, 1, 1, first, G(1)),
                op(2, 1, 1, second, P(0, 9)), base.Drop(1, 0, 1), op(2, 1, 1, second, P(0, 9)),
                commit(2, 1, 2, second, 3), op(1, 2, 0, None, G(0)), op(1, 2, 1, third, G(1))]
    dropped = [op(1, 1, 0, None, G(0)), op(1, 1, 1, first, P(0, 7)), base.Drop(1, 0, 1), op(1, 1, 2, first, G(0)),
               commit(1, 1, 2, first, 3), op(1, 1, 0, None, G(0)), op(2, 1, 0, None, G(0)), op(1, 2, 0, None, G(1))]
    repeated = [op(1, 1, 0, None, G(0)), op(1, 1, 1, first, P(0, 7)), op(1, 1, 2, first, G(0)), op(1, 1, 0, None, P(1, 3)),
                op(1, 1, 1, first, P(0, 8)), op(1, 1, 2, first, G(1)), op(1, 1, 4, first, G(1)), op(1, 1, 3, first, G(1)),
                commit(1, 1, 4, first, 3), op(1, 1, 0, None, G(0)), op(1, 1, 3, first, G(1))]
    another = [op(1, 1, 0, None, P(0, 7)), commit(1, 1, 1, (1, 7), 3), commit(2, 1, 1, first, 3), commit(1, 2, 1, first, 3),
               commit(1, 1, 1, (2, 1), 3), commit(1, 1, 9, first, 3), commit(1, 1, 1, first, 8), commit(1, 1, 2, (2, 1), 3),
               op(2, 1, 0, None, G(0))]
    once = [op(1, 1, 0, None, G(0)), op(1, 1, 1, first, P(0, 70)), op(2, 1, 0, None, G(0)), commit(1, 1, 2, first, 5),
            commit(1, 1, 2, first, 5), op(1, 1, 1, first, P(0, 70))]
    for packets in [two_keys, dropped, repeated, another, once, CONFLICT, NEXT_EPOCH]:
        s = Bank(script, bank([100, 0]), 0)
        for p in packets:
            s.get(p)
        s.state([0, 1, 2], [(1, 1), (2, 1)])
        s.crash()


AFTER_COMMIT = [op(1, 1, 0, None, G(0)), op(1, 1, 1, (1, 1), P(0, 70)), commit(1, 1, 2, (1, 1), 5)]


def bank_recoveries(script: words.Script) -> None:
    program = bank([100, 0])
    s = Bank(script, program, 0)
    for p in AFTER_COMMIT:
        s.get(p)
    s.crash()
    s.recover()
    s.state([0], [(1, 1)])
    for p in [op(1, 2, 1, (1, 1), G(1)), base.Drop(1, 0, 2), op(1, 2, 0, None, G(1))]:
        s.get(p)
    s.state()
    s.crash()
    for failing in range(1, 9):
        s = Bank(script, program, 0, 200, [failing])
        if s.up is None:
            continue
        for p in AFTER_COMMIT:
            s.get(p)
        s.state([0], [(1, 1)])
        s.get(AFTER_COMMIT[0])
        s.crash(200, [failing])
        s.recover()
    for call in range(1, 6):
        for keep in [0, 1, 5, 40]:
            for fill in [None, 0, 1]:
                s = Bank(script, program, 0)
                for p in AFTER_COMMIT[:2]:
                    s.get(p)
                s.arm(call, keep, fill)
                s.get(AFTER_COMMIT[2])
                s.disarm()
                s.state([0], [(1, 1)])
                s.crash()
                s.recover()


def bank_forgets(script: words.Script) -> None:
    """A decision is forgotten when its Pcom is served from a greater number on, and told again behind a recovery."""
    later = [commit(1, 1, 2, (1, 1), 5), op(1, 1, 0, None, G(0)), op(1, 1, 1, (1, 1), P(0, 70))]
    for last in [base.Drop(1, 0, 1), base.Drop(1, 0, 2), op(1, 2, 0, None, G(1)), op(1, 3, 0, None, P(0, 1))]:
        s = Bank(script, bank([100, 0]), 0)
        for p in [*AFTER_COMMIT, AFTER_COMMIT[2], base.Drop(1, 0, 0), AFTER_COMMIT[0]]:
            s.get(p)
        s.state([0], [(1, 1)])
        for p in [last, *later]:
            s.get(p)
        s.state([0], [(1, 1), (1, 2), (1, 3)])
        s.crash()
        s.recover()
        s.state([0], [(1, 1), (1, 2)])
        for p in [*later, op(1, 2, 0, None, P(0, 9)), commit(1, 2, 1, (2, 1), 5)]:
            s.get(p)
        s.state([0], [(1, 1), (1, 2)])
        s.crash()
        s.recover()
        s.state([0], [(1, 1), (1, 2)])
        s.get(commit(1, 1, 2, (1, 1), 5))
        s.get(commit(1, 2, 1, (2, 1), 5))
        s.crash()


def bank_keeps_each(script: words.Script) -> None:
    """Each Pcom has a decision of its own that is kept."""
    s = Bank(script, bank([100, 0]), 0)
    pairs = [(com, n) for com in [1, 2] for n in [1, 2, 4]]
    for n, one, other in [(1, 1, 2), (2, 3, 4), (4, 5, 6), (2, 5, 6)]:
        for p in [op(1, n, 0, None, P(0, n)), op(2, n, 0, None, P(1, n)), commit(1, n, 1, (1, one), 0), commit(2, n, 1, (1, other), 0)]:
            s.get(p)
        s.state(decisions=pairs, records=False)
    s.crash()
    s.recover()
    s.state(decisions=pairs)
    s.crash()


def bank_misfit(script: words.Script) -> None:
    """A decision of a component that is no Pcom is a misfit at its place."""
    s = Bank(script, bank([100, 0]), 0)
    for p in AFTER_COMMIT:
        s.get(p)
    s.crash()
    other = bank([100, 0], Kind.TCOM)
    script.say(words.program(other), 3)
    s.program = other
    s.recover()
    script.say(words.program(bank([100, 0])), 3)


def bank_large(script: words.Script) -> None:
    """As many keys as there may be, as many places, and many decisions."""
    program = bank([2] * 1024)
    script.say(words.program(program), 3)
    s = Bank(script, program, 0)
    for place in range(256):
        s.get(op(1, 1, place, None if place == 0 else (1, 1), P(place * 4 + 3, 9)))
    s.get(op(1, 1, 256, (1, 1), G(0)))
    s.get(op(2, 1, 0, None, G(1024)))
    s.get(commit(1, 1, 256, (1, 1), 0))
    s.state([1022, 1023])
    script.say(words.program(bank([100, 0])), 3)
    s = Bank(script, bank([100, 0]), 0, 4_000_000)
    s.many(1, 20_000)
    s.crash(4_000_000, [8])
    s.recover()
    s.state([0], [(1, 20_000)], records=False)


def bank_random(script: words.Script, rng: random.Random) -> None:
    failing = sorted(rng.sample(range(3, 40), 2)) if rng.random() < 0.4 else []
    s = Bank(script, bank([100, 0]), 0, rng.choice([ROOM, ROOM, FRESH + 159]), failing)
    for _ in range(50):
        if s.up is None or rng.random() < 0.04:
            if s.up is not None:
                s.crash(ROOM, sorted(rng.sample(range(1, 30), rng.randrange(2))))
            s.recover()
            continue
        if rng.random() < 0.1:
            s.arm(rng.randrange(1, 6), rng.randrange(30), rng.choice([None, 0, 1, 255]))
            s.get(plausible(rng, s.up))
            s.disarm()
        else:
            s.get(plausible(rng, s.up) if rng.random() < 0.9 else any_packet(rng, 3))
        if rng.random() < 0.2:
            s.state([0, 1], [(1, 1), (2, 2)])


# ---------------------------------------------------------------- Pcoms


def without_packet(step: base.Step) -> base.Step:
    """A step that no packet makes is used where something is put out."""
    step.used = bool(step.puts)
    return step

class Place(Component):
    """Calls on one Pcom."""

    def __init__(self, script: words.Script, program: Program, com: int, capacity: int = ROOM,
                 failing: Iterable[int] = ()) -> None:
        super().__init__(script, NAMES[com], program, com)
        log = self.blank(capacity, failing)
        self.steps = base.Steps()  # those of this life
        self.up = None if log is None else Pcom.fresh(program, com, log)
        self.say(f"new {capacity}{words.numbers(failing)}", shown.boolean(self.up is not None))

    def do(self, line: str, call: Callable[[], base.Step]) -> Optional[base.Step]:
        """A call without a packet, and what is told of its step: it is used where something is put out."""
        return self.given(line, lambda: without_packet(call()))

    def given(self, line: str, call: Callable[[], base.Step]) -> Optional[base.Step]:
        """A call, and what is told of its step."""
        if self.up.is_closed():
            self.say(line, "closed")
            return None
        try:
            step = call()
        except shown.REFUSALS as why:
            self.say(line, f"Err({shown.refused(why)})")
            return None
        self.say(line, f"Ok({shown.step(step)})")
        return step

    def input(self, handler: int, *args: int) -> Optional[base.Step]:
        line = f"input {handler}{words.numbers(args)}"
        if self.up.is_closed():
            self.say(line, "closed")
            return None
        try:
            step = self.up.input(handler, args)
        except NotTaken as why:
            word = "Replaying" if why.word is base.Word.MISSED_REPLAYING else "InTransaction"
            self.say(line, f"Ok(NotTaken({word}))")
            return None
        except shown.REFUSALS as why:
            self.say(line, f"Err({shown.refused(why)})")
            return None
        self.say(line, f"Ok(Taken({shown.step(step)}))")
        return step

    def get(self, p: base.Packet) -> Optional[base.Step]:
        return self.given(f"get {words.packet(p)}", lambda: self.up.on_packet(p, self.steps))

    def force(self) -> Optional[base.Step]:
        return self.do("force", self.up.force)

    def resend(self) -> Optional[base.Step]:
        return self.do("resend", self.up.resend)

    def checkpoint(self) -> Optional[base.Step]:
        """One that replays, or has something in hand, does nothing."""
        free = not self.up.is_replaying() and not self.up.in_hand()
        return self.do("checkpoint", self.up.checkpoint_step if free else base.Step)

    def emit(self) -> Optional[base.Step]:
        return self.do("emit", base.Step if self.up.is_replaying() else self.up.emit)

    def recover(self) -> Optional[base.Step]:
        try:
            self.steps = base.Steps()
            self.up, step = Pcom.recover(self.program, self.com, self.disk, PRINT, self.steps)
        except shown.REFUSALS as why:
            self.say("recover", shown.refused(why))
            return None
        self.say("recover", shown.step(without_packet(step)))
        return step

    def state(self) -> None:
        if self.up.is_closed():
            return
        u = self.up
        held = u.state if u.replay is None else u.replay.state
        values = u.vars()
        told = [option(u.waits_at()), u.buffered(), u.since_checkpoint(), shown.boolean(u.is_replaying()),
                shown.boolean(u.in_hand()), shown.boolean(u.has_due()), len(held.shelf.waiting), len(held.outbox.held),
                self.steps.count, option(None if values is None else shown.items(values))]
        self.say("state", " ".join(map(str, told)))

    def tables(self, other: int) -> None:
        if self.up.is_closed():
            return
        messages = self.up.unstable()
        for i in range(len(messages) + 1):
            found = messages[i] if i < len(messages) else None
            self.say(f"unstable {i}", option(found, shown.message))
        for k in range(6):
            self.say(f"taken {other} {k}", shown.boolean(self.up.has_taken(other, k)))

    def records(self) -> None:
        if not self.up.is_closed():
            self.say("records", shown.records(self.up.records))


def order(script: words.Script) -> None:
    """An order goes from the shop to the store, and is shown there once its handling is forced."""
    def handlers(other: int) -> list[base.Handler]:
        return [base.Handler("", 1, (base.Send(other, 1, (base.Param(0),)),)), base.Handler("", 1, (base.Out(2, (base.Param(0),)),))]
    program = Program((pcom(handlers(1)), pcom(handlers(0)), base.Component("", Kind.XCOM)))
    script.say(words.program(program), 3)
    shop, store = Place(script, program, 0), Place(script, program, 1)
    data = shop.input(0, 3).puts[0]
    store.get(data)
    store.emit()
    stable = store.force().puts[0]
    shop.tables(1)
    store.tables(0)
    shop.get(stable)
    shop.tables(1)
    for _ in range(2):
        store.emit()
        store.state()
    for place in [shop, store]:
        place.records()
        place.crash()


class Market:
    """Calls at random on a shop and a store, beside a bank of the model that answers them."""

    def __init__(self, script: words.Script, rng: random.Random, faults: bool) -> None:
        self.rng, self.faults = rng, faults
        self.program = market(rng.random() < 0.4)
        script.say(words.program(self.program), 4)
        self.places = [Place(script, self.program, com, *self.trouble()) for com in (0, 1)]
        self.bank = Tcom.fresh(self.program, 3, log_type().create(MemDisk(), PRINT, 3))
        self.sent: list[base.Packet] = []

    def trouble(self) -> tuple[int, list[int]]:
        """The capacity of a disk, and its calls that fail."""
        if not self.faults:
            return ROOM, []
        failing = sorted(self.rng.sample(range(3, 60), self.rng.randrange(3)))
        return self.rng.choice([ROOM, ROOM, FRESH + 259]), failing

    def keep(self, step: Optional[base.Step]) -> None:
        """What is put out: the bank answers at once."""
        for p in [] if step is None else step.puts:
            if p.to == 3:
                answer = self.bank.on_packet(p)
                if answer is not None:
                    self.sent.append(answer)
            else:
                self.sent.append(p)

    def strange(self, com: int) -> base.Packet:
        """A packet that nobody sent."""
        rng, n = self.rng, self.rng.randrange(1, 4)
        match rng.randrange(5):
            case 0:
                handler, args = rng.choice([(1, (1,)), (0, (2,)), (1, ()), (7, (1,))])
                k = rng.choice([0, 1, 2, 5, base.MAX_NUMBER])
                stamp = rng.choice([0, 3, 9, base.MAX_NUMBER])
                return base.Data(base.Msg(rng.choice([1 - com, 1 - com, com, 2]), com, k, stamp, handler, args))
            case 1:
                return base.OpReply(3, com, n, rng.randrange(3), any_session(rng), rng.randrange(50))
            case 2:
                told = base.Committed(rng.randrange(30)) if rng.random() < 0.4 else base.Aborted(any_cause(rng))
                return base.OutcomePacket(3, com, n, rng.randrange(3), rng.choice([None, any_session(rng)]), told)
            case 3:
                return rng.choice([base.Stable, base.Installed, base.Fetch])(1 - com, com, rng.randrange(6))
        return any_packet(rng, 4)

    def needed(self, place: Place) -> Optional[base.Packet]:
        """The message for which a replay waits, at times with another content; None where nobody sent it yet."""
        need = place.up.replay.needs()
        found = [p for p in self.sent if isinstance(p, base.Data) and (p.sender, p.msg.k) == need and p.to == place.com]
        if not found:
            return None
        msg = found[-1].msg
        if self.rng.random() < 0.2:
            msg = base.Msg(msg.sender, msg.to, msg.k, msg.stamp, self.rng.randrange(3), (self.rng.randrange(1, 9),))
        return base.Data(msg)

    def packet(self, com: int) -> base.Packet:
        place = self.places[com]
        if place.up.is_replaying() and self.rng.random() < 0.5:
            p = self.needed(place)
            if p is not None:
                return p
        mine = [p for p in self.sent if p.to == com]
        if not mine or self.rng.random() < 0.08:
            return self.strange(com)
        recent = mine[-4:]
        return self.rng.choice(recent if self.rng.random() < 0.8 else mine)

    def call(self, place: Place) -> Optional[base.Step]:
        rng = self.rng
        chance = rng.random()
        if chance < 0.15:
            return place.input(rng.choice([0, 0, 1, 2, 2]), rng.randrange(1, 16))
        if chance < 0.7:
            return place.get(self.packet(place.com))
        if chance < 0.8:
            return place.force()
        if chance < 0.87:
            return place.emit()
        if chance < 0.92:
            return place.resend()
        if chance < 0.96:
            return place.checkpoint()
        place.crash(*self.trouble())
        return place.recover()

    def turn(self) -> None:
        if self.rng.random() < 0.04:  # the bank begins its next epoch
            self.bank = Tcom.recover(self.program, 3, self.bank.crash(), PRINT)
        place = self.rng.choice(self.places)
        if place.up is None:
            if place.disk is None:
                return
            self.keep(place.recover())
        elif place.up.is_closed() and self.rng.random() < 0.5:
            place.crash(*self.trouble())
            self.keep(place.recover())
        elif self.faults and self.rng.random() < 0.08:
            place.arm(self.rng.randrange(1, 9), self.rng.randrange(40), self.rng.choice([None, 0, 1, 255]))
            self.keep(self.call(place))
            if place.up is not None:
                place.disarm()
        else:
            self.keep(self.call(place))
        if place.up is not None:
            place.state()
            if self.rng.random() < 0.1:
                place.tables(1 - place.com)


def script_of(seed: int) -> words.Script:
    """All cases of whole components."""
    script, rng = words.Script(), random.Random(seed)
    script.say(words.program(bank([100, 0])), 3)
    for plain in [bank_rows, bank_recoveries, bank_forgets, bank_keeps_each, bank_misfit, bank_large]:
        plain(script)
    for _ in range(10):
        bank_random(script, rng)
    order(script)
    for i in range(20):
        run = Market(script, rng, i % 4 == 3)
        for _ in range(120):
            run.turn()
        for place in run.places:
            if place.up is not None:
                place.records()
    return script
