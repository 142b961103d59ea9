"""Cases of the parts of components: tables, networks, devices, logs, records, images, ledgers, replays."""

from __future__ import annotations

import random
from typing import Callable, Iterable, Optional

import shown
import words
from icoracle import base, ckpt, eval as play, gate, gate2, parts, replay, wire
from icoracle.base import (Component, Expr, Get, Handler, Kind, Local, Need, Number, One, Out, Param,
                           Program, Put, Send, Session, Set, Two, Txn, Var)
from icoracle.disk import MemDisk, MemSink, MemTexts, TornDisk
from icoracle.logs import load_log, log_type
from icoracle.pcom import Pcom, packet_fits
from icoracle.tcom import Tcom
from samples import (FRESH, OTHER, PRINT, any_packet, any_record, args_of, bank, disk_of, imaged, till, trade)

GREATEST = base.MAX_NUMBER
MANY = 20_000
ROOM = FRESH + 159  # bytes of a disk with a log of a few records
WRAP = 2 ** 64


def option(value: Optional[object], show: Callable[..., str] = str) -> str:
    return shown.option(value, show)


def signed(number: int) -> int:
    return number % WRAP


# ---------------------------------------------------------------- receipts


class InboxScript:
    """Calls on one inbox."""

    def __init__(self, script: words.Script) -> None:
        self.script = script
        self.inbox = parts.Inbox()
        script.say("inbox new", "new")

    def _take(self, sender: int, k: int, at: int, whole: bool) -> bool:
        if not 1 <= k <= GREATEST or not self.inbox.is_new(sender, k):
            return False
        self.inbox.took(sender, k, at, whole)
        return True

    def took(self, sender: int, k: int, at: int, whole: bool) -> None:
        self.script.say(f"inbox took {sender} {k} {at} {int(whole)}",
                        shown.boolean(self._take(sender, k, at, whole)))

    def many(self, sender: int, first: int, step: int, count: int) -> None:
        taken = sum(self._take(sender, first + i * step, i, False) for i in range(count))
        self.script.say(f"inbox many {sender} {first} {step} {count}", taken)

    def tell(self, first: int, step: int, count: int) -> None:
        told, fold = 0, 0
        for i in range(count):
            ack = self.inbox.next_ack(first + i * step)
            if ack is not None:
                told, fold = told + 1, (fold * 31 + ack.k) % WRAP
        self.script.say(f"inbox tell {first} {step} {count}", shown.pair(told, fold))

    def ack(self, forced: int) -> None:
        self.script.say(f"inbox ack {forced}", option(self.inbox.next_ack(forced), shown.ack))

    def cover(self, at: int) -> None:
        self.inbox.cover(at)
        self.script.say(f"inbox cover {at}", "covered")

    def level(self, sender: int, k: int, forced: int) -> None:
        self.script.say(f"inbox level {sender} {k} {forced}",
                        shown.LEVELS[self.inbox.level(sender, k, forced)])

    def is_new(self, sender: int, k: int) -> None:
        self.script.say(f"inbox is_new {sender} {k}", shown.boolean(self.inbox.is_new(sender, k)))

    def image(self, i: int, above: int) -> None:
        """What an image would keep of the i-th sender."""
        senders = sorted(self.inbox.taken)
        numbers = self.inbox.taken[senders[i]] if i < len(senders) else None
        bound = None if numbers is None else shown.pair(shown.com(senders[i]), numbers.low)
        self.script.say(f"inbox sender {i}", option(bound))
        held = [] if numbers is None else sorted(numbers.above)
        for j in range(above):
            self.script.say(f"inbox above {i} {j}", option(held[j] if j < len(held) else None))

    def copy(self) -> None:
        self.script.say("inbox copy", len(self.inbox.open))


def inbox_levels(script: words.Script) -> None:
    s = InboxScript(script)
    for case in [(2, 1, 10, False), (3, 1, 20, True), (2, 2, 30, False)]:
        s.took(*case)
    for forced in [9, 10, 19, 30, 30, 30]:
        s.ack(forced)
    s.cover(29)
    for forced in [9, 30, 30]:
        s.ack(forced)
    s.cover(30)
    for forced in [30, 99]:
        s.ack(forced)
    s = InboxScript(script)
    s.took(2, 1, 10, False)
    s.took(2, 3, 20, True)
    for forced in [9, 10, 20]:
        for k in range(1, 4):
            s.level(2, k, forced)
    s.cover(10)
    s.level(2, 1, 9)
    s.level(2, 1, 10)
    for sender, k in [(2, 1), (2, 2), (3, 1)]:
        s.is_new(sender, k)
    for sender, k in [(2, 0), (2, 1), (2, GREATEST), (2, GREATEST + 1), (2, GREATEST)]:
        s.took(sender, k, 30, False)
    s = InboxScript(script)
    for sender, k in [(5, 2), (3, 1), (5, 4), (5, 1), (5, 7), (6, 9)]:
        s.took(sender, k, 0, False)
    for i in range(4):
        s.image(i, 3)


def inbox_many(script: words.Script) -> None:
    s = InboxScript(script)
    s.many(2, 1, 1, MANY)
    s.image(0, 1)
    s.tell(0, 1, MANY)
    s = InboxScript(script)
    s.many(2, MANY, -1, MANY)
    s.image(0, 1)
    s.tell(MANY, 0, MANY)
    s.ack(MANY)
    s = InboxScript(script)
    s.many(2, 2, 2, MANY // 2)
    s.image(0, 1)
    s.many(2, 1, 2, MANY // 2)
    s.image(0, 1)


def inbox_random(script: words.Script, rng: random.Random) -> None:
    s = InboxScript(script)
    at = 0
    for _ in range(60):
        sender, k = rng.randrange(2, 5), rng.randrange(1, 9)
        at += rng.randrange(3)
        match rng.randrange(7):
            case 0 | 1:
                s.took(sender, k, at, rng.random() < 0.3)
            case 2:
                s.ack(rng.randrange(at + 2))
            case 3:
                s.level(sender, k, rng.randrange(at + 2))
            case 4:
                s.cover(rng.randrange(at + 2))
            case 5:
                s.is_new(sender, k)
            case 6:
                s.image(rng.randrange(3), 2)
    s.copy()


# ---------------------------------------------------------------- messages owed


class OutboxScript:
    """Calls on one outbox of component 1."""

    def __init__(self, script: words.Script) -> None:
        self.script = script
        self.outbox = parts.Outbox()
        script.say("outbox new", "new")

    def _send(self, to: int, at: int, args: base.Args) -> int:
        k = self.outbox.sent(to) + 1
        self.outbox.add(base.Msg(1, to, k, at, 0, args), at)
        return k

    def send(self, to: int, at: int, *args: int) -> None:
        self.script.say(f"outbox send {to} {at}{words.numbers(args)}", self._send(to, at, args))

    def many(self, to: int, count: int) -> None:
        for at in range(count):
            self._send(to, at, ())
        self.script.say(f"outbox many {to} {count}", self.outbox.sent(to))

    def put_many(self, first: int, count: int) -> None:
        put, fold = 0, 0
        for i in range(count):
            msg = self.outbox.next_due(first + i)
            if msg is not None:
                put, fold = put + 1, (fold * 31 + msg.k) % WRAP
        self.script.say(f"outbox put_many {first} {count}", shown.pair(put, fold))

    def mark_many(self, what: str, to: int, first: int, step: int, count: int) -> None:
        mark = self.outbox.installed if what == "installed" else self.outbox.stable
        marked = sum(mark(to, first + i * step) for i in range(count))
        self.script.say(f"outbox mark_many {what} {to} {first} {step} {count}", marked)

    def due(self, forced: int) -> None:
        self.script.say(f"outbox due {forced}",
                        option(self.outbox.next_due(forced), shown.message))

    def stable(self, to: int, k: int) -> None:
        self.script.say(f"outbox stable {to} {k}", shown.boolean(self.outbox.stable(to, k)))

    def installed(self, to: int, k: int) -> None:
        self.script.say(f"outbox installed {to} {k}", shown.boolean(self.outbox.installed(to, k)))

    def put_all(self) -> None:
        for held in self.outbox.unput:
            held.put = True
        self.outbox.unput = []
        self.script.say("outbox put_all", "put")

    def sent(self, to: int) -> None:
        self.script.say(f"outbox sent {to}", self.outbox.sent(to))

    def fetch(self, to: int, k: int, forced: int) -> None:
        self.script.say(f"outbox fetch {to} {k} {forced}",
                        option(self.outbox.fetch(to, k, forced), shown.message))

    def unstable(self, forced: int, count: int) -> None:
        messages = self.outbox.unstable(forced)
        self.script.say(f"outbox all {forced}", shown.items(map(shown.message, messages)))
        for i in range(count):
            found = messages[i] if i < len(messages) else None
            self.script.say(f"outbox unstable {i} {forced}", option(found, shown.message))

    def image(self, count: int) -> None:
        """What an image would keep. The links stand in the order in which they came to be."""
        links = [shown.pair(shown.com(to), k) for to, k in sorted(self.outbox.counts.items())]
        held = [held.msg for held in self.outbox.held.values()]
        for i in range(count):
            self.script.say(f"outbox link {i}", option(links[i] if i < len(links) else None))
            found = held[i] if i < len(held) else None
            self.script.say(f"outbox held {i}", option(found, shown.message))

    def copy(self) -> None:
        self.script.say("outbox copy", len(self.outbox.held))


def three(script: words.Script) -> OutboxScript:
    s = OutboxScript(script)
    s.send(2, 10)
    s.send(3, 20)
    s.send(2, 15)
    return s


def outbox_turns(script: words.Script) -> None:
    s = three(script)
    for forced in [9, 10, 14, 19, 19, 20, 99]:
        s.due(forced)
    s = three(script)
    for k in [1, 1, 3]:
        s.stable(2, k)
        s.fetch(2, k, 20)
    s.installed(2, 1)
    s.installed(2, 1)
    s.stable(2, 1)
    s.fetch(2, 1, 20)
    s.fetch(2, 2, 20)
    s.fetch(2, 2, 14)
    s = three(script)
    s.stable(2, 1)
    for forced in [14, 15, 20]:
        s.unstable(forced, 3)
    s.put_all()
    s.due(20)
    s = three(script)
    s.installed(2, 1)
    s.image(3)


def outbox_many(script: words.Script) -> None:
    s = OutboxScript(script)
    s.many(2, MANY)
    s.put_many(1, MANY)
    s.mark_many("stable", 2, 1, 1, MANY - 1)
    s.mark_many("installed", 2, 1, 1, MANY - 1)
    s.image(2)
    s = OutboxScript(script)
    s.many(2, MANY)
    s.put_many(MANY, MANY)
    s.mark_many("installed", 2, MANY, -1, MANY)
    s.image(1)
    s.sent(2)
    s = OutboxScript(script)
    s.many(2, MANY // 10)
    s.mark_many("installed", 2, MANY // 10, -1, MANY // 10)
    s.image(1)
    s.sent(2)


def outbox_random(script: words.Script, rng: random.Random) -> None:
    s = OutboxScript(script)
    at = 0
    for _ in range(60):
        to, k = rng.randrange(2, 5), rng.randrange(1, 7)
        at += rng.randrange(3)
        match rng.randrange(8):
            case 0 | 1:
                s.send(to, at, *args_of(rng, rng.randrange(3)))
            case 2:
                s.due(rng.randrange(at + 2))
            case 3:
                s.stable(to, k)
            case 4:
                s.installed(to, k)
            case 5:
                s.fetch(to, k, rng.randrange(at + 2))
            case 6:
                s.unstable(rng.randrange(at + 2), 2)
            case 7:
                s.sent(to)
    s.image(5)
    s.copy()


# ---------------------------------------------------------------- outputs


class ShelfScript:
    """Calls on one shelf."""

    def __init__(self, script: words.Script, made: int = 0) -> None:
        self.script = script
        self.shelf = parts.Shelf()
        self.shelf.made = made
        script.say(f"shelf made {made}", made)

    def add(self, at: int, *args: int) -> None:
        if self.shelf.made < GREATEST:
            self.shelf.add(play.OutputOut(3, args), at)
            told = self.shelf.made
        else:
            told = 0
        self.script.say(f"shelf add 3 {at}{words.numbers(args)}", told)

    def due(self, forced: int) -> None:
        self.script.say(f"shelf due {forced}", option(self.shelf.next_due(forced), shown.output))

    def shown(self, m: int) -> None:
        self.script.say(f"shelf shown {m}", shown.boolean(self.shelf.shown(m)))

    def waiting(self, i: int) -> None:
        held = self.shelf.waiting
        found = held[i].output if i < len(held) else None
        self.script.say(f"shelf waiting {i}", option(found, shown.output))

    def oldest(self) -> None:
        held = self.shelf.waiting
        self.script.say("shelf oldest", option(held[0].output.m if held else None))
        self.script.say("shelf len", len(held))


def shelf_turns(script: words.Script) -> None:
    s = ShelfScript(script)
    s.due(9)
    for at in [5, 5, 8]:
        s.add(at, 7)
    s.due(4)
    s.due(5)
    s.waiting(2)
    s.waiting(3)
    for m in [2, 2, 4]:
        s.shown(m)
    s.oldest()
    s.shown(1)
    s.due(7)
    s.due(8)
    s.add(1, 7)
    s.due(7)
    s.oldest()
    s = ShelfScript(script, 4)
    s.due(0)
    s = ShelfScript(script, GREATEST - 1)
    s.add(1)
    s.add(1)
    s.due(1)


def shelf_random(script: words.Script, rng: random.Random) -> None:
    s = ShelfScript(script, rng.randrange(3))
    at = 0
    for _ in range(40):
        at += rng.randrange(3)
        match rng.randrange(5):
            case 0 | 1:
                s.add(at, *args_of(rng, rng.randrange(4)))
            case 2:
                s.due(rng.randrange(at + 2))
            case 3:
                s.shown(rng.randrange(12))
            case 4:
                s.waiting(rng.randrange(4))
    s.oldest()


# ---------------------------------------------------------------- transactions

BANK, PAYER = 0, 1
GIVEN, ANOTHER = Session(1, 1), Session(1, 2)


class TxnScript:
    """Calls on a Pcom's side of a transaction."""

    def __init__(self, script: words.Script, begun: int = 0) -> None:
        self.script = script
        self.txn = parts.Txn(begun)
        script.say(f"txn begun {begun}", begun)

    def begin(self, tcom: int, request: base.Request) -> None:
        if self.txn.n >= GREATEST or not self.txn.is_idle():
            return
        self.txn.begin(tcom, request)
        self.script.say(f"txn do begin {tcom} {words.request(request)}", "true")

    def has_next(self) -> bool:
        return self.txn.answered and self.txn.place < 65_535

    def ask(self, request: base.Request) -> None:
        if self.has_next():
            self.txn.ask(request)
            self.script.say(f"txn do ask {words.request(request)}", "true")

    def ready(self) -> None:
        if self.has_next():
            self.txn.ready()
            self.script.say("txn do ready", "true")

    def end(self) -> None:
        if self.txn.is_idle():
            return
        self.txn.end()
        self.script.say("txn do end", "true")

    def reply(self, p: base.Packet) -> None:
        self.script.say(f"txn get reply {words.packet(p)}", option(self.txn.reply(p)))

    def outcome(self, p: base.Packet) -> None:
        self.script.say(f"txn get outcome {words.packet(p)}",
                        option(self.txn.outcome(p), shown.decision))

    def pending(self, com: int, clock: int) -> None:
        self.script.say(f"txn pending {com} {clock}",
                        option(self.txn.pending(com, clock), shown.packet))

    def state(self) -> None:
        last = None if self.txn.last is None else shown.pair(shown.com(self.txn.last[0]),
                                                             self.txn.last[1])
        words_ = [self.txn.n, shown.boolean(self.txn.is_idle()),
                  shown.boolean(self.txn.is_committing()), option(last)]
        self.script.say("txn state", " ".join(map(str, words_)))


def txn_payment(script: words.Script) -> None:
    get, put = base.GetKey(0), base.PutKey(0, 70)
    s = TxnScript(script)
    s.pending(PAYER, 3)
    s.begin(BANK, get)
    s.pending(PAYER, 3)
    for sender, n, place in [(PAYER, 1, 0), (BANK, 2, 0), (BANK, 1, 1), (BANK, 1, 0), (BANK, 1, 0)]:
        s.reply(base.OpReply(sender, PAYER, n, place, GIVEN, 70))
    s.ask(put)
    s.pending(PAYER, 4)
    s.reply(base.OpReply(BANK, PAYER, 1, 1, ANOTHER, 70))
    held, committed = base.Aborted(base.HeldCause(2, 9)), base.Committed(12)
    s.outcome(base.OutcomePacket(BANK, PAYER, 1, 1, GIVEN, held))
    s.outcome(base.OutcomePacket(BANK, PAYER, 1, 1, ANOTHER, held))
    s.outcome(base.OutcomePacket(BANK, PAYER, 1, 2, GIVEN, committed))
    s.reply(base.OpReply(BANK, PAYER, 1, 1, GIVEN, 70))
    s.ready()
    s.pending(PAYER, 5)
    s.state()
    s.outcome(base.OutcomePacket(BANK, PAYER, 1, 0, None, committed))
    s.end()
    s.state()
    TxnScript(script, 4).pending(PAYER, 1)


def txn_random(script: words.Script, rng: random.Random) -> None:
    s = TxnScript(script, rng.randrange(3))
    for _ in range(50):
        n, place = s.txn.n + rng.randrange(2), s.txn.place + rng.choice([0, 0, 0, 1])
        given = rng.choice([GIVEN, GIVEN, ANOTHER])
        request = rng.choice([base.GetKey(rng.randrange(3)), base.PutKey(1, rng.randrange(-9, 9))])
        match rng.randrange(8):
            case 0:
                s.begin(BANK, request)
            case 1 | 2:
                s.reply(base.OpReply(rng.choice([0, 0, 0, 2]), PAYER, n, place, given,
                                     rng.randrange(99)))
            case 3:
                s.ask(request)
            case 4:
                s.ready() if rng.random() < 0.5 else s.state()
            case 5:
                told = rng.choice([base.Committed(rng.randrange(9)),
                                   base.Aborted(base.HeldCause(2, 1)),
                                   base.Aborted(base.EpochCause(1, 2))])
                s.outcome(base.OutcomePacket(BANK, PAYER, n, place, rng.choice([None, given]), told))
            case 6:
                s.pending(PAYER, rng.randrange(9))
            case 7:
                s.end() if rng.random() < 0.3 else s.state()


# ---------------------------------------------------------------- networks


class NetworkScript:
    """Calls on one network: its packets are numbered from 1, and wait until they are taken off."""

    def __init__(self, script: words.Script) -> None:
        self.script = script
        self.packets: list[base.Packet] = []
        self.waiting: list[int] = []
        script.say("network new", "new")

    def pair(self, number: int) -> tuple[int, int]:
        p = self.packets[number - 1]
        return p.sender, p.to

    def oldest_on(self, sender: int, to: int) -> Optional[int]:
        return next((n for n in self.waiting if self.pair(n) == (sender, to)), None)

    def _put(self, p: base.Packet) -> None:
        self.packets.append(p)
        self.waiting.append(len(self.packets))

    def _take_off(self, number: int) -> None:
        if number in self.waiting:
            self.waiting.remove(number)

    def put(self, p: base.Packet) -> None:
        self._put(p)
        self.script.say(f"network put {words.packet(p)}", len(self.packets))

    def take_off(self, number: int) -> None:
        self._take_off(number)
        self.script.say(f"network take_off {number}", len(self.waiting))

    def packet(self, number: int) -> None:
        found = self.packets[number - 1] if 1 <= number <= len(self.packets) else None
        self.script.say(f"network packet {number}", option(found, shown.packet))

    def oldest(self) -> None:
        found = None
        if self.waiting:
            sender, to = self.pair(self.waiting[0])
            found = shown.pair(shown.com(sender), shown.com(to))
        self.script.say("network oldest", option(found))

    def oldest_of(self, sender: int, to: int) -> None:
        self.script.say(f"network oldest_of {sender} {to}", option(self.oldest_on(sender, to)))

    def turns(self, count: int) -> None:
        x, fold = 1, 0
        for _ in range(count):
            x = (x * 6_364_136_223_846_793_005 + 1_442_695_040_888_963_407) % WRAP
            fold = (fold * 31 + self._turn(x)) % WRAP
        self.script.say(f"network turns {count}", fold)

    def _turn(self, x: int) -> int:
        sender, to = (x >> 33) % 4, (x >> 41) % 4
        of_pair = self.oldest_on(sender, to)
        first = 99
        if self.waiting:
            oldest = self.pair(self.waiting[0])
            first = oldest[0] * 4 + oldest[1]
        if len(self.waiting) < 50 and (x >> 60) < 9:
            self._put(base.Drop(sender, to, 1))
        else:
            number = (x >> 17) % 100_000
            self._take_off(number if x >> 62 == 0 or of_pair is None else of_pair)
        return (0 if of_pair is None else of_pair) * 100 + first


def network_turns(script: words.Script) -> None:
    s = NetworkScript(script)
    for sender, to, n in [(0, 1, 5), (1, 0, 6), (0, 1, 7), (0, 1, 8)]:
        s.put(base.Drop(sender, to, n))
    for number in [0, 1, 3, 4, 5]:
        s.packet(number)
    for number in [3, 3, 1, 0, 9, 4]:
        s.take_off(number)
        s.oldest_of(0, 1)
    s.oldest()
    NetworkScript(script).turns(100_000)


def network_random(script: words.Script, rng: random.Random) -> None:
    s = NetworkScript(script)
    for _ in range(40):
        match rng.randrange(5):
            case 0 | 1:
                s.put(any_packet(rng, 4))
            case 2:
                s.take_off(rng.randrange(len(s.packets) + 2))
            case 3:
                s.oldest()
                s.oldest_of(rng.randrange(4), rng.randrange(4))
            case 4:
                s.packet(rng.randrange(len(s.packets) + 2))


def shown_turns(script: words.Script, rng: random.Random) -> None:
    there: set[tuple[int, int]] = set()
    for sender, m in [(1, 2), (2, 1)] + [(rng.randrange(4), rng.randrange(9)) for _ in range(20)]:
        script.say(f"shown was {sender} {m}", shown.boolean((sender, m) in there))
        script.say(f"shown add {sender} {m} 3 7", "added")
        there.add((sender, m))
    for sender in range(4):
        for m in range(9):
            script.say(f"shown was {sender} {m}", shown.boolean((sender, m) in there))


# ---------------------------------------------------------------- devices


class DiskScript:
    """Calls on one disk in memory."""

    def __init__(self, script: words.Script, content: bytes, capacity: int,
                 failing: Iterable[int]) -> None:
        self.script = script
        self.disk = MemDisk(content, max(capacity, len(content)), failing)
        script.say(f"disk new {words.bytes_word(content)} {capacity}{words.numbers(failing)}", "new")

    def length(self) -> None:
        self.script.say("disk length", shown.result(self.disk.length, str))

    def sync(self) -> None:
        self.script.say("disk sync", shown.result(self.disk.sync))

    def read(self, at: int, count: int) -> None:
        line = f"disk read {at} {count}"
        if at + count > len(self.disk.content):
            self.script.say(line, "past the end")
            return
        try:
            self.script.say(line, self.disk.read_at(at, count).hex())
        except base.DiskFailed:
            self.script.say(line, "Failed")

    def write(self, at: int, data: bytes) -> None:
        line = f"disk write {at} {words.bytes_word(data)}"
        if at > len(self.disk.content):
            self.script.say(line, "past the end")
            return
        self.script.say(line, shown.result(lambda: self.disk.write_at(at, data)))

    def state(self) -> None:
        self.script.say("disk bytes", self.disk.bytes().hex())
        self.script.say("disk faults", self.disk.faults)


def disk_turns(script: words.Script, rng: random.Random) -> None:
    for failing in [[], [1], [2], [3], [4]]:
        s = DiskScript(script, b"abc", 8, failing)
        s.length()
        s.write(3, b"de")
        s.sync()
        s.read(1, 2)
        s.state()
    s = DiskScript(script, b"abc", 5, [3])
    s.write(1, b"xyz")
    s.state()
    s.write(1, b"12345")
    s.write(1, b"1")
    s.state()
    s.length()
    for _ in range(10):
        s = DiskScript(script, rng.randbytes(rng.randrange(6)), rng.randrange(12),
                       sorted(rng.sample(range(1, 12), 2)))
        for _ in range(12):
            match rng.randrange(5):
                case 0:
                    s.length()
                case 1:
                    s.sync()
                case 2:
                    s.read(rng.randrange(6), rng.randrange(4))
                case _:
                    s.write(rng.randrange(8), rng.randbytes(rng.randrange(5)))
        s.state()


def sink_turns(script: words.Script) -> None:
    sink = MemSink(failing=[2])
    script.say("sink new 4 2", "new")
    held = b""
    for piece in [b"ab", b"c", b"cde", b"de"]:
        # A piece past the capacity fails as a whole; the model's sink has none.
        try:
            if len(held) + len(piece) > 4:
                sink.calls += 1
                raise base.DiskFailed
            sink.put(piece)
            held += piece
            script.say(f"sink put {piece.hex()}", "Ok(())")
        except Exception:  # noqa: BLE001
            script.say(f"sink put {piece.hex()}", "Err(SinkFailed)")
    script.say("sink bytes", held.hex())


def texts_turns(script: words.Script) -> None:
    said = {"Failed": "the text was not read", "TooLong": "the text is too long"}
    held = [(b"a", b"first"), (b"a", b"second"), (b"c", b"")]
    texts = "".join(f" {words.bytes_word(part)}" for both in held for part in both)
    script.say(f"texts new 4{texts}", "new")
    for name, limit, answer in [(b"a", 5, b"first".hex()), (b"a", 4, "TooLong"),
                                (b"b", 9, "Failed"), (b"a", 9, "Failed"), (b"a", 9, b"first".hex()),
                                (b"c", 0, "")]:
        told = f"{answer} {said[answer]}" if answer in said else answer
        script.say(f"texts read {name.hex()} {limit}", told)


def torn_turns(script: words.Script) -> None:
    """A read over held writes: of the calls of the disk below each is the telling of a length, but for the fourth, which is the one
    read. The sixth fails."""
    script.say("torn new 616263646566 8 6", "new")
    script.say(f"torn write 1 {b'xy'.hex()}", "Ok(())")
    script.say(f"torn write 5 {b'123'.hex()}", "Ok(())")
    script.say("torn read 0 8", b"axyde123".hex())
    script.say("torn read 2 3", "Failed")


# ---------------------------------------------------------------- files of the host


def written(script: words.Script, name: str) -> None:
    """A file of six bytes, which a disk still holds."""
    script.say("file folder write", "new")
    script.say(f"file one new {name.encode().hex()}", "new")
    script.say(f"file one write 0 {b'abcdef'.hex()}", "Ok(())")
    script.say(f"file one write 2 {b'XY'.hex()}", "Ok(())")
    script.say("file one sync", "Ok(())")


def file_disk_turns(script: words.Script) -> None:
    # A disk makes its file by a write.
    script.say("file folder write", "new")
    script.say(f"file one new {b'made'.hex()}", "new")
    script.say("file one length", "Ok(0)")
    script.say("file one sync", "Ok(())")
    script.say("file one read 0 0", "")
    script.say("file one read 0 1", "Failed")
    script.say("file exists made", "false")
    script.say(f"file one write 0 {b'a'.hex()}", "Ok(())")
    script.say("file exists made", "true")
    script.say("file remove made", "removed")
    # A file is of one disk that writes.
    written(script, "held")
    script.say(f"file two new {b'held'.hex()}", "new")
    script.say("file two length", "Err(Failed)")
    script.say(f"file two write 0 {b'z'.hex()}", "Err(Failed)")
    script.say("file one close", "closed")
    script.say("file remove held", "removed")
    # A file is found again.
    written(script, "found")
    script.say("file one close", "closed")
    script.say(f"file one new {b'found'.hex()}", "new")
    script.say("file one length", "Ok(6)")
    script.say("file one read 1 4", b"bXYe".hex())
    script.say("file one read 4 4", "Failed")
    script.say("file remove found", "removed")
    # Disks that only read share a file.
    written(script, "shared")
    script.say("file one close", "closed")
    script.say("file folder read", "new")
    script.say(f"file one new {b'shared'.hex()}", "new")
    script.say(f"file two new {b'shared'.hex()}", "new")
    script.say("file one length", "Ok(6)")
    script.say("file two read 1 4", b"bXYe".hex())
    script.say(f"file two write 0 {b'z'.hex()}", "Err(Failed)")
    script.say("file two sync", "Ok(())")
    script.say("file remove shared", "removed")
    # A folder is no file, and neither is a name that is no text.
    script.say("file folder write", "new")
    script.say(f"file one new {b'/tmp'.hex()}", "new")
    script.say("file one length", "Err(Failed)")
    script.say(f"file one write 0 {b'a'.hex()}", "Err(Failed)")
    script.say("file two new ff", "new")
    script.say("file two sync", "Err(Failed)")


def file_text_turns(script: words.Script) -> None:
    failed, name = "Failed the text was not read", b"hello".hex()
    script.say("file make hello hello", "made")
    script.say(f"file text {name} 5", b"hello".hex())
    script.say(f"file text {name} 4", "TooLong the text is too long")
    script.say("file remove hello", "removed")
    script.say(f"file text {name} 5", failed)
    script.say(f"file text {b'/tmp'.hex()} 5", failed)
    script.say("file text ff 5", failed)
    script.say("file memory", "Memory out of memory")


def output_turns(script: words.Script) -> None:
    # Standard output is a sink.
    script.say(f"file put {b'a piece '.hex()}", "a piece Ok(())")


# ---------------------------------------------------------------- logs


def batches(read: tuple) -> str:
    """The batches of a log that was loaded."""
    return shown.listed(shown.struct("Batch", at=b.offset, payload=shown.items(b.payload))
                        for b in read[1])


class LogScript:
    """Calls on one log over a disk that can be stopped."""

    def __init__(self, script: words.Script) -> None:
        self.script = script
        self.log: Optional[gate.Log] = None

    def new(self, capacity: int, failing: Iterable[int] = ()) -> None:
        line = f"log new {capacity}{words.numbers(failing)}"
        disk = TornDisk(MemDisk(b"", capacity, failing))
        try:
            self.log = log_type().create(disk, PRINT, 0)
            self.script.say(line, "created")
        except shown.REFUSALS as why:
            self.script.say(line, shown.refused(why))

    def append(self, data: bytes) -> None:
        self.script.say(f"log append {words.bytes_word(data)}",
                        shown.result(lambda: self.log.append(data)))

    def zeros(self, count: int) -> None:
        self.script.say(f"log zeros {count}", shown.result(lambda: self.log.append(bytes(count))))

    def force(self) -> None:
        self.script.say("log force", shown.result(self.log.force))

    def arm(self, call: int, keep: int, fill: Optional[int]) -> None:
        self.log.disk.arm(base.Stop(call, keep, fill))
        self.script.say(f"log arm {call} {keep} {256 if fill is None else fill}", "armed")

    def disarm(self) -> None:
        self.script.say("log disarm", shown.boolean(self.log.disk.disarm()))

    def state(self) -> None:
        told = [self.log.forced(), self.log.end(), self.log.size, shown.boolean(self.log.is_closed)]
        self.script.say("log state", " ".join(map(str, told)))

    def crash(self) -> bytes:
        """The power goes, behind a sync; the file that is left."""
        disk = self.log.disk
        synced = shown.result(disk.sync)
        content = disk.inner.bytes()
        self.script.say("log crash", f"{synced} {content.hex()}")
        self.log = None
        return content

    def open(self, content: bytes, other: bool = False, failing: Iterable[int] = ()) -> bool:
        line = f"log open {int(other)} {words.bytes_word(content)}{words.numbers(failing)}"
        disk = TornDisk(MemDisk(content, len(content), failing))
        try:
            read = log_type().load(disk, OTHER if other else PRINT, 0)
        except shown.REFUSALS as why:
            self.script.say(line, shown.refused(why))
            return False
        self.log = read[0]
        self.script.say(line, batches(read))
        return True


def straight(script: words.Script, failing: list[int]) -> None:
    disk = MemDisk(b"", 200, failing)
    line = f"log straight{words.numbers(failing)}"
    try:
        log = log_type().create(disk, PRINT, 0)
    except shown.REFUSALS:
        script.say(line, "no log")
        return
    appended = shown.result(lambda: log.append(b"\xaa"))
    forced = shown.result(log.force)
    script.say(line, f"{appended} {forced} {shown.boolean(log.is_closed)} {disk.bytes().hex()}")


def log_turns(script: words.Script) -> None:
    for failing in range(1, 8):
        straight(script, [failing])
        s = LogScript(script)
        s.new(ROOM, [failing])
        if s.log is not None:
            s.append(b"\xaa")
            s.force()
            s.state()
            s.crash()
    for call in range(1, 6):
        for keep in (0, 1, 6):
            for fill in [None, 1]:
                s = LogScript(script)
                s.new(ROOM)
                s.append(b"\xaa")
                s.arm(call, keep, fill)
                s.force()
                s.disarm()
                s.open(s.crash())
    s = LogScript(script)
    s.new(ROOM, [3])
    s.append(b"\xaa")
    s.force()
    s.append(b"\xaa")
    s.force()
    s.state()


def log_going_on(script: words.Script) -> None:
    s = LogScript(script)
    s.new(ROOM)
    s.append(b"one")
    s.force()
    s.append(b"lost")
    s.state()
    s.open(s.crash())
    s.state()
    s.append(b"tw")
    s.append(b"o")
    s.force()  # the disk has no room past the file
    s = LogScript(script)
    s.new(ROOM)
    for piece in [b"one", b"two", b""]:
        s.append(piece)
        s.force()
    s.state()
    content = s.crash()
    s.open(content)
    s.state()
    s.open(content, other=True)
    for failing in range(1, 4):
        s.open(content, failing=[failing])
    for length in [*range(9), 39, 40, 41, 42, *range(FRESH - 2, len(content))]:
        s.open(content[:length])
    for place in [*range(9), *range(38, 43), *range(FRESH - 1, len(content))]:
        for byte in [0, 1]:
            s.open(content[:place] + bytes([byte]) + content[place + 1:])
    s.open(b"ICLOX001")
    s.open(b"")
    s = LogScript(script)
    s.new(ROOM)
    s.zeros(gate2.MAX_LOG_2 - FRESH - 5)
    s.append(b"\x00")
    s.append(b"")
    s.state()


# ---------------------------------------------------------------- records


def wire_records(script: words.Script, data: bytes) -> None:
    try:
        records = wire.read_records(data)
        again = b"".join(map(wire.record_bytes, records))
        told = f"{shown.records(records)} {again.hex()}"
    except wire.BadAt as bad:
        told = f"BadAt({bad.place})"
    script.say(f"wire records {words.bytes_word(data)}", told)


def wire_placed(script: words.Script, at: int, data: bytes) -> None:
    try:
        placed = wire.read_placed(data)
        told = (f"{shown.listed(at + p.start for p in placed)} "
                f"{shown.records(p.record for p in placed)}")
    except wire.BadAt as bad:
        told = f"BadAt({bad.place})"
    script.say(f"wire placed {at} {words.bytes_word(data)}", told)


TAKEN = wire.Take(1, 2, 9)
INPUTS = [wire.Input(1, 0, (5,)), wire.Input(2, 0, (7,))]
OTHERS = [wire.TakeWhole(1, 1, 9, 0, ()), wire.Value(1, 0, Session(1, 2), -1), wire.Released(3, 1),
          wire.Shown(1), wire.Checkpoint(b"\x09"), wire.Epoch(2), wire.Decided(4, 1, 1, ((1, -30),))]
OUTCOMES = [wire.Outcome(5, 1, None), wire.Outcome(6, 2, base.NeedCause(9)),
            wire.Outcome(7, 3, base.HeldCause(2, 1)), wire.Outcome(8, 4, base.EpochCause(1, 2))]


def spelled(records: Iterable[wire.Record]) -> bytes:
    return b"".join(map(wire.record_bytes, records))


def wire_turns(script: words.Script, rng: random.Random) -> None:
    taken = spelled([TAKEN])
    wire_records(script, taken)
    for length in range(len(taken)):
        wire_records(script, taken[:length])
    wire_placed(script, 45, spelled(INPUTS))
    for records in [OTHERS, OUTCOMES]:
        wire_records(script, spelled(records))
        for record in records:
            data = spelled([record])
            wire_records(script, data[:-1])
            for place in range(len(data)):
                for byte in {0, 11, 0x80, 0xFF}:
                    wire_records(script, data[:place] + bytes([byte]) + data[place + 1:])
    for _ in range(60):
        data = spelled(any_record(rng) for _ in range(rng.randrange(1, 4)))
        wire_records(script, data)
        wire_placed(script, rng.randrange(99), data)
        place = rng.randrange(len(data))
        wire_records(script, data[:place] + rng.randbytes(1) + data[place + 1:])


class RecordScript:
    """Calls on one list of records over a log."""

    def __init__(self, script: words.Script, capacity: int, failing: Iterable[int] = ()) -> None:
        self.script = script
        self.records: list[wire.Record] = []
        self.forced = 0
        self.disk = MemDisk(b"", capacity, failing)
        self.log = log_type().create(self.disk, PRINT, 0)
        script.say(f"records new {capacity}{words.numbers(failing)}", "true")

    def append(self, records: list[wire.Record]) -> None:
        data = spelled(records)
        line = f"records append {words.bytes_word(data)}"
        if self.log.is_closed:
            self.script.say(line, "closed")
            return
        self.script.say(line, shown.result(lambda: self.log.append(data)))
        self.records += records

    def force(self) -> None:
        if self.log.is_closed:
            self.script.say("records force", "no call force")
            return
        self.script.say("records force", shown.result(self.force_and_mark))

    def force_and_mark(self) -> None:
        """A batch that ends with a checkpoint is marked."""
        ends = self.forced < len(self.records) and isinstance(self.records[-1], wire.Checkpoint)
        self.log.force()
        self.forced = len(self.records)
        if ends:
            self.log.mark()

    def state(self) -> None:
        marks = [i for i, r in enumerate(self.records) if isinstance(r, wire.Checkpoint)]
        since = len(self.records) - (marks[-1] + 1 if marks else 0)
        told = [len(self.records) - self.forced, since, self.log.forced(), self.log.end(),
                self.log.size, shown.boolean(self.log.is_closed)]
        self.script.say("records state", " ".join(map(str, told)))

    def crash(self) -> None:
        self.script.say("records crash", f"{self.disk.bytes().hex()} {self.forced}")


def record_log_turns(script: words.Script, rng: random.Random) -> None:
    s = RecordScript(script, FRESH + 360)
    s.append([wire.Shown(1)])
    s.append([wire.Shown(2)])
    s.state()
    s.force()
    s.state()
    s.append([wire.Checkpoint(b"")])
    s.state()
    s.crash()
    for failing in [[], [5], [6], [7], [8], [9], [10]]:
        s = RecordScript(script, FRESH + 4000, failing)
        for _ in range(6):
            s.append([any_record(rng) for _ in range(rng.randrange(3))])
            s.state()
            if rng.random() < 0.5:
                s.force()
                s.state()
        s.crash()


# ---------------------------------------------------------------- images


def image(script: words.Script, program: Program, com: int, data: bytes) -> None:
    try:
        told = ckpt.image_bytes(ckpt.read_image(program, com, data)).hex()
    except wire.BadAt as bad:
        told = f"BadAt({bad.place})"
    script.say(f"image read {com} {words.bytes_word(data)}", told)


def image_state() -> ckpt.State:
    """Each kind of field is there, and each list has two items or more."""
    state = ckpt.State.first(imaged(), 0)
    state.vars = [5, -3]
    state.clock = 9
    state.txn.n, state.txn.last = 4, (3, 2)
    state.shelf.made = 7
    state.shelf.waiting = [parts.Waiting(base.Output(3, 4, (1 << 56,)), 0)]
    state.shelf.waiting = [parts.Waiting(base.Output(3, 4, (1,)), 0), parts.Waiting(base.Output(7, 4, ()), 0)]
    state.outbox.counts = {1: 6, 2: 2}
    for msg in [base.Msg(0, 1, 4, 8, 0, (1, 2)), base.Msg(0, 2, 2, 9, 1, ()), base.Msg(0, 1, 6, 9, 0, (3, 4))]:
        state.outbox.keep(msg)
    state.inbox.taken = {1: parts.Numbers(3, {5, 9}), 2: parts.Numbers(0, {2})}
    return state


def image_turns(script: words.Script, rng: random.Random) -> None:
    program = imaged()
    script.say(words.program(program), 5)
    script.say("image first 0", "[0, 0] 0")
    whole = ckpt.image_bytes(image_state())
    image(script, program, 0, whole)
    for place in range(len(whole)):
        image(script, program, 0, whole[:place] + bytes([(whole[place] + 1) % 256]) + whole[place + 1:])
        image(script, program, 0, whole[:place])
        if rng.random() < 0.3:
            image(script, program, 0, whole[:place] + rng.randbytes(1) + whole[place + 1:])
    image(script, program, 0, whole + b"\x00")
    image(script, program, 1, whole)


# ---------------------------------------------------------------- ledgers


class LedgerScript:
    """Calls on one Tcom without its log, over a Tcom of the model."""

    def __init__(self, script: words.Script, program: Program, com: int, next_epoch: bool) -> None:
        self.script = script
        disk = MemDisk()
        self.tcom = Tcom.fresh(program, com, log_type().create(disk, PRINT, com))
        if next_epoch:
            self.tcom = Tcom.recover(program, com, disk, PRINT)
        word = "next" if next_epoch else "new"
        script.say(f"ledger {word} {com}", word)

    def serve(self, p: base.Packet) -> None:
        before = len(self.tcom.records)
        try:
            answer = option(self.tcom.on_packet(p), shown.packet)
        except base.Full:
            answer = "Full"
        decided = "".join(f" {shown.record(r)}" for r in self.tcom.records[before:])
        self.script.say(f"ledger serve {words.packet(p)}", answer + decided)

    def state(self, keys: int, pcoms: Iterable[int], numbers: int) -> None:
        self.script.say("ledger state", f"{self.tcom.epoch()} {len(self.tcom.sessions)}")
        for key in range(keys):
            self.script.say(f"ledger ledger {key}", option(self.tcom.ledger(key)))
        for com in pcoms:
            for n in range(1, numbers):
                self.script.say(f"ledger decided {com} {n}", option(self.tcom.decided(com, n)))


def op(c: int, n: int, place: int, given: Optional[tuple[int, int]], request: base.Request) -> base.Op:
    return base.Op(c, 0, n, place, None if given is None else Session(*given), request)


def commit(c: int, n: int, place: int, given: tuple[int, int], stamp: int) -> base.Commit:
    return base.Commit(c, 0, n, place, Session(*given), stamp)


G, P = base.GetKey, base.PutKey

CONFLICT = [
    op(1, 1, 0, None, G(0)), op(2, 1, 0, None, P(1, 5)), op(1, 1, 1, (1, 1), P(0, 70)),
    op(1, 1, 2, (1, 1), G(0)), op(1, 1, 3, (1, 1), P(1, 30)), op(2, 1, 1, (1, 2), G(0)),
    op(2, 1, 1, (1, 1), G(1)), op(1, 1, 0, None, P(1, 9)), op(1, 1, 2, (1, 1), G(1)),
    op(1, 1, 4, (1, 1), G(0)), base.Drop(2, 0, 1), op(2, 1, 0, None, G(1)),
    op(1, 1, 3, (1, 1), P(1, 30)), op(2, 2, 0, None, G(1)), commit(1, 1, 9, (1, 2), 3),
    commit(1, 2, 4, (1, 1), 3), commit(1, 1, 4, (2, 1), 3), commit(1, 1, 4, (1, 1), 5),
    commit(1, 1, 4, (1, 1), 5), op(1, 1, 0, None, G(0)), op(2, 2, 0, None, G(1)),
    op(2, 3, 0, None, P(0, 1)), op(1, 2, 0, None, G(0)), op(1, 2, 0, None, G(1)),
    op(1, 3, 0, None, P(1, 2)), commit(1, 2, 1, (1, 5), 8), commit(1, 3, 1, (1, 6), 2),
    commit(2, 3, 1, (1, 4), 2), op(1, 4, 0, None, G(2)), op(0, 4, 0, None, G(0)),
    op(1, 4, 1, None, G(0)), op(1, 4, 0, None, G(1)), op(2, 4, 0, None, G(0))]

NEXT_EPOCH = [op(1, 2, 1, (1, 1), G(1)), commit(1, 2, 1, (1, 1), 4), op(1, 2, 0, None, G(1)),
              op(1, 2, 1, (1, 1), P(1, 3)), op(1, 2, 1, (2, 1), P(1, 3))]


def plausible(rng: random.Random, tcom: Tcom) -> base.Packet:
    """A packet that may go on with what the Tcom has, or repeats or misses it."""
    c = rng.choice([1, 1, 2, 2, 0])
    open_ = [s for s in tcom.sessions.values() if s.com == c]
    if open_ and rng.random() < 0.7:
        s = rng.choice(open_)
        place = len(s.answers) + rng.choice([0, 0, 0, -1, 1])
        given = s.session if rng.random() < 0.9 else Session(tcom.epoch(), s.session.counter + 1)
        if rng.random() < 0.3:
            return base.Commit(c, 0, s.n, max(place, 0), given, rng.randrange(20))
        place = max(place, 0)
        return base.Op(c, 0, s.n, place, given if place else None,
                       rng.choice([G(rng.randrange(3)), P(rng.randrange(2), rng.randrange(99))]))
    n = rng.randrange(1, 6)
    if rng.random() < 0.15:
        return base.Drop(c, 0, n)
    if rng.random() < 0.2:
        return base.Commit(c, 0, n, rng.randrange(3), Session(rng.randrange(1, 3), rng.randrange(1, 6)), rng.randrange(20))
    return base.Op(c, 0, n, 0, None, rng.choice([G(rng.randrange(3)), P(rng.randrange(2), rng.randrange(99))]))


def ledger_turns(script: words.Script, rng: random.Random) -> None:
    script.say(words.program(bank([100, 0])), 3)
    s = LedgerScript(script, bank([100, 0]), 0, False)
    for p in CONFLICT:
        s.serve(p)
    s.state(3, [1, 2], 4)
    s = LedgerScript(script, bank([100, 0]), 0, True)
    for p in NEXT_EPOCH:
        s.serve(p)
    s.state(3, [1, 2], 3)
    for i in range(6):
        s = LedgerScript(script, bank([100, 0]), 0, i % 2 == 1)
        for _ in range(40):
            s.serve(plausible(rng, s.tcom) if rng.random() < 0.9 else any_packet(rng, 3))
        s.state(3, [0, 1, 2], 7)


# ---------------------------------------------------------------- replays


def replayed(script: words.Script, program: Program, com: int, records: bytes, content: base.Args) -> None:
    line = f"replay {com} {words.bytes_word(records)}{words.numbers(content)}"
    logged = [wire.Logged(p.record, p.start, p.end) for p in wire.read_placed(records)]
    try:
        run = replay.Replay(program, com, logged, base.Steps())
        while (need := run.needs()) is not None:
            run.feed(base.Msg(need[0], com, need[1], 2, 0, content), base.Steps())
    except replay.Misfit as misfit:
        script.say(line, f"Misfit({misfit.index})")
        return
    script.say(line, f"{run.played} None {shown.listed(run.state.vars)}")


GOOD = bytes.fromhex(
    "0300000000000000010001000000000000000506010000000000000001070000000000000001010200000000000000"
    "010000000000000003030000000000000005010004000000000000000100000000000000000001000000000000000200"
    "000000000000070400000000000000010001000000000000000100000000000000020000000000000007050000000000"
    "000006000000000000000100")
PLACES = [0, 19, 29, 38, 56, 67, 102, 137, 155]
IMAGE = ("080000006f0000000000000003010000000000000069000000000000000000000000000000000200000001000000"
         "00000000020401000000000000006901010000000000000002000000010100000000000000020000000000000003"
         "000100000000000000690102000000000000000100000000")

# How many records of the good log stand first, and what stands behind them.
REPLAYS: list[tuple[int, list[str]]] = [
    (0, ["090000000000000002"]), (0, ["0a00000000000000010100000000000000010000"]),
    (1, ["03000000000000000100010000000000000005"]), (1, ["03000000000000000202010000000000000005"]),
    (1, ["0300000000000000020000"]), (0, ["010000000000000000010000000000000001"]),
    (0, ["010300000000000000010000000000000001"]), (0, ["010600000000000000010000000000000001"]),
    (0, ["02020000000000000001000000000000000100010000000000000001"]),
    (4, ["010200000000000000010000000000000004"]), (5, ["03000000000000000600010000000000000005"]),
    (5, ["010200000000000000020000000000000006"]),
    (4, ["0400000000000000010000000000000000000100000000000000020000000000000007"]),
    (5, ["0400000000000000020000000000000000000100000000000000020000000000000007"]),
    (5, ["0400000000000000010001000000000000000100000000000000020000000000000007"]),
    (6, ["0400000000000000010001000000000000000100000000000000030000000000000007"]),
    (4, ["050000000000000006000000000000000100"]), (6, ["050000000000000006000000000000000100"]),
    (7, ["050000000000000006000000000000000200"]), (6, ["0500000000000000060000000000000001010000000b"]),
    (5, ["0400000000000000010000000000000000000100000000000000020000000000000000",
         "050000000000000006000000000000000102010000000000000001"]),
    (5, ["0400000000000000010000000000000000000100000000000000020000000000000000",
         "0500000000000000060000000000000001010000000c"]),
    (1, ["06010000000000000002"]), (2, ["06010000000000000001"]), (1, ["070000000000000002"]),
    (3, ["070000000000000001"]), (4, ["080000000100"]), (8, []),
    (5, ["0400000000000000010000000000000000000100000000000000020000000000000000",
         "0500000000000000060000000000000001010000000b", "03000000000000000700010000000000000004"]),
    (5, ["050000000000000006000000000000000102010000000000000001"]),
    (0, ["010500000000000000010000000000000003", "010200000000000000010000000000000004",
         "010100000000000000020000000000000005", "010200000000000000020000000000000006",
         "010500000000000000030000000000000009"]),
    (4, [IMAGE, "03000000000000000500010000000000000003", "070000000000000002"]),
    (0, ["090000000000000007", IMAGE, "090000000000000008", IMAGE, "010200000000000000020000000000000008"]),
    (0, [])]


def replay_turns(script: words.Script, rng: random.Random) -> None:
    program = till()
    script.say(words.program(program), 6)
    good = wire.read_records(GOOD)
    for first, behind in REPLAYS:
        replayed(script, program, 0, GOOD[:PLACES[first]] + bytes.fromhex("".join(behind)), (100,))
    for first in range(len(good)):
        for _ in range(6):
            other = rng.choice([any_record(rng), rng.choice(good), rng.choice(good)])
            rest = rng.sample(good[first:], len(good) - first)[:rng.randrange(3)]
            replayed(script, program, 0, spelled([*good[:first], other, *rest]), (rng.randrange(9),))


def recovered(script: words.Script, program: Program, com: int, disk: MemDisk, print_: bytes) -> None:
    content = disk.bytes()
    line = f"recover {com} {print_[0]} {words.bytes_word(content)}"
    try:
        log, _, logged = load_log(disk, print_, com)
        try:
            run = replay.Replay(program, com, logged, base.Steps())
        except replay.Misfit as misfit:
            raise base.LogBad(logged[misfit.index].offset) from None
    except (base.LogBad, base.LogForeign) as why:
        script.say(line, f"{shown.refused(why)} {len(content)}")
        return
    need = run.needs()
    needs = option(None if need is None else shown.pair(shown.com(need[0]), need[1]))
    told = [run.played, needs, len(logged), shown.listed(l.offset for l in logged), log.forced(), log.size]
    script.say(line, " ".join(map(str, told)))


def recovery_turns(script: words.Script, rng: random.Random) -> None:
    program = trade(False)
    script.say(words.program(program), 2)

    def given(stamp: int, handler: int = 0) -> bytes:
        return spelled([wire.Input(stamp, handler, ())])

    recovered(script, program, 1, disk_of(1, [given(1), spelled([wire.Take(0, 1, 5)]), given(6)]), PRINT)
    for second, print_ in [(bytes(11), PRINT), (given(9, 1), PRINT), (given(1), PRINT), (given(2), OTHER),
                           (bytes([8, 0, 0, 0, 6, 0, 0, 0, 0, 0, 0]), PRINT)]:
        recovered(script, program, 1, disk_of(1, [given(1), second]), print_)
    for _ in range(40):
        payloads, stamp = [], 0
        for _ in range(rng.randrange(1, 5)):
            stamp += rng.choice([0, 1, 1, 1, 2])
            payloads.append(rng.choice([given(stamp), given(stamp, rng.randrange(2)),
                                        spelled([wire.Take(0, rng.randrange(1, 4), stamp)]),
                                        spelled([any_record(rng)]), given(stamp) + given(stamp + 1)]))
        recovered(script, program, 1, disk_of(1, payloads), PRINT)


# ---------------------------------------------------------------- effects


def effects(script: words.Script, program: Program, com: int, what: str, call: Callable[[Pcom], base.Step],
            quiet: bool) -> None:
    """What a Pcom of the model, in its first state, records in a call, and whether the rules force that."""
    pcom = Pcom.fresh(program, com, log_type().create(MemDisk(), PRINT, com))
    step = call(pcom)
    word = "Took" if step.took else "Busy" if step.busy else "Changed" if step.used and pcom.records else "Same"
    told = [word, shown.records(pcom.records), shown.boolean(pcom.wants_force), shown.boolean(quiet)]
    script.say(f"effects {com} {what}", " ".join(told))


def effect_turns(script: words.Script, rng: random.Random) -> None:
    for immediate in [False, True]:
        program = trade(immediate)
        script.say(words.program(program), 2)
        packets = [base.Data(base.Msg(0, 1, k, 3, handler, ())) for k, handler in [(1, 0), (0, 0), (1, 1)]]
        packets += [any_packet(rng, 2) for _ in range(60)]
        for p in packets:
            effects(script, program, 1, f"packet {words.packet(p)}",
                    lambda pcom, p=p: pcom.on_packet(p, base.Steps()), not packet_fits(program, 1, p))
        effects(script, program, 1, "input 0", lambda pcom: pcom.input(0, ()), False)
        effects(script, program, 1, "force", lambda pcom: pcom.force(), False)


def script_of(seed: int) -> words.Script:
    """All cases of parts."""
    script, rng = words.Script(), random.Random(seed)
    for plain in [inbox_levels, inbox_many, outbox_turns, outbox_many, shelf_turns, txn_payment, network_turns,
                  sink_turns, texts_turns, torn_turns, file_disk_turns, file_text_turns, output_turns, log_turns, log_going_on]:
        plain(script)
    for turns in [shown_turns, disk_turns, wire_turns, record_log_turns, image_turns, ledger_turns, replay_turns,
                  recovery_turns, effect_turns]:
        turns(script, rng)
    for _ in range(12):
        for turns in [inbox_random, outbox_random, shelf_random, txn_random, network_random]:
            turns(script, rng)
    return script
