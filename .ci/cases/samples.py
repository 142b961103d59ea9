"""Programs, packets, records and disks of which cases are made."""

from __future__ import annotations

import random
from typing import Sequence

from icoracle import base, wire
from icoracle.base import (Component, Get, Handler, If, Kind, Local, Need, Number, One, Out, Param, Program,
                           Put, Send, Session, Set, Two, Txn, Var)
from icoracle.disk import MemDisk
from icoracle.gate2 import FRESH_SIZE_2
from icoracle.logs import log_type
from icoracle.rules import RULES

PRINT, OTHER = bytes([7] * 32), bytes([8] * 32)
FRESH = FRESH_SIZE_2 if RULES.format == 2 else 41  # bytes of a log without a record


def args_of(rng: random.Random, count: int) -> tuple[int, ...]:
    ends = [base.MIN_I64, base.MAX_I64, 0, -1, 1]
    return tuple(rng.choice(ends) if rng.random() < 0.2 else rng.randrange(-99, 99)
                 for _ in range(count))


def any_session(rng: random.Random) -> Session:
    return Session(rng.randrange(1, 3), rng.randrange(1, 4))


def any_cause(rng: random.Random) -> base.AbortCause:
    return rng.choice([base.NeedCause(rng.randrange(99)), base.HeldCause(rng.randrange(4), rng.randrange(1, 5)),
                       base.EpochCause(rng.randrange(3), rng.randrange(3))])


def any_request(rng: random.Random, keys: int) -> base.Request:
    key = rng.randrange(keys)
    return base.GetKey(key) if rng.random() < 0.5 else base.PutKey(key, rng.randrange(-9, 99))


def any_packet(rng: random.Random, coms: int, keys: int = 3) -> base.Packet:
    sender, to, n = rng.randrange(coms), rng.randrange(coms), rng.randrange(1, 5)
    place, given = rng.randrange(3), any_session(rng)
    match rng.randrange(9):
        case 0:
            return base.Data(base.Msg(sender, to, n, rng.randrange(9), rng.randrange(3),
                                      args_of(rng, rng.randrange(3))))
        case 1:
            return base.Stable(sender, to, n)
        case 2:
            return base.Installed(sender, to, n)
        case 3:
            return base.Fetch(sender, to, n)
        case 4:
            return base.Op(sender, to, n, place, rng.choice([None, given]), any_request(rng, keys))
        case 5:
            return base.OpReply(sender, to, n, place, given, rng.randrange(99))
        case 6:
            return base.Commit(sender, to, n, place, given, rng.randrange(9))
        case 7:
            told = base.Committed(rng.randrange(9)) if rng.random() < 0.5 else base.Aborted(any_cause(rng))
            return base.OutcomePacket(sender, to, n, place, rng.choice([None, given]), told)
    return base.Drop(sender, to, n)


def any_record(rng: random.Random) -> wire.Record:
    com, k, stamp = rng.randrange(6), rng.choice([1, 2, base.MAX_NUMBER]), rng.randrange(99)
    match rng.randrange(10):
        case 0:
            return wire.Take(com, k, stamp)
        case 1:
            return wire.TakeWhole(com, k, stamp, rng.randrange(9), args_of(rng, rng.randrange(9)))
        case 2:
            return wire.Input(stamp, rng.randrange(64), args_of(rng, rng.randrange(9)))
        case 3:
            return wire.Value(k, rng.randrange(300), any_session(rng), rng.randrange(-9, 9))
        case 4:
            return wire.Outcome(stamp, k, rng.choice([None, any_cause(rng)]))
        case 5:
            return wire.Released(com, k)
        case 6:
            return wire.Shown(k)
        case 7:
            return wire.Checkpoint(rng.randbytes(rng.randrange(6)))
        case 8:
            return wire.Epoch(stamp)
    writes = tuple((rng.randrange(9), rng.randrange(-9, 9)) for _ in range(rng.randrange(4)))
    return wire.Decided(stamp, com, k, writes)


def disk_of(com: int, payloads: Sequence[bytes]) -> MemDisk:
    """A disk with the log of a component, of these payloads, each a batch."""
    disk = MemDisk()
    log = log_type().create(disk, PRINT, com)
    for payload in payloads:
        log.append(payload)
        log.force()
    return disk


def pcom(handlers: Sequence[Handler] = (), count: int = 0, immediate: bool = False) -> Component:
    return Component("", Kind.PCOM, immediate, tuple(("", 0) for _ in range(count)), (), tuple(handlers))


def trade(immediate: bool) -> Program:
    """A shop, and a store that may force each message that it takes; each with one handler that does nothing."""
    return Program((pcom([Handler("", 0, ())]), pcom([Handler("", 0, ())], immediate=immediate)))


def bank(keys: Sequence[int], kind: Kind = Kind.PCOM) -> Program:
    """A bank with these keys, and two of another kind."""
    held = tuple(("", value) for value in keys)
    other = Component("", kind)
    return Program((Component("", Kind.TCOM, keys=held), other, other))


def imaged() -> Program:
    """Three Pcoms, the first with two variables and the others with handlers, a Tcom and an Xcom."""
    return Program((pcom(count=2), pcom([Handler("", 2, ())]),
                    pcom([Handler("", 1, ()), Handler("", 0, ())]),
                    Component("", Kind.TCOM), Component("", Kind.XCOM)))


def till() -> Program:
    """A till that talks with a shop, a store and a depot, a bank and a desk."""
    add = Handler("", 1, (Set(0, Two(Var(0), "+", Param(0))), Send(1, 0, (Var(0),)), Out(4, (Var(0),))))
    part = (Get(0, 0), Need(11, One(Local(0))), Put(0, One(Local(0))))
    move = Handler("", 0, (Txn(3, part, (Set(0, One(Number(-1))),)),))
    rest = []
    for kind in [Kind.PCOM, Kind.PCOM, Kind.TCOM, Kind.XCOM, Kind.PCOM]:
        rest.append(Component("", kind, False, (), (("", 0),), (Handler("", 1, ()),)))
    return Program((pcom([add, move], 1), *rest))


def market(immediate: bool) -> Program:
    """A shop and a store that order from each other, take, and pay; with a desk and a bank."""
    return Program((market_pcom(1, False), market_pcom(0, immediate), Component("", Kind.XCOM),
                    Component("", Kind.TCOM, keys=(("", 20),))))


def market_pcom(other: int, immediate: bool) -> Component:
    adds = Set(0, Two(Var(0), "+", Param(0)))
    order = Handler("", 1, (adds, Send(other, 1, (Param(0),))))
    back = (Set(1, Two(Param(0), "-", Number(1))), Send(other, 1, (Var(1),)))
    take = Handler("", 1, (adds, If(Two(Param(0), ">", Number(1)), back, (Out(2, (Var(0),)),))))
    part = (Get(0, 0), Need(9, Two(Local(0), ">=", Param(0))), Set(1, Two(Local(0), "-", Param(0))),
            Put(0, One(Var(1))))
    pay = Handler("", 1, (Txn(3, part, (Out(2, (Param(0),)),)), Send(other, 1, (Param(0),))))
    return pcom([order, take, pay], 2, immediate)
