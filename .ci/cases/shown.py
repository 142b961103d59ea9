"""The values of the model as the programs of cases print them: the form in which Rust debugs data."""

from __future__ import annotations

from typing import Callable, Iterable, Optional

from icoracle import base, wire
from icoracle.parts import Ack

LEVELS = {base.Level.NOTHING: "Nothing", base.Level.TAKEN: "Taken", base.Level.STABLE: "Stable",
          base.Level.INSTALLED: "Installed"}


def struct(name: str, /, **fields: object) -> str:
    inner = ", ".join(f"{key}: {value}" for key, value in fields.items())
    return f"{name} {{ {inner} }}"


def listed(values: Iterable[object]) -> str:
    return "[" + ", ".join(map(str, values)) + "]"


def items(values: Iterable[object]) -> str:
    return struct("Items", items=listed(values))


def option(value: Optional[object], shown: Callable[..., str] = str) -> str:
    return "None" if value is None else f"Some({shown(value)})"


def pair(*values: object) -> str:
    return "(" + ", ".join(map(str, values)) + ")"


def boolean(value: bool) -> str:
    return "true" if value else "false"


def com(number: int) -> str:
    return f"ComId({number})"


def args(values: Iterable[int]) -> str:
    held = list(values)
    return struct("Args", count=len(held), values=listed(held + [0] * (8 - len(held))))


def message(m: base.Msg) -> str:
    return struct("Msg", **{"from": com(m.sender), "to": com(m.to), "k": m.k, "stamp": m.stamp,
                            "handler": m.handler, "args": args(m.args)})


def output(o: base.Output) -> str:
    return struct("Output", m=o.m, to=com(o.to), args=args(o.args))


def session(s: base.Session) -> str:
    return struct("Session", epoch=s.epoch, counter=s.counter)


def request(r: base.Request) -> str:
    if isinstance(r, base.GetKey):
        return f"Get({r.key})"
    return f"Put({r.key}, {r.value})"


def cause(c: base.AbortCause) -> str:
    if isinstance(c, base.NeedCause):
        return f"Need({c.line})"
    if isinstance(c, base.HeldCause):
        return f"Held({com(c.holder)}, {c.number})"
    return f"Epoch({c.old}, {c.present})"


def decision(d: base.Decision) -> str:
    if isinstance(d, base.Committed):
        return f"Committed({d.stamp})"
    return f"Aborted({cause(d.cause)})"


def packet(p: base.Packet) -> str:
    if isinstance(p, base.Data):
        return f"Data({message(p.msg)})"
    ends = {"from": com(p.sender), "to": com(p.to)}
    match p:
        case base.Stable() | base.Installed() | base.Fetch():
            return struct(type(p).__name__, **ends, k=p.k)
        case base.Op():
            return struct("Op", **ends, n=p.n, place=p.place, session=option(p.session, session),
                          request=request(p.request))
        case base.OpReply():
            return struct("OpReply", **ends, n=p.n, place=p.place, session=session(p.session),
                          value=p.value)
        case base.Commit():
            return struct("Commit", **ends, n=p.n, place=p.place, session=session(p.session),
                          stamp=p.stamp)
        case base.OutcomePacket():
            return struct("Outcome", **ends, n=p.n, place=p.place,
                          session=option(p.session, session), decision=decision(p.decision))
        case base.Drop():
            return struct("Drop", **ends, n=p.n)
    raise AssertionError(p)


def ack(a: Ack) -> str:
    return struct("Ack", to=com(a.to), k=a.k, level=LEVELS[a.level])


def record(r: wire.Record) -> str:
    match r:
        case wire.Take(sender, k, stamp):
            return struct("Take", **{"from": com(sender), "k": k, "stamp": stamp})
        case wire.TakeWhole(sender, k, stamp, handler, values):
            return struct("TakeWhole", **{"from": com(sender), "k": k, "stamp": stamp,
                                          "handler": handler, "args": args(values)})
        case wire.Input(stamp, handler, values):
            return struct("Input", stamp=stamp, handler=handler, args=args(values))
        case wire.Value(n, place, given, value):
            return struct("Value", n=n, place=place, session=session(given), value=value)
        case wire.Outcome(stamp, n, abort):
            return struct("Outcome", stamp=stamp, n=n, abort=option(abort, cause))
        case wire.Released(to, k):
            return struct("Released", to=com(to), k=k)
        case wire.Shown(m):
            return struct("Shown", m=m)
        case wire.Checkpoint(image):
            return struct("Checkpoint", image=items(image))
        case wire.Epoch(epoch):
            return struct("Epoch", epoch=epoch)
        case wire.Decided(stamp, com_, n, writes):
            return struct("Decided", stamp=stamp, c=com(com_), n=n,
                          writes=items(pair(key, value) for key, value in writes))
    raise AssertionError(r)


def records(rs: Iterable[wire.Record]) -> str:
    return listed(map(record, rs))


def step(s: base.Step) -> str:
    """Of the four words the first that holds is told."""
    words = [s.took, s.fed, s.used, s.busy]
    first = words.index(True) if True in words else 4
    told = [boolean(i == first) for i in range(4)]
    aborted = None if s.aborted is None else pair(s.aborted[0], cause(s.aborted[1]))
    return struct("Step", puts=items(map(packet, s.puts)), took=told[0], fed=told[1],
                  used=told[2], busy=told[3], shown=option(s.shown, output),
                  aborted=option(aborted))


def refused(why: Exception) -> str:
    """Why a log or a step is refused."""
    match why:
        case base.LogBad():
            return f"Bad({why.place})"
        case base.LogForeign():
            return f"Foreign({listed(why.kept)})"
        case base.DiskFailed():
            return "Failed"
        case base.DiskStopped():
            return "Stopped"
        case base.LogClosed():
            return "Closed"
        case base.Full():
            return "Full"
    raise AssertionError(why)


REFUSALS = (base.LogBad, base.LogForeign, base.DiskFailed, base.DiskStopped, base.LogClosed,
            base.Full)


def result(call: Callable[[], object], shown: Callable[..., str] = lambda _: "()") -> str:
    """What a call answers, or why it is refused."""
    try:
        return f"Ok({shown(call())})"
    except REFUSALS as why:
        return f"Err({refused(why)})"
