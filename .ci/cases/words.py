"""The lines that the programs of cases read."""

from __future__ import annotations

from typing import Iterable

from icoracle import base


class Script:
    """Lines and what each must be answered."""

    def __init__(self) -> None:
        self.lines: list[str] = []
        self.answers: list[str] = []

    def say(self, line: object, answer: object) -> None:
        words = str(line)
        assert "\n" not in words and "\n" not in str(answer)
        self.lines.append(words)
        self.answers.append(str(answer))


def bytes_word(data: bytes) -> str:
    return data.hex() if data else "-"


def numbers(values: Iterable[int]) -> str:
    return "".join(f" {value}" for value in values)


def session(s: base.Session | None) -> str:
    return "0 0" if s is None else f"{s.epoch} {s.counter}"


def request(r: base.Request) -> str:
    return f"get {r.key}" if isinstance(r, base.GetKey) else f"put {r.key} {r.value}"


def decision(d: base.Decision) -> str:
    if isinstance(d, base.Committed):
        return f"committed {d.stamp}"
    match d.cause:
        case base.NeedCause(line):
            return f"need {line}"
        case base.HeldCause(holder, number):
            return f"held {holder} {number}"
        case base.EpochCause(old, present):
            return f"epoch {old} {present}"
    raise AssertionError(d)


def packet(p: base.Packet) -> str:
    ends = f"{p.sender} {p.to}"
    match p:
        case base.Data(m):
            return f"data {ends} {m.k} {m.stamp} {m.handler}{numbers(m.args)}"
        case base.Stable():
            return f"stable {ends} {p.k}"
        case base.Installed():
            return f"installed {ends} {p.k}"
        case base.Fetch():
            return f"fetch {ends} {p.k}"
        case base.Op():
            return f"op {ends} {p.n} {p.place} {session(p.session)} {request(p.request)}"
        case base.OpReply():
            return f"reply {ends} {p.n} {p.place} {session(p.session)} {p.value}"
        case base.Commit():
            return f"commit {ends} {p.n} {p.place} {session(p.session)} {p.stamp}"
        case base.OutcomePacket():
            return f"outcome {ends} {p.n} {p.place} {session(p.session)} {decision(p.decision)}"
        case base.Drop():
            return f"drop {ends} {p.n}"
    raise AssertionError(p)


def operand(o: base.Operand) -> str:
    match o:
        case base.Number(value):
            return f"n {value}"
        case base.Var(index):
            return f"v {index}"
        case base.Param(index):
            return f"p {index}"
        case base.Local(index):
            return f"l {index}"
    raise AssertionError(o)


def expr(e: base.Expr) -> str:
    if isinstance(e, base.One):
        return f"one {operand(e.operand)}"
    return f"{e.op} {operand(e.left)} {operand(e.right)}"


def operands(values: Iterable[base.Operand]) -> str:
    held = [operand(value) for value in values]
    return " ".join([str(len(held)), *held])


def statement(s: base.Stmt) -> str:
    match s:
        case base.Set(var, value):
            return f"set {var} {expr(value)}"
        case base.Send(to, handler, values):
            return f"send {to} {handler} {operands(values)}"
        case base.Out(to, values):
            return f"out {to} {operands(values)}"
        case base.If(value, then, other):
            return f"{body(then)} {body(other)} if {expr(value)}"
        case base.Txn(tcom, part, other):
            return f"{body(part)} {body(other)} txn {tcom}"
        case base.Get(local, key):
            return f"get {local} {key}"
        case base.Put(key, value):
            return f"put {key} {expr(value)}"
        case base.Need(line, value):
            return f"need {line} {expr(value)}"
    raise AssertionError(s)


def body(statements: Iterable[base.Stmt]) -> str:
    return " ".join(["[", *map(statement, statements)])


def component(c: base.Component) -> str:
    parts = [f"var {value}" for _, value in c.vars] + [f"key {value}" for _, value in c.keys]
    parts += [f"{body(h.body)} handler {h.params}" for h in c.handlers]
    return " ".join(parts + [f"component {c.kind.value} {int(c.immediate)}"])


def program(p: base.Program) -> str:
    """A program; each part stands before the whole to which it belongs."""
    return " ".join(["program", *map(component, p.components)])
