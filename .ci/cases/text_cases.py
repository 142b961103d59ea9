"""Cases of texts, plays of handlers and reports."""

from __future__ import annotations

import random
from typing import Iterable, Optional, Sequence

import shown
import words
from fuzz_more import ClientTexts
from fuzz import ScenarioMaker, ScheduleMaker, make_policy
from icoracle import base, eval as play, plan, report, syntax
from icoracle.base import (Get, Handler, If, Kind, Local, Need, Number, One, Out, Param, Program, Put, Send, Set,
                           Txn, Two, Var)
from icoracle.clients import read_clients
from icoracle.disk import MemTexts
from icoracle.top import Call, Ended
from call_cases import fold
from run_cases import damaged_logs
from samples import any_cause, any_packet, args_of, pcom
from scenario_texts import TEXTS

CAUSES = {syntax.Cause.LIMIT: "Limit", syntax.Cause.NOT_TEXT: "NotText", syntax.Cause.WORD: "Word",
          syntax.Cause.STRUCTURE: "Structure", syntax.Cause.TWICE: "Twice", syntax.Cause.UNKNOWN: "Unknown",
          syntax.Cause.ARITY: "Arity"}
POLICY = {plan.PolicyCause.NOT_TOML: ("NotToml", "the policy is not TOML"),
          plan.PolicyCause.UNKNOWN: ("Unknown", "the policy has an unknown key"),
          plan.PolicyCause.KIND: ("Kind", "a value of the policy has the wrong kind"),
          plan.PolicyCause.RANGE: ("Range", "a value of the policy is out of range")}
KINDS = {Kind.PCOM: "Pcom", Kind.TCOM: "Tcom", Kind.XCOM: "Xcom"}
OPERATORS = {"+": "Add", "-": "Sub", "*": "Mul", "<": "Less", "<=": "AtMost", "=": "Equal", "!=": "NotEqual",
             ">=": "AtLeast", ">": "Greater"}


# ---------------------------------------------------------------- programs as they are printed


def operand(o: base.Operand) -> str:
    return f"{type(o).__name__}({o.value if isinstance(o, Number) else o.index})"


def expr(e: base.Expr) -> str:
    if isinstance(e, One):
        return f"One({operand(e.operand)})"
    return f"Two({operand(e.left)}, {OPERATORS[e.op]}, {operand(e.right)})"


def operands(values: Iterable[base.Operand]) -> str:
    return shown.items(map(operand, values)).replace("Items", "Operands")


def body(statements: Iterable[base.Stmt]) -> str:
    return shown.struct("Body", stmts=shown.listed(map(statement, statements)))


def statement(s: base.Stmt) -> str:
    match s:
        case Set(var, value):
            return f"Set({var}, {expr(value)})"
        case Send(to, handler, values):
            return f"Send({shown.com(to)}, {handler}, {operands(values)})"
        case Out(to, values):
            return f"Out({shown.com(to)}, {operands(values)})"
        case If(value, then, other):
            return f"If({expr(value)}, {body(then)}, {body(other)})"
        case Txn(tcom, part, other):
            return f"Txn({shown.com(tcom)}, {body(part)}, {body(other)})"
        case Get(local, key):
            return f"Get({local}, {key})"
        case Put(key, value):
            return f"Put({key}, {expr(value)})"
        case Need(line, value):
            return f"Need({line}, {expr(value)})"
    raise AssertionError(s)


def name(text: str) -> str:
    return shown.items(text.encode())


def cells(values: Iterable[tuple[str, int]]) -> str:
    return shown.items(shown.pair(name(word), value) for word, value in values)


def component(c: base.Component) -> str:
    handlers = [shown.struct("Handler", name=name(h.name), params=h.params, body=body(h.body)) for h in c.handlers]
    return shown.struct("Component", name=name(c.name), kind=KINDS[c.kind], immediate=shown.boolean(c.immediate),
                        vars=cells(c.vars), keys=cells(c.keys), handlers=shown.items(handlers))


def program(p: Program) -> str:
    return shown.struct("Program", components=shown.items(map(component, p.components)))


# ---------------------------------------------------------------- scenarios


def read(data: bytes) -> str:
    try:
        return f"Ok({program(syntax.read_scenario(data))})"
    except syntax.Refused as bad:
        return f"Err({shown.struct('ScenarioRefused', line=bad.line, cause=CAUSES[bad.cause])})"


def scenario(script: words.Script, *pieces: bytes | tuple[bytes, int]) -> None:
    """A text of pieces, each as often as it says."""
    data = b""
    for piece in pieces:
        text, count = piece if isinstance(piece, tuple) else (piece, 1)
        data += text * count
        script.say(f"text add {count} {words.bytes_word(text)}", len(data))
    script.say("text read", read(data))


def numbered(line: str, count: int) -> bytes:
    return "".join(line.replace("?", str(i)) for i in range(count)).encode()


def inside(script: words.Script, count: int, text: bytes) -> None:
    """A handler with this text inside so many lines `if 1`."""
    scenario(script, b"tcom t\n key k 1\nend\npcom p\n on go\n", (b" if 1\n", count), text, (b" end\n", count),
             b" end\nend\n")


def limits(script: words.Script) -> None:
    for line, count, back in [("xcom c?\n", 32, b""), ("xcom c?\n", 33, b""), ("pcom c?\nend\n", 32, b"tcom t\nend\n"),
                              ("xcom c?\n", 32, b"xcom c0\n"), ("xcom c?\n", 32, b"xcom old\n")]:
        scenario(script, numbered(line, count), back)
    for front, line, count, back in [
            ("pcom p\n", " on h?\n end\n", 64, "end\n"), ("pcom p\n", " on h?\n end\n", 65, "end\n"),
            ("pcom p\n", " on h?\n end\n", 64, " on h63\n"), ("pcom p\n", " var v? 1\n", 32, "end\n"),
            ("pcom p\n", " var v? 1\n", 33, "end\n"), ("pcom p\n", " var v? 1\n", 32, " var v1 1\n"),
            ("tcom t\n", " key k? 1\n", 1024, "end\n"), ("tcom t\n", " key k? 1\n", 1025, "end\n"),
            ("tcom t\n", " key k? 1\n", 1024, " key k1023 1\n"),
            ("pcom p\n on go", " n?", 8, "\n end\nend\n"), ("pcom p\n on go", " n?", 9, "\n end\nend\n")]:
        scenario(script, front.encode(), numbered(line, count), back.encode())
    front, within, line = b"pcom p\n var x 0\n on go\n", b"pcom p\n var x 0\n on go\n if x\n else\n", b" set x 1\n"
    for head, count, back in [(front, 256, b" end\nend\n"), (front, 257, b" end\nend\n"), (within, 255, b" end\n end\nend\n"),
                              (within, 256, b" end\n end\nend\n"), (within, 255, b" end\n if x\n"),
                              (front, 256, b" end\n on more\n set x 1\n end\nend\n")]:
        scenario(script, head, (line, count), back)
    sent, out = b"\n end\nend\npcom q\n on hit a b c d e f g h\n end\nend\n", b"\n end\nend\nxcom d\n"
    for head, back in [(b"pcom p\n on go\n send q hit", sent), (b"pcom p\n on go\n out d", out)]:
        for count in (8, 9):
            scenario(script, head, (b" 1", count), back)
    inside(script, 16, b"")
    inside(script, 17, b"")
    for count in (15, 16):
        inside(script, count, b" txn t\n get a k\n else\n end\n")
    for count in (14, 15):
        inside(script, count, b" txn t\n get a k\n if a\n end\n else\n end\n")
    for head, count in [(b"xcom ", 32), (b"xcom ", 33), (b"# ", 33)]:
        scenario(script, head, (b"a", count), b"\n")
    for head, count in [(b"xcom a\n#", 1048568), (b"xcom a\n#", 1048569), (b"\x01\n#", 1048574), (b"\x01\n#", 1048573)]:
        scenario(script, head, (b".", count))


def scenarios(script: words.Script, rng: random.Random) -> None:
    for text in TEXTS:
        scenario(script, text)
    for operator in OPERATORS:
        scenario(script, f"pcom p\n on go\n if 1 {operator} 2\n end\n end\nend\n".encode())
    for number in ["0", "-0", "-000", "007", "-007", "9223372036854775807", "-9223372036854775808",
                   "00000000000000000000009223372036854775807", "9223372036854775808", "-9223372036854775809"]:
        scenario(script, f"pcom p\n var x {number}\nend\n".encode())
    limits(script)
    for text in [b"", b"abc", b"abcdbcdecdefdefgefghfghighijhijkijkljklmklmnlmnomnopnopq", TEXTS[1]]:
        script.say(f"text add 1 {words.bytes_word(text)}", len(text))
        script.say("text fingerprint", syntax.fingerprint(text).hex())
    for _ in range(120):
        scenario(script, spoiled(rng, ScenarioMaker(rng).text()))


def spoiled(rng: random.Random, text: str) -> bytes:
    """A text with at most two lines or words changed."""
    lines = text.split("\n")
    for _ in range(rng.choice([0, 1, 1, 1, 2])):
        i = rng.randrange(len(lines))
        match rng.randrange(5):
            case 0:
                lines[i] = ""
            case 1:
                lines.insert(i, rng.choice(lines))
            case 2:
                lines[i] += rng.choice([" 1", " end", " x", " @", " # note", " \x7f"])
            case 3:
                parts = lines[i].split(" ")
                parts[rng.randrange(len(parts))] = rng.choice(["end", "x1", "7", "stop", "p0", "k0", "v0", "-", ">="])
                lines[i] = " ".join(parts)
            case 4:
                lines[i], lines[-1] = lines[-1], lines[i]
    return "\n".join(lines).encode("latin1")


# ---------------------------------------------------------------- schedules, policies, commands

TALLY = b"pcom tally\n  var total 0\n  on add n\n    set total total + n\n  end\nend\n"


def stop(s: base.Stop) -> str:
    fill = "Old" if s.fill is None else f"Byte({s.fill})"
    return shown.struct("Stop", call=s.call, keep=s.keep, fill=fill)


def what(w: base.What) -> str:
    match w:
        case base.EvInput(com, handler, values):
            return f"Input({shown.com(com)}, {handler}, {shown.args(values)})"
        case base.EvDeliver(sender, to) | base.EvLose(sender, to):
            return f"{type(w).__name__[2:]}({shown.com(sender)}, {shown.com(to)})"
        case base.EvPacket(number):
            return f"Packet({number})"
    return f"{type(w).__name__[2:]}({shown.com(w.com)})"


def event(e: base.Event) -> str:
    return shown.struct("Event", what=what(e.what), stop=shown.option(e.stop, stop))


def policy(p: plan.Policy) -> str:
    return shown.struct("Policy", checkpoint_every=p.checkpoint_every, force_every=p.force_every,
                        report=p.report.name.capitalize(), workers=p.workers, lane=p.lane, turns=p.turns)


Text = Optional[bytes | int]


def text_word(text: Text) -> str:
    """A number stands for so many blanks."""
    if text is None:
        return "absent"
    return f"blanks {text}" if isinstance(text, int) else words.bytes_word(text)


def text_refusal(call: Call, names: list[bytes]) -> str:
    """What reading the texts comes to, by the lines that the model prints of a refusal."""
    try:
        read_ = call.read_texts(names)
    except Ended as ended:
        return f"{refusal_of(str(ended.line))}"
    events = shown.listed(map(event, read_.schedule.events))
    return (f"{read_.program.count()} {read_.fingerprint.hex()} {events} {shown.boolean(read_.schedule.halts)} "
            f"{policy(read_.policy)}")


def refusal_of(line: str) -> str:
    if line == "read fault":
        return "Read"
    if line.startswith("bad policy: "):
        cause = next(c for c in plan.PolicyCause if line.endswith(c.value))
        return f"Policy({POLICY[cause][0]})"
    what_, rest = line.removeprefix("bad ").split(" at line ")
    number, cause_text = rest.split(": ")
    cause = next(c for c in syntax.Cause if c.value == cause_text)
    return f"{what_.capitalize()}({number}, {CAUSES[cause]})"


def texts(script: words.Script, s: Text, c: Text, p: Text, with_policy: bool) -> None:
    held = [(key, text) for key, text in [(b"s", s), (b"c", c), (b"p", p)] if text is not None]
    made = [(key, b" " * text if isinstance(text, int) else text) for key, text in held]
    names = [b"s", b"c"] + ([b"p"] if with_policy else [])
    told = text_refusal(Call(MemTexts(made), None, []), names)
    word = "policy" if with_policy else "without"
    script.say(f"texts {word} {text_word(s)} {text_word(c)} {text_word(p)}", told)


def policy_text(script: words.Script, text: bytes) -> None:
    try:
        told = policy(plan.read_policy(text))
    except plan.PolicyRefused as bad:
        told = ": ".join(POLICY[bad.cause])
    script.say(f"policy {words.bytes_word(text)}", told)


POLICIES = [
    "", "# lane = 1\n", " \r\n\t\n", "report = \"brief\"\nworkers = 8 # two more\n",
    "checkpoint_every = 0\nforce_every = 0\nreport = \"full\"\nworkers = 1\nlane = 1\nturns = 0\n",
    "turns = 1000000\nlane = 1024\nworkers = 8\nreport = 'summary'\nforce_every = 100000\ncheckpoint_every = 100_000\n",
    "checkpoint_every = -1", "checkpoint_every = 100001", "force_every = -1", "force_every = 100001",
    "report = \"terse\"", "report = \"Full\"", "report = \"\"", "workers = 0", "workers = 9", "lane = 0", "lane = 1025",
    "turns = -1", "turns = 1000001", "turns = 9223372036854775807", "turns = -9223372036854775808",
    "checkpoint_every = \"16\"", "force_every = 1.0", "report = 1", "report = [\"full\"]", "workers = true",
    "lane = [64]", "lane.size = 64", "[turns]", "turns = 1979-05-27",
    "force = 1\nlane = 0\n", "lane = 0\nforce = 1\n", "lane = 0\nLane = 1\n", "lane = 0\nlanes = 1\n",
    "lanes = 1\nlane = 0\n", "workers = 0\nturns = true\n", "lane = 1\n[policy]\nlane = 0\n",
    "lane", "lane = 1\nlane = 1\n", "force = 1\nlane = 2 3\n", "lane = 01", "lane = 9223372036854775808",
    "report = \"full", "zone = 1", "lane = true", "lane = 0"]

SCHEDULES = [
    b"input tally add 5\ncrash tally # now\n\nrecover tally stop 2 1\nhalt\n", b"input tally add",
    b"crash tally\nforce stop\n", b"halt\n\ncrash nobody\n", b"force tally stop 17", b"crash Tally",
    b"input tally add 5 stop 3 0 1\nhalt\n", b"crash bank\n", b"halt\nhalt\n", b"packet 0", b"packet 1000000",
    b"packet 1000001", b"force tally stop 16 4294967295 255", b"force tally stop 1 4294967296",
    b"force tally stop 1 0 256", b"force tally stop 1 0 old", b"force tally stop 0", b"emit tally stop 1",
    b"deliver tally tally", b"lose tally nobody", b"input tally sub 1", b"resend tally 1", b"crash end\r", b"\x7f"]


def plans(script: words.Script, rng: random.Random) -> None:
    for text in POLICIES:
        policy_text(script, text.encode())
    policy_text(script, b"# \xff")
    for schedule in SCHEDULES:
        texts(script, TALLY, schedule, None, False)
    rest = [(b"", b"", b""), (TALLY, b"input tally add 5 stop 3 0 1\nhalt\n", b"force_every = 2\n"),
            (b"tcom bank\nend\nxcom desk\n", b"crash bank\n", b""),
            (b"pcom tally\n  on add n\n    set totl n\n  end\nend\n", b"halt\nhalt\n", b"lane = 0\n"),
            (TALLY, b"input tally add\n", b"lane = 0\n"), (TALLY, b"halt\n", b"checkpoint_every = \"16\"\n"),
            (TALLY, b"", b"zone = 1\nlane = 1025\n"), (TALLY, b"", b"lane = 1\nlane = 1\n")]
    most, past = base.MAX_TEXT, base.MAX_TEXT + 1
    for three in rest + [(b"", b"", most), (past, past, past), (most, past, past), (b"", b"", past)]:
        texts(script, *three, True)
    texts(script, None, None, None, False)
    texts(script, TALLY, None, None, False)
    texts(script, TALLY, b"crash tally\n", None, False)
    texts(script, TALLY, b"crash tally\n", None, True)
    for _ in range(80):
        made = ScenarioMaker(rng)
        text = made.text().encode()
        texts(script, text, spoiled(rng, ScheduleMaker(rng, made).text()), make_policy(rng).encode(), rng.random() < 0.5)


TILL = b"xcom desk\npcom till\n  var sum 0\n  on pay u q n\n    set sum sum + n\n    out desk u q sum\n  end\n  on see u\n    out desk u\n  end\nend\n"

CLIENTS = [
    b"client 1 1 till pay 5\nemit till\nclient 1 1 till pay 5 stop 4 1\nhalt\n", b"client 1 1 till pay 5 stop 17", b"client 0 0 till pay -7 # x",
    b"client 9223372036854775807 1 till pay 5", b"client 9223372036854775808 1 till pay 5", b"client -1 1 till pay 5", b"client 1 -1 till pay 5",
    b"client till pay 1 1 5", b"client 1 till pay 1 5", b"client 1 1 till", b"client 1 1", b"client", b"client 1 1 till pay", b"client 1 1 till pay 5 6",
    b"client 1 1 till see", b"client 1 1 till sell 5", b"client 1 1 desk pay 5", b"client 1 1 nobody pay 5", b"client 1 1 stop stop stop",
    b"input till pay 1 1 5", b"input nobody pay 1", b"input", b"halt\nclient 1 1 till pay 5", b"client 1 1 5 pay 5", b"client 1 1 till pay 5 stop",
    b"clients 1 1 till pay 5", b"force till\n\nclient 1 stop till pay 5", b"client 1 1 till pay x", b"client 1 1 end end 5", b"client + 1 till pay 5"]


def clients(script: words.Script, scenario_: bytes, schedule: bytes) -> None:
    try:
        read_ = read_clients(syntax.read_scenario(scenario_), schedule)
        told = f"{shown.listed(map(event, read_.events))} {shown.boolean(read_.halts)}"
    except syntax.Refused as bad:
        told = shown.struct("ScenarioRefused", line=bad.line, cause=CAUSES[bad.cause])
    script.say(f"clients {words.bytes_word(scenario_)} {words.bytes_word(schedule)}", told)


def client_schedules(script: words.Script) -> None:
    for schedule in CLIENTS:
        clients(script, TILL, schedule)
    clients(script, TILL + b"end\n", b"halt\n")
    for seed in range(60):
        made = ClientTexts(seed)
        clients(script, made.scenario.encode(), spoiled(random.Random(seed), made.schedule))


def make(script: words.Script, number: int) -> None:
    scenario_, schedule = plan.make_large(number)
    script.lines.append(f"make {number}")
    script.answers.append(f"{len(scenario_)} {fold(scenario_)} {len(schedule)} {fold(schedule)}")
    read_ = Call(MemTexts([]), None, []).made_texts(number)
    script.answers.append(f"{read_.program.count()} {len(read_.schedule.events)} {shown.boolean(read_.schedule.halts)} "
                          f"{read_.policy.report.name.capitalize()}")


COMMANDS = ["", "run", "run s", "run s c", "run s c p", "run s c p q", "run s -c", "resume s c", "resume s c p", "resume s",
            "audit s", "audit s c", "audit -s", "make 007", "make 2147483647", "make 2147483648", "make 00000000001",
            "make 1 2", "make x", "make", "--help", "-run s c", "walk s c", "runs s c"]


def command(script: words.Script, text: str) -> None:
    """A call of the model that does nothing but tell the form of its words."""
    class Told(Call):
        form = "none"

        def do_run(self, texts_, blank: bool) -> None:
            self.form = texts_ if isinstance(texts_, str) else self.form
            if self.form != "make":
                self.form = ("run" if blank else "resume") + self.form

        def read_texts(self, names: list[bytes]) -> str:
            return "".join(f" {n.hex()}" for n in names)

        def made_texts(self, number: int) -> str:
            self.form = "make"
            self.number = number
            return "make"

        def read_scenario(self, name_: bytes) -> str:
            self.form = f"audit {name_.hex()}"
            return self.form

        def do_audit(self, texts_) -> None:
            pass

    class Mute:
        def put(self, piece: bytes) -> None:
            pass

    call = Told(MemTexts([]), Mute(), [])
    call.run([word.encode() for word in text.split()])
    told = f"make {call.number}" if call.form == "make" else call.form
    script.say(f"command {text}", told)


# ---------------------------------------------------------------- tokens

TOKEN = {syntax.TokenKind.NAME: "Name", syntax.TokenKind.FIXED: "Fixed", syntax.TokenKind.OPERATOR: "Operator"}


def token(t: syntax.Token, schedule: bool) -> str:
    """In a schedule the fixed words are names."""
    if t.kind is syntax.TokenKind.NUMBER:
        kind = f"Number({t.value})"
    else:
        kind = "Name" if schedule and t.kind is syntax.TokenKind.FIXED else TOKEN[t.kind]
    return shown.struct("Token", kind=kind, place=t.place, length=t.length)


def tokens(script: words.Script, line: bytes) -> None:
    for kind in ["scenario", "schedule"]:
        try:
            told = f"Ok({shown.items(token(t, kind == 'schedule') for t in syntax.line_tokens(line))})"
        except syntax.LineRefused as bad:
            told = f"Err({CAUSES[bad.cause]})"
        script.say(f"tokens {kind} {words.bytes_word(line)}", told)


def lines(script: words.Script, text: bytes) -> None:
    told = "".join(f"{line.hex()} " for line in syntax.split_lines(text))
    script.say(f"tokens lines {words.bytes_word(text)}", told + "end")


def word(script: words.Script, text: str) -> None:
    fixed = text.capitalize() if text in syntax.FIXED_WORDS else None
    operator = OPERATORS.get(text)
    script.say(f"tokens word {words.bytes_word(text.encode())}", f"{shown.option(fixed)} {shown.option(operator)}")


def token_turns(script: words.Script, rng: random.Random) -> None:
    for line in [b" set x\t-07 - a_1#end", b"crash end\r", b"9223372036854775807 -9223372036854775808", b"9223372036854775808",
                 b"abcdefghijklmnopqrstuvwxyz012345", b"abcdefghijklmnopqrstuvwxyz0123456", b"A # \x01", b"", b"--1", b"-", b"#"]:
        tokens(script, line)
    for text in [b"ab\n\nc", b"", b"\n", b"a", b"a\n", b"\n\n\n"]:
        lines(script, text)
    for text in sorted(syntax.FIXED_WORDS | syntax.OPERATORS) + ["stop", "==", "", "Set", "=>"]:
        word(script, text)
    letters = b"aA0_-#<=>!+* \t\r.\x7fz"
    for _ in range(100):
        tokens(script, bytes(rng.choice(letters) for _ in range(rng.randrange(1, 14))))


# ---------------------------------------------------------------- plays


def played(p: play.Played) -> str:
    match p:
        case play.Asks(tcom, request):
            return f"Asks({shown.com(tcom)}, {shown.request(request)})"
        case play.Ready(tcom):
            return f"Ready({shown.com(tcom)})"
        case play.NeedFails(tcom, line):
            return f"NeedFails({shown.com(tcom)}, {line})"
        case play.Ends(values, sends, outs):
            sent = [shown.struct("Send", to=shown.com(s.to), handler=s.handler, args=shown.args(s.args)) for s in sends]
            told = [shown.struct("Out", to=shown.com(o.to), args=shown.args(o.args)) for o in outs]
            return f"Ends({shown.items(values)}, {shown.items(sent)}, {shown.items(told)})"
    raise AssertionError(p)


def counted(values: Sequence[int]) -> str:
    return f"{len(values)}{words.numbers(values)}"


def results(dones: Sequence[Optional[Sequence[int]]]) -> str:
    """A result is answers, or None for an abort."""
    return " ".join([str(len(dones)), *("aborted" if d is None else f"committed {counted(d)}" for d in dones)])


class Plays:
    """Plays of the handlers of one program."""

    def __init__(self, script: words.Script, program_: Program) -> None:
        self.script, self.program = script, program_
        script.say(words.program(program_), program_.count())

    def play(self, com: int, handler: int, values: Sequence[int], args: Sequence[int],
             dones: Sequence[Optional[Sequence[int]]] = (), now: Sequence[int] = ()) -> play.Played:
        ended = [play.DoneAborted() if d is None else play.DoneCommitted(tuple(d)) for d in dones]
        told = play.play(self.program, com, handler, values, tuple(args), ended, now)
        self.script.say(f"play {com} {handler} {counted(values)} {counted(args)} {results(dones)} {counted(now)}", played(told))
        return told


def alone(*statements: base.Stmt) -> Program:
    return Program((pcom([Handler("", 1, tuple(statements))]),))


def one_more(var: int) -> base.Stmt:
    return Set(var, Two(Var(var), "+", Number(1)))


def payment() -> base.Stmt:
    part = (Get(0, 0), Need(11, Two(Local(0), ">=", Param(0))), Put(0, Two(Local(0), "-", Param(0))), Get(1, 1),
            Put(1, Two(Local(1), "+", Param(0))), one_more(0))
    return Txn(0, part, (one_more(1),))


def kept_or_sent(var: int) -> base.Stmt:
    return Txn(var, (Get(var, var), Set(var, One(Local(var)))), (Send(5, var, (Var(var),)),))


def play_turns(script: words.Script, rng: random.Random) -> None:
    least, most = base.MIN_I64, base.MAX_I64
    tally = Plays(script, alone(Set(0, Two(Var(0), "+", Param(0)))))
    tally.play(0, 0, [5], [7])
    tally.play(0, 0, [most], [most])
    shop = Plays(script, Program((base.Component("", Kind.XCOM),
                                  pcom([Handler("", 1, (one_more(0), Send(2, 0, (Param(0),)))), Handler("", 1, (Out(0, (Param(0),)),))]),
                                  pcom([Handler("", 1, (Set(0, Two(Var(0), "-", Param(0))), Send(1, 1, (Var(0),))))]))))
    shop.play(1, 0, [0], [3])
    shop.play(2, 0, [10], [3])
    shop.play(1, 1, [1], [7])
    for operator in OPERATORS:
        p = Plays(script, alone(Set(0, Two(Var(0), operator, Param(0)))))
        for x in [most, least, 0, -1, 1, -3, 5]:
            for y in [1, -1, 0, 2, -2, most, least, 5]:
                p.play(0, 0, [x], [y])
    p = Plays(script, alone(payment()))
    answers = [100, 70, 0, 30, 1]
    for count in range(6):
        p.play(0, 0, [0, 0], [30], now=answers[:count])
    p.play(0, 0, [0, 0], [101], now=[100])
    p = Plays(script, alone(payment(), Out(3, (Var(0),))))
    for dones in [[[100, 70, 0, 30]], [None], [[100]]]:
        p.play(0, 0, [4, 8], [30], dones)
    p = Plays(script, alone(kept_or_sent(0), kept_or_sent(1)))
    p.play(0, 0, [8, 9], [1], [[3]])
    p.play(0, 0, [8, 9], [1], [[3]], [4])
    p.play(0, 0, [8, 9], [1], [[3], [4]])
    p.play(0, 0, [8, 9], [1], [None, None])
    inner = If(Two(Param(0), ">", Number(5)), (Set(0, One(Number(1))),), (Set(0, One(Number(2))),))
    p = Plays(script, alone(If(One(Param(0)), (inner,), (Set(0, One(Number(3))),)), one_more(1)))
    for n in [6, 5, -1, 0]:
        p.play(0, 0, [0, 0], [n])
    part = (Put(4, Two(Var(0), "+", Number(1))), Need(21, One(Var(0))), Get(0, 4), Set(0, One(Local(0))))
    p = Plays(script, alone(Txn(2, part, ())))
    for value, dones, now in [(6, [], []), (6, [], [7]), (6, [], [7, 7]), (6, [[7, 8]], []), (0, [], []), (0, [], [1])]:
        p.play(0, 0, [value], [1], dones, now)
    unbound(script)
    for _ in range(25):
        random_plays(script, rng)


def unbound(script: words.Script) -> None:
    """A local out of its block is 0. No scenario has such a line, and the model plays none: this is what the rules
    say of it (docs/RULES.md, "Playing a handler")."""
    part = (Get(0, 0), If(One(Local(0)), (Get(1, 1),), ()), Set(0, One(Local(1))))
    program_ = alone(Txn(0, part, ()), Set(1, One(Local(0))))
    script.say(words.program(program_), 1)
    for dones, values in [([[0]], [0, 0]), ([[2, 9]], [9, 2]), ([None], [7, 0])]:
        ends = play.Ends(tuple(values), (), ())
        script.say(f"play 0 0 2 7 7 1 1 {results(dones)} 0", played(ends))


def random_plays(script: words.Script, rng: random.Random) -> None:
    program_ = syntax.read_scenario(ScenarioMaker(rng).text().encode())
    p = Plays(script, program_)
    for com in program_.pcoms():
        c = program_.component(com)
        for number, handler in enumerate(c.handlers):
            values, args = args_of(rng, len(c.vars)), args_of(rng, handler.params)
            dones: list[Optional[Sequence[int]]] = []
            now: list[int] = []
            for _ in range(12):
                told = p.play(com, number, values, args, dones, now)
                if isinstance(told, play.Ends):
                    break
                if isinstance(told, play.Asks) and rng.random() < 0.85:
                    now.append(rng.randrange(-5, 9))
                else:
                    dones.append(tuple(now) if isinstance(told, play.Ready) and rng.random() < 0.7 else None)
                    now = []


# ---------------------------------------------------------------- reports

NAMED = b"xcom desk\npcom shop\n var orders 0\n on order n m\n end\nend\ntcom bank\n key a 0\n key b 0\nend\n"


def text_of(data: bytes) -> str:
    escaped = data.decode("ascii").replace("\\", "\\\\").replace("\"", "\\\"").replace("\n", "\\n")
    return f"Ok(\"{escaped}\")"


WORDS = {base.Word.TAKEN: "Taken", base.Word.KEPT: "Kept", base.Word.LOST: "Lost", base.Word.MISSED_DOWN: "MissedDown",
         base.Word.MISSED_REPLAYING: "MissedReplaying", base.Word.MISSED_BUSY: "MissedBusy", base.Word.EMPTY: "Empty",
         base.Word.UNKNOWN: "Unknown", base.Word.DOWN: "Down", base.Word.REPLAYING: "Replaying", base.Word.BUSY: "Busy",
         base.Word.IDLE: "Idle", base.Word.STOPPED: "Stopped", base.Word.DONE: "Ended", base.Word.ALREADY: "Already",
         base.Word.UP: "Up"}


def what_words(w: base.What) -> str:
    match w:
        case base.EvInput(com, handler, values):
            return f"input {com} {handler}{words.numbers(values)}"
        case base.EvDeliver(sender, to) | base.EvLose(sender, to):
            return f"{type(w).__name__[2:].lower()} {sender} {to}"
        case base.EvPacket(number):
            return f"packet {number}"
    return f"{type(w).__name__[2:].lower()} {w.com}"


def cause_words(c: base.AbortCause) -> str:
    return words.decision(base.Aborted(c))


def trace(script: words.Script, program_: Program, number: int, t: base.Trace) -> None:
    """The lines of an event at each level."""
    def part(kind: str, rest: str) -> None:
        script.say(f"trace {kind} {rest}", kind)

    part("event", what_words(t.event.what))
    if t.event.stop is not None:
        s = t.event.stop
        part("stop", f"{s.call} {s.keep} {256 if s.fill is None else s.fill}")
    if isinstance(t.answer, base.PacketAnswer):
        fate = t.answer.fate.value.capitalize()
        part("fate", f"{fate} {t.answer.number} {words.packet(t.answer.packet)}")
    else:
        part("answer", WORDS[t.answer])
    for p in t.puts:
        part("put", words.packet(p))
    part("first", str(t.first_put))
    if t.shown is not None:
        _, output, again = t.shown
        part("shown", f"{int(again)} {output.m} {output.to}{words.numbers(output.args)}")
    if t.aborted is not None:
        part("aborted", f"{t.aborted[1]} {cause_words(t.aborted[2])}")
    for level in plan.ReportLevel:
        script.say(f"trace write {number} {level.value}", text_of(report.trace_bytes(program_, number, t, level)))


def any_what(rng: random.Random) -> base.What:
    return rng.choice([base.EvInput(1, 0, args_of(rng, 2)), base.EvDeliver(1, 2), base.EvLose(2, 1),
                       base.EvPacket(rng.randrange(1, 99)), base.EvForce(1), base.EvCheckpoint(2), base.EvResend(1),
                       base.EvEmit(1), base.EvCrash(2), base.EvRecover(1)])


def named_packet(rng: random.Random) -> base.Packet:
    return any_packet(rng, 3)


def trace_turns(script: words.Script, program_: Program, rng: random.Random) -> None:
    for answer in WORDS:
        for _ in range(3):
            trace(script, program_, rng.randrange(1, 99), base.Trace(base.Event(any_what(rng)), answer))
    for fate in base.Fate:
        for _ in range(6):
            answer = base.PacketAnswer(rng.randrange(1, 99), fit_names(named_packet(rng)), fate)
            trace(script, program_, 7, base.Trace(base.Event(base.EvPacket(2)), answer))
    for _ in range(40):
        shown_ = (1, base.Output(rng.randrange(1, 9), 0, args_of(rng, rng.randrange(3))), rng.random() < 0.5)
        aborted = (1, rng.randrange(1, 9), held_by_named(any_cause(rng)))
        stop_ = base.Stop(rng.randrange(1, 17), rng.randrange(99), rng.choice([None, 0, 255]))
        t = base.Trace(base.Event(any_what(rng), rng.choice([None, stop_])), rng.choice(list(WORDS)),
                       tuple(fit_names(named_packet(rng)) for _ in range(rng.randrange(4))), rng.randrange(1, 99),
                       rng.choice([None, shown_]), rng.choice([None, aborted]))
        trace(script, program_, rng.randrange(1, 999), needs_pcom(t))


def held_by_named(c: base.AbortCause) -> base.AbortCause:
    return base.HeldCause(1, c.number) if isinstance(c, base.HeldCause) else c


def fit_names(p: base.Packet) -> base.Packet:
    if isinstance(p, base.OutcomePacket) and isinstance(p.decision, base.Aborted):
        told = base.Aborted(held_by_named(p.decision.cause))
        return base.OutcomePacket(p.sender, p.to, p.n, p.place, p.session, told)
    return p


def needs_pcom(t: base.Trace) -> base.Trace:
    """What is shown or aborts is of the event's component, which is component 1."""
    if t.shown is None and t.aborted is None:
        return t
    return base.Trace(base.Event(base.EvEmit(1), t.event.stop), t.answer, t.puts, t.first_put, t.shown, t.aborted)


def summaries(script: words.Script, program_: Program, rng: random.Random) -> None:
    def summary(numbers: Sequence[int], settled: bool, states: Sequence[Optional[report.Stand]]) -> None:
        s = report.Summary(*numbers[:6], list(states), *numbers[6:], settled)
        told = ["external" if st is None else st.word + (f" {counted(st.values)}" if st.word == "up" else "") for st in states]
        script.say(f"summary{words.numbers(numbers)} {int(settled)} {len(states)} {' '.join(told)}",
                   text_of(report.summary_bytes(program_, s)))

    summary(range(1, 9), True, [None, report.Stand("replaying"), report.Stand("up", (70, -30))])
    for _ in range(30):
        states = [None]
        for count in (1, 2):
            states.append(rng.choice([report.Stand("up", args_of(rng, count)), report.Stand("down"), report.Stand("replaying")]))
        summary([rng.randrange(10 ** rng.randrange(1, 7)) for _ in range(8)], rng.random() < 0.5, states)


def faults(script: words.Script, program_: Program) -> None:
    """The last lines of the model's refusals with their statuses (docs/FORMATS.md, "Last lines")."""
    call = Call(MemTexts([]), None, [])
    call.program = program_

    def fault(words_: str, ended: Ended) -> None:
        data = report.fault_bytes(call.tool, ended.line)
        script.say(f"fault {call.tool} {words_}", f"{ended.status} {text_of(data)}")

    fault("usage", call.usage())
    for cause, text in CAUSES.items():
        fault(f"scenario 4 {text}", call.refused_text("scenario", 3, 4, cause))
        fault(f"schedule 1 {text}", call.refused_text("schedule", 4, 1, cause))
    for cause, (text, _) in POLICY.items():
        fault(f"policy {text}", call.refused_policy(cause))
    from icoracle.top import Texts
    from icoracle.world import Refusal, WorldRefused
    given = Texts(program_, bytes([16] * 32))
    for why, words_ in [(Refusal.RECEIPTS, "receipts"), (Refusal.PACKETS, "packets"), (Refusal.LOG_FULL, "full 1"),
                        (Refusal.BAD, "bad 1 70"), (Refusal.FAILED, "disk 2"), (Refusal.NOT_BLANK, "not_blank 1"),
                        (Refusal.FOREIGN, "foreign 1 227 16")]:
        com = int(words_.split()[1]) if " " in words_ else -1
        fault(words_, call.refused_event(given, WorldRefused(why, com, 70, bytes([227] * 32))))
    try:
        call.read_text(b"absent", call.usage())
    except Ended as ended:
        fault("read", ended)
    live = report.fault_bytes("iclive", report.usage_text("iclive"))
    script.say("fault iclive usage", f"2 {text_of(live)}")
    audit = damaged_logs().all_files()
    number = len(audit["calls"].splitlines())
    script.say("fault icrun illegal 1", f"6 {text_of(audit[f'{number}.printed'])}")


def script_of(seed: int) -> words.Script:
    """All cases of texts."""
    script, rng = words.Script(), random.Random(seed)
    scenarios(script, rng)
    plans(script, rng)
    for number in [1, 7, 2_147_483_647]:
        make(script, number)
    for text in COMMANDS:
        command(script, text)
    token_turns(script, rng)
    play_turns(script, rng)
    program_ = syntax.read_scenario(NAMED)
    script.say(f"named {NAMED.hex()}", program_.count())
    trace_turns(script, program_, rng)
    summaries(script, program_, rng)
    faults(script, program_)
    client_schedules(script)
    return script
