"""Cases of lines that are served, and of texts whose schedules have clients."""

from __future__ import annotations

from typing import Optional

import shown
import text_cases
import words
from icoracle import base, plan, syntax
from icoracle.clients import read_clients
from icoracle.serve import Asks, Checkpoints, Gives, Read, Values, read_line

from text_cases import CAUSES, event, policy

COUNTER = b"""xcom desk
tcom bank
  key gold 3
end
pcom till
  var sum 0
  on pay u q n
    set sum sum + n
    out desk u q sum
  end
  on ping
    out desk 1
  end
  on one a
    set sum a
  end
  on two a b
    set sum a + b
  end
  on many a b c d e f g h
    set sum a
  end
end
pcom client
  on input values
    out desk values
  end
end
"""

LINES = [
    b"", b"   ", b"# nothing", b"\t\r", b"values", b"values # now", b" values\r", b"values 1", b"values values", b"valuesx", b"Values",
    b"input till pay 1 2 3", b"input till pay 1 2", b"input till pay 1 2 3 4", b"input till pay -1 2 3", b"input till ping",
    b"input till ping 1", b"input till one 9223372036854775807", b"input till one -9223372036854775808",
    b"input till one 9223372036854775808", b"input till one +1", b"input till many 1 2 3 4 5 6 7 8", b"input till many 1 2 3 4 5 6 7 8 9",
    b"input till pay 1 2 3 stop 4", b"input till pay 1 2 3 stop", b"input till pay 1 2 3 stop 4 1 old", b"input till pay 1 2 x",
    b"input till pay 1 2 3 # ok", b"input till", b"input", b"input desk pay 1 2 3", b"input bank pay 1 2 3", b"input tall pay 1 2 3",
    b"input till paid 1 2 3", b"input till paid stop 1", b"input 1 pay 1 2 3", b"input till 1 1 2 3", b"input client input 7",
    b"input input input 7", b"input set get", b"input client set 1", b"client 1 1 till pay 5", b"client 0 0 till pay -5",
    b"client 1 1 till pay", b"client 1 1 till pay 5 6", b"client -1 1 till pay 5", b"client 1 -1 till pay 5", b"client 1 x till pay 5",
    b"client x 1 till pay 5", b"client 1 1 till ping", b"client 1 1 till one", b"client 1 1 till two", b"client 1 1 till two 3",
    b"client 1 1 till many 3 4 5 6 7 8", b"client 1 1 till many 3 4 5 6 7 8 9", b"client 1 1 till many 3 4 5", b"client 1 1 till",
    b"client 1 1", b"client 1", b"client", b"client 1 1 till pay 5 stop 4", b"client 1 1 till pay stop 4", b"client 1 1 desk pay 5",
    b"client 1 1 bank pay 5", b"client 1 1 nobody pay 5", b"client 1 1 till nothing 5",
    b"client 9223372036854775807 9223372036854775807 till pay 5", b"client 9223372036854775808 1 till pay 5", b"client 1 1 1 pay 5",
    b"client 1 1 till 1 5", b"client 1 1 client input", b"client -0 -0 till pay 5", b"client 01 007 till pay 5", b"client -1 1 desk pay 5",
    b"client 1 1 till pay x", b"checkpoint till", b"checkpoint bank", b"checkpoint client", b"checkpoint desk", b"checkpoint nobody",
    b"checkpoint", b"checkpoint till client", b"checkpoint till stop 1", b"checkpoint 1", b"checkpoint till # c", b"checkpoint checkpoint",
    b"halt", b"crash till", b"recover till", b"deliver till client", b"packet 1", b"lose till client", b"force till", b"resend till",
    b"emit till", b"emit", b"xcom desk", b"7", b"=", b"+ 1", b"till", b"stop 1", b"input till pay 1 2 3\x00", b"input till pay 1 2 3\xff",
    b"values \x7f", b"\x80", b"input till pay 1 2 A", b"client 1 1 till pay 5;", b"input nobody pay A", b"input nobody pay \x01 A",
    b"values # \x01", b"values # Caf\xc3\xa9", b"client 1 1 till pay 5\r", b"\tinput\ttill\tpay\t1\t2\t3"]


def request(e: base.Event) -> str:
    values = e.what.args
    args = shown.struct("Args", count=len(values), values=shown.listed(map(str, [*values, *[0] * (8 - len(values))])))
    return shown.struct("Request", who=f"ComId({e.what.com})", handler=e.what.handler, args=args)


def line_told(line: object) -> str:
    match line:
        case None:
            return "Ok(None)"
        case Asks():
            return f"Ok(Some(Asks({request(line.event)})))"
        case Gives():
            return f"Ok(Some(Gives({request(line.event)})))"
        case Checkpoints():
            return f"Ok(Some(Checkpoints(ComId({line.event.what.com}))))"
        case Values():
            return "Ok(Some(Values))"
        case _:
            return f"Err({CAUSES[line.cause]})"


def served(script: words.Script, scenario: bytes, line: bytes) -> None:
    told = line_told(read_line(syntax.read_scenario(scenario), 1, Read(line)))
    script.say(f"served {words.bytes_word(scenario)} {words.bytes_word(line)}", told)


def client_texts_told(scenario: bytes, schedule: Optional[bytes], policy_text: Optional[bytes], with_policy: bool) -> str:
    try:
        program = syntax.read_scenario(scenario)
    except syntax.Refused as bad:
        return f"Scenario({bad.line}, {CAUSES[bad.cause]})"
    if schedule is None:
        return "Read"
    try:
        read = read_clients(program, schedule)
    except syntax.Refused as bad:
        return f"Schedule({bad.line}, {CAUSES[bad.cause]})"
    if with_policy and policy_text is None:
        return "Read"
    given = policy(plan.read_policy(policy_text or b""))
    events = shown.listed(map(event, read.events))
    return f"{program.count()} {syntax.fingerprint(scenario).hex()} {events} {shown.boolean(read.halts)} {given}"


def client_texts(script: words.Script, scenario: bytes, schedule: Optional[bytes], policy_text: Optional[bytes], with_policy: bool) -> None:
    told = client_texts_told(scenario, schedule, policy_text, with_policy)
    given = [words.bytes_word(text) if text is not None else "absent" for text in (schedule, policy_text)]
    script.say(f"client_texts {'policy' if with_policy else 'without'} {words.bytes_word(scenario)} {' '.join(given)}", told)


def read_pairs(script: words.Script, most: int) -> list[tuple[bytes, bytes]]:
    """The scenarios, which can be read, and schedules of the cases with clients that have fewer letters than this."""
    pairs = [tuple(bytes.fromhex(word.replace("-", "")) for word in line.split()[1:3])
             for line in script.lines if line.startswith("clients ") and len(line) < most]
    return [(scenario, schedule) for scenario, schedule in pairs if client_texts_told(scenario, None, None, False) == "Read"]


def line_and_text_cases(script: words.Script) -> None:
    for line in LINES:
        served(script, COUNTER, line)
    longer, shorter = read_pairs(script, 1800), read_pairs(script, 1500)
    for scenario, schedule in longer[:32]:
        for line in schedule.split(b"\n")[:3]:
            served(script, scenario, line)
    for scenario, schedule in shorter[:24]:
        client_texts(script, scenario, schedule, None, False)
    one = b"client 1 1 till pay 5"
    client_texts(script, COUNTER, one, None, True)
    client_texts(script, COUNTER, one, b"report = 'brief'\ncheckpoint_every = 3\n", True)
    client_texts(script, COUNTER, b"input till pay 1 1 5", None, False)
    client_texts(script, COUNTER, None, None, False)
    client_texts(script, b"pcom\n", one, None, False)


def script_of(seed: int) -> words.Script:
    """All cases of texts."""
    script = text_cases.script_of(seed)
    line_and_text_cases(script)
    return script
