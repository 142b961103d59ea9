"""Reports at level full, as docs/FORMATS.md has them: what each line tells."""

from __future__ import annotations

import re
from dataclasses import dataclass, field
from typing import Optional

from .common import BAD, ToolError

NAME = r"[a-z][a-z0-9_]{0,31}"
NUMBER = r"-?[0-9]{1,20}"
COUNT = r"[0-9]{1,20}"
STOP = r"(?: stop {c} {c} (?:old|{c}))?".format(c="[0-9]{1,20}")
CAUSE = "(?:need {c}|held {n} {c}|epoch {c} {c})".format(c=COUNT, n=NAME)
PACKET = ("(?:data {c}|stable {c}|installed {c}|fetch {c}|op {c} {c}|reply {c} {c}|commit {c}"
          "|outcome {c} committed|outcome {c} aborted {a}|drop {c})").format(c=COUNT, a=CAUSE)
FATE = "(?:down|stopped|taken|fed|busy|used|ignored)"
DELIVERED = "({c}) ({p}) ({f})".format(c=COUNT, p=PACKET, f=FATE)

EVENT_LINE = re.compile(r"([0-9]{1,20}) ([a-z]+)( [^:]*)?: (.*)\Z")
EVENT_FORMS = {
    "input": "({n}) ({n})((?: {i})*){s}",
    "deliver": "({n}) ({n}){s}",
    "packet": "({c}){s}",
    "lose": "({n}) ({n})",
    "force": "({n}){s}",
    "checkpoint": "({n}){s}",
    "resend": "({n})",
    "emit": "({n})",
    "crash": "({n})",
    "recover": "({n}){s}",
}
ANSWERS = {
    "input": "taken|kept|lost|missed down|missed replaying|missed busy",
    "deliver": "empty|" + DELIVERED,
    "packet": "unknown|" + DELIVERED,
    "lose": "empty|({c}) ({p}) (lost)".format(c=COUNT, p=PACKET),
    "force": "down|idle|stopped|done",
    "checkpoint": "down|replaying|busy|idle|stopped|done",
    "resend": "down|idle|done",
    "emit": "down|replaying|idle|done",
    "crash": "down|done",
    "recover": "already|stopped|replaying|up",
}
EVENTS = {word: (re.compile(form.format(n=NAME, i=NUMBER, c=COUNT, s=STOP) + r"\Z"),
                 re.compile("(?:" + ANSWERS[word] + r")\Z"))
          for word, form in EVENT_FORMS.items()}
PUT_LINE = re.compile(r"put ({c}) ({n}) ({n}) ({p})\Z".format(c=COUNT, n=NAME, p=PACKET))
ABORT_LINE = re.compile(r"abort ({n}) ({c}) ({a})\Z".format(n=NAME, c=COUNT, a=CAUSE))
SHOWN_LINE = re.compile(r"(out|again) ({n}) ({n}) ({c})((?: {i})*)\Z".format(
    n=NAME, c=COUNT, i=NUMBER))
SUMMARY_FORMS = [
    r"inputs taken ({c}) kept ({c}) lost ({c}) missed ({c})",
    r"outputs first ({c}) again ({c})",
    r"(pcom|tcom) ({n}) (up|replaying|down)((?: {n}={i})*)",
    r"played ({c})",
    r"history ({c})",
    r"settled|halted",
]
SUMMARY = [re.compile(form.format(c=COUNT, n=NAME, i=NUMBER) + r"\Z") for form in SUMMARY_FORMS]
COMPONENT_PART, LAST_PART = 2, 5
REFUSAL_LINE = re.compile(r"icrun: .*\Z")
STOPPED_ANSWERS = ("kept", "lost", "stopped")  # of an event at whose component a stop was reached


class ReportError(ToolError):
    """A report can't be read: the file, the line and the cause."""

    def __init__(self, text: str) -> None:
        super().__init__(text, BAD)


@dataclass
class Put:
    """A packet that was put out."""

    number: int
    sender: str
    to: str
    packet: str


@dataclass
class Extra:
    """A line behind an event's line: an abort or a showing, or a put."""

    kind: str  # put, abort, out, again
    text: str
    com: str  # whose lifeline it stands on
    to: str = ""  # of a put and a showing
    put: Optional[Put] = None
    label: str = ""


@dataclass
class Event:
    number: int
    word: str
    text: str  # the whole line
    answer: str  # without the packet
    com: str  # its component; for a delivery or a loss the receiver; "" where none is known
    put: Optional[Put] = None  # the packet that was delivered or lost
    label: str = ""  # of an input: handler and values
    extras: list = field(default_factory=list)

    @property
    def stopped(self) -> bool:
        return self.answer in STOPPED_ANSWERS and self.word != "lose"


@dataclass
class Report:
    events: list = field(default_factory=list)
    puts: list = field(default_factory=list)
    summary: list = field(default_factory=list)  # lines
    refusal: str = ""
    declared: list = field(default_factory=list)  # names of the summary, in order
    kinds: dict = field(default_factory=dict)  # name to pcom, tcom or xcom
    ends: dict = field(default_factory=dict)  # name to up, replaying or down


class Reader:
    def __init__(self, name: str) -> None:
        self.name = name
        self.line = 0
        self.report = Report()
        self.part = 0  # of the summary: the form that is due

    def error(self, cause: str) -> ReportError:
        return ReportError("%s:%d: %s" % (self.name, self.line, cause))

    def read(self, data: bytes) -> Report:
        lines = data.split(b"\n")
        if lines and not lines[-1]:
            lines.pop()
        for self.line, raw in enumerate(lines, 1):
            self.read_line(self.text_of(raw))
        self.check_whole()
        return self.report

    def text_of(self, raw: bytes) -> str:
        try:
            return raw.rstrip(b"\r").decode("ascii")
        except UnicodeDecodeError:
            raise self.error("the line isn't text") from None

    def read_line(self, text: str) -> None:
        if self.report.refusal or self.part > LAST_PART:
            raise self.error("a line stands behind the end of the report")
        if self.part or text.startswith("inputs "):
            self.read_summary(text)
        elif REFUSAL_LINE.match(text):
            self.report.refusal = text
        elif text[:1].isdigit():
            self.read_event(text)
        else:
            self.read_extra(text)

    # Events

    def read_event(self, text: str) -> None:
        parts = EVENT_LINE.match(text)
        if parts is None or parts.group(2) not in EVENTS:
            raise self.error("this is no event line")
        number, word = int(parts.group(1)), parts.group(2)
        if number != len(self.report.events) + 1:
            raise self.error("the event has the number %d, and %d is due: a report is read "
                             "whole" % (number, len(self.report.events) + 1))
        form, answers = EVENTS[word]
        what = form.match((parts.group(3) or "")[1:])
        answer = answers.match(parts.group(4))
        if what is None:
            raise self.error("this is no `%s` event" % word)
        if answer is None:
            raise self.error("`%s` is no answer to `%s`" % (parts.group(4), word))
        event = Event(number, word, text, parts.group(4), "")
        self.report.events.append(event)
        self.fill(event, what.groups(), answer.groups())

    def fill(self, event: Event, names: tuple, answer: tuple) -> None:
        """The component of an event, and the packet that it moved."""
        if event.word in ("deliver", "lose", "packet"):
            if answer[0] is not None:
                event.put = self.put_of(answer[0], answer[1])
                event.answer = answer[2]
            event.com = names[1] if event.word != "packet" else event.put.to if event.put else ""
            self.check_link(event, names)
        else:
            event.com = names[0]
        if event.word == "input":
            event.label = (names[1] + names[2]).strip()

    def put_of(self, number: str, packet: str) -> Put:
        index = int(number) - 1
        if not 0 <= index < len(self.report.puts):
            raise self.error("packet %s wasn't put out before" % number)
        put = self.report.puts[index]
        if put.packet != packet:
            raise self.error("packet %s was put out as `%s`" % (number, put.packet))
        return put

    def check_link(self, event: Event, names: tuple) -> None:
        put = event.put
        if put is None:
            return
        if event.word == "packet":
            if int(names[0]) != put.number:
                raise self.error("the answer tells of another packet")
        elif (put.sender, put.to) != names[:2]:
            raise self.error("packet %d goes from %s to %s" % (put.number, put.sender, put.to))

    # Lines behind an event's line

    def read_extra(self, text: str) -> None:
        put, abort = PUT_LINE.match(text), ABORT_LINE.match(text)
        shown = SHOWN_LINE.match(text)
        if put:
            extra = self.read_put(text, put.groups())
        elif abort:
            name, n, cause = abort.groups()
            extra = Extra("abort", text, name, label="abort %s: %s" % (n, cause))
        elif shown:
            word, xcom, pcom, m, values = shown.groups()
            extra = Extra(word, text, pcom, xcom,
                          label="%s %s:%s" % (word, m, values or " no values"))
            self.report.kinds[xcom] = "xcom"
        else:
            raise self.error("this is no line of a report")
        if not self.report.events:
            raise self.error("no event line stands before it: the report isn't at level full")
        self.report.events[-1].extras.append(extra)

    def read_put(self, text: str, parts: tuple) -> Extra:
        put = Put(int(parts[0]), parts[1], parts[2], parts[3])
        if put.number != len(self.report.puts) + 1:
            raise self.error("the packet has the number %d, and %d is due"
                             % (put.number, len(self.report.puts) + 1))
        self.report.puts.append(put)
        return Extra("put", text, put.sender, put.to, put, "#%d %s" % (put.number, put.packet))

    # The summary

    def read_summary(self, text: str) -> None:
        found = SUMMARY[self.part].match(text)
        if found is None and self.part == COMPONENT_PART:
            self.part += 1
            found = SUMMARY[self.part].match(text)
        if found is None:
            raise self.error("this isn't the line of the summary that is due")
        self.report.summary.append(text)
        if self.part == COMPONENT_PART:
            kind, name, state = found.groups()[:3]
            self.report.declared.append(name)
            self.report.kinds[name] = kind
            self.report.ends[name] = state
        else:
            self.part += 1

    def check_whole(self) -> None:
        report = self.report
        if not (report.events or report.summary or report.refusal):
            raise ReportError("%s: no line of a report" % self.name)
        if 0 < self.part <= LAST_PART:
            raise self.error("the summary ends here, before its last line")
        if not report.events and any(word not in ("0", "") for line in report.summary[:2]
                                     for word in re.findall(COUNT, line)):
            raise ReportError("%s: no event line: the report is at level brief or summary, and "
                              "a chart needs level full" % self.name)


def read_report(name: str, data: bytes) -> Report:
    """What a report tells, or `ReportError`."""
    return Reader(name).read(data)
