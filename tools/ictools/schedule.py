"""Schedules: why a text is refused, with the place in the line."""

from __future__ import annotations

from typing import Optional

from .common import TEXT_LIMIT
from .scenario import PCOM, XCOM, Component, Program, check_count, near
from .texts import (FIXED, LIMIT, NAME, NUMBER, STRUCTURE, UNKNOWN, TextRefused,
                    split_lines, words_of)

PACKET_LIMIT, CALL_LIMIT, KEEP_LIMIT, FILL_LIMIT = 1000000, 16, 4294967295, 255

SCENARIO_WORDS = frozenset("xcom tcom pcom var key on set send out if else txn get put need end".split())
NAMES_BEHIND = {"deliver": 2, "lose": 2, "force": 1, "checkpoint": 1, "resend": 1, "emit": 1,
                "crash": 1, "recover": 1}
FORMS = {
    "input": "input PCOM HANDLER NUMBER .. [stop CALL [KEEP [FILL]]]",
    "deliver": "deliver FROM TO [stop CALL [KEEP [FILL]]]",
    "packet": "packet NUMBER [stop CALL [KEEP [FILL]]]",
    "lose": "lose FROM TO",
    "force": "force COMPONENT [stop CALL [KEEP [FILL]]]",
    "checkpoint": "checkpoint COMPONENT [stop CALL [KEEP [FILL]]]",
    "resend": "resend COMPONENT",
    "emit": "emit COMPONENT",
    "crash": "crash COMPONENT",
    "recover": "recover COMPONENT [stop CALL [KEEP [FILL]]]",
    "halt": "halt",
}


class LineReader:
    """One line of a schedule: its form first, then its names, then the number of its values."""

    def __init__(self, program: Program, line: int, words: list) -> None:
        self.program = program
        self.line = line
        self.words = words

    def refuse(self, cause: str, index: int, detail: str) -> TextRefused:
        """At the word with this index, or behind the last one."""
        if index < len(self.words):
            word = self.words[index]
            return TextRefused(self.line, cause, word.place, word.length, detail)
        last = self.words[-1]
        return TextRefused(self.line, cause, last.place + last.length + 1, 1, detail)

    def wrong_form(self, index: int) -> TextRefused:
        return self.refuse(STRUCTURE, index, "The form is `%s`." % FORMS[self.words[0].text])

    def check(self) -> None:
        word = self.words[0].text
        if word == "input":
            self.check_input()
        elif word == "packet":
            self.check_number(1, 1, PACKET_LIMIT, "The number of a packet")
            self.check_stop(2)
        elif word in NAMES_BEHIND:
            self.check_event(NAMES_BEHIND[word])
        elif word == "halt":
            raise self.wrong_form(1)
        else:
            raise self.refuse(STRUCTURE, 0, self.no_event(word))

    def no_event(self, word: str) -> str:
        if word in SCENARIO_WORDS:
            return ("`%s` begins a line of a scenario: are scenario and schedule exchanged?" % word)
        return "A line begins with one of: %s.%s" % (", ".join(FORMS), near(word, FORMS))

    def check_event(self, count: int) -> None:
        """An event that names components."""
        self.check_names(count)
        if "stop" in FORMS[self.words[0].text]:
            self.check_stop(1 + count)
        elif len(self.words) > 1 + count:
            raise self.wrong_form(1 + count)
        for index in range(1, 1 + count):
            self.component(index)

    def check_input(self) -> None:
        self.check_names(2)
        end = 3
        while end < len(self.words) and self.words[end].kind == NUMBER:
            end += 1
        self.check_stop(end)
        pcom = self.component(1)
        if pcom.kind != PCOM:
            raise self.refuse(UNKNOWN, 1, "`%s` is a %s, and only a Pcom takes inputs."
                              % (pcom.name, pcom.kind))
        name = self.words[2].text
        handler = pcom.handler(name)
        if handler is None:
            names = [h.name for h in pcom.handlers]
            raise self.refuse(UNKNOWN, 2, "`%s` has no handler `%s`.%s"
                              % (pcom.name, name, near(name, names)))
        if end - 3 != len(handler.params):
            check_count(self.line, self.words[:end], 3, pcom, handler)

    def check_names(self, count: int) -> None:
        """In a schedule the fixed words of scenarios are names like others."""
        for index in range(1, 1 + count):
            if index >= len(self.words) or self.words[index].kind not in (NAME, FIXED):
                raise self.wrong_form(index)

    def check_number(self, index: int, least: int, greatest: int, what: str) -> None:
        if index >= len(self.words) or self.words[index].kind != NUMBER:
            raise self.wrong_form(index)
        if not least <= self.words[index].value <= greatest:
            raise self.refuse(STRUCTURE, index, "%s goes from %d to %d."
                              % (what, least, greatest))

    def check_stop(self, index: int) -> None:
        """`stop CALL [KEEP [FILL]]` from this word on, or nothing."""
        if index >= len(self.words):
            return
        if self.words[index].text != "stop":
            raise self.wrong_form(index)
        self.check_number(index + 1, 1, CALL_LIMIT, "The number of the device call")
        if len(self.words) > index + 2:
            self.check_number(index + 2, 0, KEEP_LIMIT, "The number of bytes that arrive")
        if len(self.words) > index + 3 and self.words[index + 3].text != "old":
            self.check_number(index + 3, 0, FILL_LIMIT, "A byte to fill with")
        if len(self.words) > index + 4:
            raise self.wrong_form(index + 4)

    def component(self, index: int) -> Component:
        name = self.words[index].text
        found = self.program.named(name)
        if found is None:
            names = [c.name for c in self.program.components if c.kind != XCOM]
            raise self.refuse(UNKNOWN, index, "There is no component `%s`.%s"
                              % (name, near(name, names)))
        if found.kind == XCOM:
            raise self.refuse(UNKNOWN, index, "`%s` is an xcom, which has no events." % name)
        return found


def check_schedule(program: Program, data: bytes) -> None:
    """Nothing, or `TextRefused` with the line and the cause that icrun tells."""
    if len(data) > TEXT_LIMIT:
        raise TextRefused(0, LIMIT, 0, 1, "The text has more than %d bytes." % TEXT_LIMIT)
    halt: Optional[int] = None
    for number, line in enumerate(split_lines(data), 1):
        words = words_of(line, number)
        if words:
            halt = check_line(program, number, words, halt)


def check_line(program: Program, number: int, words: list, halt: Optional[int]) -> Optional[int]:
    """The number of the `halt` line, where there is one up to here."""
    if halt is not None:
        raise TextRefused(number, STRUCTURE, words[0].place, words[0].length,
                          "No line stands behind `halt`, which is line %d." % halt)
    if words[0].text == "halt" and len(words) == 1:
        return number
    LineReader(program, number, words).check()
    return None
