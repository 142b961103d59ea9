"""One HTML file of a run: a slider over its events, with what each component holds behind them."""

from __future__ import annotations

import html
import json
import os
from typing import Dict, List, Optional

from .common import BAD, DONE, TEXT_LIMIT, ToolError, count, read_file, word_parser
from .follow import Follower, Moment
from .program import add_word, find_program
from .report import Report, ReportError, read_report
from .scenario import XCOM, Program, load_scenario
from .schedule import check_schedule
from .stage import Stage, event_of
from .texts import TextRefused, split_lines

ABOUT = """Does a run from the beginning in a folder of its own, and writes one HTML file of it: a slider over the events,
the components with their values, the records of their logs and what a crash would leave, the packets on their way,
outputs and ledgers. The file needs no server, and loads nothing. No log is left."""
NOTES = """exit status:
  0  the page is written, of a run that was refused at an event too: it has the events before
  1  there is no event; the last line of the run is told
  2  the words are wrong, or a file can't be used"""
TEMPLATE = os.path.join(os.path.dirname(os.path.abspath(__file__)), "page.html")
SCHEDULE, POLICY, SETTLING = 0, 1, 2  # whence an event comes


def origins(report: Report, lines: List[str]) -> List[int]:
    """Whence each event comes: those of the schedule come in its order; the others before its end are the policy's."""
    left, found = 0, []
    for event in report.events:
        text = event_of(event.text)
        if left < len(lines) and text == lines[left]:
            left += 1
            found.append(SCHEDULE)
        else:
            found.append(POLICY if left < len(lines) else SETTLING)
    return found


def events_of(schedule: bytes) -> List[str]:
    """The events of a schedule as a report has them: single blanks, and numbers without leading zeros."""
    lines = (line.split(b"#")[0].decode("ascii").split() for line in split_lines(schedule))
    return [" ".join(plain_stop([plain(word) for word in words])) for words in lines if words and words[0] != "halt"]


def plain(word: str) -> str:
    return str(int(word)) if word.lstrip("-").isdigit() else word


def plain_stop(words: List[str]) -> List[str]:
    """A stop with all its parts."""
    if "stop" not in words[1:]:
        return words
    at = words.index("stop", 1)
    return words[:at] + (words[at:] + ["0", "old"][len(words) - at - 2:])


class Page:
    """What the file tells, with numbers in the place of components."""

    def __init__(self, program: Program, report: Report, moments: List[Moment], lines: List[str]) -> None:
        self.coms = [com for com in program.components if com.kind != XCOM]
        self.numbers = {com.name: number for number, com in enumerate(self.coms)}
        self.report = report
        self.moments = moments
        self.origins = origins(report, lines)

    def data(self) -> dict:
        return {"components": [{"name": com.name, "kind": com.kind, "cells": com.cells, "values": list(map(str, com.first_values))}
                               for com in self.coms],
                "events": [self.event(moment, mark) for moment, mark in zip(self.moments, self.origins)],
                "summary": self.report.summary or [self.report.refusal]}

    def event(self, moment: Moment, mark: int) -> dict:
        """The keys of what doesn't change are left out. Values are texts, since a browser's numbers end at 2^53."""
        event = moment.event
        found: Dict[str, object] = {"t": event.text}
        number = self.numbers.get(event.com)
        values = [[self.numbers[com], None if cells is None else list(map(str, cells))] for com, cells in moment.values.items()]
        puts = [[extra.put.number, extra.put.sender, extra.put.to, extra.put.packet, moment.contents.get(extra.put.number, "")]
                for extra in event.extras if extra.put is not None]
        shown = [[extra.to, extra.com, "%s %s" % tuple(extra.text.split()[slice(0, 4, 3)]), " ".join(extra.text.split()[4:])]
                 for extra in event.extras if extra.kind in ("out", "again")]
        parts = {"m": mark, "e": [extra.text for extra in event.extras], "s": [[self.numbers[it], state] for it, state in moment.states.items()],
                 "v": values, "r": [[self.numbers[com], words] for com, words in moment.added],
                 "f": [self.numbers[com] for com in moment.forced], "z": [self.numbers[com] for com in moment.lost],
                 "p": puts, "o": shown, "x": event.put.number if event.put is not None else 0}
        found.update({key: part for key, part in parts.items() if part})
        if number is not None:
            found["c"] = number
        return found


def page_text(title: str, data: dict) -> str:
    """The file's text. No text of the run can end the script in which it stands."""
    with open(TEMPLATE, encoding="utf-8") as file:
        template = file.read()
    text = json.dumps(data, separators=(",", ":")).replace("<", "\\u003c")
    head, _, behind = template.partition(">DATA<")
    return head.replace("TITLE", html.escape(title)) + ">" + text + "<" + behind


def make_page(program_file: str, scenario: str, schedule: str, policy: Optional[str]) -> str:
    data, program = load_scenario(scenario)
    text = read_file(schedule, TEXT_LIMIT)
    try:
        check_schedule(program, text)
    except TextRefused as refused:
        raise ToolError("%s: bad schedule at line %d: %s. %s" % (schedule, refused.line, refused.cause, refused.detail)) from None
    stage = Stage(program_file, data, None, None if policy is None else read_file(policy, TEXT_LIMIT))
    try:
        lines = [line.decode("ascii") for line in split_lines(text)]
        done = stage.run(lines)
    finally:
        stage.close()
    try:
        report = read_report("the run's report", ("\n".join(done.lines) + "\n").encode("ascii", "replace"))
    except ReportError as error:
        raise ToolError("%s; the last line is: %s" % (error, done.last), BAD) from None
    if not report.events:
        raise ToolError("no event is done: %s" % done.last, BAD)
    title = "%s with %s: %s" % (os.path.basename(scenario), os.path.basename(schedule), count(len(report.events), "event"))
    moments = Follower(program, report).moments()
    return page_text(title, Page(program, report, moments, events_of(text)).data())


def parser():
    words = word_parser("page", ABOUT, NOTES)
    words.add_argument("scenario", metavar="SCENARIO")
    words.add_argument("schedule", metavar="SCHEDULE")
    words.add_argument("policy", metavar="POLICY", nargs="?", help="with a report at level full")
    words.add_argument("-o", "--output", metavar="FILE", required=True, help="the file that is written; one that isn't there yet")
    add_word(words)
    return words


def main(words: Optional[list] = None) -> int:
    given = parser().parse_args(words)
    text = make_page(find_program(given.icrun), given.scenario, given.schedule, given.policy)
    try:
        with open(given.output, "x", encoding="utf-8") as file:
            file.write(text)
    except OSError as error:
        raise ToolError("%s: %s" % (given.output, error.strerror or error)) from None
    print("%s: %s" % (given.output, count(len(text.encode("utf-8")), "byte")))
    return DONE
