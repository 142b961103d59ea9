"""What a last line of icrun means, with the line of the text or the record of the log."""

from __future__ import annotations

import argparse
import os
import re
import textwrap
from typing import Callable, List, Optional

from . import advice
from .advice import Advice
from .common import (BAD, DONE, FORMER_LIMIT, LOG_LIMIT, STATUSES, TEXT_LIMIT, ToolError, count, read_file,
                     read_standard_input, word_parser)
from .folder import faults
from .frame import FORMER, Frame, format_of, walk
from .fresh import is_without_a_record
from .mistakes import scenario_mistakes
from .pointing import letter, pointed, refused_lines
from .policy import find_fault
from .program import is_former, log_names, log_path
from .records import NoRecord, Names, read_records, record_words
from .scenario import XCOM, Program, read_scenario
from .schedule import check_schedule
from .showlog import Reading, subject_of, table_lines
from .texts import TextRefused, split_lines

ABOUT = """Explains the last line that icrun or iclive printed, which is read from standard input:
what it means, the line of the text with the place, the usual mistake, and what to do.

  ./icrun run S C 2>&1 | tail -1 | tools/explain --scenario S --schedule C"""

NOTES = STATUSES + """
Status 1 means that the line is no last line of icrun."""

LINE_LIMIT = 1 << 20  # bytes of standard input that are looked at, from its end
WIDTH = 88
NAME = "[a-z][a-z0-9_]{0,31}"


class Files:
    """The files that the call had, as far as they are given."""

    def __init__(self, given: argparse.Namespace) -> None:
        self.scenario = given.scenario
        self.schedule = given.schedule
        self.policy = given.policy
        self.logs = given.logs
        self.tool = "icrun"  # which printed the line

    def is_cut_off(self) -> bool:
        """Whether there are logs, and none holds a record."""
        names = log_names(self.logs) if os.path.isdir(self.logs) else []
        return bool(names) and all(is_without_a_record(os.path.join(self.logs, name)) for name in names)

    def text(self, name: Optional[str]) -> Optional[bytes]:
        return None if name is None else read_file(name, TEXT_LIMIT)

    def program(self) -> Optional[Program]:
        """The scenario's program, where it is given and accepted."""
        data = self.text(self.scenario)
        try:
            return None if data is None else read_scenario(data)
        except TextRefused:
            return None

    def log_of(self, component: str) -> Optional[str]:
        """The name of a component's log."""
        program = self.program()
        if program is None or component not in program.numbers:
            return None
        return log_path(self.logs, self.tool, program.numbers[component])


def more_lines(name: str, what: str, data: bytes) -> list:
    """How many more mistakes a scenario has."""
    if what != "scenario":
        return []
    more = len(scenario_mistakes(data)[2]) - 1
    if more < 1:
        return []
    return ["There %s: `tools/lint %s` shows all." % (
        "is another mistake" if more == 1 else "are %d more mistakes" % more, name)]


def text_lines(name: Optional[str], what: str, check: Callable[[bytes], object], line: int,
               cause: str) -> list:
    """The line that was refused, or why it can't be shown."""
    if name is None:
        return ["Give --%s to see the line." % what]
    data = read_file(name, TEXT_LIMIT)
    try:
        check(data)
    except TextRefused as refused:
        if (refused.line, refused.cause) == (line, cause):
            return refused_lines(name, data, refused) + more_lines(name, what, data)
        return ["%s is refused for something else now, at line %d: %s. It is another file, or "
                "was changed since." % (name, refused.line, refused.cause)]
    return ["%s isn't refused now: it is another file, or was changed since." % name]


# One function for each last line: what is shown of the files


def explain_scenario(files: Files, line: str, cause: str) -> list:
    return text_lines(files.scenario, "scenario", read_scenario, int(line), cause)


def explain_schedule(files: Files, line: str, cause: str) -> list:
    if files.schedule is None:
        return ["Give --scenario and --schedule to see the line."]
    program = files.program()
    if program is not None:
        return text_lines(files.schedule, "schedule",
                          lambda data: check_schedule(program, data), int(line), cause)
    lines = split_lines(read_file(files.schedule, TEXT_LIMIT))
    if not 0 < int(line) <= len(lines):
        return ["%s has no line %s." % (files.schedule, line)]
    shown = pointed(files.schedule, int(line), lines[int(line) - 1], 0, 1)[:1]
    why = "Give --scenario" if files.scenario is None else (
        "%s is refused itself. Give the scenario of the run" % files.scenario)
    return shown + [why + " to see the place in the line."]


def explain_policy(files: Files, cause: str) -> list:
    if files.policy is None:
        return ["Give --policy to see the line."]
    data = read_file(files.policy, TEXT_LIMIT)
    if len(data) > TEXT_LIMIT:
        return ["%s has more than %d bytes." % (files.policy, TEXT_LIMIT)]
    fault = find_fault(data, cause)
    if fault is None:
        return ["The line isn't found in %s: look at its tables, its strings and its quotes."
                % files.policy]
    line = data.split(b"\n")[fault.line - 1]
    return pointed(files.policy, fault.line, line, fault.place, fault.length) + [fault.detail]


def log_lines(files: Files, component: str, near: Optional[int]) -> list:
    """What showlog shows of a component's log."""
    log = files.log_of(component)
    if log is None:
        return ["Give --scenario, with the component %s in it, to see the log." % component]
    if not os.path.isfile(log):
        return ["There is no %s. Give the folder of the logs with --logs, if it is another one." % log]
    return list(table_lines(Reading(subject_of(log, files.scenario, None)), near))


def explain_foreign(files: Files, component: str, _kept: str, _given: str) -> list:
    return log_lines(files, component, LOG_LIMIT)


def explain_bad(files: Files, component: str, place: str) -> list:
    near = min(int(place), LOG_LIMIT)
    log, extra = files.log_of(component), []
    if near == (FORMER_LIMIT if log is not None and is_former(log) else LOG_LIMIT):
        extra = ["At %d: the file is longer than that; or it is the log of a Tcom, and has no "
                 "room for the next epoch." % near]
    return log_lines(files, component, near) + extra


def history(files: Files, program: Program) -> list:
    """The entries of all logs, in order of stamp and component, as `audit` counts them."""
    entries: list = []
    for number, component in enumerate(program.components):
        log = files.log_of(component.name)
        if component.kind == XCOM or not os.path.isfile(log):
            continue
        data = read_file(log, LOG_LIMIT)
        try:
            for batch in walk(data, Frame()):
                for record in read_records(data, batch):
                    if is_entry(record):
                        entries.append((record.fields["stamp"], number, record, log))
        except NoRecord:
            continue
    return sorted(entries, key=lambda entry: entry[:2])


def is_entry(record) -> bool:
    if record.name == "Outcome":
        return record.fields["ending"]["end"] != "committed"
    return "stamp" in record.fields


def explain_illegal(files: Files, index: str) -> list:
    program = files.program()
    if program is None:
        return ["Give --scenario to see the entry."]
    entries = history(files, program)
    if int(index) >= len(entries):
        return ["The logs in %s have %s. Give the folder of the logs with --logs." % (
            files.logs, count(len(entries), "entry", "entries"))]
    _, number, record, log = entries[int(index)]
    return ["Entry %s is the record at %d of %s:" % (index, record.offset, log),
            "  %s: %s %s" % (program.components[number].name, record.name,
                             record_words(Names(program, number), record))]


def explain_read(files: Files) -> list:
    lines = []
    for name in (files.scenario, files.schedule, files.policy):
        try:
            files.text(name)
        except ToolError as error:
            lines.append(str(error) + ".")
    return lines


def explain_log_file(files: Files, component: str) -> list:
    log = files.log_of(component)
    if log is None:
        return []
    if not os.path.exists(log):
        return ["Its log is %s, which isn't there now." % log]
    return ["Its log is %s, with %s." % (log, count(os.path.getsize(log), "byte"))]


def explain_disk(files: Files, component: str) -> list:
    """The folder and the log are tried."""
    log = files.log_of(component)
    if log is None:
        return ["Give --scenario, with the component %s in it, to have its log tried." % component]
    found = faults(log)
    is_well = ("It can be read and written now: its folder takes a file, and no other call holds it."
               if os.path.exists(log) else "Its folder takes a file now.")
    return explain_log_file(files, component) + (found or [is_well])


def explain_nothing(_: Files, *__: str) -> list:
    return []


def text_cause(texts: dict) -> Callable[..., Optional[Advice]]:
    """The advice for the cause, which is the last part of the line."""
    return lambda _, *parts: texts.get(parts[-1])


def always(one: Advice) -> Callable[..., Optional[Advice]]:
    return lambda *_: one


def is_not_migrated(log: str) -> bool:
    """Whether a log stands there in the former format, and none of this one, or one whose first letter isn't written."""
    former = log if is_former(log) else log[:-1]
    if not os.path.isfile(former) or format_of(read_file(former, LOG_LIMIT)) is not FORMER:
        return False
    return is_former(log) or read_file(log, 0) == bytes(1)


def bad_log_advice(files: Files, component: str, place: str) -> Advice:
    """A log that isn't there, or whose making was cut off, isn't damaged."""
    log = files.log_of(component)
    if log is not None and int(place) == 0 and is_not_migrated(log):
        return advice.NOT_MIGRATED
    if log is None or os.path.isfile(log) and not is_without_a_record(log):
        return advice.BAD_LOG
    return advice.CUT_OFF if files.is_cut_off() else advice.NO_LOGS


def disk_advice(files: Files, _: str) -> Advice:
    return advice.DISK if files.tool == "icrun" else advice.LIVE_DISK


def not_blank_advice(files: Files, _: str) -> Advice:
    if files.tool != "icrun":
        return advice.LIVE_NOT_BLANK
    return advice.CUT_OFF if files.is_cut_off() else advice.NOT_BLANK


LAST_LINES = [  # the text behind the program's name; its advice; what is shown of the files
    ("usage: .*", always(advice.USAGE), explain_nothing),
    ("bad scenario at line ([0-9]{1,9}): (.*)", text_cause(advice.TEXT_CAUSES),
     explain_scenario),
    ("bad schedule at line ([0-9]{1,9}): (.*)", text_cause(advice.SCHEDULE_CAUSES),
     explain_schedule),
    ("bad policy: (.*)", text_cause(advice.POLICY_CAUSES), explain_policy),
    ("foreign log of (%s): kept ([0-9a-f]{64}) given ([0-9a-f]{64})" % NAME,
     always(advice.FOREIGN), explain_foreign),
    ("bad log of (%s) at ([0-9]{1,20})" % NAME, bad_log_advice, explain_bad),
    ("illegal history at entry ([0-9]{1,20})", always(advice.ILLEGAL), explain_illegal),
    ("limit of receipts", always(advice.RECEIPTS), explain_nothing),
    ("limit of packets", always(advice.PACKETS), explain_nothing),
    ("limit of log (%s)" % NAME, always(advice.FULL), explain_log_file),
    ("read fault", always(advice.READ), explain_read),
    ("disk fault of (%s)" % NAME, disk_advice, explain_disk),
    ("log of (%s) is not blank" % NAME, not_blank_advice, explain_log_file),
]
PROGRAM = re.compile(r"(icrun|iclive): (.*)\Z")
ENDS = re.compile(r"settled|halted|legal|migrated %s [0-9]{1,20}" % NAME)  # last lines of calls that end with status 0


def advice_lines(one: Advice) -> List[str]:
    parts = [("", one.means), ("Usual mistake: ", one.mistake), ("What to do: ", one.remedy)]
    return [line for head, text in parts if text
            for line in textwrap.wrap(head + text, WIDTH)]


def explain(line: str, files: Files) -> Optional[list]:
    """The lines of the explanation, or None for a line that isn't known."""
    if not line or ENDS.fullmatch(line):
        return advice_lines(advice.ENDED if line else advice.NO_LINE)
    found = PROGRAM.match(line)
    if found:
        files.tool = found.group(1)
    for form, advises, shows in LAST_LINES:
        parts = re.match(form + r"\Z", found.group(2)) if found else None
        one = advises(files, *parts.groups()) if parts else None
        if one is not None:
            shown = shows(files, *parts.groups())
            return shown + ([""] if shown else []) + advice_lines(one)
    return None


def last_line(data: bytes) -> str:
    """The last line that isn't empty, in letters that a terminal may get."""
    lines = [line for line in data[-LINE_LIMIT:].splitlines() if line.strip()]
    return "".join(map(letter, lines[-1].strip())) if lines else ""


def parser():
    words = word_parser("explain", ABOUT, NOTES)
    words.add_argument("-s", "--scenario", metavar="SCENARIO", help="the scenario of the call")
    words.add_argument("-c", "--schedule", metavar="SCHEDULE",
                       help="its schedule, or the plan of iclive")
    words.add_argument("-p", "--policy", metavar="POLICY", help="its policy")
    words.add_argument("-l", "--logs", metavar="FOLDER", default=".",
                       help="the folder of its logs; this one, where it isn't given")
    return words


def main(words: Optional[list] = None) -> int:
    files = Files(parser().parse_args(words))
    line = last_line(read_standard_input())
    lines = explain(line, files)
    if lines is None:
        raise ToolError("no last line of icrun: %s" % line[:200], BAD)
    if line:
        print(line)
        print()
    for shown in lines:
        print(shown)
    return DONE if line else BAD
