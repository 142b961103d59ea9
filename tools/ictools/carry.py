"""A changed scenario with the values of the old logs: its first values are those of an audit."""

from __future__ import annotations

import os
from contextlib import ExitStack
from typing import Dict, List, Optional, Tuple

from .common import BAD, DONE, TEXT_LIMIT, ToolError, count, word_parser
from .folder import is_held
from .program import add_word, all_log_names, find_program, values_of
from .scenario import Program, load_scenario
from .stage import Stage
from .texts import words_of

ABOUT = """Begins a changed scenario with the values of the logs of an old one. The old run must be settled. The new
scenario is written to a file, with the values of `icrun audit` as first values; the old logs are set aside, with
their scenario, in a folder of their own, where they can be audited as before. Variables, keys and components are
known by their names. Where the new scenario has no place for a value, nothing is done, unless `--drop` names it."""
NOTES = """exit status:
  0  the new scenario is written, and the old logs are set aside
  1  nothing is done: the old run isn't settled, or a value would be lost
  2  the words are wrong, or a file can't be used"""
BEGINS_ANEW = ("numbers of messages, outputs and transactions count from 1 again", "the history begins with no entry",
               "receipts, sessions and showings of the old run are known to the old logs alone")

Values = Dict[str, Dict[str, int]]
Cell = Tuple[str, str]


def refuse(text: str) -> ToolError:
    return ToolError(text + "; nothing is changed", BAD)


def settled_values(program: str, scenario: bytes, folder: str) -> Values:
    """The values of the logs, which are looked at in a copy: a run that goes on there must find nothing to do."""
    stage = Stage(program, scenario, folder)
    try:
        stage.set_logs()
        before = stage.audit()
        if before.status != 0:
            raise refuse("the audit of the old logs ends with: %s" % before.last)
        went_on = stage.run([])
        after = stage.audit()
        told = [line for line in went_on.lines if line.startswith("outputs ")]
        if went_on.last != "settled":
            raise refuse("the old run can't go on: %s" % went_on.last)
        if after.lines != before.lines or told != ["outputs first 0 again 0"]:
            raise refuse("the old run isn't settled; a `resume` of it with an empty schedule settles it")
        return values_of(before.lines)
    finally:
        stage.close()


def places(program: Program, text: bytes) -> Dict[Cell, Tuple[int, int, int]]:
    """Where the first value of each variable and key stands: line from 0, place and length."""
    lines = text.split(b"\n")
    found = {}
    for com in program.components:
        for cell, line in zip(com.cells, com.cell_lines):
            word = words_of(lines[line - 1], line)[2]
            found[com.name, cell] = line - 1, word.place, word.length
    return found


def carried(text: bytes, at: Dict[Cell, Tuple[int, int, int]], values: Values) -> bytes:
    """The text with these first values."""
    lines = text.split(b"\n")
    for com, cells in values.items():
        for cell, value in cells.items():
            if (com, cell) in at:
                line, place, length = at[com, cell]
                old = lines[line]
                lines[line] = old[:place] + str(value).encode() + old[place + length:]
    return b"\n".join(lines)


def without_place(old: Program, new: Program, values: Values) -> List[str]:
    """The values that the new scenario has no place for."""
    lost = []
    for com in old.components:
        there = new.named(com.name)
        for cell, value in values.get(com.name, {}).items():
            if there is None or there.kind != com.kind or cell not in there.cells:
                lost.append("%s.%s" % (com.name, cell))
    return lost


def new_cells(old: Program, new: Program) -> List[str]:
    found = []
    for com in new.components:
        before = old.named(com.name)
        known = before.cells if before is not None and before.kind == com.kind else []
        found += ["%s.%s=%d" % (com.name, cell, value) for cell, value in zip(com.cells, com.first_values) if cell not in known]
    return found


def check_carried(program: str, text: bytes, values: Values, dropped: List[str]) -> None:
    """A run of the new scenario must begin with the values."""
    stage = Stage(program, text, None)
    try:
        begun = stage.run([])
        if begun.last != "settled":
            raise refuse("the new scenario ends with: %s" % begun.last)
        there = values_of(begun.lines)
        for com, cells in values.items():
            for cell, value in cells.items():
                if "%s.%s" % (com, cell) not in dropped and there.get(com, {}).get(cell) != value:
                    raise refuse("%s.%s would be %s, and is %d" % (com, cell, there.get(com, {}).get(cell), value))
    finally:
        stage.close()


# Files


def sync_folder(folder: str) -> None:
    place = os.open(folder, os.O_RDONLY)
    try:
        os.fsync(place)
    finally:
        os.close(place)


def write_new(name: str, data: bytes) -> None:
    """A file that wasn't there, synced."""
    with open(name, "xb") as file:
        file.write(data)
        file.flush()
        os.fsync(file.fileno())


def set_aside(folder: str, scenario: bytes) -> str:
    """The logs and their scenario stand in a folder of their own afterwards, of which the name is given."""
    names = all_log_names(folder)
    place = next(path for path in (os.path.join(folder, "carried-%d" % number) for number in range(1, 10 ** 6))
                 if not os.path.lexists(path))
    with ExitStack() as opened:
        for name in names:
            file = opened.enter_context(open(os.path.join(folder, name), "rb"))
            if is_held(file):
                raise refuse("another call holds %s" % os.path.join(folder, name))
        os.mkdir(place)
        write_new(os.path.join(place, "scenario"), scenario)
        for name in names:
            os.link(os.path.join(folder, name), os.path.join(place, name))
        sync_folder(place)
        for name in names:
            os.unlink(os.path.join(folder, name))
        sync_folder(folder)
    return place


def carry(program: str, given) -> List[str]:
    """Does it all; gives what is told."""
    old_text, old = load_scenario(given.old)
    new_text, new = load_scenario(given.new)
    output = given.output or given.new + ".carried"
    if os.path.lexists(output):
        raise refuse("%s is there already" % output)
    values = settled_values(program, old_text, given.logs)
    lost = without_place(old, new, values)
    left = [name for name in lost if name not in given.drop]
    if left:
        raise refuse("%s has no place for: %s (`--drop NAME` gives a value up)" % (
            given.new, ", ".join("%s=%d" % (name, values[name.partition(".")[0]][name.partition(".")[2]]) for name in left)))
    text = carried(new_text, places(new, new_text), values)
    if len(text) > TEXT_LIMIT:
        raise refuse("the new text has more than %d bytes" % TEXT_LIMIT)
    check_carried(program, text, values, lost)
    write_new(output, text)
    try:
        place = set_aside(given.logs, old_text)
    except ToolError:
        os.unlink(output)
        raise
    kept = sum(len(cells) for cells in values.values()) - len(lost)
    begins = new_cells(old, new)
    return (["%s: %s with %s of the old logs" % (output, given.new, count(kept, "value")),
             "the old logs and their scenario: %s" % place]
            + ["given up: %s" % name for name in lost] + ["new, with its declared value: %s" % name for name in begins]
            + ["begins anew: %s" % text for text in BEGINS_ANEW]
            + ["next: icrun run %s SCHEDULE" % output])


def parser():
    words = word_parser("carry", ABOUT, NOTES)
    words.add_argument("old", metavar="OLD-SCENARIO")
    words.add_argument("new", metavar="NEW-SCENARIO")
    words.add_argument("-l", "--logs", metavar="FOLDER", default=".", help="the folder of the old logs; this one, where it isn't given")
    words.add_argument("-o", "--output", metavar="FILE", help="where the new scenario is written; NEW-SCENARIO.carried, where it isn't given")
    words.add_argument("-d", "--drop", metavar="COMPONENT.NAME", action="append", default=[], help="a value that is given up")
    add_word(words)
    return words


def main(words: Optional[list] = None) -> int:
    given = parser().parse_args(words)
    try:
        told = carry(find_program(given.icrun), given)
    except OSError as error:
        raise ToolError("%s: %s" % (error.filename, error.strerror or error)) from None
    for line in told:
        print(line)
    return DONE
