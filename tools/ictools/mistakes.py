"""All mistakes of a text: the reading goes on behind a line that is refused."""

from __future__ import annotations

import re
from typing import List, Optional

from .common import TEXT_LIMIT
from .policy import fault_of, no_toml, pairs_of
from .scenario import (PCOM, TCOM, XCOM, Component, NameReader, Program, Statement,
                       StructureReader)
from .schedule import check_line
from .texts import (ARITY, LIMIT, UNKNOWN, TextRefused, Word, indentation, rough_words, split_lines,
                    words_of)

KINDS = (PCOM, TCOM, XCOM)
DECLARING = KINDS + ("var", "key", "on", "get")


MISTAKES_LIMIT = 100  # of a text: behind so many it isn't looked at any more


class Unwound(Exception):
    """A component or a handler begins while an earlier one isn't ended."""


class TextEnds(Unwound):
    """The text ends inside a component."""


class AllMistakes(StructureReader):
    """Reads a scenario; a line that is refused is noted, one mistake a line."""

    def __init__(self, data: bytes) -> None:
        super().__init__(data)
        self.mistakes: List[TextRefused] = []
        self.doubtful: set = set()  # names that a refused line may have declared

    def refused(self, refused: TextRefused) -> None:
        if not self.mistakes or self.mistakes[-1].line < refused.line:
            self.mistakes.append(refused)
        first = self.words[0].text if self.words else ""
        if first in DECLARING:
            self.doubtful |= {re.sub("[^a-z0-9_]", "_", word.text.lower()) for word in self.words}
        if len(self.mistakes) >= MISTAKES_LIMIT:
            self.line = len(self.lines)
            raise TextEnds()
        if refused.line > len(self.lines):
            raise TextEnds()
        if self.open and first in KINDS or self.in_handler() and first in ("on", "var"):
            raise Unwound()

    def in_handler(self) -> bool:
        return len(self.open) > 1

    def words_of_line(self) -> list:
        try:
            return super().words_of_line()
        except TextRefused as refused:
            self.words = rough_words(self.lines[self.line - 1])
            self.refused(refused)
            return self.words

    def inner_line(self) -> Word:
        try:
            return super().inner_line()
        except TextRefused as refused:
            self.refused(refused)
            raise

    def read_component(self) -> None:
        """Where the text is out of step the next component is looked for."""
        try:
            super().read_component()
        except TextEnds:
            return
        except (TextRefused, Unwound) as why:
            if isinstance(why, TextRefused) and not self.is_noted(why):
                self.mistakes.append(why)
            if len(self.mistakes) >= MISTAKES_LIMIT:
                self.line = len(self.lines)
                return
            self.open = []
            self.skip_to(KINDS, isinstance(why, Unwound))

    def is_noted(self, refused: TextRefused) -> bool:
        return bool(self.mistakes) and self.mistakes[-1].line >= refused.line

    def read_handler(self, component: Component) -> None:
        """A handler that begins in another one ends that; the `end` lines behind it are counted anew."""
        kept = len(self.open)
        try:
            super().read_handler(component)
        except Unwound as why:
            if isinstance(why, TextEnds) or self.words[0].text != "on":
                raise
            del self.open[kept:]
            self.line -= 1

    def skip_to(self, kinds: tuple, with_this_line: bool) -> None:
        """Up to the line before the next one that begins with such a word."""
        if with_this_line and self.words[0].text in kinds:
            self.line -= 1
            return
        while self.line < len(self.lines):
            first = rough_words(self.lines[self.line])
            if first and first[0].text in kinds:
                return
            self.line += 1

    def read_statement(self, scope: dict, depth: int, tcom: Optional[str], into: list) -> dict:
        """A line that isn't known begins a block where the lines behind it are indented deeper."""
        here = self.line
        words = self.words
        before = len(self.mistakes)
        scope = super().read_statement(scope, depth, tcom, into)
        is_unknown = len(self.mistakes) > before and self.line == here
        if is_unknown and words[0].text not in ("set", "send", "out", "get", "put", "need") and (
                self.is_deeper_behind()):
            self.begin(words[0].text)
            while self.read_block(scope, depth, tcom, [], may_else=True) == "else":
                pass
            self.close()
        return scope

    def is_deeper_behind(self) -> bool:
        numbers = range(self.line, len(self.lines))
        behind = next((self.lines[number] for number in numbers if rough_words(self.lines[number])), b"")
        return indentation(behind) > indentation(self.lines[self.line - 1])


def names_of(program: Program, uses: List[Statement], spoilt: set, doubtful: set) -> List[TextRefused]:
    """The mistakes of names and numbers of operands in lines that aren't refused already."""
    found, reader = [], NameReader(program)
    for use in uses:
        if use.line in spoilt:
            continue
        try:
            reader.check(use)
        except TextRefused as refused:
            if len(found) >= MISTAKES_LIMIT:
                break
            word = next((w.text for w in use.words if w.place == refused.place), "")
            if refused.cause != UNKNOWN or word not in doubtful:
                found.append(refused)
    return found


def scenario_mistakes(data: bytes) -> tuple:
    """The program, as far as it can be read, its reader, and all mistakes in order of their lines."""
    if len(data) > TEXT_LIMIT:
        return Program([]), None, [TextRefused(0, LIMIT, 0, 1, "The text has more than %d bytes."
                                               % TEXT_LIMIT)]
    reader = AllMistakes(data)
    program = Program(reader.read())
    spoilt = {mistake.line for mistake in reader.mistakes}
    more = names_of(program, reader.uses, spoilt, reader.doubtful)
    return program, reader, sorted(reader.mistakes + more, key=lambda it: it.line)


def schedule_mistakes(program: Program, data: bytes, is_whole: bool) -> List[TextRefused]:
    """All mistakes; of names where the program is whole."""
    if len(data) > TEXT_LIMIT:
        return [TextRefused(0, LIMIT, 0, 1, "The text has more than %d bytes." % TEXT_LIMIT)]
    found: List[TextRefused] = []
    halt: Optional[int] = None
    for number, line in enumerate(split_lines(data), 1):
        try:
            words = words_of(line, number)
            if words:
                halt = check_line(program, number, words, halt)
        except TextRefused as refused:
            if is_whole or refused.cause not in (UNKNOWN, ARITY):
                found.append(refused)
            if len(found) >= MISTAKES_LIMIT:
                break
    return found


def policy_mistakes(data: bytes) -> list:
    """The faults of a policy, as far as they can be found."""
    try:
        data.decode("utf-8")
    except UnicodeDecodeError as bad:
        line = data[:bad.start].count(b"\n") + 1
        place = bad.start - data.rfind(b"\n", 0, bad.start) - 1
        return [TextRefused(line, "not TOML", place, 1, "These bytes aren't UTF-8.")]
    lines = data.decode("latin-1").split("\n")
    faults = [no_toml(lines)] + [fault_of(pair) for pair in pairs_of(lines)]
    found = {fault.line: fault for fault in reversed(faults) if fault is not None}
    return [TextRefused(line, it.cause, it.place, it.length, it.detail)
            for line, it in sorted(found.items())]
