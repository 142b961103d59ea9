"""All mistakes of a scenario, a schedule and a policy, and what may not have been meant."""

from __future__ import annotations

import os
import tempfile
from dataclasses import dataclass
from typing import List, Optional, Set, Tuple

from .common import BAD, DONE, TEXT_LIMIT, ToolError, count, read_file, word_parser
from .mistakes import MISTAKES_LIMIT, policy_mistakes, scenario_mistakes, schedule_mistakes
from .pointing import pointed
from .program import EVENT, add_word, call, find_program, memory_folder
from .scenario import Program
from .texts import TextRefused, split_lines, words_of
from .warnings import Remark, Warner

ABOUT = """Tells all mistakes of a scenario, and of a schedule and a policy, each with its line, its place
and a proposal. Without mistakes it warns of what may not have been meant: a name that nobody
uses, sends in a circle without end, a ledger that may go below 0, an `end` that its indentation
contradicts, and inputs that a run from the beginning misses. No log is made or read."""
NOTES = """exit status:
  0  no mistake; there may be warnings
  1  there are mistakes
  2  the words are wrong, or a file can't be used"""
MISSES_LIMIT = 20  # inputs that are missed, of which so many are told


@dataclass(frozen=True)
class Finding:
    """What is told of a line; with an empty cause it is a warning."""

    file: str
    line: int
    place: int
    length: int
    cause: str
    detail: str

    def shown(self, lines: List[bytes]) -> List[str]:
        head = "%s: %s" % (self.cause, self.detail) if self.cause else "warning: " + self.detail
        if not 0 < self.line <= len(lines) + 1:
            return [self.file + ": " + head]
        line = lines[self.line - 1] if self.line <= len(lines) else b""
        return pointed(self.file, self.line, line, self.place, self.length) + ["  " + head]


def mistake(file: str, refused: TextRefused) -> Finding:
    return Finding(file, refused.line, refused.place, refused.length, refused.cause, refused.detail)


def warning(file: str, found: Remark) -> Finding:
    return Finding(file, found.line, found.place, found.length, "", found.detail)


class Texts:
    """The texts of a call, and what is found in them."""

    def __init__(self, scenario: str, schedule: Optional[str], policy: Optional[str]) -> None:
        self.names = [scenario, schedule, policy]
        self.data = [None if name is None else read_file(name, TEXT_LIMIT) for name in self.names]
        self.found: List[Finding] = []
        self.program = Program([])

    def look(self) -> None:
        scenario, schedule, policy = self.data
        self.program, reader, mistakes = scenario_mistakes(scenario or b"")
        self.found += [mistake(self.names[0] or "", it) for it in mistakes]
        if schedule is not None:
            self.found += [mistake(self.names[1] or "", it)
                           for it in schedule_mistakes(self.program, schedule, not mistakes)]
        if policy is not None:
            self.found += [mistake(self.names[2] or "", it) for it in policy_mistakes(policy)]
        if not mistakes and reader is not None:
            warner = Warner(self.program, reader.lines, self.inputs())
            odd = [Remark(it.line, 0, 1, it.detail) for it in reader.odd_ends[:1]]
            self.found += [warning(self.names[0] or "", it) for it in odd + warner.all()]

    def inputs(self) -> Optional[Set[Tuple[str, str]]]:
        """The Pcoms and handlers for which the schedule has inputs."""
        if self.data[1] is None:
            return None
        return {(words[1], words[2]) for _, words in self.input_lines() if len(words) > 2}

    def input_lines(self) -> List[Tuple[int, List[str]]]:
        lines = enumerate(split_lines(self.data[1] or b""), 1)
        words = [(number, line.split(b"#")[0].decode("latin-1").split()) for number, line in lines]
        return [(number, found) for number, found in words if found[:1] == ["input"]]

    @property
    def mistakes(self) -> int:
        return sum(1 for it in self.found if it.cause)

    def add_misses(self, program: str) -> None:
        """Warns of each input that a run from the beginning misses: the run is done, over logs that are taken away again."""
        with tempfile.TemporaryDirectory(prefix="icrun-lint-", dir=memory_folder()) as folder:
            words = []
            for name, data in zip(("scenario", "schedule", "policy"), self.data):
                if data is not None:
                    words.append(name)
                    with open(os.path.join(folder, name), "wb") as file:
                        file.write(data)
            report = call(program, folder, "run", *words)
        if not report.lines or report.lines[-1] not in ("settled", "halted"):
            self.found.append(Finding(self.names[1] or "", -1, 0, 0, "", "A run ends with: %s" % report.last))
        events = [found.groups() for found in map(EVENT.match, report.lines) if found]
        answers = [answer for _, event, answer in events if event.startswith("input ")]
        missed = [(line, answer) for (line, _), answer in zip(self.input_lines(), answers) if answer.startswith("missed ")]
        for line, answer in missed[:MISSES_LIMIT]:
            self.found.append(Finding(self.names[1] or "", line, 0, len("input"), "", MISSED[answer]))
        if len(missed) > MISSES_LIMIT:
            self.found.append(Finding(self.names[1] or "", -1, 0, 0, "", "%d more inputs are missed."
                                      % (len(missed) - MISSES_LIMIT)))


MISSED = {
    "missed down": "This input is missed: its component is down then. A `recover` before it lets it be taken.",
    "missed replaying": "This input is missed: its component replays then, and waits for a message.",
    "missed busy": "This input is missed: its component has a transaction in hand then. Deliveries before it let it be taken.",
}


def shown(texts: Texts) -> List[str]:
    lines: List[str] = []
    for name, data in zip(texts.names, texts.data):
        if name is None:
            continue
        own = split_lines(data or b"")
        for it in sorted((it for it in texts.found if it.file == name), key=lambda it: it.line < 0 or it.line):
            lines += it.shown(own) + [""]
    warnings = len(texts.found) - texts.mistakes
    more = " and perhaps more" if texts.mistakes >= MISTAKES_LIMIT else ""
    return lines + ["%s%s, %s" % (count(texts.mistakes, "mistake"), more, count(warnings, "warning"))]


def parser():
    words = word_parser("lint", ABOUT, NOTES)
    words.add_argument("scenario", metavar="SCENARIO")
    words.add_argument("schedule", metavar="SCHEDULE", nargs="?")
    words.add_argument("policy", metavar="POLICY", nargs="?")
    add_word(words)
    return words


def main(words: Optional[list] = None) -> int:
    given = parser().parse_args(words)
    texts = Texts(given.scenario, given.schedule, given.policy)
    texts.look()
    trouble = ""
    if not texts.mistakes and given.schedule is not None:
        try:
            texts.add_misses(find_program(given.icrun))
        except ToolError as error:
            trouble = "missed inputs aren't looked for: %s" % error
    for line in shown(texts) + ([trouble] if trouble else []):
        print(line)
    return BAD if texts.mistakes else DONE
