"""A prompt over a scenario: events are done one after another over a copy of the logs, and can be undone and saved."""

from __future__ import annotations

import sys
from typing import List, Optional

from .common import BAD, DONE, ToolError, count, word_parser
from .pointing import refused_lines
from .program import Call, add_word, find_program
from .scenario import EVENT_WORDS, PCOM, XCOM, Program, load_scenario
from .schedule import FORMS, check_schedule
from .stage import Stage, event_of
from .texts import TextRefused

ABOUT = """Plays a scenario at a prompt, step by step, from the beginning or from a copy of the logs in FOLDER,
which stay as they are. Each line of a schedule is done at once. What is saved is a schedule: a
`run` of it, or a `resume` over the same logs, does the same."""
NOTES = """exit status:
  0  the end of the input, or `quit`
  1  lines that were read from a file or a pipe were refused
  2  the words are wrong, or a file can't be used"""
HELP = """A line of a schedule is done at once: %s.
  settle      what is down comes up and what is under way arrives; each event is told and counts as a line
  settled     from here on the world is settled before each input, so that none is missed; `settled off` ends it
  values      the values, where their component is up
  lines       the schedule up to here
  undo [N]    takes the last line back, or the last N lines
  save FILE   writes the schedule; a file that is there isn't written over
  help, quit"""
OWN_WORDS = ("settle", "settled", "values", "lines", "undo", "save", "help", "quit")
WORDS_ABOVE = "inputs "  # the summary begins with this word


class Refused(Exception):
    """A line isn't done, for these reasons."""

    def __init__(self, lines: List[str]) -> None:
        super().__init__("\n".join(lines))
        self.lines = lines


class Player:
    def __init__(self, stage: Stage, program: Program) -> None:
        self.stage = stage
        self.program = program
        self.lines: List[str] = []
        self.groups: List[int] = []  # how many lines each step added
        self.is_settled = False  # whether the world is settled before each input
        self.summary: List[str] = []

    # Runs

    def run(self, lines: List[str]) -> Call:
        """A run that stops behind these lines."""
        done = self.stage.run(lines + ["halt"])
        if done.status != 0:
            raise Refused([done.last])
        self.summary = done.lines[summary_of(done.lines):]
        return done

    def settling(self) -> List[str]:
        """The events by which a run of the present lines is settled."""
        done = self.stage.run(self.lines)
        if done.status != 0:
            raise Refused([done.last])
        events = [event for event in map(event_of, done.lines) if event is not None]
        return events[len(self.lines):]

    def add(self, lines: List[str]) -> List[str]:
        """Does these lines too; gives the lines of the report that are new."""
        done = self.run(self.lines + lines)
        before, told = len(self.lines), []
        seen = 0
        for line in done.lines[:summary_of(done.lines)]:
            seen += event_of(line) is not None
            if seen > before:
                told.append(line)
        if lines[-1].startswith("input ") and ": missed " in told[0]:
            raise Refused(told + ["The input is missed, so the line isn't kept. `settle` before it lets it be taken."])
        self.lines += lines
        self.groups.append(len(lines))
        return told

    # Words of the prompt

    def do(self, line: str) -> List[str]:
        """What a line tells; `Refused` where it isn't done."""
        words = line.split("#")[0].split()
        if not words:
            return []
        if words[0] in OWN_WORDS:
            return self.own_word(words)
        self.check(line)
        if words[0] == "halt":
            return ["`halt` isn't wanted here: `save` writes the events alone."]
        told = []
        if self.is_settled and words[0] == "input":
            told = self.settle()
        return told + self.add([" ".join(words)])

    def own_word(self, words: List[str]) -> List[str]:
        if words == ["settle"]:
            return self.settle() or ["nothing is under way"]
        if words in (["settled"], ["settled", "on"], ["settled", "off"]):
            self.is_settled = words[-1] != "off"
            return ["each input is settled before: %s" % ("yes" if self.is_settled else "no")]
        if words == ["values"]:
            self.run(self.lines)
            return [line for line in self.summary if line.startswith(("pcom ", "tcom "))]
        if words == ["lines"]:
            return list(self.lines) or ["no line yet"]
        if words[0] == "undo" and len(words) < 3:
            return self.undo(words[1:])
        if words[0] == "save" and len(words) == 2:
            return self.save(words[1])
        if words == ["help"]:
            return (HELP % ", ".join(FORMS)).splitlines()
        raise Refused(["`help` has the words."])

    def settle(self) -> List[str]:
        events = self.settling()
        return self.add(events) if events else []

    def undo(self, words: List[str]) -> List[str]:
        number = self.groups[-1] if self.groups else 0
        if words:
            if not words[0].isdigit():
                raise Refused(["The form is `undo [N]`."])
            number = min(int(words[0]), len(self.lines))
        if number == 0:
            return ["no line to take back"]
        taken = self.lines[-number:]
        del self.lines[-number:]
        while number > 0:
            here = min(number, self.groups[-1])
            self.groups[-1] -= here
            number -= here
            self.groups = [size for size in self.groups if size]
        return ["taken back: %s" % line for line in taken]

    def save(self, name: str) -> List[str]:
        try:
            with open(name, "x", encoding="ascii") as file:
                file.write("".join(line + "\n" for line in self.lines))
        except OSError as error:
            raise Refused(["%s: %s" % (name, error.strerror or error)]) from None
        return ["%s: %s" % (name, count(len(self.lines), "line"))]

    def check(self, line: str) -> None:
        data = line.encode("utf-8", "surrogateescape")
        try:
            check_schedule(self.program, data)
        except TextRefused as refused:
            raise Refused(refused_lines("line", data, refused)) from None

    # Completion of names

    def offered(self, before: List[str]) -> List[str]:
        """What may stand behind these words."""
        coms = [com for com in self.program.components if com.kind != XCOM]
        if not before:
            return list(EVENT_WORDS[:-1]) + list(OWN_WORDS)
        if before[0] == "input":
            pcom = self.program.named(before[1]) if len(before) == 2 else None
            return ([com.name for com in coms if com.kind == PCOM] if len(before) == 1
                    else [handler.name for handler in pcom.handlers] if pcom else [])
        wanted = {"deliver": 2, "lose": 2, "packet": 0}.get(before[0], 1)
        return [com.name for com in coms] if before[0] in EVENT_WORDS and len(before) <= wanted else []


def summary_of(lines: List[str]) -> int:
    """Where the summary begins."""
    return next((at for at, line in enumerate(lines) if line.startswith(WORDS_ABOVE)), len(lines))


def set_readline(player: Player) -> None:
    """Earlier lines by arrow, and names by tab, where this Python has readline."""
    try:
        import readline
    except ImportError:
        return

    def complete(text: str, state: int) -> Optional[str]:
        before = readline.get_line_buffer()[:readline.get_begidx()].split()
        found = [word + " " for word in player.offered(before) if word.startswith(text)]
        return found[state] if state < len(found) else None

    readline.set_completer(complete)
    readline.set_completer_delims(" \t")
    readline.parse_and_bind("tab: complete")


def read_line(is_asked: bool) -> Optional[str]:
    try:
        return input("> ") if is_asked else sys.stdin.readline() or None
    except EOFError:
        return None


def loop(player: Player) -> int:
    """Reads lines up to `quit` or the end; at a prompt a refused line is told and passed over."""
    is_asked = sys.stdin.isatty()
    status = DONE
    while True:
        line = read_line(is_asked)
        if line is None or line.split() == ["quit"]:
            return status
        if not is_asked:
            print("> " + line.rstrip())
        try:
            told = player.do(line)
        except Refused as why:
            told = why.lines
            status = status if is_asked else BAD
        except KeyboardInterrupt:
            told = ["interrupted; the line isn't done"]
        for text in told:
            print(text if text.startswith("> ") else "  " + text)


def parser():
    words = word_parser("play", ABOUT, NOTES)
    words.add_argument("scenario", metavar="SCENARIO")
    words.add_argument("folder", metavar="FOLDER", nargs="?", help="the folder of logs of which a copy is taken; without it the run begins anew")
    add_word(words)
    return words


def main(words: Optional[list] = None) -> int:
    given = parser().parse_args(words)
    data, program = load_scenario(given.scenario)
    stage = Stage(find_program(given.icrun), data, given.folder)
    try:
        player = Player(stage, program)
        try:
            player.run([])
        except Refused as why:
            raise ToolError(why.lines[0], BAD) from None
        if sys.stdin.isatty():
            set_readline(player)
            print("%s; `help` has the words" % ("from the beginning" if given.folder is None else "from a copy of the logs in %s"
                                                  % given.folder))
        return loop(player)
    finally:
        stage.close()
