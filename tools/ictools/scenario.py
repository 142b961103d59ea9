"""Scenarios: the names that numbers stand for, and why a text is refused."""

from __future__ import annotations

from dataclasses import dataclass, field
from difflib import get_close_matches
from typing import Callable, Optional

from .common import COMPONENT_LIMIT, TEXT_LIMIT, VALUES_LIMIT, ToolError, read_file
from .texts import (ARITY, KEPT_NAMES, LIMIT, NAME, NUMBER, OPERATOR, STRUCTURE, TWICE,
                    UNKNOWN, TextRefused, Word, indentation, split_lines, words_of)

PCOM, TCOM, XCOM = "pcom", "tcom", "xcom"
VARIABLE_LIMIT, KEY_LIMIT, HANDLER_LIMIT = 32, 1024, 64
STATEMENT_LIMIT, NESTING_LIMIT = 256, 16

VALUE_RULE = " A VALUE is one operand, or two with an operator between them."
FORMS = {
    "xcom": "xcom NAME",
    "tcom": "tcom NAME",
    "pcom": "pcom NAME [immediate]",
    "var": "var NAME NUMBER",
    "key": "key NAME NUMBER",
    "on": "on NAME PARAMETER ..",
    "set": "set VARIABLE VALUE",
    "send": "send PCOM HANDLER OPERAND ..",
    "out": "out XCOM OPERAND ..",
    "if": "if VALUE",
    "txn": "txn TCOM",
    "get": "get NAME KEY",
    "put": "put KEY VALUE",
    "need": "need VALUE",
}
EVENT_WORDS = ("input", "deliver", "packet", "lose", "force", "checkpoint", "resend", "emit",
               "crash", "recover", "halt")  # with which a line of a schedule begins
STATEMENTS = ("set", "send", "out", "if", "txn")
TXN_STATEMENTS = ("get", "put", "need", "set", "if")
WORDS_OF_OTHERS = {  # words of other languages: what stands in their place
    "and": "nest a second `if` in the first one, or write a second `need`",
    "or": "write an `if` in the `else` part of the first one",
    "not": "compare with 0, as in `a = 0`",
}


@dataclass
class Statement:
    """A statement, whose names are looked up once the structure is read."""

    line: int
    words: list
    scope: dict  # names that are seen there, with what they are
    tcom: Optional[str]  # of the transaction in which it stands
    first: list = field(default_factory=list)  # what stands in an `if` or a `txn`
    second: list = field(default_factory=list)  # what stands behind its `else`

    @property
    def kind(self) -> str:
        return self.words[0].text


@dataclass
class Handler:
    name: str
    params: list
    line: int = 0
    body: list = field(default_factory=list)


@dataclass
class Component:
    name: str
    kind: str
    immediate: bool = False
    cells: list = field(default_factory=list)  # names of variables or keys
    handlers: list = field(default_factory=list)
    line: int = 0
    first_values: list = field(default_factory=list)  # of the cells
    cell_lines: list = field(default_factory=list)

    def handler(self, name: str) -> Optional[Handler]:
        return next((h for h in self.handlers if h.name == name), None)


class Program:
    """The components of a scenario, in order of declaration."""

    def __init__(self, components: list) -> None:
        self.components = components
        self.numbers = {c.name: i for i, c in enumerate(components)}

    def component(self, number: int) -> Optional[Component]:
        return self.components[number] if 0 <= number < len(self.components) else None

    def is_kind(self, number: int, kind: str) -> bool:
        found = self.component(number)
        return found is not None and found.kind == kind

    def named(self, name: str) -> Optional[Component]:
        return self.components[self.numbers[name]] if name in self.numbers else None


@dataclass(frozen=True)
class OddEnd:
    """An `end` whose indentation is another than that of the line that it closes."""

    line: int
    closes: tuple  # word and line
    looks: Optional[tuple]  # the word and the line that are indented as it is

    @property
    def detail(self) -> str:
        here = "The `end` of line %d closes `%s` of line %d" % ((self.line,) + self.closes)
        if self.looks is None:
            return here + ", and is indented otherwise."
        return here + ", and is indented as that of `%s` of line %d: an `end` is missing above." % (
            self.looks)


def near(name: str, names) -> str:
    """A hint at a similar name, or nothing."""
    found = get_close_matches(name, list(names), 1)
    return " Is `%s` meant?" % found[0] if found else ""


class StructureReader:
    """The first pass, for all causes but unknown names and numbers of operands."""

    def __init__(self, data: bytes) -> None:
        self.lines = split_lines(data)
        self.line = 0
        self.words: list = []
        self.components: list = []
        self.uses: list = []  # all statements
        self.open: list = []  # what waits for its `end`: (word, line)
        self.odd_ends: list = []
        self.statements = 0

    def refused(self, refused: TextRefused) -> None:
        """What becomes of a line that is refused: the reading ends there."""
        raise refused

    def tried(self, check: Callable[[], object]) -> None:
        """A check of one line."""
        try:
            check()
        except TextRefused as refused:
            self.refused(refused)

    def words_of_line(self) -> list:
        return words_of(self.lines[self.line - 1], self.line)

    def refuse(self, cause: str, word: Optional[Word], detail: str) -> TextRefused:
        """At a word, or behind the last one."""
        if word is None:
            last = self.words[-1]
            return TextRefused(self.line, cause, last.place + last.length + 1, 1, detail)
        return TextRefused(self.line, cause, word.place, word.length, detail)

    def wrong_form(self, index: int) -> TextRefused:
        """The line's words don't fit its form, from this one on."""
        word = self.words[index] if index < len(self.words) else None
        form = FORMS[self.words[0].text]
        return self.refuse(STRUCTURE, word, "The form is `%s`.%s" % (
            form, VALUE_RULE if "VALUE" in form else ""))

    def begin(self, word: str) -> None:
        """The line opens what a later `end` closes."""
        self.open.append((word, self.line))

    def close(self) -> None:
        """The line is the `end` of what was opened last."""
        closes = self.open.pop()
        here = indentation(self.lines[self.line - 1])
        if here == self.indentation_of(closes):
            return
        looks = [one for one in reversed(self.open) if self.indentation_of(one) == here]
        self.odd_ends.append(OddEnd(self.line, closes, looks[0] if looks else None))

    def indentation_of(self, opened: tuple) -> int:
        return indentation(self.lines[opened[1] - 1])

    def odd_end(self) -> str:
        """A hint at an `end` that its indentation contradicts, or nothing."""
        missing = [odd for odd in self.odd_ends if odd.looks]
        return " " + (missing or self.odd_ends)[0].detail if self.odd_ends else ""

    def next_line(self) -> bool:
        """Goes to the next line with words; whether there is one."""
        while self.line < len(self.lines):
            self.line += 1
            self.words = self.words_of_line()
            if self.words:
                return True
        return False

    def inner_line(self) -> Word:
        """The first word of the next line, inside a component."""
        if not self.next_line():
            waits = ", ".join("`%s` of line %d" % pair for pair in reversed(self.open))
            raise TextRefused(len(self.lines) + 1, STRUCTURE, 0, 1,
                              "The text ends here, and an `end` is missing for: %s.%s"
                              % (waits, self.odd_end()))
        return self.words[0]

    def is_alone(self, word: str) -> bool:
        return len(self.words) == 1 and self.words[0].text == word

    def declared(self, index: int, what: str) -> str:
        """The name that the line declares in this place."""
        if index >= len(self.words):
            raise self.wrong_form(index)
        word = self.words[index]
        if word.kind != NAME:
            raise self.refuse(STRUCTURE, word, "`%s` is a %s, and can't be the name of a %s."
                              % (word.text, word.kind, what))
        if word.text in KEPT_NAMES:
            raise self.refuse(STRUCTURE, word, "No %s may be named `%s`." % (what, word.text))
        return word.text

    def check_new(self, word: Word, names, what: str) -> None:
        if word.text in names:
            raise self.refuse(TWICE, word, "The name `%s` stands for a %s already."
                              % (word.text, what))

    def check_room(self, there: int, limit: int, word: Optional[Word], what: str) -> None:
        if there >= limit:
            raise self.refuse(LIMIT, word, "There are at most %d %s." % (limit, what))

    # Components

    def read(self) -> list:
        while self.next_line():
            self.read_component()
        return self.components

    def read_component(self) -> None:
        kind = self.words[0].text
        if kind not in (PCOM, TCOM, XCOM):
            raise self.refuse(STRUCTURE, self.words[0], self.outside_detail(kind))
        component = Component("", kind, line=self.line)
        self.tried(lambda: self.read_head(component))
        self.components.append(component)
        if kind == XCOM:
            return
        self.begin(kind + " " + component.name)
        if kind == TCOM:
            self.read_cells(component, "key", KEY_LIMIT, "keys in a Tcom")
            while not self.is_alone("end"):
                self.refused(self.refuse(STRUCTURE, self.words[0], "Inside a Tcom there are "
                                         "`key` lines, and then `end`."))
                self.inner_line()
        else:
            self.read_cells(component, "var", VARIABLE_LIMIT, "variables in a Pcom")
            self.read_handlers(component)
        self.close()

    def read_head(self, component: Component) -> None:
        kind = component.kind
        component.name = self.declared(1, "component")
        component.immediate = (kind == PCOM and len(self.words) > 2
                               and self.words[2].text == "immediate")
        most = 3 if component.immediate else 2
        if len(self.words) > most:
            raise self.wrong_form(most)
        self.check_new(self.words[1], [c.name for c in self.components], "component")
        self.check_room(len(self.components), COMPONENT_LIMIT, self.words[1], "components")

    def outside_detail(self, word: str) -> str:
        if word == "end":
            return ("This `end` closes nothing: all that was open is closed above it."
                    + self.odd_end())
        if word in EVENT_WORDS:
            return ("`%s` begins a line of a schedule. Outside a component a line begins with "
                    "`pcom`, `tcom` or `xcom`: are scenario and schedule exchanged?" % word)
        return ("Outside a component a line begins with `pcom`, `tcom` or `xcom`.%s%s"
                % (near(word, (PCOM, TCOM, XCOM)), self.odd_end()))

    def read_cells(self, component: Component, word: str, limit: int, what: str) -> None:
        """The `var` or `key` lines, up to the line behind them."""
        while self.inner_line().text == word:
            self.tried(lambda: self.read_cell(component, word, limit, what))

    def read_cell(self, component: Component, word: str, limit: int, what: str) -> None:
        kind = "variable" if word == "var" else "key"
        name = self.declared(1, kind)
        if len(self.words) != 3 or self.words[2].kind != NUMBER:
            raise self.wrong_form(3 if len(self.words) > 3 and
                                  self.words[2].kind == NUMBER else 2)
        self.check_new(self.words[1], component.cells, kind)
        self.check_room(len(component.cells), limit, self.words[1], what)
        component.cells.append(name)
        component.first_values.append(self.words[2].value)
        component.cell_lines.append(self.line)

    def read_handlers(self, component: Component) -> None:
        while not self.is_alone("end"):
            word = self.words[0]
            if word.text == "on":
                self.read_handler(component)
            elif word.text == "var":
                self.refused(self.refuse(STRUCTURE, word, "The variables of a Pcom stand before "
                                         "its handlers."))
            else:
                self.refused(self.refuse(STRUCTURE, word, "Here a line begins with `on`, or is "
                                         "`end`." + self.hint(word.text)))
            self.inner_line()

    def hint(self, word: str) -> str:
        """What may be meant by a word that begins no line of a Pcom."""
        if word in (PCOM, TCOM, XCOM):
            return self.odd_end()
        if word in STATEMENTS:
            return " `%s` stands in a handler; was it ended too early?" % word + self.odd_end()
        return near(word, ("on", "end", "var"))

    def read_handler(self, component: Component) -> None:
        handler = Handler("", [], self.line)
        seen = dict.fromkeys(component.cells, "variable")
        self.tried(lambda: self.read_on(component, handler, seen))
        component.handlers.append(handler)
        self.statements = 0
        self.begin("on " + handler.name)
        self.read_block(seen, 0, None, handler.body, may_else=False)
        self.close()

    def read_on(self, component: Component, handler: Handler, seen: dict) -> None:
        """The line of a handler; its parameters are seen from here on."""
        handler.name = self.declared(1, "handler")
        handler.params = [self.declared(i, "parameter") for i in range(2, len(self.words))]
        self.check_new(self.words[1], [h.name for h in component.handlers], "handler")
        for word in self.words[2:]:
            self.check_new(word, seen, seen.get(word.text, ""))
            seen[word.text] = "parameter"
        self.check_room(len(component.handlers), HANDLER_LIMIT, self.words[1],
                        "handlers in a Pcom")
        if len(handler.params) > VALUES_LIMIT:
            raise self.refuse(LIMIT, self.words[2 + VALUES_LIMIT],
                              "A handler has at most %d parameters." % VALUES_LIMIT)

    # Statements

    def read_block(self, scope: dict, depth: int, tcom: Optional[str], into: list,
                   may_else: bool, begins_txn: bool = False) -> str:
        """The statements up to `end`, or up to an `else` that may stand there."""
        while True:
            word = self.inner_line()
            if begins_txn and word.text not in ("get", "put"):
                self.refused(self.refuse(STRUCTURE, word,
                                         "The first line of a `txn` is a `get` or a `put`."))
            begins_txn = False
            if self.is_alone("end"):
                return "end"
            if word.text == "else":
                self.tried(lambda: self.check_else(may_else))
                if may_else:
                    return "else"
            else:
                scope = self.read_statement(scope, depth, tcom, into)

    def check_else(self, may_else: bool) -> None:
        if len(self.words) > 1:
            raise self.refuse(STRUCTURE, self.words[0], "`else` stands alone on its line: nest "
                              "an `if` behind it, with an `end` of its own.")
        if not may_else:
            raise self.refuse(STRUCTURE, self.words[0], "Here is no `if` or `txn` whose second "
                              "part this `else` could begin.")

    def read_statement(self, scope: dict, depth: int, tcom: Optional[str], into: list) -> dict:
        """Reads a statement; gives the names that are seen behind it."""
        word = self.words[0].text
        statement = Statement(self.line, self.words, scope, tcom)
        self.tried(lambda: self.check_statement(scope, depth, tcom))
        into.append(statement)
        self.uses.append(statement)
        if word == "get" and len(self.words) > 1:
            return dict(scope, **{self.words[1].text: "local"})
        if word in ("if", "txn"):
            self.begin(word)
            self.read_parts(statement, scope, depth + 1)
            self.close()
        return scope

    def check_statement(self, scope: dict, depth: int, tcom: Optional[str]) -> None:
        word = self.words[0]
        if word.text not in (STATEMENTS if tcom is None else TXN_STATEMENTS):
            raise self.refuse(STRUCTURE, word, self.no_statement(word.text, tcom))
        self.check_form()
        if word.text == "get":
            self.check_new(self.words[1], scope, scope.get(self.words[1].text, ""))
        self.check_limits(depth)

    def no_statement(self, word: str, tcom: Optional[str]) -> str:
        if tcom is None and word in TXN_STATEMENTS:
            return "`%s` stands only inside a `txn`, before its `else`." % word
        if tcom is not None and word in STATEMENTS:
            return "`%s` doesn't stand inside a `txn`, before its `else`." % word
        allowed = STATEMENTS if tcom is None else TXN_STATEMENTS
        return "Here a line begins with one of: %s, end.%s" % (", ".join(allowed),
                                                              near(word, allowed))

    def read_parts(self, statement: Statement, scope: dict, depth: int) -> None:
        first, second = statement.first, statement.second
        if statement.kind == "if":
            tcom = statement.tcom
            if self.read_block(scope, depth, tcom, first, may_else=True) == "else":
                self.read_block(scope, depth, tcom, second, may_else=False)
            return
        name = statement.words[1].text if len(statement.words) > 1 else ""
        if self.read_block(scope, depth, name, first, may_else=True, begins_txn=True) != "else":
            self.refused(self.refuse(STRUCTURE, self.words[0], "A `txn` has an `else` part."))
            return
        self.read_block(scope, depth, None, second, may_else=False)

    def check_limits(self, depth: int) -> None:
        word = self.words[0]
        self.check_room(self.statements, STATEMENT_LIMIT, word, "statements in a handler")
        self.statements += 1
        if word.text in ("if", "txn"):
            self.check_room(depth, NESTING_LIMIT, word, "`if` and `txn` inside each other")
        first = {"send": 3, "out": 2}.get(word.text)
        if first is not None and len(self.words) > first + VALUES_LIMIT:
            raise self.refuse(LIMIT, self.words[first + VALUES_LIMIT],
                              "There are at most %d operands." % VALUES_LIMIT)

    # The form of one statement

    def check_form(self) -> None:
        word = self.words[0].text
        if word in ("if", "need"):
            self.check_value(1)
        elif word in ("set", "put"):
            self.check_kinds(1, [NAME])
            self.check_value(2)
        elif word == "txn":
            self.check_kinds(1, [NAME])
            self.check_end(2)
        elif word == "get":
            self.declared(1, "local")
            self.check_kinds(2, [NAME])
            self.check_end(3)
        else:
            self.check_leaving(word)

    def check_leaving(self, word: str) -> None:
        """The form of `send` and `out`."""
        first = 3 if word == "send" else 2
        for index in range(1, first):
            self.check_kinds(index, [NAME])
        for index in range(first, len(self.words)):
            if self.words[index].kind == OPERATOR:
                raise self.refuse(STRUCTURE, self.words[index], "`send` and `out` take single "
                                  "operands: `set` a variable to the value first.")
            self.check_kinds(index, [NAME, NUMBER])
        if word == "send" and self.words[1].text == self.components[-1].name:
            raise self.refuse(STRUCTURE, self.words[1], "A Pcom doesn't send to itself.")

    def check_kinds(self, index: int, kinds: list) -> None:
        if index >= len(self.words) or self.words[index].kind not in kinds:
            raise self.wrong_form(index)

    def check_end(self, index: int) -> None:
        if len(self.words) > index:
            raise self.wrong_form(index)

    def check_value(self, index: int) -> None:
        self.check_words_of_others(index)
        self.check_kinds(index, [NAME, NUMBER])
        if len(self.words) > index + 1:
            self.check_kinds(index + 1, [OPERATOR])
            self.check_kinds(index + 2, [NAME, NUMBER])
        if len(self.words) > index + 3:
            raise self.refuse(STRUCTURE, self.words[index + 3], "A value has two operands at "
                              "most: `set` a variable to the first part, and go on with it.")

    def check_words_of_others(self, index: int) -> None:
        """Words that other languages have between values or before one."""
        for at, word in enumerate(self.words[index:], index):
            between = at in (index + 1, index + 3)
            if word.text in WORDS_OF_OTHERS and (between or word.text == "not"
                                                 and len(self.words) > at + 1 == index + 1):
                raise self.refuse(STRUCTURE, word, "There is no `%s`: %s."
                                  % (word.text, WORDS_OF_OTHERS[word.text]))


class NameReader:
    """The second pass, for unknown names and numbers of operands."""

    def __init__(self, program: Program) -> None:
        self.program = program
        self.use = Statement(0, [], {}, None)

    def unknown(self, word: Word, detail: str) -> TextRefused:
        return TextRefused(self.use.line, UNKNOWN, word.place, word.length, detail)

    def check(self, use: Statement) -> None:
        self.use = use
        kind, rest = use.words[0].text, use.words[1:]
        if kind == "set":
            self.check_variable(rest[0])
            self.check_operands(rest[1:])
        elif kind in ("if", "need"):
            self.check_operands(rest)
        elif kind == "txn":
            self.component(rest[0], TCOM)
        elif kind == "get":
            self.check_key(rest[1])
        elif kind == "put":
            self.check_key(rest[0])
            self.check_operands(rest[1:])
        elif kind == "out":
            self.component(rest[0], XCOM)
            self.check_operands(rest[1:])
        else:
            self.check_send(rest)

    def component(self, word: Word, kind: str) -> Component:
        found = self.program.named(word.text)
        if found is None or found.kind != kind:
            detail = "There is no %s `%s`." % (kind, word.text)
            if found is not None:
                detail = "`%s` is a %s, and a %s is asked for." % (word.text, found.kind, kind)
            names = [c.name for c in self.program.components if c.kind == kind]
            raise self.unknown(word, detail + near(word.text, names))
        return found

    def check_variable(self, word: Word) -> None:
        what = self.use.scope.get(word.text)
        if what == "variable":
            return
        if what is not None:
            raise self.unknown(word, "`%s` is a %s, and `set` changes a variable."
                               % (word.text, what))
        names = [name for name, kind in self.use.scope.items() if kind == "variable"]
        raise self.unknown(word, "The Pcom has no variable `%s`.%s"
                           % (word.text, near(word.text, names)))

    def check_operands(self, words: list) -> None:
        for word in words:
            if word.kind == NAME and word.text not in self.use.scope:
                raise self.unknown(word, "No variable, parameter or local `%s` is seen here.%s"
                                   % (word.text, near(word.text, self.use.scope)))

    def check_key(self, word: Word) -> None:
        tcom = self.program.named(self.use.tcom or "")
        keys = tcom.cells if tcom is not None else []
        if word.text not in keys:
            raise self.unknown(word, "The Tcom `%s` has no key `%s`.%s"
                               % (self.use.tcom, word.text, near(word.text, keys)))

    def check_send(self, words: list) -> None:
        receiver = self.component(words[0], PCOM)
        handler = receiver.handler(words[1].text)
        if handler is None:
            names = [h.name for h in receiver.handlers]
            raise self.unknown(words[1], "`%s` has no handler `%s`.%s"
                               % (receiver.name, words[1].text, near(words[1].text, names)))
        self.check_operands(words[2:])
        check_count(self.use.line, words, 2, receiver, handler)


def check_count(line: int, words: list, first: int, receiver: Component,
                handler: Handler) -> None:
    """Whether as many values stand from the first on as the handler has parameters."""
    given, wanted = len(words) - first, len(handler.params)
    if given == wanted:
        return
    names = " (%s)" % ", ".join(handler.params) if handler.params else ""
    detail = "The handler `%s` of `%s` has %d parameter%s%s; %d value%s given." % (
        handler.name, receiver.name, wanted, "" if wanted == 1 else "s", names, given,
        " is" if given == 1 else "s are")
    if given > wanted:
        surplus = words[first + wanted]
        raise TextRefused(line, ARITY, surplus.place, surplus.length, detail)
    raise TextRefused(line, ARITY, words[-1].place + words[-1].length + 1, 1, detail)


def read_scenario(data: bytes) -> Program:
    """The program of a text, or `TextRefused` with the line and the cause that icrun tells."""
    if len(data) > TEXT_LIMIT:
        raise TextRefused(0, LIMIT, 0, 1, "The text has more than %d bytes." % TEXT_LIMIT)
    reader = StructureReader(data)
    program = Program(reader.read())
    names = NameReader(program)
    for use in reader.uses:
        names.check(use)
    return program


def load_scenario(name: str) -> tuple:
    """The bytes and the program of a scenario's file, which must not be refused."""
    data = read_file(name, TEXT_LIMIT)
    try:
        return data, read_scenario(data)
    except TextRefused as refused:
        raise ToolError("%s: bad scenario at line %d: %s. %s" % (
            name, refused.line, refused.cause, refused.detail)) from None
