"""Lines and words of scenarios and schedules, as docs/FORMATS.md has them."""

from __future__ import annotations

import re
from dataclasses import dataclass

LIMIT = "limit"  # causes, as they are printed
NOT_TEXT = "not text"
BAD_WORD = "bad word"
STRUCTURE = "bad structure"
TWICE = "name twice"
UNKNOWN = "unknown name"
ARITY = "wrong number of arguments"

NUMBER = "number"  # kinds of words
NAME = "name"
FIXED = "fixed word"
OPERATOR = "operator"
BAD = "bad word"  # of a line that is refused

FIXED_WORDS = frozenset(
    "xcom tcom pcom immediate var key on set send out if else txn get put need end".split())
KEPT_NAMES = frozenset(["stop", "old"])
OPERATORS = frozenset("+ - * < <= = != >= >".split())
NAME_LIMIT = 32
LEAST, GREATEST = -(2 ** 63), 2 ** 63 - 1

NUMBER_FORM = re.compile(rb"-?[0-9]+\Z")
NAME_FORM = re.compile(rb"[a-z][a-z0-9_]*\Z")
FRACTION = re.compile(r"-?[0-9]+[.,][0-9]+\Z")
HYPHENS = re.compile(r"[a-z][a-z0-9_]*(-[a-z0-9_]+)+\Z")
PIECE = re.compile(rb"[^ \t\r]+")
FOREIGN_BYTE = re.compile(rb"[^\x20-\x7e\t\r]")


@dataclass(frozen=True)
class Word:
    kind: str
    text: str
    value: int  # of a number, else 0
    place: int  # in the line, from 0

    @property
    def length(self) -> int:
        return len(self.text)


class TextRefused(Exception):
    """A text is refused: the line from 1 (or 0), the cause, and where in the line it shows."""

    def __init__(self, line: int, cause: str, place: int, length: int, detail: str) -> None:
        super().__init__("line %d: %s" % (line, cause))
        self.line = line
        self.cause = cause
        self.place = place
        self.length = length
        self.detail = detail


def split_lines(data: bytes) -> list:
    """The lines of a text. A last line without its 0A counts where it isn't empty."""
    lines = data.split(b"\n")
    if not lines[-1]:
        lines.pop()
    return lines


def words_of(line: bytes, number: int) -> list:
    """The words of a line, whose bytes are tested first, those of its comment too."""
    foreign = FOREIGN_BYTE.search(line)
    if foreign:
        raise TextRefused(number, NOT_TEXT, foreign.start(), 1,
                          "The byte %02x may not stand in a text." % line[foreign.start()])
    text = line.split(b"#", 1)[0]
    return [word_of(piece.group(), piece.start(), number) for piece in PIECE.finditer(text)]


def word_of(piece: bytes, place: int, line: int) -> Word:
    text = piece.decode("ascii")
    if NUMBER_FORM.match(piece):
        # The digits decide: a piece of a million digits isn't turned into a number.
        digits = text.lstrip("-").lstrip("0") or "0"
        if len(digits) <= 19 and LEAST <= int(text[:1].strip("0123456789") + digits) <= GREATEST:
            return Word(NUMBER, text, int(text[:1].strip("0123456789") + digits), place)
        detail = "A number goes from %d to %d." % (LEAST, GREATEST)
    elif text in OPERATORS:
        return Word(OPERATOR, text, 0, place)
    elif text in FIXED_WORDS:
        return Word(FIXED, text, 0, place)
    elif NAME_FORM.match(piece):
        if len(text) <= NAME_LIMIT:
            return Word(NAME, text, 0, place)
        detail = "A name has at most %d characters; this one has %d." % (NAME_LIMIT, len(text))
    else:
        detail = bad_word_detail(text)
    raise TextRefused(line, BAD_WORD, place, len(piece), detail)


def bad_word_detail(text: str) -> str:
    low = text.lower()
    if text == "==":
        return "The operator for equality is `=`."
    if FRACTION.match(text):
        return "Numbers are whole: count the smaller unit, as cents: `%s`." % whole(text)
    if text[:1] in "\"'":
        return "There are no texts: let a number stand for each meaning."
    if HYPHENS.match(low):
        return ("A name has lower-case letters, digits and `_`, as `%s`. An operator stands between "
                "blanks, as in `a - b`." % low.replace("-", "_"))
    if text != low and NAME_FORM.match(low.encode("ascii")):
        return "A name has lower-case letters, digits and `_` alone: `%s`." % low
    if any(sign in text[1:] for sign in "+-*<>=!"):
        return "Blanks stand around an operator, as in `a + b`."
    return "This is no name, no number and no operator."


def whole(fraction: str) -> str:
    """A number with two digits behind its point, counted in hundredths."""
    before, _, behind = fraction.replace(",", ".").partition(".")
    return before + (behind + "00")[:2]


def indentation(line: bytes) -> int:
    """How far the first word of a line stands from its beginning; a tab goes on to a multiple of 8."""
    return len(line) and len(line.expandtabs()) - len(line.expandtabs().lstrip())


def rough_words(line: bytes) -> list:
    """The words of a line of which some may be none: these have the kind BAD."""
    text = FOREIGN_BYTE.sub(b"?", line).split(b"#", 1)[0]
    found = []
    for piece in PIECE.finditer(text):
        try:
            found.append(word_of(piece.group(), piece.start(), 0))
        except TextRefused:
            found.append(Word(BAD, piece.group().decode("ascii"), 0, piece.start()))
    return found
