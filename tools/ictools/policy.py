"""Where a policy shows its fault: a guess, since TOML isn't read whole here."""

from __future__ import annotations

import re
from dataclasses import dataclass
from difflib import get_close_matches
from typing import Optional

KINDS = {"checkpoint_every": (0, 100000), "force_every": (0, 100000), "workers": (1, 8),
         "lane": (1, 1024), "turns": (0, 1000000)}
LEVELS = ("full", "brief", "summary")

KEY = r"""[A-Za-z0-9_-]+|"[^"]*"|'[^']*'"""
HEADER = re.compile(r"\s*\[\[?\s*(%s)" % KEY)
PAIR = re.compile(r"\s*(%s)((?:\s*\.\s*(?:%s))*)\s*=\s*(.*?)\s*\Z" % (KEY, KEY))
STRING = re.compile(r""""([^"\\]*)"\s*(?:#.*)?\Z|'([^']*)'\s*(?:#.*)?\Z""")
INTEGER = re.compile(r"([+-]?[0-9][0-9_]*|0x[0-9a-fA-F_]+|0o[0-7_]+|0b[01_]+)\s*(?:#.*)?\Z")
OTHER = re.compile(r"""(true|false|["'\[{]|[+-]?(inf|nan|[0-9]))""")
EMPTY = re.compile(r"\s*(#.*)?\Z")


@dataclass(frozen=True)
class Fault:
    line: int
    place: int
    length: int
    cause: str
    detail: str


@dataclass(frozen=True)
class Pair:
    key: str
    line: int
    place: int  # of the key, then of the value
    value_place: int
    value: Optional[str]  # None where the key has more than a plain value


def bare(key: str) -> str:
    return key[1:-1] if key[:1] in "\"'" else key


def read_line(number: int, line: str) -> Optional[Pair]:
    """The key that a line gives a value, or the table that it begins."""
    header, pair = HEADER.match(line), PAIR.match(line)
    if header:
        return Pair(bare(header.group(1)), number, header.start(1), header.start(1), None)
    if pair is None:
        return None
    value = None if pair.group(2) else pair.group(3)
    return Pair(bare(pair.group(1)), number, pair.start(1), pair.start(3), value)


def pairs_of(lines: list) -> list:
    """The keys at the top: those of a table stand below its header."""
    pairs: list = []
    for number, line in enumerate(lines, 1):
        pair = read_line(number, line)
        if pair is None:
            continue
        pairs.append(pair)
        if HEADER.match(line):
            headers = [read_line(n, text) for n, text in enumerate(lines[number:], number + 1)
                       if HEADER.match(text)]
            return pairs + [found for found in headers if found]
    return pairs


def integer_value(text: str) -> int:
    """The value; -1, which is in no range, where it has very many digits."""
    digits = text.replace("_", "")
    if len(digits) > 70:
        return -1
    return int(digits, 0) if digits[:2] in ("0x", "0o", "0b") else int(digits)


def near(key: str) -> str:
    """A hint at a similar key, or nothing."""
    found = get_close_matches(key.lower(), [*KINDS, "report"], 1)
    return " Is `%s` meant?" % found[0] if found else ""


def fault_of(pair: Pair) -> Optional[Fault]:
    """The cause for which a key is refused."""
    if pair.key != "report" and pair.key not in KINDS:
        return Fault(pair.line, pair.place, len(pair.key), "unknown key",
                     "`%s` is no key of a policy.%s" % (pair.key, near(pair.key)))
    string = STRING.match(pair.value or "")
    integer = INTEGER.match(pair.value or "")
    length = max(1, len((pair.value or "").split("#")[0].rstrip()))
    if (string if pair.key == "report" else integer) is None:
        asked = "a string in quotes" if pair.key == "report" else "an integer without quotes"
        return Fault(pair.line, pair.value_place, length, "wrong kind",
                     "The value of `%s` is %s." % (pair.key, asked))
    if pair.key == "report":
        fits = (string.group(1) or string.group(2)) in LEVELS
        asked = "is one of: " + ", ".join(LEVELS)
    else:
        least, greatest = KINDS[pair.key]
        fits = least <= integer_value(integer.group(1)) <= greatest
        asked = "goes from %d to %d" % (least, greatest)
    if fits:
        return None
    return Fault(pair.line, pair.value_place, length, "out of range",
                 "The value of `%s` %s." % (pair.key, asked))


def no_toml(lines: list) -> Optional[Fault]:
    """The first line that is no key with a value, no header, no comment and not empty."""
    seen: set = set()
    for number, line in enumerate(lines, 1):
        pair = read_line(number, line)
        if pair is None:
            if not EMPTY.match(line):
                return Fault(number, 0, max(1, len(line)), "not TOML",
                             "A line is `key = value`.")
            continue
        if pair.value is not None and not OTHER.match(pair.value):
            return Fault(number, pair.value_place, max(1, len(pair.value)), "not TOML",
                         "This is no value. A string stands in quotes.")
        if pair.value is not None and pair.key in seen:
            return Fault(number, pair.place, len(pair.key), "not TOML",
                         "The key `%s` stands twice." % pair.key)
        seen.add(pair.key)
    return None


def find_fault(data: bytes, cause: str) -> Optional[Fault]:
    """The place of a fault with this cause, where it can be found."""
    try:
        data.decode("utf-8")
    except UnicodeDecodeError as bad:
        line = data[:bad.start].count(b"\n") + 1
        begin = data.rfind(b"\n", 0, bad.start) + 1
        return Fault(line, bad.start - begin, 1, "not TOML", "These bytes aren't UTF-8.")
    lines = data.decode("latin-1").split("\n")  # so a place counts bytes
    if cause == "not TOML":
        return no_toml(lines)
    faults = [fault_of(pair) for pair in sorted(pairs_of(lines), key=lambda pair: pair.key)]
    return next((fault for fault in faults if fault and fault.cause == cause), None)
