"""A line of a text with a caret below the place that is meant."""

from __future__ import annotations

from .texts import TextRefused, split_lines

SHOWN = 100  # letters of a line that are shown


def letter(byte: int) -> str:
    if 32 <= byte < 127:
        return chr(byte)
    return " " if byte in (9, 13) else "\\x%02x" % byte


def pointed(name: str, number: int, line: bytes, place: int, length: int) -> list:
    """A line of a file, and below it a caret at the place."""
    first = max(0, place - SHOWN // 2)
    window = line[first:first + SHOWN]
    shown = ["".join(map(letter, part)) for part in (
        window[:place - first], window[place - first:place - first + length],
        window[place - first + length:])]
    head = "%s:%d: %s" % (name, number, ".. " if first else "")
    more = " .." if len(line) > first + SHOWN else ""
    # The caret of a word that is missing stands behind the line.
    blanks = " " * (len(head) + len(shown[0]) + max(0, place - len(line)))
    return [head + "".join(shown) + more,
            blanks + "^" + "~" * (max(1, len(shown[1])) - 1)]


def refused_lines(name: str, data: bytes, refused: TextRefused) -> list:
    lines = split_lines(data)
    shown = lines[refused.line - 1] if 0 < refused.line <= len(lines) else b""
    if refused.line == 0:
        return [refused.detail]
    return pointed(name, refused.line, shown, refused.place, refused.length) + [refused.detail]
