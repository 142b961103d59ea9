"""Takes logs away of which none holds a record: what an opening that was cut off leaves."""

from __future__ import annotations

import os
from typing import Optional

from .common import BAD, DONE, ToolError, count, word_parser
from .folder import is_held, kind_of
from .frame import FORMER, PRESENT
from .program import is_former, log_names

ABOUT = """Takes the logs in a folder away where none of them holds a record, as a `run` leaves them that is
killed, or finds a full disk, while it makes them. Then a `run` can begin again. Where a log may
hold a record nothing is changed: its inputs were taken."""
NOTES = """exit status:
  0  the logs are taken away
  1  a log may hold a record, or there is none; nothing is changed
  2  the words are wrong, or a file can't be used"""


def is_without_a_record(path: str) -> bool:
    """By the length alone: an opening that was cut off leaves any of these bytes."""
    return os.path.getsize(path) <= (FORMER if is_former(path) else PRESENT).fresh


def refusal(path: str) -> Optional[str]:
    """Why a log isn't taken away, or None."""
    kind = kind_of(path)
    if kind is not None:
        return "%s is %s" % (path, kind)
    if not is_without_a_record(path):
        return "%s has %d bytes, and may hold records" % (path, os.path.getsize(path))
    with open(path, "rb") as file:
        if is_held(file):
            return "another call holds %s" % path
    return None


def take_away(folder: str) -> int:
    """How many logs there were."""
    paths = [os.path.join(folder, name) for name in log_names(folder)]
    if not paths:
        raise ToolError("there is no log in %s" % folder, BAD)
    try:
        for path in paths:
            why = refusal(path)
            if why is not None:
                raise ToolError("%s; nothing is changed" % why, BAD)
        for path in paths:
            os.unlink(path)
        place = os.open(folder, os.O_RDONLY)
        try:
            os.fsync(place)
        finally:
            os.close(place)
    except OSError as error:
        raise ToolError("%s: %s" % (error.filename or folder, error.strerror or error)) from None
    return len(paths)


def main(words: Optional[list] = None) -> int:
    parser = word_parser("fresh", ABOUT, NOTES)
    parser.add_argument("folder", metavar="FOLDER", nargs="?", default=".", help="the folder of the logs; this one, where it isn't given")
    given = parser.parse_args(words)
    print("%s without a record taken away" % count(take_away(given.folder), "log"))
    return DONE
