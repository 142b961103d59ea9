"""Copies of all logs of one moment with a manifest, their return, and a manifest beside the live logs."""

from __future__ import annotations

import fcntl
import hashlib
import os
import re
import shutil
import stat
from contextlib import ExitStack
from typing import BinaryIO, Dict, List, Optional

from .carry import sync_folder, write_new
from .common import BAD, DONE, ToolError, count, word_parser
from .folder import is_held, kind_of
from .program import all_log_names

MANIFEST = "MANIFEST"  # in a backup
SEAL = "icrun.seal"  # beside the live logs
LINE = re.compile(r"([0-9a-f]{64})  ([0-9]+)  (icrun\.[0-9]{2}\.log2?)\Z")
PIECE = 1 << 20
NOTES = """exit status:
  0  done
  1  something isn't as it should be; nothing is changed
  2  the words are wrong, or a file can't be used"""
BACKUP = """Copies all logs in FOLDER, of one moment, to a folder that isn't there yet, with a manifest of their lengths and
SHA-256 sums. While a call holds one of them nothing is copied."""
RESTORE = """Checks a backup against its manifest, and puts its logs into FOLDER, in which there must be no log."""
SEAL_ABOUT = """Writes a manifest of the lengths and SHA-256 sums of the logs in FOLDER beside them, in icrun.seal, or, where it is
there, checks them against it: a byte that was changed since shows, and a log of another moment too. A run changes
its logs: seal them anew after it with `--again`."""


def refuse(text: str) -> ToolError:
    return ToolError(text, BAD)


class Logs:
    """The logs of a folder, held so that no call changes them meanwhile."""

    def __init__(self, folder: str, opened: ExitStack) -> None:
        self.folder = folder
        self.files: Dict[str, BinaryIO] = {}
        for name in all_log_names(folder):
            path = os.path.join(folder, name)
            kind = kind_of(path)
            if kind is not None:
                raise refuse("%s is %s" % (path, kind))
            file = opened.enter_context(open(path, "rb"))
            if is_held(file):
                raise refuse("another call holds %s" % path)
            fcntl.flock(file.fileno(), fcntl.LOCK_EX | fcntl.LOCK_NB)
            self.files[name] = file
        if not self.files:
            raise refuse("there is no log in %s" % folder)

    def manifest(self) -> List[str]:
        """A line for each log: the sum, the length and the name."""
        return ["%s  %d  %s" % (sum_of(file), os.fstat(file.fileno()).st_size, name) for name, file in self.files.items()]


def sum_of(file: BinaryIO) -> str:
    total = hashlib.sha256()
    file.seek(0)
    for piece in iter(lambda: file.read(PIECE), b""):
        total.update(piece)
    return total.hexdigest()


def text_of(lines: List[str]) -> bytes:
    return "".join(line + "\n" for line in lines).encode("ascii")


def read_manifest(name: str) -> List[str]:
    try:
        with open(name, encoding="ascii") as file:
            lines = file.read().splitlines()
    except UnicodeDecodeError:
        lines = []
    if not lines or not all(LINE.match(line) for line in lines):
        raise refuse("%s is no manifest" % name)
    return lines


def difference(kept: List[str], now: List[str]) -> Optional[str]:
    """What differs first, or None."""
    there = {line.split()[2]: line for line in now}
    for line in kept:
        name = line.split()[2]
        if name not in there:
            return "%s is gone" % name
        if there.pop(name) != line:
            return "%s isn't as it was: %s bytes then, %s now, and another sum" % (name, line.split()[1], now_size(now, name))
    return "%s wasn't there" % next(iter(there)) if there else None


def now_size(now: List[str], name: str) -> str:
    return next(line.split()[1] for line in now if line.endswith(name))


def copy_logs(logs: Logs, target: str) -> None:
    """Each copy has the mode of its log, and is for this user alone until then."""
    for name, file in logs.files.items():
        file.seek(0)
        with open(os.path.join(target, name), "xb", opener=lambda path, flags: os.open(path, flags, 0o600)) as copy:
            shutil.copyfileobj(file, copy, PIECE)
            os.fchmod(copy.fileno(), stat.S_IMODE(os.fstat(file.fileno()).st_mode))
            copy.flush()
            os.fsync(copy.fileno())


def backup(folder: str, target: str) -> int:
    """How many logs are copied. The manifest is written last: a folder without one is no backup."""
    if os.path.lexists(target):
        raise refuse("%s is there already" % target)
    with ExitStack() as opened:
        logs = Logs(folder, opened)
        os.mkdir(target)
        copy_logs(logs, target)
        write_new(os.path.join(target, MANIFEST), text_of(logs.manifest()))
        sync_folder(target)
        return len(logs.files)


def restore(source: str, folder: str) -> int:
    """How many logs are put back. A copy is checked too before it gets its name."""
    if all_log_names(folder):
        raise refuse("there are logs in %s already" % folder)
    kept = read_manifest(os.path.join(source, MANIFEST))
    with ExitStack() as opened:
        logs = Logs(source, opened)
        why = difference(kept, logs.manifest())
        if why is not None:
            raise refuse("%s: %s" % (source, why))
        place = os.path.join(folder, ".icrun-restore-%d" % os.getpid())
        os.mkdir(place)
        try:
            copy_logs(logs, place)
            for name in logs.files:
                os.link(os.path.join(place, name), os.path.join(folder, name))
        finally:
            shutil.rmtree(place)
        sync_folder(folder)
        return len(logs.files)


def seal(folder: str, is_again: bool) -> str:
    path = os.path.join(folder, SEAL)
    with ExitStack() as opened:
        lines = Logs(folder, opened).manifest()
        if os.path.lexists(path) and not is_again:
            why = difference(read_manifest(path), lines)
            if why is not None:
                raise refuse("%s: %s" % (path, why))
            return "%s: %s as they were sealed" % (path, count(len(lines), "log"))
        new = path + ".new"
        if os.path.lexists(new):
            os.unlink(new)
        write_new(new, text_of(lines))
        os.replace(new, path)
        sync_folder(folder)
        return "%s: %s sealed" % (path, count(len(lines), "log"))


def run(body) -> int:
    try:
        print(body())
    except OSError as error:
        raise ToolError("%s: %s" % (error.filename, error.strerror or error)) from None
    return DONE


def main_backup(words: Optional[list] = None) -> int:
    parser = word_parser("backup", BACKUP, NOTES)
    parser.add_argument("folder", metavar="FOLDER", help="the folder of the logs")
    parser.add_argument("target", metavar="BACKUP", help="the folder that is made")
    given = parser.parse_args(words)
    return run(lambda: "%s: %s" % (given.target, count(backup(given.folder, given.target), "log")))


def main_restore(words: Optional[list] = None) -> int:
    parser = word_parser("restore", RESTORE, NOTES)
    parser.add_argument("backup", metavar="BACKUP", help="a folder that backup made")
    parser.add_argument("folder", metavar="FOLDER", help="the folder into which the logs are put")
    given = parser.parse_args(words)
    return run(lambda: "%s: %s put back" % (given.folder, count(restore(given.backup, given.folder), "log")))


def main_seal(words: Optional[list] = None) -> int:
    parser = word_parser("seal", SEAL_ABOUT, NOTES)
    parser.add_argument("folder", metavar="FOLDER", nargs="?", default=".", help="the folder of the logs; this one, where it isn't given")
    parser.add_argument("--again", action="store_true", help="write the manifest anew")
    given = parser.parse_args(words)
    return run(lambda: seal(given.folder, given.again))
