"""What keeps a log from being read and written: its folder and its file are tried."""

from __future__ import annotations

import errno
import fcntl
import os
import resource
import stat
import tempfile
from typing import BinaryIO, List, Optional

from .common import LOG_LIMIT, count

PIECE = 1 << 20
TRIED = 1 << 16  # bytes that are written to a file of its own, which is taken away again
ROOM = 9258 + 5 + 4096  # bytes that a file system should have left


def is_held(file: BinaryIO) -> bool:
    """Whether another program holds the lock of a log."""
    try:
        fcntl.flock(file.fileno(), fcntl.LOCK_EX | fcntl.LOCK_NB)
    except OSError:
        return True
    fcntl.flock(file.fileno(), fcntl.LOCK_UN)
    return False


def kind_of(path: str) -> Optional[str]:
    """What a path is that is no plain file, or None."""
    mode = os.lstat(path).st_mode
    for test, words in ((stat.S_ISLNK, "a symbolic link"), (stat.S_ISDIR, "a folder"), (stat.S_ISFIFO, "a pipe"),
                        (stat.S_ISSOCK, "a socket"), (stat.S_ISCHR, "a device"), (stat.S_ISBLK, "a device")):
        if test(mode):
            return words
    return None


def faults_of_file(log: str) -> List[str]:
    if not os.path.lexists(log):
        return []
    kind = kind_of(log)
    if kind is not None:
        return ["%s is %s, and no plain file." % (log, kind)]
    found = []
    for right, words in ((os.R_OK, "read"), (os.W_OK, "write")):
        if not os.access(log, right):
            found.append("This user may not %s %s." % (words, log))
    return found + ([] if found else faults_of_reading(log))


def faults_of_reading(log: str) -> List[str]:
    """The lock is tried, and the file is read to its end."""
    found = []
    try:
        with open(log, "rb") as file:
            if is_held(file):
                found.append("Another call holds the lock of %s: a run, a resume or an audit in this folder. It isn't ended by "
                             "force: wait until it is done." % log)
            left = LOG_LIMIT + 1
            while left > 0:
                piece = file.read(min(PIECE, left))
                if not piece:
                    break
                left -= len(piece)
    except OSError as error:
        found.append("%s can't be read: %s. Copy what can be read, and look at the device." % (log, error.strerror or error))
    return found


def faults_of_folder(folder: str) -> List[str]:
    if not os.path.isdir(folder):
        return ["%s is no folder." % folder]
    found = []
    place = os.statvfs(folder)
    if place.f_flag & os.ST_RDONLY:
        found.append("%s is on a file system that is mounted for reading alone." % folder)
    elif not os.access(folder, os.W_OK | os.X_OK):
        found.append("This user may not make files in %s." % folder)
    else:
        found += faults_of_writing(folder)
    if place.f_bavail * place.f_frsize < ROOM:
        found.append("The file system of %s is full: %s are left." % (folder, count(place.f_bavail * place.f_frsize, "byte")))
    if place.f_files and place.f_favail == 0:
        found.append("The file system of %s has no room for another file." % folder)
    return found


def faults_of_writing(folder: str) -> List[str]:
    """A file of its own is written, synced and taken away again, and the folder is synced."""
    try:
        with tempfile.TemporaryFile(dir=folder) as file:
            file.write(bytes(TRIED))
            file.flush()
            os.fsync(file.fileno())
    except OSError as error:
        return ["A file of %d bytes can't be written in %s: %s." % (TRIED, folder, error.strerror or error)]
    place = os.open(folder, os.O_RDONLY)
    try:
        os.fsync(place)
    except OSError as error:
        known = "its file system can't" if error.errno == errno.EINVAL else error.strerror or str(error)
        return ["The folder %s can't be synced: %s." % (folder, known)]
    finally:
        os.close(place)
    return []


def faults(log: str) -> List[str]:
    """Why a log can't be used now, each in a sentence; nothing where it can."""
    folder = os.path.dirname(log) or "."
    found = faults_of_folder(folder)
    if os.path.isdir(folder):
        found += faults_of_file(log)
    limit = resource.getrlimit(resource.RLIMIT_FSIZE)[0]
    if limit != resource.RLIM_INFINITY and limit < LOG_LIMIT:
        found.append("This shell lets a file grow to %d bytes alone (`ulimit -f`)." % limit)
    return found
