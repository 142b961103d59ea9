"""Words, files and refusals of the tools."""

from __future__ import annotations

import argparse
import os
import re
import sys
from typing import Callable

DONE = 0  # exit statuses
BAD = 1
UNUSABLE = 2

TEXT_LIMIT = 1048576  # bytes of a scenario, a schedule or a policy
LOG_LIMIT = 134217728  # bytes of a log
FORMER_LIMIT = 67108864  # bytes of a log of the former format
NUMBER_LIMIT = 9223372036854775807  # of stamps, epochs, counters, k, m and n
COMPONENT_LIMIT = 32
VALUES_LIMIT = 8  # values of a message, an input or an output

VERSION_FILE = os.path.join(os.path.dirname(os.path.abspath(__file__)), "..", "..", "VERSION")
LOG_NAME = re.compile(r"icrun\.([0-9]{2})\.log(2?)\Z")  # without the 2 the log is of the former format
ANY_LOG_NAME = re.compile(r"(?:icrun|iclive)\.([0-9]{2})\.log2?\Z")  # a log of iclive, too

STATUSES = """exit status:
  0  done, and nothing is wrong with what was looked at
  1  what was looked at is bad
  2  the words are wrong, or a file can't be used"""


class ToolError(Exception):
    """A file can't be used, or is bad; the text says which, where and why."""

    def __init__(self, text: str, status: int = UNUSABLE) -> None:
        super().__init__(text)
        self.status = status


def version() -> str:
    try:
        with open(VERSION_FILE, encoding="ascii") as file:
            return file.read().strip()
    except (OSError, UnicodeDecodeError):
        return "unknown"


def word_parser(tool: str, about: str, notes: str = STATUSES) -> argparse.ArgumentParser:
    parser = argparse.ArgumentParser(prog=tool, description=about, epilog=notes,
                                     formatter_class=argparse.RawDescriptionHelpFormatter)
    parser.add_argument("--version", action="version", version="%s %s" % (tool, version()))
    return parser


def read_file(name: str, limit: int) -> bytes:
    """The bytes of a file, which is opened for reading alone; one byte past the limit at most."""
    try:
        with open(name, "rb") as file:
            return file.read(limit + 1)
    except OSError as error:
        raise ToolError("%s: %s" % (name, error.strerror or error)) from None


def read_standard_input() -> bytes:
    try:
        return sys.stdin.buffer.read()
    except OSError as error:
        raise ToolError("standard input: %s" % (error.strerror or error)) from None


def count(number: int, one: str, more: str = "") -> str:
    """`1 byte`, `2 bytes`."""
    return "%d %s" % (number, one if number == 1 else more or one + "s")


def run_tool(tool: str, body: Callable[[], int]) -> int:
    """The exit status of a tool. No refusal ends in a traceback."""
    for stream in (sys.stdout, sys.stderr):
        if hasattr(stream, "reconfigure"):
            stream.reconfigure(errors="backslashreplace")
    try:
        status = body()
        sys.stdout.flush()
        return status
    except ToolError as error:
        print("%s: %s" % (tool, error), file=sys.stderr)
        return error.status
    except BrokenPipeError:  # the reader of the output has seen enough
        os.dup2(os.open(os.devnull, os.O_WRONLY), sys.stdout.fileno())
        return DONE
    except OSError as error:
        print("%s: standard output: %s" % (tool, error.strerror or error), file=sys.stderr)
        return UNUSABLE
