"""Calls of icrun: where the program is, and what a call of it printed."""

from __future__ import annotations

import argparse
import os
import re
import subprocess
from dataclasses import dataclass
from typing import Dict, List, Optional

from .common import LOG_NAME, ToolError

TOOLS = os.path.dirname(os.path.dirname(os.path.realpath(__file__)))
PLACES = ("../icrun", "../../../bin/icrun")  # from the folder of the tools: in the repository, installed
SECONDS = 600  # that a call may take
EVENT = re.compile(r"([0-9]+) ([a-z][^:]*): (.*)\Z")


@dataclass
class Call:
    """How a call of icrun ended: its status, and the lines that it printed."""

    status: int
    lines: List[str]

    @property
    def last(self) -> str:
        return self.lines[-1] if self.lines else "no line, status %d" % self.status


def add_word(words: argparse.ArgumentParser) -> None:
    words.add_argument("--icrun", metavar="PROGRAM", help="the program; without it that of the environment's ICRUN, or the one "
                       "to which these tools belong")


def find_program(given: Optional[str]) -> str:
    """The program of the word, of the environment, or beside the tools."""
    named = given or os.environ.get("ICRUN")
    places = [named] if named else [os.path.normpath(os.path.join(TOOLS, place)) for place in PLACES]
    for place in places:
        if os.path.isfile(place) and os.access(place, os.X_OK):
            return os.path.realpath(place) if named else place
    raise ToolError("icrun isn't here: %s" % ", ".join(places))


def call(program: str, folder: str, *words: str) -> Call:
    """A call in a folder, which has the logs."""
    try:
        done = subprocess.run([program, *words], cwd=folder, stdout=subprocess.PIPE, stderr=subprocess.STDOUT,
                              stdin=subprocess.DEVNULL, timeout=SECONDS)
    except OSError as error:
        raise ToolError("%s: %s" % (program, error.strerror or error)) from None
    except subprocess.TimeoutExpired:
        raise ToolError("%s %s: no end within %d seconds" % (program, words[0], SECONDS)) from None
    return Call(done.returncode, done.stdout.decode("ascii", "replace").splitlines())


def memory_folder() -> Optional[str]:
    """Where temporary logs stand: in memory, where the machine has such a place."""
    return "/dev/shm" if os.access("/dev/shm", os.W_OK) else None


def all_log_names(folder: str) -> List[str]:
    """The logs in a folder, by their numbers, those of the former format too."""
    try:
        return sorted(name for name in os.listdir(folder) if LOG_NAME.match(name))
    except OSError as error:
        raise ToolError("%s: %s" % (folder, error.strerror or error)) from None


def is_former(name: str) -> bool:
    """Whether the name is that of a log of the former format."""
    return name.endswith(".log")


def log_names(folder: str) -> List[str]:
    """The logs of the run in a folder, by their numbers; those of the former format, where there is no other one."""
    names = all_log_names(folder)
    return [name for name in names if not is_former(name)] or names


def log_path(folder: str, tool: str, number: int) -> str:
    """The log of a component: of the former format, where that alone is there."""
    path = os.path.join(folder, "%s.%02d.log" % (tool, number))
    return path if os.path.lexists(path) and not os.path.lexists(path + "2") else path + "2"


def values_of(lines: List[str]) -> Dict[str, Dict[str, int]]:
    """The values of each component in a summary or an audit; those that aren't up have none."""
    values: Dict[str, Dict[str, int]] = {}
    for line in lines:
        words = line.split()
        if words[:1] in (["pcom"], ["tcom"]):
            pairs = [word.split("=") for word in words[2:] if "=" in word]
            values[words[1]] = {name: int(value) for name, value in pairs}
    return values
