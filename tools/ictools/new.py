"""A scenario to begin with: a template with its schedule, its policy and what must hold of its values."""

from __future__ import annotations

import os
from typing import Optional

from .common import BAD, DONE, ToolError, word_parser
from .program import TOOLS

TEMPLATES = os.path.join(TOOLS, "templates")
FILES = ("scenario", "schedule", "policy", "checks")
ABOUT = """Writes a folder with a scenario to begin with, its schedule, its policy, and the expressions that chaos tests:
  booking    a desk asks an office for seats, and gets an answer
  approval   a claim is filed, approved and paid; an aborted payment is tried again
  transfer   money goes from one account to another, with a reference number"""
NOTES = """exit status:
  0  the folder is written
  1  it is there already; nothing is changed
  2  the words are wrong, or a file can't be used"""
NEXT = """%s is written: a scenario, a schedule of it, a policy, and the checks of chaos.
`icrun run scenario schedule` in it does the run, and chaos with `--checks checks` many others."""


def write(name: str, folder: str) -> None:
    try:
        os.mkdir(folder)
        for file in FILES:
            with open(os.path.join(TEMPLATES, name, file), "rb") as source, open(os.path.join(folder, file), "xb") as copy:
                copy.write(source.read())
    except FileExistsError:
        raise ToolError("%s is there already; nothing is changed" % folder, BAD) from None
    except OSError as error:
        raise ToolError("%s: %s" % (error.filename, error.strerror or error)) from None


def main(words: Optional[list] = None) -> int:
    parser = word_parser("new", ABOUT, NOTES)
    parser.add_argument("name", metavar="NAME", choices=("booking", "approval", "transfer"), help="booking, approval or transfer")
    parser.add_argument("folder", metavar="FOLDER", nargs="?", help="the folder that is made; the template's name, where it isn't given")
    given = parser.parse_args(words)
    folder = given.folder or given.name
    write(given.name, folder)
    print(NEXT % folder)
    return DONE
