"""What README.md and docs/FORMATS.md print is what the program prints, and the log that the page shows is the one that it leaves."""

from __future__ import annotations

import hashlib
import re
import shutil
from pathlib import Path
from typing import Dict, List, Optional

from .base import FIRST_GATE, PROGRAMS, ROOT, Check, new_folder, run, text_difference

BLOCK = re.compile(r"```\n(.*?)```", re.S)
ENDS = ("settled\n", "halted\n", "legal\n")
BYTES = re.compile(r"^\| ([0-9]+) \| `([0-9a-f ]+)` \|", re.M)
README, FORMATS = ROOT / "README.md", ROOT / "docs" / "FORMATS.md"
TALLY = ROOT / "examples" / "tally"


def checks(programs: Dict[str, str]) -> List[Check]:
    """README.md is looked at where all programs that it calls are named."""
    found = [Check("pages", "README.md", lambda: readme(programs))] if set(PROGRAMS) <= set(programs) else []
    if "icrun" in programs:
        found += [Check("pages", "docs/FORMATS.md, reports", lambda: formats(programs["icrun"])),
                  Check("pages", "docs/FORMATS.md, a log", lambda: log_of_the_page(programs["icrun"]))]
    return found


def readme(programs: Dict[str, str]) -> Optional[str]:
    """Each report in README.md is that of the call before it."""
    with new_folder() as folder:
        shutil.copytree(str(ROOT / "examples"), str(folder / "examples"))
        report, reports = b"", 0
        for block in BLOCK.findall(README.read_text()):
            for line in block.splitlines():
                if line.startswith(tuple(f"./{name} " for name in programs)):
                    call, _, lines = line.partition(" < ")
                    name, *words = call.split()
                    report = run([programs[name[2:]], *words], folder, given=(folder / lines).read_bytes() if lines else b"").out
                elif line.startswith("rm -f "):
                    for logs in line.split()[2:]:
                        remove_logs(folder, logs)
            if block.endswith(ENDS):
                reports += 1
                why = text_difference(f"report {reports}", block.encode(), report)
                if why:
                    return why
    return None if reports == 9 else f"nine reports are wanted, the page has {reports}"


def remove_logs(folder: Path, logs: str) -> None:
    for log in folder.glob(logs):
        log.unlink()


def formats(program: str) -> Optional[str]:
    """The page shows the report of the tally, and that of a run without a component."""
    reports = [block for block in BLOCK.findall(FORMATS.read_text()) if block.endswith(ENDS) and "inputs taken A" not in block]
    if len(reports) != 2:
        return f"two reports are wanted, the page has {len(reports)}"
    with new_folder() as folder:
        (folder / "nothing").write_text("")
        calls = [[str(TALLY / "scenario"), str(TALLY / "schedule")], ["nothing", "nothing"]]
        found = [text_difference(" ".join(words), report.encode(), run([program, "run", *words], folder).out)
                 for words, report in zip(calls, reports)]
    return next((why for why in found if why), None)


def log_of_the_page(program: str) -> Optional[str]:
    """The bytes of the table stand in the log of the tally at these offsets, up to its end, behind the fingerprint of the scenario."""
    page = FORMATS.read_text()
    text = page[page.index("leave a log of 9,306 bytes"):]
    fingerprint = hashlib.sha256((TALLY / "scenario").read_bytes()).hexdigest()
    with new_folder() as folder:
        run([program, "run", str(TALLY / "scenario"), str(TALLY / "schedule")], folder)
        log = (folder / "icrun.00.log2").read_bytes()
    if f"`{fingerprint}`" not in text or fingerprint not in log.hex():
        return f"the fingerprint of the scenario is {fingerprint}"
    at = FIRST_GATE
    for offset, data in BYTES.findall(text[: text.index("###")]):
        wanted = bytes.fromhex(data.replace(" ", ""))
        if int(offset) != at or log[at: at + len(wanted)] != wanted:
            return f"at {offset} the page has {wanted.hex()}, the log {log[at: at + len(wanted)].hex()}"
        at += len(wanted)
    return None if at == len(log) == 9306 else f"the page ends at {at}, the log at {len(log)}"
