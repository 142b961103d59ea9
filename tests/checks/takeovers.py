"""Runs with a standby that are killed at random moments, before their takeover and behind it: what was told as taken stands in the logs that
they leave, once and in order, the audit of these is legal, and `icrun resume` gets the rest of it through. A takeover is told once, and
nothing is shipped behind it."""

from __future__ import annotations

import random
import re
from pathlib import Path
from typing import Dict, List, Optional

from .base import Check, new_folder, run
from .kills import SCENARIO, TRIES, kill_behind, taken_in, what_is_wrong

COUNT = 40
INPUTS = 400
EVENTS = ["deliver shop store", "deliver store shop", "force store", "ship", "checkpoint store", "crash shop", "recover shop"]
LOG = re.compile(r"icmore\.(\d\d)\.log2")


def checks(programs: Dict[str, str]) -> List[Check]:
    if not {"icmore", "icrun"} <= set(programs):
        return []
    return [Check("killed takeovers", str(seed), lambda it=seed: killed(programs, random.Random(it)), 0.5) for seed in range(1, COUNT + 1)]


def schedule(rng: random.Random, takeover: int) -> str:
    """Inputs among shipments and other events, with a takeover behind so many of them, and crashes of the store behind that."""
    lines: List[str] = []
    for number in range(1, INPUTS + 1):
        lines.append(f"input shop order {number}")
        if number == takeover:
            lines += ["deliver shop store", "force store", "crash store", "takeover"]
        elif rng.random() < 0.4:
            lines.append(rng.choice(EVENTS))
        elif number > takeover and rng.random() < 0.05:
            lines += ["crash store", "recover store"]
        if lines[-1] == "crash shop":
            lines.append("recover shop")
    return "".join(f"{line}\n" for line in lines)


def killed(programs: Dict[str, str], rng: random.Random) -> Optional[str]:
    with new_folder() as folder:
        takeover = rng.randint(1, INPUTS)
        (folder / "s").write_text(SCENARIO)
        (folder / "c").write_text(schedule(rng, takeover))
        (folder / "none").write_text("")
        moment = rng.choice([rng.randint(0, 3 * INPUTS), rng.randint(2 * takeover, 4 * takeover)])
        for _ in range(TRIES):
            for log in folder.glob("icmore.*.log2"):
                log.unlink()
            is_killed, printed = kill_behind([programs["icmore"], "standby", "store", "s", "c"], folder, moment, rng.random() / 1000)
            if is_killed:
                return of_takeover(printed) or of_logs(programs["icrun"], folder, printed)
            moment //= 2
    return f"it ended before it was killed, {TRIES} times"


def of_takeover(printed: str) -> Optional[str]:
    """A takeover is told once, and no shipment is answered behind it but as gone, or since the store is down."""
    words = [line.split()[1:] for line in printed.splitlines() if line[:1].isdigit()]
    told = [it for it in words if it[0] in ("ship:", "takeover:")]
    done = [place for place, it in enumerate(told) if it[:2] == ["takeover:", "done"]]
    if len(done) > 1 or any(it[1] not in ("gone", "down", "replaying") for place, it in enumerate(told) if done and place > done[0]):
        return f"the answers are {told}"
    return None


def of_logs(icrun: str, folder: Path, printed: str) -> Optional[str]:
    """The logs, as those of a run of icrun."""
    for log in sorted(folder.iterdir()):
        match = LOG.fullmatch(log.name)
        if match:
            log.rename(folder / f"icrun.{match.group(1)}.log2")
    return what_is_wrong(icrun, folder, printed)
