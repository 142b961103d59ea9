"""The shop of the examples: three customers order and pay while the shop and its icserve are killed; each order that was confirmed stands
once, and each payment. Where a Chromium is there, they do so on the page too."""

from __future__ import annotations

import shutil
import sys
from pathlib import Path
from typing import Dict, List, Optional

from .base import EXAMPLES, Check, Skipped, new_folder, run, text_difference

KILLS = 5
BROWSERS = ("chromium", "chromium-browser", "google-chrome")


def checks(programs: Dict[str, str]) -> List[Check]:
    if not {"icserve", "icrun"} <= set(programs):
        return []
    return [Check("shop", f"{KILLS} kills", lambda: bought(programs, []), 5), Check("shop", f"{KILLS} kills, on the page", lambda: on_the_page(programs), 8)]


def on_the_page(programs: Dict[str, str]) -> Optional[str]:
    found = next(filter(None, map(shutil.which, BROWSERS)), None)
    if found is None:
        raise Skipped("no Chromium is there")
    return bought(programs, ["--browser", found])


def bought(programs: Dict[str, str], more: List[str]) -> Optional[str]:
    with new_folder() as place:
        words = [sys.executable, "-B", str(EXAMPLES / "shop" / "kills.py"), programs["icserve"], programs["icrun"], "--kills", str(KILLS), *more]
        done = run(words, Path(place))
        if done.status != 0 or not done.out.endswith(b"none lost, none twice\n"):
            return f"status {done.status}: {(done.out + done.err).decode(errors='replace')}"
        return text_difference("it writes to standard error", b"", done.err)
