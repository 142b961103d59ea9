"""What a run asks of the host: the order of its calls, some calls failing, links, locks, modes and limits; and what a run in threads does.
tests/host/host.py by itself lets each call fail."""

from __future__ import annotations

import atexit
import shutil
import sys
import tempfile
from pathlib import Path
from typing import Dict, List, Optional

from .base import ROOT, Check, Skipped

sys.path.insert(0, str(ROOT / "tests"))

from host.host import Host, build, cases, cases_in_threads  # noqa: E402

EVERY = 7  # calls, of which one is let fail


def library() -> Optional[str]:
    """The library that is loaded before the C library's, built anew; None where there is no C compiler."""
    folder = tempfile.mkdtemp(prefix="icrun-host-")
    atexit.register(shutil.rmtree, folder, True)
    return build(Path(folder))


def no_compiler() -> Optional[str]:
    raise Skipped("no C compiler is here")


def checks(programs: Dict[str, str]) -> List[Check]:
    if "icrun" not in programs:
        return []
    built = library()
    if built is None:
        return [Check("calls of the host", "all", no_compiler)]
    icrun = Host(programs["icrun"], built)
    found = cases(icrun, EVERY)
    if "iclive" in programs:
        found += cases_in_threads(Host(programs["iclive"], built), icrun, EVERY)
    return [Check("calls of the host", name, body, 2) for name, body in found]
