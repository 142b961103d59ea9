"""The words of ./check, and its checks side by side."""

from __future__ import annotations

import argparse
import os
import sys
import traceback
from collections import Counter
from concurrent.futures import ThreadPoolExecutor
from pathlib import Path
from typing import Dict, List, Union

from . import damaged, files, host, kills, live, migrations, pages, runs, shop, start, takeovers, tools
from .base import PROGRAMS, Check, Problem, Skipped, built_program

ABOUT = """Tests the programs in release/, or those that are named: worked runs and examples, what the pages print, killed runs,
takeovers, migrations and runs in threads, a shop that is killed, closed streams and locks, damaged logs, failing calls of the host, and the tools. It
takes about a minute on four processors, and leaves nothing behind. The last line is `N passed, N failed`; the status is 0 where none
failed, else 1."""


def all_checks(programs: Dict[str, str]) -> List[Check]:
    """Those of the programs that are named. Most are of icrun."""
    found = [check for part in (runs, pages, shop, takeovers, live, files, host, tools) for check in part.checks(programs)]
    if "icrun" in programs:
        found += [check for part in (kills, damaged, start) for check in part.checks(programs["icrun"])]
        found += migrations.checks(programs)
    return found


def result(check: Check) -> Union[str, Skipped, None]:
    """What is wrong, or why it wasn't done, or None. A check that ends by another exception fails."""
    try:
        return check.body()
    except Skipped as why:
        return why
    except Exception:  # noqa: BLE001
        return traceback.format_exc()


def run_checks(checks: List[Check], jobs: int) -> int:
    """How many fail; each group is told once all its checks are done."""
    left = Counter(check.group for check in checks)
    passed: Dict[str, int] = dict.fromkeys(left, 0)
    failed: Dict[str, int] = dict.fromkeys(left, 0)
    with ThreadPoolExecutor(jobs) as pool:
        begun = {id(check): pool.submit(result, check) for check in sorted(checks, key=lambda it: -it.cost)}
        for check in checks:
            why, group = begun[id(check)].result(), check.group
            if isinstance(why, Skipped):
                print(f"skipped {group}, {check.name}: {why}", flush=True)
            elif why is not None:
                failed[group] += 1
                print(f"FAILED {group}, {check.name}: {why.rstrip()}", flush=True)
            else:
                passed[group] += 1
            left[group] -= 1
            if not left[group]:
                print(f"{group}: {passed[group]} passed, {failed[group]} failed", flush=True)
    print(f"{sum(passed.values())} passed, {sum(failed.values())} failed")
    return sum(failed.values())


def named(words: List[str]) -> Dict[str, str]:
    """The programs that are named; one that has none of the names is taken for icrun."""
    found: Dict[str, str] = {}
    for word in words:
        program = Path(word).resolve()
        if not program.is_file() or not os.access(str(program), os.X_OK):
            raise Problem(f"{word} can't be executed")
        found[program.name if program.name in PROGRAMS else "icrun"] = str(program)
    return found


def main() -> int:
    groups = ", ".join(dict.fromkeys(check.group for check in all_checks(dict.fromkeys(PROGRAMS, ""))))
    parser = argparse.ArgumentParser(prog="check", description=ABOUT, epilog=f"groups: {groups}",
                                     formatter_class=argparse.RawDescriptionHelpFormatter)
    parser.add_argument("program", nargs="*", help="all in release/ where none is named, or what tools/build built where these can't be executed")
    parser.add_argument("--only", action="append", metavar="GROUP", help="the checks of this group alone; it may be given again")
    parser.add_argument("--jobs", type=int, default=len(os.sched_getaffinity(0)), help="how many checks run side by side")
    words = parser.parse_args()
    try:
        programs = named(words.program) if words.program else {name: str(built_program(name)) for name in PROGRAMS}
    except Problem as problem:
        print(f"check: {problem}", file=sys.stderr)
        return 1
    checks = [check for check in all_checks(programs) if words.only is None or check.group in words.only]
    if not checks:
        print(f"check: no such group; there are {groups}", file=sys.stderr)
        return 2
    return 1 if run_checks(checks, max(1, words.jobs)) else 0
