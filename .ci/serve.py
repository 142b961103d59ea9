"""Compares runs that are served line by line, of a built icserve, with the reference model: statuses, printed bytes and log files.

- the worked runs;
- random scenarios, policies and lives over the same logs, fed line by line or all at once, of which a part is killed: what was told by
  then is kept;
- a life of more lines than a world has receipts, and a second one over its logs.

The words are the folder of the model and the programs icserve and icrun."""

from __future__ import annotations

import argparse
import json
import shutil
import subprocess
import sys
import tempfile
from pathlib import Path
from typing import Iterator, Optional, Tuple


def parsed() -> argparse.Namespace:
    parser = argparse.ArgumentParser(description=__doc__.split("\n")[0])
    parser.add_argument("model", type=Path)
    parser.add_argument("program", type=Path)
    parser.add_argument("icrun", type=Path)
    parser.add_argument("--count", type=int, default=150, help="random lives")
    parser.add_argument("--seed", type=int, default=1, help="that of the first random lives")
    parser.add_argument("--format", type=int, choices=[1, 2], default=2, help="that of the logs")
    parser.add_argument("--only", choices=["rows", "random", "long"], help="one part alone")
    return parser.parse_args()


GIVEN = parsed()
MODEL = GIVEN.model
PROGRAMS = {"icserve": str(GIVEN.program.resolve()), "icrun": str(GIVEN.icrun.resolve())}
sys.path.insert(0, str(MODEL))

from differ import compare_lives  # noqa: E402
from model_rules import choose  # noqa: E402

choose(GIVEN.format)

ROWS = MODEL.parent / "rows"
ROW_NAMES = ["served-lines", "served-lives", "served-long-line"]


def rows() -> Iterator[Tuple[str, Optional[str]]]:
    """Each worked case, against what the row says is printed."""
    for name in ROW_NAMES:
        folder = ROWS / name
        for case in json.loads((folder / "row.json").read_text())["cases"]:
            with tempfile.TemporaryDirectory() as temporary:
                yield f"{name}, {case['name']}", worked(folder, case["steps"], Path(temporary))


def worked(folder: Path, steps: list, place: Path) -> Optional[str]:
    for text in folder.iterdir():
        shutil.copy(text, place)
    for step in steps:
        given = (folder / step["lines"]).read_bytes() if "lines" in step else b""
        done = subprocess.run([PROGRAMS[step.get("tool", "icserve")], *step["words"]], cwd=place, input=given, capture_output=True, timeout=60)
        wanted = (folder / step["stdout"]).read_bytes() if "stdout" in step else done.stdout
        if (done.returncode, done.stdout) != (step["status"], wanted):
            return f"{' '.join(step['words'])}: status {done.returncode}, {done.stdout!r}"
    return None


def lives(kind: str, count: int) -> Iterator[Tuple[str, Optional[str]]]:
    for seed in range(GIVEN.seed, GIVEN.seed + count):
        yield f"seed {seed}", compare_lives(kind, PROGRAMS["icserve"], seed)[0]


PARTS = {"rows": rows, "random": lambda: lives("serve", GIVEN.count), "long": lambda: lives("serve-long", 1)}


def main() -> int:
    failed = 0
    for name, part in PARTS.items():
        if GIVEN.only not in (None, name):
            continue
        ran = found = 0
        for what, why in part():
            ran += 1
            if why is not None:
                found += 1
                print(f"{name}: {what}: {why}")
        print(f"{name}: {ran} runs, {found} differ")
        failed += found + (ran == 0)
    return 1 if failed else 0


if __name__ == "__main__":
    sys.exit(main())
