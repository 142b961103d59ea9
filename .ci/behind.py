"""What follows the gate: the released programs against those that were built just now, ./check over these, and, where the reference
model is there, the comparisons with it. The last line tells how many parts failed; the status is 1 where one did."""

from __future__ import annotations

import os
import subprocess
import sys
import time
from concurrent.futures import ThreadPoolExecutor
from pathlib import Path

ROOT = Path(__file__).resolve().parent.parent
sys.path.insert(0, str(ROOT / "tools"))

from building import sources  # noqa: E402
from building.release import built, differences  # noqa: E402

MODEL, DEFINITIONS = ROOT / "../shared/model/oracle", ROOT / "../shared/speceval"
PYTHON = [sys.executable, "-B"]
FORMAT = ["--format", "2"]  # of logs
KINDS = {"rows": 19, "steps": 60, "state": 20, "foreign": 40, "plain": 60, "logs": 60, "faults": 20, "large": 4, "live": 30}
RUNS = [("full", 1, 50), ("full", 51, 50), ("full", 101, 50), ("full", 151, 50), ("first", 1, 100), ("texts", 1, 100)]


def released() -> bool:
    """Whether release/ has what was built. With another kit than that of release/SOURCES, or on another processor, the bytes may be
    others; then what can be executed here is held to what must be printed."""
    identity = sources.kit() or "no kit"
    said = sources.read_release(sources.RELEASE / "SOURCES")
    found = differences(identity)
    is_here = said.get("processor") == sources.processor()
    if said and (said.get("kit") != identity or not is_here):
        print(f"release/SOURCES names another kit or processor ({said.get('kit')}, {said.get('processor')}; "
              f"here they are {identity}, {sources.processor()}), so bytes aren't compared")
        places = ([[sources.RELEASE / name for name in sources.PROGRAMS]] if is_here else []) + [[built(ROOT, name) for name in sources.PROGRAMS]]
        return all(subprocess.run([*PYTHON, "check", *map(str, place), "--only", "worked runs", "--only", "examples"], cwd=ROOT).returncode == 0
                   for place in places)
    for why in found:
        print(f"{why}: tools/release writes it")
    if not found:
        print("release: the programs are those that were built")
    return not found


def parts(program: Path) -> list[list[str]]:
    """The commands of the comparisons with the model, long ones first; those whose model isn't there are told and left out."""
    model, found = str(MODEL), []
    if sys.version_info < (3, 11) or not MODEL.is_dir():
        print("the model isn't here, or Python is older than 3.11: nothing is compared with it")
        return []
    if DEFINITIONS.is_dir():
        found += [[".ci/definitions.py", model, *FORMAT, ".", "--kind", kind, "--count", str(count)] for kind, count in KINDS.items()]
    else:
        print("what computes definitions isn't here: they aren't compared with the model")
    found += [[".ci/runs.py", model, str(program), kind, str(count), str(seed), *FORMAT] for kind, seed, count in RUNS]
    found += [[".ci/stops.py", model, str(program), "3", str(part), "2", *FORMAT] for part in range(2)]
    found += [[".ci/audits.py", model, str(program), "25", str(seed), *FORMAT] for seed in (1, 26)]
    found += [[part, model, str(built(ROOT, "icmore")), "--count", "150", *FORMAT] for part in (".ci/two.py", ".ci/clients.py", ".ci/standby.py")]
    found += [[".ci/serve.py", model, str(built(ROOT, "icserve")), str(program), *FORMAT]]
    found += [[".ci/live.py", model, str(built(ROOT, "iclive")), str(program), "--count", "300", *FORMAT]]
    found += [[".ci/migrations.py", model, str(program)]]
    found += [[".ci/worked.py", model, *FORMAT], [".ci/cases.py", model, *FORMAT], ["tools/tests/run.py", model, "--only", "test_random"]]
    return found


def run(words: list[str]) -> bool:
    began = time.monotonic()
    done = subprocess.run([*PYTHON, *words], cwd=ROOT, stdin=subprocess.DEVNULL, stdout=subprocess.PIPE, stderr=subprocess.STDOUT)
    failed = "" if done.returncode == 0 else "FAILED: "
    print(f"{failed}{words[0]} ({time.monotonic() - began:.0f} s): {done.stdout.decode(errors='replace').rstrip()}", flush=True)
    return done.returncode == 0


def main() -> int:
    results = [released()]
    results.append(subprocess.run([*PYTHON, "check", *(str(built(ROOT, name)) for name in sources.PROGRAMS)], cwd=ROOT).returncode == 0)
    results.append(run([".ci/contracts.py"]))
    with ThreadPoolExecutor(len(os.sched_getaffinity(0))) as pool:
        results += pool.map(run, parts(built(ROOT, "icrun")))
    failed = results.count(False)
    print(f"behind the gate: {len(results) - failed} parts passed, {failed} failed")
    return 1 if failed else 0


if __name__ == "__main__":
    sys.exit(main())
