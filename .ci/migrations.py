"""Compares `migrate` of a built icrun with the reference model: statuses, printed bytes, new logs and old ones.

- the worked run, and the words that are no form of it;
- random runs over logs of the former format, a part of them damaged: migrated, gone on with and audited;
- migrations that are killed: the old logs keep their bytes, and either a new log is refused or all are those of a whole migration; once
  the new logs are taken away, another call makes them whole.

The words are the folder of the model and the program."""

from __future__ import annotations

import argparse
import random
import subprocess
import sys
import tempfile
import time
from pathlib import Path
from typing import Dict, Iterator, List, Optional, Tuple


def parsed() -> argparse.Namespace:
    parser = argparse.ArgumentParser(description=__doc__.split("\n")[0])
    parser.add_argument("model", type=Path)
    parser.add_argument("program", type=Path)
    parser.add_argument("--count", type=int, default=150, help="random runs")
    parser.add_argument("--seed", type=int, default=1, help="that of the first random run")
    parser.add_argument("--kills", type=int, default=40, help="migrations that are killed")
    parser.add_argument("--only", choices=["rows", "random", "kills"], help="one part alone")
    return parser.parse_args()


GIVEN = parsed()
MODEL, PROGRAM = GIVEN.model.resolve(), str(GIVEN.program.resolve())
sys.path.insert(0, str(MODEL))

from differ import Made, compare, make_case, model_call  # noqa: E402
from icoracle.disk import MemDisk  # noqa: E402
from icoracle.rules import RULES  # noqa: E402
from icoracle.syntax import fingerprint, read_scenario  # noqa: E402
from icoracle.world import World, WorldRefused  # noqa: E402
from model_rules import choose  # noqa: E402

choose(2)

COMPONENTS = 8  # of the run that is killed
INPUTS = 60  # of each, with values that make its log long
Result = Tuple[str, Optional[str]]
Logs = Dict[int, bytes]


def rows() -> Iterator[Result]:
    """The worked run, by the model's own reading of it."""
    words = [sys.executable, "-B", "run_rows.py", "--forget", "--format", "2", "--program", PROGRAM, "migrated-log"]
    done = subprocess.run(words, cwd=MODEL, stdin=subprocess.DEVNULL, stdout=subprocess.PIPE, stderr=subprocess.STDOUT)
    yield "migrated-log", None if done.returncode == 0 else done.stdout.decode()
    texts = make_case("full", GIVEN.seed).texts
    for call in (["migrate"], ["migrate", "s", "c"], ["migrate", "absent"], ["migrate", "-s"], ["migrate", "c"]):
        yield " ".join(call), compare(PROGRAM, "icrun", Made(texts, [call]))


def random_runs() -> Iterator[Result]:
    for seed in range(GIVEN.seed, GIVEN.seed + GIVEN.count):
        yield f"seed {seed}", old_and_new(make_case("migrate", seed))


def old_and_new(made: Made) -> Optional[str]:
    """What differs; that the old logs keep their bytes is looked at in one more call."""
    why = compare(PROGRAM, "icrun", made)
    with tempfile.TemporaryDirectory() as temporary:
        place = Path(temporary)
        put(place, made.texts, made.old_logs)
        subprocess.run([PROGRAM, "migrate", "s"], cwd=place, stdin=subprocess.DEVNULL, stdout=subprocess.DEVNULL, timeout=60)
        return why or (None if old_logs(place) == made.old_logs else "an old log has other bytes")


# ---------------------------------------------------------------- kills


def long_run() -> Made:
    """Logs of the former format, with a checkpoint now and then."""
    scenario = "".join(f"pcom c{i}\n  var sum 0\n  on add a b c d e f g h\n    set sum sum + a\n  end\nend\n" for i in range(COMPONENTS))
    lines = [f"input c{i} add {' '.join(str(number + j) for j in range(8))}\n" for number in range(INPUTS) for i in range(COMPONENTS)]
    texts = {"s": scenario.encode(), "c": "".join(lines).encode(), "p": b"checkpoint_every = 7\nreport = \"summary\"\n"}
    disks = [MemDisk() for _ in range(32)]
    RULES.format = 1
    model_call("icrun", ["run", "s", "c", "p"], texts, disks, [])
    RULES.format = 2
    return Made(texts, [["migrate", "s"]], {com: disk.bytes() for com, disk in enumerate(disks) if disk.bytes()})


def kills() -> Iterator[Result]:
    rng, made = random.Random(GIVEN.seed), long_run()
    disks = [MemDisk() for _ in range(32)]
    model_call("icrun", ["migrate", "s"], made.texts, disks, [MemDisk(made.old_logs.get(com, b"")) for com in range(32)])
    whole = [disk.bytes() for disk in disks[:COMPONENTS]]
    with tempfile.TemporaryDirectory() as temporary:
        place = Path(temporary)
        put(place, made.texts, made.old_logs)
        began = time.monotonic()
        migrate(place)
        seconds = time.monotonic() - began
    for number in range(GIVEN.kills):
        yield f"kill {number + 1}", killed(made, whole, rng.random() * seconds)


def killed(made: Made, whole: List[bytes], seconds: float) -> Optional[str]:
    with tempfile.TemporaryDirectory() as temporary:
        place = Path(temporary)
        put(place, made.texts, made.old_logs)
        process = subprocess.Popen([PROGRAM, "migrate", "s"], cwd=place, stdin=subprocess.DEVNULL, stdout=subprocess.DEVNULL)
        time.sleep(seconds)
        process.kill()
        process.wait()
        if old_logs(place) != made.old_logs:
            return "an old log has other bytes"
        left = new_logs(place)
        if left != whole and is_accepted(made.texts["s"], left):
            return "the new logs are accepted, and aren't those of a whole migration"
        for log in place.glob("icrun.*.log2"):
            log.unlink()
        return None if migrate(place) == 0 and new_logs(place) == whole else "another call doesn't make them whole"


def is_accepted(scenario: bytes, logs: List[bytes]) -> bool:
    try:
        World.found(read_scenario(scenario), fingerprint(scenario), [MemDisk(log) for log in logs])
        return True
    except WorldRefused:
        return False


def migrate(place: Path) -> int:
    return subprocess.run([PROGRAM, "migrate", "s"], cwd=place, stdin=subprocess.DEVNULL, stdout=subprocess.DEVNULL, timeout=60).returncode


def put(place: Path, texts: Dict[str, bytes], logs: Logs) -> None:
    for name, text in texts.items():
        (place / name).write_bytes(text)
    for com, log in logs.items():
        (place / f"icrun.{com:02}.log").write_bytes(log)


def old_logs(place: Path) -> Logs:
    return {int(path.name[6:8]): path.read_bytes() for path in place.glob("icrun.*.log")}


def new_logs(place: Path) -> List[bytes]:
    paths = [place / f"icrun.{com:02}.log2" for com in range(COMPONENTS)]
    return [path.read_bytes() if path.exists() else b"" for path in paths]


# ---------------------------------------------------------------- all


PARTS = {"rows": rows, "random": random_runs, "kills": kills}


def main() -> int:
    failed = 0
    for name, part in PARTS.items():
        if GIVEN.only not in (None, name):
            continue
        ran = found = 0
        for what, why in part():
            ran += 1
            if why is not None:
                found += 1
                print(f"{name}: {what}: {why}")
        print(f"{name}: {ran} runs, {found} differ")
        failed += found + (ran == 0)
    return 1 if failed else 0


if __name__ == "__main__":
    sys.exit(main())
