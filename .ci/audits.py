"""Compares the audits of a built icrun with the reference model's, over the logs of random runs: whole, cut and damaged.

The words are the folder of the model, the program, how many runs, and the first seed.
"""

import argparse
import random
import sys
import tempfile
from pathlib import Path


def parsed() -> argparse.Namespace:
    parser = argparse.ArgumentParser(description=__doc__.split("\n")[0])
    parser.add_argument("model", type=Path)
    parser.add_argument("program", type=Path)
    parser.add_argument("count", type=int, help="random runs")
    parser.add_argument("seed", type=int, help="that of the first random run")
    parser.add_argument("--format", type=int, choices=[1, 2], default=2, help="that of the logs")
    return parser.parse_args()


GIVEN = parsed()
MODEL, PROGRAM, COUNT, SEED = GIVEN.model, str(GIVEN.program.resolve()), GIVEN.count, GIVEN.seed
sys.path.insert(0, str(MODEL))

from differ import full_texts, logs_of, model_call, program_call, told  # noqa: E402
from icoracle.disk import MemDisk  # noqa: E402
from icoracle.gate2 import HEADER_2  # noqa: E402
from icoracle.rules import log_suffix  # noqa: E402
from model_rules import choose  # noqa: E402

choose(GIVEN.format)
SLOTS_BEGIN, SLOTS_TOLD = 41, 41 + 9 * 6  # of a directory, the first slots


def place(rng, log):
    """An offset in a log: most of its slots are closed, and any of them is as good as another."""
    some = [at for at in range(len(log)) if GIVEN.format == 1 or at < SLOTS_TOLD or at >= HEADER_2]
    return rng.choice(some)


def damaged(rng, logs):
    """The logs with one of them cut, or with a byte or a few changed, or with bytes behind its end."""
    used = [c for c, log in enumerate(logs) if log]
    if not used:
        return logs
    logs, c = list(logs), rng.choice(used)
    log = bytearray(logs[c])
    choice = rng.randrange(5)
    if choice == 0:
        del log[rng.choice([place(rng, log), len(log)]):]
    elif choice == 1:
        log[place(rng, log)] ^= 1 << rng.randrange(8)
    elif choice == 2:
        for _ in range(3):
            log[place(rng, log)] = rng.randrange(256)
    elif choice == 3 and GIVEN.format == 2 and len(log) > HEADER_2:
        slot = SLOTS_BEGIN + 9 * rng.randrange(3)
        log[slot:slot + 9] = bytes([rng.choice([0, 1, 1, 2])]) + rng.randrange(HEADER_2, len(log)).to_bytes(8, "big")
    else:
        log += bytes(rng.randrange(256) for _ in range(rng.randint(1, 9)))
    logs[c] = bytes(log)
    return logs


def audited(texts, logs):
    """What differs between the two audits of these logs, or None."""
    with tempfile.TemporaryDirectory() as temporary:
        place = Path(temporary)
        (place / "s").write_bytes(texts["s"])
        for c, log in enumerate(logs):
            if log:
                (place / f"icrun.{c:02}.{log_suffix()}").write_bytes(log)
        theirs = program_call(PROGRAM, ["audit", "s"], place)
        mine = model_call("icrun", ["audit", "s"], texts, [MemDisk(log) for log in logs], [])
        if mine != theirs:
            return told(["audit", "s"], mine, theirs)
        if logs_of("icrun", place) != list(logs):
            return "an audit changes a log"
    return None


def main() -> int:
    audits, failed = 0, 0
    for seed in range(SEED, SEED + COUNT):
        rng, texts = random.Random(f"audits {seed}"), full_texts(seed)
        disks = [MemDisk() for _ in range(32)]
        model_call("icrun", ["run", "s", "c", "p"], texts, disks, [])
        whole = [disk.bytes() for disk in disks]
        for logs in [whole] + [damaged(rng, whole) for _ in range(5)]:
            audits += 1
            found = audited(texts, logs)
            if found is not None:
                failed += 1
                print(f"seed {seed}: {found}", flush=True)
    print(f"{audits} audits, {failed} differ")
    return 1 if failed else 0


if __name__ == "__main__":
    sys.exit(main())
