"""Compares runs in threads of a built iclive with the reference model.

- the worked runs: what the rows say is printed;
- random scenarios and plans with crashes and stops, under four workers and lanes of 1, 2 and 64, whose values hang on no order of the
  threads: the summary is the model's, the logs are sound, and what is printed is the crash-free world on them;
- random scenarios and plans of all kinds under any policy, a part of them with random edits: a run that the model refuses is refused
  alike, and of another one the logs and the lines explain each other.

The words are the folder of the model and the programs iclive and icrun."""

from __future__ import annotations

import argparse
import subprocess
import sys
import tempfile
from concurrent.futures import ProcessPoolExecutor
from pathlib import Path
from typing import Callable, Dict, Iterator, Optional, Tuple


def parsed() -> argparse.Namespace:
    parser = argparse.ArgumentParser(description=__doc__.split("\n")[0])
    parser.add_argument("model", type=Path)
    parser.add_argument("program", type=Path)
    parser.add_argument("icrun", type=Path)
    parser.add_argument("--count", type=int, default=300, help="random runs whose values hang on no order")
    parser.add_argument("--free", type=int, default=30, help="random runs of all kinds")
    parser.add_argument("--seed", type=int, default=1, help="that of the first random runs")
    parser.add_argument("--jobs", type=int, default=1, help="how many runs are made at once")
    parser.add_argument("--format", type=int, choices=[1, 2], default=2, help="that of the logs")
    parser.add_argument("--only", choices=["rows", "random", "free"], help="one part alone")
    return parser.parse_args()


GIVEN = parsed()
MODEL, PROGRAM = GIVEN.model.resolve(), str(GIVEN.program.resolve())
sys.path.insert(0, str(MODEL))

from differ import compare_live, logs_of, program_call, put_texts  # noqa: E402
from live_cases import LiveTexts, check_live, determined, model_run  # noqa: E402
from model_rules import choose  # noqa: E402

choose(GIVEN.format)

ROW_NAMES = ["live-forty-orders", "live-with-crashes", "order-chain-with-crashes-and-stops"]
LANES = (1, 2, 64)
WORKERS = 4
TURNS = 1_000  # of each worker
MODEL_TURNS = 60  # of the model's: what is determined hangs on them as little as on the order of the threads
Result = Tuple[str, Optional[str]]


def rows() -> Iterator[Result]:
    """The worked rows, by the model's own reading of them."""
    for name in ROW_NAMES:
        words = [sys.executable, "-B", "run_rows.py", "--forget", "--format", str(GIVEN.format), "--program", str(GIVEN.icrun.resolve()), "--live-program", PROGRAM, name]
        done = subprocess.run(words, cwd=MODEL, stdin=subprocess.DEVNULL, stdout=subprocess.PIPE, stderr=subprocess.STDOUT)
        yield name, None if done.returncode == 0 else done.stdout.decode()


def texts_of(seed: int) -> Optional[LiveTexts]:
    """The texts of a run whose values hang on no order, with its workers, lanes and turns; None where the seed gives another one."""
    texts = LiveTexts(seed)
    if texts.kind == "free":
        return None
    kept = [line for line in texts.policy.splitlines() if line.split()[0] not in ("workers", "lane", "turns")]
    policy = [*kept, f"workers = {WORKERS}", f"lane = {LANES[seed % len(LANES)]}", f"turns = {TURNS}"]
    texts.policy = "".join(f"{line}\n" for line in policy)
    return texts


def difference(seed: int) -> Optional[str]:
    texts = texts_of(seed)
    assert texts is not None
    with tempfile.TemporaryDirectory() as temporary:
        place = Path(temporary)
        put_texts(place, {name.decode(): text for name, text in texts.held()})
        status, printed = program_call(PROGRAM, ["s", "c", "p"], place, seconds=300)
        if status != 0:
            return f"status {status}: {printed!r}"
        try:
            check_live(texts, printed.decode(), logs_of("iclive", place))
        except Exception as error:  # noqa: BLE001
            return f"the logs and the lines don't explain each other: {error!r}"
    wanted, got = determined(texts, model_run(texts, None, MODEL_TURNS)[1].decode()), determined(texts, printed.decode())
    return None if wanted == got else f"the model prints {wanted}, the program {got}"


def free_difference(seed: int) -> Optional[str]:
    return compare_live(PROGRAM, seed)[0]


def over_seeds(compare: Callable[[int], Optional[str]], seeds: "list[int]") -> Iterator[Result]:
    with ProcessPoolExecutor(GIVEN.jobs) as pool:
        for seed, why in zip(seeds, pool.map(compare, seeds)):
            yield f"seed {seed}", why


def random_runs() -> Iterator[Result]:
    seeds, seed = [], GIVEN.seed
    while len(seeds) < GIVEN.count:
        if texts_of(seed) is not None:
            seeds.append(seed)
        seed += 1
    return over_seeds(difference, seeds)


PARTS: Dict[str, Callable[[], Iterator[Result]]] = {
    "rows": rows, "random": random_runs, "free": lambda: over_seeds(free_difference, list(range(GIVEN.seed, GIVEN.seed + GIVEN.free)))}


def main() -> int:
    failed = 0
    for name, part in PARTS.items():
        if GIVEN.only not in (None, name):
            continue
        ran = found = 0
        for what, why in part():
            ran += 1
            if why is not None:
                found += 1
                print(f"{name}: {what}: {why}")
        print(f"{name}: {ran} runs, {found} differ")
        failed += found + (ran == 0)
    return 1 if failed else 0


if __name__ == "__main__":
    sys.exit(main())
