"""Compares runs with numbered clients of a built icmore with the reference model: statuses, printed bytes and log files.

- the worked runs and the refused lines;
- a stop at each device call of each event of the first worked schedule, with its write kept or lost, and the bytes behind it old or 1,
  with the requests behind it sent again;
- random scenarios with schedules of clients and policies, a part of them with random edits.

The words are the folder of the model and the program."""

from __future__ import annotations

import argparse
import json
import subprocess
import sys
import tempfile
from pathlib import Path
from typing import Iterator, Optional, Tuple


def parsed() -> argparse.Namespace:
    parser = argparse.ArgumentParser(description=__doc__.split("\n")[0])
    parser.add_argument("model", type=Path)
    parser.add_argument("program", type=Path)
    parser.add_argument("--count", type=int, default=300, help="random runs")
    parser.add_argument("--seed", type=int, default=1, help="that of the first random run")
    parser.add_argument("--format", type=int, choices=[1, 2], default=2, help="that of the logs")
    parser.add_argument("--only", choices=["rows", "stops", "random"], help="one part alone")
    return parser.parse_args()


GIVEN = parsed()
MODEL, PROGRAM = GIVEN.model, str(GIVEN.program.resolve())
sys.path.insert(0, str(MODEL))

from differ import Made, compare, make_case  # noqa: E402
from model_rules import choose  # noqa: E402

choose(GIVEN.format)

ROWS = MODEL.parent / "rows"
ROW_NAMES = ["repeated-request", "request-kept-at-a-stop", "requests-missed-lost-and-again", "refused-client-lines"]
FIRST = ROWS / ROW_NAMES[0]
DEVICE_CALLS = 8


def rows() -> Iterator[Tuple[str, Optional[str]]]:
    """Each worked case: what the row says is printed, and so says the model."""
    for name in ROW_NAMES:
        folder = ROWS / name
        texts = {path.name: path.read_bytes() for path in folder.iterdir() if path.suffix not in (".json", ".out") and path.name != "stdout"}
        for case in json.loads((folder / "row2.json").read_text())["cases"]:
            steps = [step for step in case["steps"] if "words" in step]
            made = Made(texts, [step["words"] for step in steps])
            yield f"{name}, {case['name']}", compare(PROGRAM, "icmore", made) or differs_from_row(folder, steps, texts)


def differs_from_row(folder: Path, steps: list, texts: dict) -> Optional[str]:
    with tempfile.TemporaryDirectory() as temporary:
        for name, text in texts.items():
            (Path(temporary) / name).write_bytes(text)
        for step in steps:
            done = subprocess.run([PROGRAM, *step["words"]], cwd=temporary, stdin=subprocess.DEVNULL, capture_output=True, timeout=60)
            wanted = (folder / step["stdout"]).read_bytes() if "stdout" in step else done.stdout
            if (done.returncode, done.stdout) != (step["status"], wanted):
                return f"{' '.join(step['words'])}: status {done.returncode}, {done.stdout!r}"
    return None


def stops() -> Iterator[Tuple[str, Optional[str]]]:
    scenario, lines = (FIRST / "scenario").read_bytes(), (FIRST / "schedule").read_text().splitlines()
    again = [line for line in lines if line.startswith("client ")]
    for at, line in enumerate(lines):
        for call in range(1, DEVICE_CALLS + 1):
            for keep in (0, 1):
                for fill in ("old", "1"):
                    stopped = [*lines[:at], f"{line} stop {call} {keep} {fill}", f"recover {at_whom(line)}", *again]
                    text = "".join(it + "\n" for it in stopped)
                    yield f"line {at + 1}, {stopped[at]}", compare(PROGRAM, "icmore", Made({"s": scenario, "c": text.encode()}, [["clients", "s", "c"]]))


def at_whom(line: str) -> str:
    """The component that a line of the first schedule is an event of."""
    words = line.split()
    return words[3] if words[0] == "client" else words[1]


def random_runs() -> Iterator[Tuple[str, Optional[str]]]:
    for seed in range(GIVEN.seed, GIVEN.seed + GIVEN.count):
        yield f"seed {seed}", compare(PROGRAM, "icmore", make_case("clients", seed))


PARTS = {"rows": rows, "stops": stops, "random": random_runs}


def main() -> int:
    failed = 0
    for name, part in PARTS.items():
        if GIVEN.only not in (None, name):
            continue
        ran = found = 0
        for what, why in part():
            ran += 1
            if why is not None:
                found += 1
                print(f"{name}: {what}: {why}")
        print(f"{name}: {ran} runs, {found} differ")
        failed += found + (ran == 0)
    return 1 if failed else 0


if __name__ == "__main__":
    sys.exit(main())
