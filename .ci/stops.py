"""Runs of worked schedules with a stop set on one event: each event that makes device calls, a stop at each of the calls 1 to 8, its
write kept or lost, the bytes behind it old or 1. Each run must end settled with status 0 and print what the model prints, and an
audit of the log files must print the values that the run printed.

The words are the folder of the model, the program, how many schedules are passed over behind each one that is run (0 runs all), and
which part of how many is run, counted from 0."""

import argparse
import subprocess
import sys
import tempfile
from pathlib import Path


def parsed() -> argparse.Namespace:
    parser = argparse.ArgumentParser(description=__doc__.split("\n")[0])
    parser.add_argument("model", type=Path)
    parser.add_argument("program", type=Path)
    parser.add_argument("passed_over", type=int)
    parser.add_argument("part", type=int)
    parser.add_argument("parts", type=int)
    parser.add_argument("--format", type=int, choices=[1, 2], default=2, help="that of the logs")
    return parser.parse_args()


GIVEN = parsed()
MODEL, PROGRAM = GIVEN.model, str(GIVEN.program.resolve())
PASSED_OVER, PART, PARTS = GIVEN.passed_over, GIVEN.part, GIVEN.parts
sys.path.insert(0, str(MODEL))

from icoracle import top  # noqa: E402
from icoracle.disk import MemDisk, MemSink, MemTexts  # noqa: E402
from model_rules import choose  # noqa: E402
from tables import STOP_ROWS, states, stopped_schedules, texts_of  # noqa: E402

choose(GIVEN.format)


def call(words: list[str], place: Path) -> tuple[int, str]:
    done = subprocess.run([PROGRAM, *words], cwd=place, stdin=subprocess.DEVNULL, capture_output=True, timeout=60)
    return done.returncode, done.stdout.decode()


def wanted(texts: dict[bytes, bytes]) -> tuple[int, str]:
    sink = MemSink()
    status = top.run([b"run", b"s", b"c", b"p"], MemTexts(list(texts.items())), sink, [MemDisk() for _ in range(32)])
    return status, sink.bytes().decode()


def fails(texts: dict[bytes, bytes]) -> str | None:
    with tempfile.TemporaryDirectory() as folder:
        place = Path(folder)
        for name, text in texts.items():
            (place / name.decode()).write_bytes(text)
        ran, told = call(["run", "s", "c", "p"], place), call(["audit", "s"], place)
    if ran[0] != 0 or told[0] != 0:
        return f"status {ran[0]}, audit {told[0]}"
    if ran != wanted(texts):
        return "the model prints other lines"
    return None if states(ran[1]) == states(told[1]) else "the audit prints other values"


def main() -> int:
    ran = found = 0
    for row in STOP_ROWS:
        texts = dict(texts_of(row))
        for schedule in stopped_schedules(texts[b"c"].decode())[:: PASSED_OVER + 1][PART::PARTS]:
            texts[b"c"] = schedule.encode()
            ran += 1
            why = fails(texts)
            if why is not None:
                found += 1
                print(f"{row}: {why}: {schedule!r}")
    print(f"stops: {ran} runs, {found} differ")
    return 1 if found or not ran else 0


if __name__ == "__main__":
    sys.exit(main())
