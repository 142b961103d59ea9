"""Compares random runs, resumes and audits of a built icrun with the reference model: statuses, printed bytes and log files.

The words are the folder of the model, the program, the kind of cases, how many, and the first seed."""

import argparse
import sys
from pathlib import Path


def parsed() -> argparse.Namespace:
    parser = argparse.ArgumentParser(description=__doc__.split("\n")[0])
    parser.add_argument("model", type=Path)
    parser.add_argument("program", type=Path)
    parser.add_argument("kind", choices=["first", "texts", "full"])
    parser.add_argument("count", type=int)
    parser.add_argument("seed", type=int)
    parser.add_argument("--format", type=int, choices=[1, 2], default=2, help="that of the logs")
    return parser.parse_args()


GIVEN = parsed()
MODEL, PROGRAM, KIND, COUNT, SEED = GIVEN.model, str(GIVEN.program.resolve()), GIVEN.kind, GIVEN.count, GIVEN.seed
sys.path.insert(0, str(MODEL))

from differ import compare, make_case  # noqa: E402
from model_rules import choose  # noqa: E402

choose(GIVEN.format)


def main() -> int:
    found = 0
    for seed in range(SEED, SEED + COUNT):
        difference = compare(PROGRAM, "icrun", make_case(KIND, seed))
        if difference is not None:
            found += 1
            print(f"{KIND} {seed}: {difference}")
    print(f"{COUNT} {KIND} runs: {found} differ")
    return 1 if found else 0


if __name__ == "__main__":
    sys.exit(main())
