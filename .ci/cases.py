"""Makes the cases of the programs crates/cases_* and some worked runs from the model, or compares them with it.

The words are the folder of the model and, to write the files and not compare them, `--write`; `--format` gives that of the logs."""

from __future__ import annotations

import argparse
import sys
from pathlib import Path

ROOT = Path(__file__).resolve().parent.parent


def parsed() -> argparse.Namespace:
    parser = argparse.ArgumentParser(description=__doc__.split("\n")[0])
    parser.add_argument("model")
    parser.add_argument("--write", action="store_true", help="write the files")
    parser.add_argument("--format", type=int, choices=[1, 2], default=2, help="that of the logs")
    return parser.parse_args()


GIVEN = parsed()
MODEL, WRITES = GIVEN.model, GIVEN.write
sys.path[:0] = [MODEL, str(ROOT / ".ci" / "cases")]

from model_rules import choose  # noqa: E402

choose(GIVEN.format)  # (before the cases, some of which depend on it)

import call_cases  # noqa: E402
import client_cases  # noqa: E402
import fault_cases  # noqa: E402
import line_cases  # noqa: E402
import part_cases  # noqa: E402
import run_cases  # noqa: E402
import script_cases  # noqa: E402
import standby_cases  # noqa: E402

SEED = 1

PROGRAMS = {"cases_parts": part_cases.script_of, "cases_calls": call_cases.script_of,
            "cases_texts": standby_cases.script_of, "cases_scripts": script_cases.script_of,
            "cases_clients": client_cases.script_of, "cases_runs": fault_cases.script_of, "cases_lines": line_cases.script_of}


def made() -> dict[Path, bytes]:
    """What the model makes of each file."""
    files: dict[Path, bytes] = {}
    for name, script_of in PROGRAMS.items():
        script = script_of(SEED)
        for file, lines in [("stdin", script.lines), ("stdout", script.answers)]:
            files[ROOT / "crates" / name / file] = "".join(line + "\n" for line in lines).encode()
        print(f"{name}: {len(script.lines)} cases")
    for name, folder in run_cases.folders().items():
        for file, data in folder.items():
            files[ROOT / "tests" / "runs" / name / file] = data
    return files


def main() -> int:
    differ = 0
    for path, data in made().items():
        if WRITES:
            path.parent.mkdir(parents=True, exist_ok=True)
            path.write_bytes(data)
        elif not path.is_file() or path.read_bytes() != data:
            print(f"{path.relative_to(ROOT)} isn't what the model makes it")
            differ += 1
    return 1 if differ else 0


if __name__ == "__main__":
    sys.exit(main())
