"""Compares runs of moves of a built icmore with the reference model: statuses, printed bytes and log files.

- the worked scripts and the refused ones, with words that are no form and a text that isn't there;
- a stop at each device call of each event of the first worked script, those that settle it too, with its write kept or lost, and the
  bytes behind it old or 1;
- random scripts, a part of them with random edits;
- runs of a long script that are killed: the logs read as those behind some event of the whole run, or before the event that was under way.

The words are the folder of the model and the program."""

from __future__ import annotations

import argparse
import json
import random
import subprocess
import sys
import tempfile
import time
from pathlib import Path
from typing import Iterator, List, Optional, Set, Tuple

Sizes = Tuple[int, ...]


def parsed() -> argparse.Namespace:
    parser = argparse.ArgumentParser(description=__doc__.split("\n")[0])
    parser.add_argument("model", type=Path)
    parser.add_argument("program", type=Path)
    parser.add_argument("--count", type=int, default=300, help="random scripts")
    parser.add_argument("--seed", type=int, default=1, help="that of the first random script")
    parser.add_argument("--kills", type=int, default=20, help="runs that are killed")
    parser.add_argument("--format", type=int, choices=[1, 2], default=2, help="that of the logs")
    parser.add_argument("--only", choices=["rows", "stops", "random", "kills"], help="one part alone")
    return parser.parse_args()


GIVEN = parsed()
MODEL, PROGRAM = GIVEN.model, str(GIVEN.program.resolve())
sys.path.insert(0, str(MODEL))

from differ import Made, compare, make_case  # noqa: E402
from fuzz_two import event_line  # noqa: E402
from icoracle.disk import MemDisk, MemSink, MemTexts  # noqa: E402
from icoracle.more import TwoCall  # noqa: E402
from icoracle.rules import log_suffix  # noqa: E402
from icoracle.script import Event2, read_script  # noqa: E402
from icoracle.syntax import fingerprint  # noqa: E402
from icoracle.two import Book, Chief, record_bytes_2  # noqa: E402
from icoracle.two_world import TwoWorld, next_event_2  # noqa: E402
from model_rules import choose  # noqa: E402

choose(GIVEN.format)

ROWS = MODEL.parent / "rows"
ROW_NAMES = ["two-moves-and-one-short", "book-stopped-at-its-ready", "refused-scripts"]
FIRST = (ROWS / ROW_NAMES[0] / "script").read_bytes()
DEVICE_CALLS = 5
FRESH_BYTES = {1: 41, 2: 9258}[GIVEN.format]  # of a log without a record
MOVES = 400


# ---------------------------------------------------------------- worked scripts


def rows() -> Iterator[Tuple[str, Optional[str]]]:
    """Each worked case: what the row says is printed, and so says the model."""
    for name in ROW_NAMES:
        folder = ROWS / name
        texts = {path.name: path.read_bytes() for path in folder.iterdir() if path.suffix not in (".json", ".out") and path.name != "stdout"}
        for case in json.loads((folder / "row2.json").read_text())["cases"]:
            made = Made(texts, [step["words"] for step in case["steps"]])
            yield f"{name}, {case['name']}", compare(PROGRAM, "icmore", made) or differs_from_row(folder, case, texts)


def differs_from_row(folder: Path, case: dict, texts: dict) -> Optional[str]:
    with tempfile.TemporaryDirectory() as temporary:
        for name, text in texts.items():
            (Path(temporary) / name).write_bytes(text)
        for step in case["steps"]:
            done = subprocess.run([PROGRAM, *step["words"]], cwd=temporary, stdin=subprocess.DEVNULL, capture_output=True, timeout=60)
            if (done.returncode, done.stdout) != (step["status"], (folder / step["stdout"]).read_bytes()):
                return f"{' '.join(step['words'])}: status {done.returncode}, {done.stdout!r}"
    return None


# ---------------------------------------------------------------- stops


def whole_run(text: bytes) -> List[Event2]:
    """All events of a script's run, those that settle it too."""
    script = read_script(text)
    world = TwoWorld.start(script, fingerprint(text), [MemDisk() for _ in range(len(script.books) + 1)])
    events = list(script.events)
    for event in events:
        world.step(event)
    while (event := next_event_2(world)) is not None:
        world.step(event)
        events.append(event)
    return events


def stops() -> Iterator[Tuple[str, Optional[str]]]:
    script = read_script(FIRST)
    head = "".join(line + "\n" for line in FIRST.decode().splitlines() if line.startswith("book"))
    lines = [event_line(script, event) for event in whole_run(FIRST)]
    for at, line in enumerate(lines):
        if line.split()[0] not in ("move", "deliver", "packet", "recover"):
            continue
        for call in range(1, DEVICE_CALLS + 1):
            for keep in (0, 1):
                for fill in ("old", "1"):
                    stopped = f"{line} stop {call} {keep} {fill}"
                    text = head + "".join(it + "\n" for it in [*lines[:at], stopped])
                    yield f"event {at + 1}, {stopped}", compare(PROGRAM, "icmore", Made({"s": text.encode()}, [["two", "s"]]))


# ---------------------------------------------------------------- random scripts


def random_scripts() -> Iterator[Tuple[str, Optional[str]]]:
    for seed in range(GIVEN.seed, GIVEN.seed + GIVEN.count):
        yield f"seed {seed}", compare(PROGRAM, "icmore", make_case("two", seed))


# ---------------------------------------------------------------- kills


def long_script(rng: random.Random, moves: int) -> bytes:
    """Moves between four books, each delivered as it comes, with crashes."""
    books = ["east", "west", "north", "south"]
    lines = [f"book {name} 1000 1000" for name in books]
    for _ in range(moves):
        a, b = rng.sample(books, 2)
        lines.append(f"move {a} {rng.randrange(2)} {b} {rng.randrange(2)} {rng.randint(1, 400)}")
        lines += [f"deliver chief {a}", f"deliver {a} chief", f"deliver chief {b}", f"deliver {b} chief"]
        if rng.random() < 0.1:
            com = rng.choice(["chief", *books])
            lines += [f"crash {com}", f"recover {com}"]
    return "".join(line + "\n" for line in lines).encode()


def sizes_of(records: List[list]) -> Sizes:
    """The sizes of logs with these records, each in a batch of its own."""
    return tuple(FRESH_BYTES + sum(5 + len(record_bytes_2(record)) for record in log) for log in records)


def records_in(disks: List[MemDisk], text: bytes) -> List[list]:
    """The records of the chief's log and of each book's; a log that isn't whole to its first gate has none."""
    script, print_ = read_script(text), fingerprint(text)
    found: List[list] = []
    for com, disk in enumerate(disks):
        if len(disk.bytes()) < FRESH_BYTES:
            found.append([])
        elif com == 0:
            found.append(Chief.recover(script.books, disk, print_).records)
        else:
            found.append(Book.recover(script.books[com - 1][1], com, disk, print_).records)
    return found


class Watched(TwoCall):
    """A call that keeps the sizes of all logs behind each event."""

    def __init__(self, *args) -> None:
        super().__init__(*args)
        self.path: Set[Sizes] = set()

    def watch(self, world: TwoWorld) -> None:
        self.path.add(tuple(len(disk.inner.bytes()) for disk in world.disks))


def kills() -> Iterator[Tuple[str, Optional[str]]]:
    rng = random.Random(GIVEN.seed)
    text = long_script(rng, MOVES)
    disks = [MemDisk() for _ in range(32)]
    call = Watched(MemTexts([(b"s", text)]), MemSink(), disks)
    call.run([b"two", b"s"])
    count = len(read_script(text).books) + 1
    whole = records_in(disks[:count], text)
    seconds = timed(text)
    for number in range(GIVEN.kills):
        left = killed(text, rng.random() * seconds, count)
        try:
            found = records_in(left, text)
        except Exception as error:
            yield f"kill {number + 1}", f"a log isn't read: {error!r}"
            continue
        is_front = all(log == all_of_it[:len(log)] for log, all_of_it in zip(found, whole))
        yield f"kill {number + 1}", None if is_front and sizes_of(found) in call.path else "the logs are none of the whole run"


def timed(text: bytes) -> float:
    """How long a whole run takes."""
    with tempfile.TemporaryDirectory() as temporary:
        (Path(temporary) / "s").write_bytes(text)
        began = time.monotonic()
        subprocess.run([PROGRAM, "two", "s"], cwd=temporary, stdin=subprocess.DEVNULL, stdout=subprocess.DEVNULL, timeout=600)
        return time.monotonic() - began


def killed(text: bytes, seconds: float, count: int) -> List[MemDisk]:
    """What a run that is killed so long after it began leaves in its log files."""
    with tempfile.TemporaryDirectory() as temporary:
        place = Path(temporary)
        (place / "s").write_bytes(text)
        process = subprocess.Popen([PROGRAM, "two", "s"], cwd=place, stdin=subprocess.DEVNULL, stdout=subprocess.DEVNULL)
        time.sleep(seconds)
        process.kill()
        process.wait()
        files = [place / f"icmore.{com:02}.{log_suffix()}" for com in range(count)]
        return [MemDisk(file.read_bytes() if file.exists() else b"") for file in files]


# ---------------------------------------------------------------- all


PARTS = {"rows": rows, "stops": stops, "random": random_scripts, "kills": kills}


def main() -> int:
    failed = 0
    for name, part in PARTS.items():
        if GIVEN.only not in (None, name):
            continue
        ran = found = 0
        for what, why in part():
            ran += 1
            if why is not None:
                found += 1
                print(f"{name}: {what}: {why}")
        print(f"{name}: {ran} runs, {found} differ")
        failed += found + (ran == 0)
    return 1 if failed else 0


if __name__ == "__main__":
    sys.exit(main())
