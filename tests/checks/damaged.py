"""The logs of a run of forty orders, cut short or with a gate closed: a cut log is refused where it ends, and no byte of any log is changed;
behind a closed gate a run ends, is refused at a log, or reaches a limit."""

from __future__ import annotations

from pathlib import Path
from typing import Iterator, List, Optional

from .base import FIRST_GATE, Check, Logs, logs_in, new_folder, run
from .runs import RUNS

ORDERS = RUNS / "order-chain-with-crashes-and-stops-run-and-audit"
NAMES = {"icrun.01.log2": "shop", "icrun.02.log2": "store", "icrun.03.log2": "till", "icrun.04.log2": "bank"}
CUTS = [*range(60), *range(60, FIRST_GATE, 97), *range(FIRST_GATE - 10, FIRST_GATE + 150)]  # offsets at which logs are cut
GATES = 3  # the gates of so many batches are closed
OK, BAD_LOG, LIMIT = 0, 6, 7


def checks(program: str) -> List[Check]:
    found = [Check("damaged logs", f"{log} cut", lambda it=log: with_cuts(program, it), 2) for log in NAMES]
    return found + [Check("damaged logs", f"{log}, gate {number} closed", lambda it=(log, number): with_a_gate_closed(program, *it), 3)
                    for log in NAMES for number in range(GATES)]


def orders() -> Logs:
    return logs_in(ORDERS / "1.logs")


def put(place: Path, logs: Logs) -> None:
    (place / "nothing").write_bytes(b"")
    (place / "summary").write_text('report = "summary"\n')
    for name, log in logs.items():
        (place / name).write_bytes(log)


def gates(log: bytes) -> Iterator[int]:
    """The offsets of the open gates."""
    gate = FIRST_GATE
    while log[gate] == 1:
        yield gate
        gate += 5 + int.from_bytes(log[gate + 1: gate + 5], "big")


def with_cuts(program: str, log: str) -> Optional[str]:
    with new_folder(is_in_memory=True) as place:
        logs = orders()
        whole = logs[log]
        for offset in CUTS:
            logs[log] = whole[:offset]
            put(place, logs)
            done = run([program, "resume", str(ORDERS / "scenario"), "nothing", "summary"], place)
            wanted = f"icrun: bad log of {NAMES[log]} at {offset}\n".encode()
            if (done.status, done.out, done.err) != (BAD_LOG, wanted, b""):
                return f"cut at {offset}: status {BAD_LOG} and {wanted!r} are wanted; status {done.status}, output {done.out!r}, error {done.err!r}"
            if (place / log).read_bytes() != logs[log] or any((place / name).read_bytes() != logs[name] for name in NAMES):
                return f"cut at {offset}: a log is changed"
    return None


def with_a_gate_closed(program: str, log: str, number: int) -> Optional[str]:
    with new_folder(is_in_memory=True) as place:
        logs = orders()
        gate = list(gates(logs[log]))[number]
        logs[log] = logs[log][:gate] + b"\x00" + logs[log][gate + 1:]
        put(place, logs)
        done = run([program, "resume", str(ORDERS / "scenario"), "nothing", "summary"], place)
        last = done.out.splitlines()[-1:] or [b""]
        begins = {OK: b"settled", BAD_LOG: b"icrun: bad log of ", LIMIT: b"icrun: limit of "}.get(done.status)
        if begins is None or not last[0].startswith(begins) or done.err:
            return f"status {done.status}, output {done.out[-500:]!r}, error {done.err!r}"
    return None
