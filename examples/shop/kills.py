#!/usr/bin/env python3
"""Orders and pays in the shop while icserve and the shop are killed at random moments, and counts what stands at the end: each order that
was confirmed once, each payment once. An order whose transaction a crash ended is refused: it has the number 0, and nothing is paid. The
last line is `N orders, M payments, K kills: none lost, none twice`, where N counts no refused ones."""

from __future__ import annotations

import argparse
import contextlib
import json
import os
import random
import re
import signal
import socket
import subprocess
import sys
import tempfile
import threading
import time
import urllib.request
from http.client import HTTPException
from pathlib import Path
from typing import Dict, Iterator, List, Tuple

HERE = Path(__file__).resolve().parent
PRICE = 450


def free_port() -> int:
    with socket.socket() as some:
        some.bind(("127.0.0.1", 0))
        return some.getsockname()[1]


class Supervisor:
    """The process of the shop, started again where it was killed."""

    def __init__(self, icserve: str, folder: str, port: int) -> None:
        self.words = [sys.executable, "-B", str(HERE / "shop.py"), icserve, folder, str(port)]
        self.stopping, self.kills = False, 0
        self.process = self.start()
        self.thread = threading.Thread(target=self.watch)
        self.thread.start()

    def start(self) -> subprocess.Popen:
        return subprocess.Popen(self.words, stdout=subprocess.DEVNULL, stderr=subprocess.DEVNULL)

    def watch(self) -> None:
        while not self.stopping:
            self.process.wait()
            if not self.stopping:
                self.process = self.start()

    def kill(self, rng: random.Random) -> bool:
        """The shop itself, or its icserve. Whether one was there to be killed."""
        shop = self.process.pid
        victims = [shop] if rng.random() < 0.3 else children_of(shop)
        for victim in victims:
            with contextlib.suppress(ProcessLookupError):
                os.kill(victim, signal.SIGKILL)
                self.kills += 1
                return True
        return False

    def stop(self) -> None:
        self.stopping, left = True, set()
        while self.thread.is_alive():  # it may have started the shop once more
            left |= set(children_of(self.process.pid))
            self.process.kill()
            self.thread.join(0.05)
        for child in left:  # its input ended, so it ends by itself
            while Path(f"/proc/{child}").exists():
                time.sleep(0.01)


def children_of(process: int) -> List[int]:
    with contextlib.suppress(OSError):
        return [int(child) for task in Path(f"/proc/{process}/task").iterdir() for child in (task / "children").read_text().split()]
    return []


class Customer:
    """Notes each request before it is sent, and sends it until it is answered, as the page does."""

    def __init__(self, number: int, port: int) -> None:
        self.number, self.port, self.noted = number, port, []  # type: int, int, List[list]

    def ask(self, request: int) -> Tuple[str, List[int]]:
        body = json.dumps({"customer": self.number, "request": request, "words": self.noted[request - 1]}).encode()
        while True:
            with contextlib.suppress(OSError, HTTPException):  # the shop died, before its answer or within it
                with urllib.request.urlopen(f"http://127.0.0.1:{self.port}/ask", body, timeout=30) as answer:
                    told = json.loads(answer.read())
                    return told["answer"], told["reply"]
            time.sleep(0.02)

    def buy(self, pieces: int) -> None:
        self.noted.append(["order", pieces])
        number, count = self.ask(len(self.noted))[1]
        if number > 0:
            self.noted.append(["pay", number, count * PRICE])
            self.ask(len(self.noted))


def buy_all(customer: Customer, rng: random.Random, stop: threading.Event) -> None:
    while not stop.is_set():
        customer.buy(rng.randint(1, 3))


def audited(icrun: str, folder: str) -> Dict[str, int]:
    lines = subprocess.run([icrun, "audit", str(HERE / "scenario")], cwd=folder, stdout=subprocess.PIPE, check=True).stdout.decode()
    if not lines.endswith("legal\n"):
        sys.exit(f"the history isn't legal:\n{lines}")
    return {name: int(value) for name, value in re.findall(r"(\w+)=(-?\d+)", lines)}


def compare(orders: List[List[int]], payments: List[List[int]], told: Dict[str, int]) -> None:
    """What customers were told against what the logs have. A refused order has the number 0."""
    refused = sum(number == 0 for number, _ in orders)
    if refused != told["refused"]:
        sys.exit(f"{told['refused']} orders stand as refused, and {refused} were told so")
    orders = [[number, pieces] for number, pieces in orders if number > 0]
    if sorted(number for number, _ in orders) != list(range(1, told["orders"] + 1)):
        sys.exit(f"{told['orders']} orders stand, and these were confirmed: {sorted(orders)}")
    if told["tea"] != 100000 - sum(pieces for _, pieces in orders):
        sys.exit(f"tea={told['tea']} is left behind {sum(pieces for _, pieces in orders)} pieces")
    if sorted(number for number, _ in payments) != sorted(number for number, _ in orders) or told["paid"] != sum(cents for _, cents in payments):
        sys.exit(f"paid={told['paid']} stands, and these payments were confirmed: {sorted(payments)}")


def without_browser(supervisor: Supervisor, port: int, kills: int, rng: random.Random) -> Tuple[List[List[int]], List[List[int]]]:
    customers, stop = [Customer(number, port) for number in (1, 2, 3)], threading.Event()
    customers[0].buy(1)  # a kill while the first logs are made leaves some of them blank, as docs/EMBEDDING.md tells
    threads = [threading.Thread(target=buy_all, args=(it, random.Random(rng.random()), stop)) for it in customers]
    for thread in threads:
        thread.start()
    while supervisor.kills < kills:
        time.sleep(rng.uniform(0.05, 0.4))
        supervisor.kill(rng)
    stop.set()
    for thread in threads:
        thread.join()
    asked = [(it.noted[place][0], it.ask(place + 1)) for it in customers for place in range(len(it.noted))]
    for words, (answer, _) in asked:
        if answer != "again":
            sys.exit(f"{words} was confirmed, and is answered {answer}")
    return [reply for words, (_, reply) in asked if words == "order"], [reply for words, (_, reply) in asked if words == "pay"]


@contextlib.contextmanager
def shop(icserve: str, folder: str, port: int) -> Iterator[Supervisor]:
    supervisor = Supervisor(icserve, folder, port)
    try:
        yield supervisor
    finally:
        supervisor.stop()


def main() -> int:
    parser = argparse.ArgumentParser(description=__doc__)
    parser.add_argument("icserve")
    parser.add_argument("icrun")
    parser.add_argument("--kills", type=int, default=100)
    parser.add_argument("--seed", type=int, default=1)
    parser.add_argument("--browser", metavar="CHROMIUM", help="order and pay on the page itself")
    words = parser.parse_args()
    rng, port = random.Random(words.seed), free_port()
    with tempfile.TemporaryDirectory() as folder:
        with shop(os.path.abspath(words.icserve), folder, port) as supervisor:
            if words.browser:
                from browser import bought_on_the_page

                orders, payments = bought_on_the_page(words.browser, supervisor, port, words.kills, rng)
            else:
                orders, payments = without_browser(supervisor, port, words.kills, rng)
        compare(orders, payments, audited(os.path.abspath(words.icrun), folder))
        print(f"{sum(number > 0 for number, _ in orders)} orders, {len(payments)} payments, {supervisor.kills} kills: none lost, none twice")
    return 0


if __name__ == "__main__":
    sys.exit(main())
