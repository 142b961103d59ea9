"""The page of the shop in a headless Chromium, over the pipe of its debugging protocol."""

from __future__ import annotations

import json
import os
import random
import subprocess
import tempfile
import time
from typing import Any, List, Tuple

ROWS = "JSON.stringify([...document.querySelectorAll('#requests tr')].map(row => [...row.cells].slice(1, 3).map(cell => cell.textContent)))"


class Page:
    """One page. `run` gives the value of an expression of JavaScript."""

    def __init__(self, chromium: str, profile: str, address: str) -> None:
        here_in, there_out = os.pipe()
        there_in, here_out = os.pipe()
        words = f'exec "$0" --headless --no-sandbox --disable-gpu --remote-debugging-pipe --user-data-dir="$1" 3<&{there_in} 4>&{there_out}'
        self.process = subprocess.Popen(["sh", "-c", words, chromium, profile], pass_fds=(there_in, there_out), stderr=subprocess.DEVNULL)
        os.close(there_in)
        os.close(there_out)
        self.to, self.of, self.count = os.fdopen(here_out, "wb", buffering=0), os.fdopen(here_in, "rb"), 0
        target = self.call("Target.createTarget", {"url": address})["targetId"]
        self.session = self.call("Target.attachToTarget", {"targetId": target, "flatten": True})["sessionId"]

    def call(self, method: str, values: dict, **more: str) -> Any:
        self.count += 1
        self.to.write(json.dumps({"id": self.count, "method": method, "params": values, **more}).encode() + b"\0")
        while True:
            told = json.loads(self.message())
            if told.get("id") == self.count:
                return told["result"]

    def message(self) -> bytes:
        found = bytearray()
        while (byte := self.of.read(1)) not in (b"\0", b""):
            found += byte
        return bytes(found)

    def run(self, expression: str) -> Any:
        return self.call("Runtime.evaluate", {"expression": expression}, sessionId=self.session)["result"].get("value")

    def rows(self) -> List[List[str]]:
        return json.loads(self.run(ROWS) or "[]")

    def wait(self) -> List[List[str]]:
        """The rows, once each request is answered."""
        while True:
            rows = self.rows()
            if rows and all(told != "…" for _, told in rows):
                return rows
            time.sleep(0.02)

    def close(self) -> None:
        self.process.kill()
        self.process.wait()


def bought_on_the_page(chromium: str, supervisor: Any, port: int, kills: int, rng: random.Random) -> Tuple[List[List[int]], List[List[int]]]:
    with tempfile.TemporaryDirectory() as profile:
        while True:
            page = Page(chromium, profile, f"http://127.0.0.1:{port}/")
            time.sleep(0.5)
            if page.run("!!document.getElementById('order')"):
                break
            page.close()
        try:
            while supervisor.kills < kills:
                page.run(f"document.getElementById('pieces').value = {rng.randint(1, 3)}; document.getElementById('order').click()")
                time.sleep(rng.uniform(0, 0.1))
                supervisor.kill(rng)
                page.wait()
                page.run("document.querySelector('#requests button')?.click()")
                if rng.random() < 0.5:
                    supervisor.kill(rng)
                page.wait()
            page.call("Page.reload", {}, sessionId=page.session)  # the page asks all that it noted once more
            time.sleep(1)
            return confirmed(page.wait())
        finally:
            page.close()


def confirmed(rows: List[List[str]]) -> Tuple[List[List[int]], List[List[int]]]:
    orders = [[0 if told == "refused" else int(told.split()[1]), int(asked.split()[1])] for asked, told in rows if asked.startswith("order")]
    payments = [[int(told.split()[1]), int(asked.split()[2])] for asked, told in rows if asked.startswith("pay")]
    return orders, payments
