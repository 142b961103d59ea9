#!/usr/bin/env python3
"""shop.py ICSERVE FOLDER [PORT]: a web shop over a run that is served line by line. All that it must not forget stands in the logs in
FOLDER; it may be killed at any moment, and so may icserve."""

from __future__ import annotations

import json
import os
import sys
from http.server import BaseHTTPRequestHandler, ThreadingHTTPServer
from pathlib import Path
from typing import Optional

from service import Service, Unanswered, answer_in

HERE = Path(__file__).resolve().parent
VALUES = {"order": 1, "pay": 2}  # how many each request has


def line_of(asked: object) -> Optional[str]:
    """The line of a request of the page: {"customer": U, "request": Q, "words": ["order", PIECES] or ["pay", ORDER, CENTS]}."""
    if not isinstance(asked, dict) or not isinstance(asked.get("words"), list) or not asked["words"]:
        return None
    handler, *values = asked["words"]
    numbers = [asked.get("customer"), asked.get("request"), *values]
    if VALUES.get(handler) != len(values) or not all(type(number) is int and 0 <= number < 2**53 for number in numbers):
        return None
    return " ".join(["client", str(numbers[0]), str(numbers[1]), "shop", handler, *map(str, values)])


class Shop(BaseHTTPRequestHandler):
    service: Service

    def do_GET(self) -> None:
        if self.path == "/":
            self.send(200, "text/html; charset=utf-8", (HERE / "page.html").read_bytes())
        else:
            self.send(404, "text/plain", b"no such page\n")

    def do_POST(self) -> None:
        try:
            asked = json.loads(self.rfile.read(int(self.headers.get("Content-Length", 0))))
        except ValueError:
            asked = None
        line = line_of(asked)
        if self.path != "/ask" or line is None:
            self.send(400, "text/plain", b"no such request\n")
            return
        try:
            piece = self.service.ask_until_answered(line)
        except Unanswered as why:
            self.send(503, "text/plain", f"{why}\n".encode())
            return
        answer, reply = answer_in(piece, asked["customer"], asked["request"])
        self.send(200, "application/json", json.dumps({"answer": answer, "reply": reply}).encode())

    def send(self, status: int, kind: str, body: bytes) -> None:
        self.send_response(status)
        self.send_header("Content-Type", kind)
        self.send_header("Content-Length", str(len(body)))
        self.end_headers()
        self.wfile.write(body)

    def log_message(self, *words: object) -> None:
        pass


def main() -> int:
    if len(sys.argv) not in (3, 4):
        print(__doc__, file=sys.stderr)
        return 2
    program, folder, port = os.path.abspath(sys.argv[1]), sys.argv[2], int(sys.argv[3]) if len(sys.argv) == 4 else 8000
    Shop.service = Service([program, str(HERE / "scenario"), str(HERE / "policy")], folder)
    ThreadingHTTPServer.allow_reuse_address = True
    with ThreadingHTTPServer(("127.0.0.1", port), Shop) as server:
        print(f"http://127.0.0.1:{server.server_port}/", flush=True)
        server.serve_forever()
    return 0


if __name__ == "__main__":
    sys.exit(main())
