"""Lines for a process of icserve, which is started again where it died (docs/EMBEDDING.md)."""

from __future__ import annotations

import subprocess
import threading
import time
from typing import List, Optional, Tuple

TRIES, PAUSE = 100, 0.1  # of one line, in seconds between two tries


class Unanswered(Exception):
    """The line has no answer: the process died, or couldn't be started. A numbered line may be asked again."""


class Service:
    """One process over the logs of one folder. Lines of several threads go to it one by one."""

    def __init__(self, words: List[str], folder: str) -> None:
        self.words, self.folder = words, folder
        self.process: Optional[subprocess.Popen] = None
        self.lock = threading.Lock()

    def ask(self, line: str) -> List[str]:
        """What the line is answered by, without the closing `served N`."""
        with self.lock:
            if self.process is None:
                self.process = subprocess.Popen(self.words, cwd=self.folder, stdin=subprocess.PIPE, stdout=subprocess.PIPE)
                self.piece()
            try:
                self.process.stdin.write(f"{line}\n".encode())
                self.process.stdin.flush()
            except OSError:
                self.ended([])
            return self.piece()

    def ask_until_answered(self, line: str) -> List[str]:
        """The same of a numbered line, which is done once however often it is asked."""
        for _ in range(TRIES):
            try:
                return self.ask(line)
            except Unanswered:
                time.sleep(PAUSE)
        raise Unanswered(line)

    def piece(self) -> List[str]:
        """The lines of a piece. A piece without its last line is none: the process died within it."""
        lines: List[str] = []
        for line in self.process.stdout:
            if line.startswith(b"served ") and line.endswith(b"\n"):
                return lines
            lines.append(line.decode().rstrip("\n"))
        return self.ended(lines)

    def ended(self, lines: List[str]) -> List[str]:
        process, self.process = self.process, None
        process.stdout.close()
        try:
            process.stdin.close()
        except OSError:
            pass
        status = process.wait()
        raise Unanswered(f"icserve ended with status {status}: {lines[-1] if lines else 'no line'}")


def answer_in(piece: List[str], customer: int, request: int) -> Tuple[str, Optional[List[int]]]:
    """`taken`, `again`, `pending`, `differs` or a refusal, with the values of the reply behind the two numbers, if one was shown."""
    asked, mine = f"client {customer} {request} ", [str(customer), str(request)]
    answer, reply = "", None
    for line in piece:
        words = line.split()
        if line.startswith("bad line "):
            return line.split(": ", 1)[1], None
        if len(words) > 1 and " ".join(words[1:]).startswith(asked):
            answer, *values = line.rsplit(": ", 1)[1].split()
            if answer == "again":
                return answer, [int(value) for value in values[3:]]
        if words[:1] == ["out"] and words[4:6] == mine:
            reply = [int(value) for value in words[6:]]
    return answer, reply
