"""A run in a folder of its own: a schedule is done whole each time, so that each step can be undone and no log elsewhere changes."""

from __future__ import annotations

import os
import shutil
import tempfile
from typing import List, Optional

from .common import ToolError
from .program import EVENT, Call, all_log_names, call, log_names, memory_folder


IN_MEMORY = 1 << 26  # bytes of logs of which a copy stands in memory


def place_for(logs: Optional[str]) -> Optional[str]:
    """In memory, where the copy of the logs isn't large, else among the temporary files."""
    size = 0 if logs is None else sum(os.path.getsize(os.path.join(logs, name)) for name in log_names(logs))
    return memory_folder() if size <= IN_MEMORY else None


class Stage:
    """A scenario, and a copy of logs where they are given. `close` takes the folder away."""

    def __init__(self, program: str, scenario: bytes, logs: Optional[str], policy: Optional[bytes] = None) -> None:
        self.program = program
        self.logs = logs
        self.place = tempfile.TemporaryDirectory(prefix="icrun-stage-", dir=place_for(logs))
        self.folder = self.place.name
        self.texts = ["scenario", "schedule"] + ([] if policy is None else ["policy"])
        self.write("scenario", scenario)
        if policy is not None:
            self.write("policy", policy)

    def close(self) -> None:
        self.place.cleanup()

    def write(self, name: str, data: bytes) -> None:
        with open(os.path.join(self.folder, name), "wb") as file:
            file.write(data)

    def set_logs(self) -> None:
        """The logs as they were given, or none."""
        for name in all_log_names(self.folder):
            os.unlink(os.path.join(self.folder, name))
        if self.logs is not None:
            try:
                for name in log_names(self.logs):
                    shutil.copyfile(os.path.join(self.logs, name), os.path.join(self.folder, name))
            except OSError as error:
                raise ToolError("%s: %s" % (error.filename, error.strerror or error)) from None

    def run(self, lines: List[str]) -> Call:
        """A run of the schedule from the beginning, or from the given logs on."""
        self.set_logs()
        self.write("schedule", "".join(line + "\n" for line in lines).encode("utf-8"))
        return call(self.program, self.folder, "run" if self.logs is None else "resume", *self.texts)

    def audit(self) -> Call:
        return call(self.program, self.folder, "audit", "scenario")


def event_of(line: str) -> Optional[str]:
    """The event of an event line, in the schedule's form."""
    found = EVENT.match(line)
    return found.group(2) if found else None
