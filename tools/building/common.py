"""How the scripts that build, release and install end."""

from __future__ import annotations

import signal
import sys
from typing import Callable

from .sources import Problem


def run_script(name: str, body: Callable[[], int]) -> int:
    """The exit status of a script. What goes wrong is told in one line on standard error."""
    # (what is half made is removed then, too)
    for number in (signal.SIGTERM, signal.SIGHUP):
        signal.signal(number, lambda which, _: sys.exit(128 + which))
    try:
        return body()
    except Problem as problem:
        print(f"{name}: {problem}", file=sys.stderr)
    except OSError as error:
        place = f": {error.filename}" if error.filename else ""
        print(f"{name}: {error.strerror or error}{place}", file=sys.stderr)
    except KeyboardInterrupt:
        print(f"{name}: interrupted", file=sys.stderr)
    return 1
