"""The script ./icrun, in a folder of its own with the program in release/, and those of the other programs without one."""

from __future__ import annotations

import os
import shutil
import subprocess
import sys
from pathlib import Path
from typing import Callable, List, Optional

from .base import PROGRAMS, ROOT, Check, Done, new_folder, run, text_difference

TALLY = ROOT / "examples" / "tally"
WORDS = ["run", str(TALLY / "scenario"), str(TALLY / "schedule")]
TOLD = "{0}: release/{0} isn't there or can't be executed on this machine; tools/build builds the program where the kit is\n"
CALLS, MILLISECONDS = 25, 10
SOURCES = "kit: none\nprocessor: {}\nloader: {}\nicrun: none\n"

# What stands in the place of the program, by what is done with its file.
BROKEN: "dict[str, Callable[[Path], object]]" = {
    "no program": lambda path: path.unlink(),
    "a program that no one may execute": lambda path: path.chmod(0o644),
    "an empty file": lambda path: path.write_bytes(b""),
    "a text": lambda path: path.write_bytes(b"echo hello\n"),
    "a folder": lambda path: (path.unlink(), path.mkdir()),
    "a program for another processor": lambda path: (path.parent / "SOURCES").write_text(SOURCES.format("sparc", "/")),
    "a program that nothing loads": lambda path: (path.parent / "SOURCES").write_text(
        SOURCES.format(os.uname().machine, "/absent/loader")),
}


def checks(program: str) -> List[Check]:
    found = [Check("the script icrun", f"release/icrun is {name}", lambda it=how: is_told(program, it)) for name, how in BROKEN.items()]
    found += [Check("the script icrun", f"release/{name} isn't there", lambda it=name: is_told_of(it)) for name in PROGRAMS]
    found += [Check("the script icrun", "from any folder, and by a link", lambda: runs(program)),
              Check("the script icrun", "those of the other programs are the same", are_the_same),
              Check("the script icrun", "with a program that tools/build built", lambda: runs_what_is_built(program)),
              Check("the script icrun", f"within {MILLISECONDS} ms", lambda: is_quick(program), 3)]
    return found


def copy(program: str, folder: Path) -> Path:
    """A folder with the script and the program; the script."""
    (folder / "top" / "release").mkdir(parents=True)
    shutil.copy(str(ROOT / "icrun"), str(folder / "top"))
    shutil.copy(program, str(folder / "top" / "release" / "icrun"))
    if (ROOT / "release" / "SOURCES").is_file():
        shutil.copy(str(ROOT / "release" / "SOURCES"), str(folder / "top" / "release"))
    return folder / "top" / "icrun"


def call(script: Path, folder: Path) -> Done:
    return run([str(script), *WORDS], folder, {"XDG_CACHE_HOME": str(folder / "cache")})


def is_told(program: str, how: Callable[[Path], object]) -> Optional[str]:
    """One line on standard error, status 1, and no log."""
    with new_folder() as folder:
        script = copy(program, folder)
        how(folder / "top" / "release" / "icrun")
        done = call(script, folder)
        if done.status != 1 or done.out or (folder / "icrun.00.log2").exists():
            return f"status {done.status}, output {done.out!r}"
        return text_difference("standard error", TOLD.format("icrun").encode(), done.err)


def is_told_of(name: str) -> Optional[str]:
    """A script whose program isn't there says so of its own program, and makes no log."""
    with new_folder() as folder:
        (folder / "top").mkdir()
        shutil.copy(str(ROOT / name), str(folder / "top"))
        done = run([str(folder / "top" / name), *WORDS[1:]], folder, {"XDG_CACHE_HOME": str(folder / "cache")})
        if done.status != 1 or done.out or list(folder.glob("*.log2")):
            return f"status {done.status}, output {done.out!r}"
        return text_difference("standard error", TOLD.format(name).encode(), done.err)


def is_report(done: Done) -> Optional[str]:
    if done.status != 0 or done.err:
        return f"status {done.status}, error {done.err!r}"
    return text_difference("the report", (TALLY / "report").read_bytes(), done.out)


def runs(program: str) -> Optional[str]:
    with new_folder() as folder:
        script = copy(program, folder)
        (folder / "links").mkdir()
        (folder / "links" / "walk").symlink_to(script)
        (folder / "links" / "again").symlink_to("walk")
        for number, name in enumerate([script, Path("../top/icrun"), folder / "links" / "walk", Path("../links/again")]):
            place = folder / f"place-{number}"
            place.mkdir()
            why = is_report(call(name, place))
            if why or not (place / "icrun.00.log2").exists():
                return f"{name}: {why or 'the log is elsewhere'}"
    return None


def runs_what_is_built(program: str) -> Optional[str]:
    """The program in the user's cache, where tools/build leaves it."""
    with new_folder() as folder:
        script = copy(program, folder)
        code = "from building.sources import place_of; from pathlib import Path; print(place_of(Path(__import__('sys').argv[1]).resolve()))"
        told = run([sys.executable, "-B", "-c", code, str(script.parent)], ROOT / "tools", {"XDG_CACHE_HOME": str(folder / "cache")})
        place = Path(told.out.decode().strip())
        place.mkdir(parents=True)
        shutil.move(str(folder / "top" / "release" / "icrun"), str(place / "icrun"))
        return is_report(call(script, folder))


def are_the_same() -> Optional[str]:
    """A script runs the program of its own name, so all can have the same text."""
    script = (ROOT / "icrun").read_bytes()
    others = [name for name in PROGRAMS if (ROOT / name).read_bytes() != script or not os.access(str(ROOT / name), os.X_OK)]
    return f"other scripts: {others}" if others else None


def is_quick(program: str) -> Optional[str]:
    """The script takes little more than the program: the least time of several calls that are refused for their words."""
    with new_folder() as folder:
        script = copy(program, folder)
        least = [min(milliseconds(name, folder) for _ in range(CALLS)) for name in (program, str(script))]
        return None if least[1] - least[0] < MILLISECONDS else f"the program takes {least[0]:.1f} ms, the script {least[1]:.1f} ms"


def milliseconds(name: str, folder: Path) -> float:
    """The processor's time of a call and of all that it calls, which tells the same however busy the machine is."""
    process = subprocess.Popen([name], cwd=str(folder), stdin=subprocess.DEVNULL, stdout=subprocess.DEVNULL, stderr=subprocess.DEVNULL)
    _, status, used = os.wait4(process.pid, 0)
    process.returncode = status
    return 1000 * (used.ru_utime + used.ru_stime)
