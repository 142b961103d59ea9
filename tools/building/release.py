"""Puts the built programs into release/, with the file that says of what they are built; and looks whether they are those."""

from __future__ import annotations

import argparse
from pathlib import Path
from typing import Dict, List

from .sources import PROGRAMS, RELEASE, ROOT, Problem, crates_of, files_of, kit, loader_of, needed, processor, put, read_release, sum_of

ABOUT = """Copies each program that `rt ci` built into release/, and writes release/SOURCES: the kit, the processor, and the SHA-256 of
the sources of each program. Do it last: two branches can't merge these files."""


def built(root: Path, name: str) -> Path:
    return root / "crates" / name / "out" / name


def program_of(root: Path, name: str) -> bytes:
    """The program that was built there, of the sources that stand here."""
    program = built(root, name)
    if not program.is_file():
        raise Problem(f"{program} isn't there: rt ci builds it")
    if sum_of(root, name) != sum_of(ROOT, name):
        raise Problem(f"{program} is built of other sources than those in {ROOT}")
    newer = [path for crate in crates_of(needed(root, name)) for path in files_of(root, crate)
             if path.stat().st_mtime > program.stat().st_mtime]
    if newer:
        raise Problem(f"{program} is older than {newer[0]}: rt ci builds it anew")
    return program.read_bytes()


def text_of(programs: Dict[str, bytes], identity: str) -> str:
    loaders = {loader_of(program) for program in programs.values()}
    if len(loaders) != 1:
        raise Problem("the programs name several loaders")
    lines = [f"kit: {identity}", f"processor: {processor()}", f"loader: {loaders.pop()}"]
    return "".join(f"{line}\n" for line in lines + [f"{name}: {sum_of(ROOT, name)}" for name in programs])


def differences(identity: str) -> List[str]:
    """In what release/ isn't what was built in crates/ of these sources by this kit."""
    found, said = [], read_release(RELEASE / "SOURCES")
    for key, value in (("kit", identity), ("processor", processor()), *((name, sum_of(ROOT, name)) for name in PROGRAMS)):
        if said.get(key) != value:
            found.append(f"release/SOURCES has {key}: {said.get(key, 'nothing')}, and it is {value}")
    for name in PROGRAMS:
        if not (RELEASE / name).is_file():
            found.append(f"release/{name} isn't there")
        elif (RELEASE / name).read_bytes() != built(ROOT, name).read_bytes():
            found.append(f"release/{name} isn't the program that was built")
    return found


def main() -> int:
    parser = argparse.ArgumentParser(prog="release", description=ABOUT)
    parser.add_argument("folder", nargs="?", default=str(ROOT), help="the copy of the repository in which rt ci ran; this one where none is named")
    words = parser.parse_args()
    identity = kit()
    if identity is None:
        raise Problem("the kit isn't here: its command rt isn't on the path, or doesn't run")
    programs = {name: program_of(Path(words.folder).resolve(), name) for name in PROGRAMS}
    text = text_of(programs, identity)
    RELEASE.mkdir(exist_ok=True)
    for name, program in programs.items():
        put(RELEASE / name, program, 0o755)
    put(RELEASE / "SOURCES", text.encode(), 0o644)
    print(text, end="")
    return 0
