"""Installs the programs, the page for man, the completion of words and the tools below a folder, and takes them away again."""

from __future__ import annotations

import argparse
import os
from pathlib import Path
from typing import Dict, List, Tuple

from .sources import PROGRAMS, ROOT, Problem, built_program, put

TOOLS = ("chart", "explain", "showlog")  # installed under these names, and each with `icrun-` before it
MORE = ("backup", "bench", "carry", "chaos", "cost", "fresh", "history", "lint", "new", "page", "play", "restore", "seal")  # as icrun-NAME alone
COMPLETIONS = {"icrun.bash": "share/bash-completion/completions/icrun", "_icrun": "share/zsh/site-functions/_icrun",
               "icrun.fish": "share/fish/vendor_completions.d/icrun.fish"}
LIST = "share/zaimorus/installed"
INSTALL = f"""Installs below PREFIX, as /usr/local: the programs and the tools in bin, their pages in share/man/man1, the completions for
bash, zsh and fish in share, and the rest in lib/zaimorus. {LIST} lists all that was written, for uninstall."""
UNINSTALL = """Removes below PREFIX just what install wrote there, and the folders that are then empty and that install made."""


def files() -> Dict[str, Tuple[bytes, int]]:
    """What is installed: the bytes and the mode of each file, by its path below the prefix."""
    made: Dict[str, Tuple[bytes, int]] = {}
    for name in PROGRAMS:
        made[f"bin/{name}"] = built_program(name).read_bytes(), 0o755
        made[f"share/man/man1/{name}.1"] = (ROOT / "docs" / f"{name}.1").read_bytes(), 0o644
    for name in TOOLS + MORE:
        made[f"lib/zaimorus/tools/{name}"] = (ROOT / "tools" / name).read_bytes(), 0o755
    for part in ("ictools/*.py", "ictools/*.html", "templates/*/*", "editors/*"):
        for path in sorted((ROOT / "tools").glob(part)):
            made[f"lib/zaimorus/tools/{path.relative_to(ROOT / 'tools').as_posix()}"] = path.read_bytes(), 0o644
    made["lib/zaimorus/VERSION"] = (ROOT / "VERSION").read_bytes(), 0o644
    for name, place in COMPLETIONS.items():
        made[place] = (ROOT / "tools" / name).read_bytes(), 0o644
    return made


def links() -> Dict[str, str]:
    """Which links are made: where each leads, by its path below the prefix."""
    made = {f"bin/{name}": f"../lib/zaimorus/tools/{name}" for name in TOOLS}
    made.update({f"bin/icrun-{name}": f"../lib/zaimorus/tools/{name}" for name in TOOLS + MORE})
    made.update({f"share/bash-completion/completions/{name}": "icrun" for name in ("iclive", *TOOLS, *(f"icrun-{name}" for name in TOOLS + MORE))})
    return made


def listed(prefix: Path) -> List[str]:
    """What an earlier install wrote; folders end with a slash."""
    file = prefix / LIST
    return file.read_text().splitlines() if file.is_file() else []


def install(prefix: Path) -> None:
    written, made_links = files(), links()
    before = listed(prefix)
    for path in (*written, *made_links, LIST):
        at = prefix / path
        if os.path.lexists(str(at)) and path not in before and path != LIST:
            raise Problem(f"{at} is there already, and no install of this wrote it; nothing is changed")
    folders: List[str] = [path for path in before if path.endswith("/")]
    now: List[str] = []
    try:
        for path in sorted({str(Path(path).parent) for path in (*written, *made_links, LIST)}):
            make_folders(prefix, path, folders)
        for path, (data, mode) in written.items():
            now.append(path)
            put(prefix / path, data, mode)
        for path, to in made_links.items():
            now.append(path)
            link(prefix / path, to)
        remove(prefix, [path for path in before if not path.endswith("/") and path not in now])
        put(prefix / LIST, "".join(f"{path}\n" for path in [*now, LIST, *folders]).encode(), 0o644)
    except OSError:
        # (an earlier install is gone as well: half of each would be worse)
        remove(prefix, [*now, *before, LIST, *folders])
        raise


def make_folders(prefix: Path, path: str, made: List[str]) -> None:
    """The folder and those above it; those that weren't there are noted."""
    at = prefix
    if not at.is_dir():
        at.mkdir(parents=True)
        made.append("./")
    for part in Path(path).parts:
        at = at / part
        if not at.is_dir():
            at.mkdir()
            at.chmod(0o755)
            made.append(f"{at.relative_to(prefix).as_posix()}/")


def link(at: Path, to: str) -> None:
    if os.path.lexists(str(at)):
        at.unlink()
    os.symlink(to, str(at))


def remove(prefix: Path, paths: List[str]) -> None:
    """Files and links, and then folders that are empty, the lowest first."""
    for path in paths:
        if not path.endswith("/") and os.path.lexists(str(prefix / path)):
            (prefix / path).unlink()
    for path in sorted((path for path in paths if path.endswith("/")), reverse=True):
        try:
            (prefix / path).rmdir()
        except OSError:
            pass  # (something else stands in it)


def uninstall(prefix: Path) -> None:
    paths = listed(prefix)
    if not paths:
        raise Problem(f"nothing is installed in {prefix}: {LIST} isn't there")
    if any(Path(path).is_absolute() or ".." in Path(path).parts for path in paths):
        raise Problem(f"{prefix / LIST} names something outside; nothing is changed")
    remove(prefix, paths)


def prefix_of(tool: str, about: str) -> Path:
    parser = argparse.ArgumentParser(prog=tool, description=about)
    parser.add_argument("prefix", metavar="PREFIX")
    return Path(parser.parse_args().prefix).absolute()


def main_install() -> int:
    prefix = prefix_of("install", INSTALL)
    install(prefix)
    print(f"installed in {prefix}; tools/uninstall {prefix} takes it away")
    return 0


def main_uninstall() -> int:
    uninstall(prefix_of("uninstall", UNINSTALL))
    return 0
