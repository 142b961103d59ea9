"""The table of contracts, docs/CONTRACTS.md: each public call of each crate that takes part in a run, in the words of its own comment,
with the names of its clauses and the definitions that they cite. With --write the page is written, else compared with what stands there."""

from __future__ import annotations

import re
import sys
from pathlib import Path
from typing import Iterator, List, NamedTuple, Tuple

ROOT = Path(__file__).resolve().parent.parent
PAGE = ROOT / "docs" / "CONTRACTS.md"
APART = re.compile(r"def_|law_|case|test_")
FUNCTION = re.compile(r"^\s*pub fn (\w+)")
OWNER = re.compile(r"^(?:impl|pub trait|trait)\b(?:<[^{]*?>)?\s*(?:(?:\w+(?:<[^{]*>)?) for )?(\w+)")
METHOD = re.compile(r"^\s+fn (\w+)")
CLAUSE = re.compile(r"^\s*(requires|ensures)\s+(\w+)?\s*\{(.*)\}\s*$")
IMPORT = re.compile(r"^\s*ghost use Rattle\.(?!std\.)[\w.]*specs[\w.]*\.\{([^}]*)\};")
HEAD = """# Contracts

Each public call of the crates that take part in a run, in the words of its own comment, with the names of the clauses of its contract
and of the definitions that they cite. A call is proved to meet all of them. PROOF.md says how clauses are read, what must be believed,
and what isn't claimed. `.ci/contracts.py` writes this page, and the gate compares it with the sources.
"""


class Call(NamedTuple):
    name: str
    what: str
    clauses: List[str]


def crates() -> Iterator[str]:
    for line in (ROOT / "crates.txt").read_text().splitlines():
        name = line.split(":")[0].split()[0] if ":" in line and not line.startswith("#") else ""
        if name and not APART.match(name):
            yield name


def sentence(lines: List[str]) -> str:
    text = " ".join(line.strip().lstrip("/!").strip() for line in lines)
    found = re.match(r"(.*?[.:])(\s|$)", text)
    return (found[1] if found else text).rstrip(":").replace("|", "\\|")


def clause(kind: str, name: str, text: str, imported: set) -> str:
    cited = [word for word in dict.fromkeys(re.findall(r"\b[A-Z][A-Za-z]*[a-z]\w*", text)) if word in imported]
    told = f"`{name}`" if name else ("condition" if kind == "requires" else "result")
    told = f"{told} (asked)" if kind == "requires" and name else told
    return told + (f": {', '.join(f'`{word}`' for word in cited)}" if cited else "")


def calls(path: Path) -> Iterator[Call]:
    lines = path.read_text().splitlines()
    imported = {word.strip() for line in lines for group in IMPORT.findall(line) for word in group.split(",")}
    owner, is_trait, comment, at = "", False, [], 0
    while at < len(lines):
        line = lines[at]
        if line.startswith(("impl", "pub trait", "trait")):
            found = OWNER.match(line)
            owner, is_trait = (found[1] if found else ""), line.startswith("pub trait")
        elif line.startswith("}"):
            owner, is_trait = "", False
        elif line.startswith("#[cfg(test)]"):
            at += 1
        found = FUNCTION.match(line) or (METHOD.match(line) if is_trait else None)
        if line.strip().startswith("///"):
            comment.append(line)
        elif found:
            clauses = []
            while at + 1 < len(lines) and lines[at + 1].strip() not in ("{", "{}") and not lines[at].rstrip().endswith((";", "{", "{}")):
                at += 1
                part = CLAUSE.match(lines[at])
                if part:
                    clauses.append(clause(part[1], part[2] or "", part[3], imported))
            yield Call(f"{owner}::{found[1]}" if owner else found[1], sentence(comment), clauses)
            comment = []
        elif not line.strip().startswith("#["):
            comment = []
        at += 1


def table(crate: str) -> Tuple[str, int]:
    folder = ROOT / "crates" / crate / "src"
    root = folder / ("lib.rt" if (folder / "lib.rt").is_file() else "main.rt")
    about = [line for line in root.read_text().splitlines() if line.startswith("//!")]
    rows = [call for path in sorted(folder.rglob("*.rt")) if "trials" not in path.parts and path.stem not in ("trials", "faults") for call in calls(path)]
    told = [f"| `{call.name}` | {call.what} | {'; '.join(call.clauses)} |" for call in rows if call.clauses]
    if not told:
        return "", 0
    return "\n".join([f"## `{crate}`", "", " ".join(line[3:].strip() for line in about), "", "| Call | What it does | Clauses |", "|---|---|---|", *told, ""]), len(told)


def page() -> str:
    tables = [table(crate)[0] for crate in crates()]
    return HEAD + "\n" + "\n".join(text for text in tables if text)


def main(words: List[str]) -> int:
    text = page()
    if words == ["--write"]:
        PAGE.write_text(text)
        return 0
    if PAGE.is_file() and PAGE.read_text() == text:
        print("docs/CONTRACTS.md is what the sources say")
        return 0
    print("docs/CONTRACTS.md isn't what the sources say: .ci/contracts.py --write writes it")
    return 1


if __name__ == "__main__":
    sys.exit(main(sys.argv[1:]))
