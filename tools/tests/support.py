"""What the tests share."""

import contextlib
import io
import json
import os
import random
import subprocess
import sys
import tempfile
import unittest
from pathlib import Path

TOOLS = Path(__file__).resolve().parent.parent
ROOT = TOOLS.parent
DATA, FORMER = TOOLS / "tests" / "data", TOOLS / "tests" / "former"  # with logs of the present and of the former format
CASES = ("sale", "repair")
LOG_CASES = (DATA / "sale", DATA / "repair", FORMER / "sale")
sys.path.insert(0, str(TOOLS))

from building.sources import Problem, built_program  # noqa: E402


def named_program():
    """The program of the environment, or the one that ./icrun would run, or None."""
    try:
        return os.environ.get("ICRUN") or str(built_program("icrun"))
    except Problem:
        return None


PROGRAM = named_program()


class ToolTest(unittest.TestCase):
    """A test with a folder of its own."""

    maxDiff = None

    def setUp(self):
        self.place = tempfile.TemporaryDirectory()
        self.addCleanup(self.place.cleanup)
        self.folder = Path(self.place.name)

    def write(self, name, data):
        """A file in the test's folder; its name."""
        path = self.folder / name
        path.write_bytes(data if isinstance(data, bytes) else data.encode("utf-8"))
        return str(path)

    def need_program(self):
        """The program over which the tools run; without one the test is skipped."""
        if PROGRAM is None:
            self.skipTest("icrun isn't here; ICRUN names it")
        return PROGRAM

    def run_tool(self, name, *words, given=b"", folder=None):
        """A call of a script as a user makes it: status, standard output, standard error."""
        done = subprocess.run([sys.executable, "-B", str(TOOLS / name)] + list(map(str, words)),
                              input=given, stdout=subprocess.PIPE, stderr=subprocess.PIPE,
                              cwd=str(folder or self.folder), env=dict(os.environ, ICRUN=PROGRAM or ""))
        self.assertNotIn(b"Traceback", done.stderr)
        return done.returncode, done.stdout.decode("utf-8"), done.stderr.decode("utf-8")

    def assert_tool(self, status, parts, name, *words, **more):
        """A call's status, and what it prints on either stream, among other things."""
        got, out, err = self.run_tool(name, *words, **more)
        for part in [parts] if isinstance(parts, str) else parts:
            self.assertIn(part, out + err)
        self.assertEqual(status, got, out + err)
        self.assertEqual(bool(err), status == 2 or name != "showlog" and status == 1 and not out)


def printed(body, *words):
    """What a body prints, in this process."""
    out = io.StringIO()
    with contextlib.redirect_stdout(out):
        status = body(*words)
    return status, out.getvalue()


def expected(case):
    """What the plain model says of the logs in a case's folder, by the names of their files."""
    return json.loads((case / "expected.json").read_text())


def logs():
    """Each log in the data: its case's folder, its name and its bytes."""
    return [(case, name, (case / name).read_bytes()) for case in LOG_CASES for name in sorted(expected(case))]


def writes_former_logs(program):
    """Whether a program writes logs of the former format."""
    with tempfile.TemporaryDirectory() as folder:
        texts = [os.path.join(folder, name) for name in ("scenario", "schedule")]
        for name, text in zip(texts, ("pcom a\nend\n", "")):
            with open(name, "w", encoding="ascii") as file:
                file.write(text)
        subprocess.run([program, "run"] + texts, cwd=folder, stdout=subprocess.DEVNULL, stderr=subprocess.DEVNULL)
        return os.path.exists(os.path.join(folder, "icrun.00.log"))


def model_folder():
    """The folder of the plain model, or None."""
    name = os.environ.get("MODEL")
    return name if name and os.path.isdir(os.path.join(name, "icoracle")) else None


def mangled(rng: random.Random, text: str, words) -> str:
    """A text with a few words and lines taken away, doubled or put in."""
    lines = text.split("\n")
    for _ in range(rng.choice([0, 1, 1, 2, 3])):
        at = rng.randrange(len(lines))
        line = lines[at].split(" ")
        change = rng.randrange(6)
        if change == 0:
            lines[at:at + 1] = [lines[at], lines[at]]
        elif change == 1:
            del lines[at]
        elif change == 2:
            line.insert(rng.randrange(len(line) + 1), rng.choice(words))
        elif change == 3:
            line.pop(rng.randrange(len(line)))
        elif change == 4:
            line[rng.randrange(len(line))] = rng.choice(rng.choice(lines).split(" "))
        else:
            lines[at], lines[0] = lines[0], lines[at]
        if change in (2, 3, 4):
            lines[at] = " ".join(line)
        lines = lines or [""]
    return "\n".join(lines)
