"""The prompt over a scenario."""

import os
import pty
import shutil
import subprocess
import sys

from support import ROOT, TOOLS, ToolTest, writes_former_logs

from ictools.play import Player
from ictools.scenario import load_scenario

PAYMENTS = ROOT / "examples" / "payments"


class Plays(ToolTest):
    def setUp(self):
        super().setUp()
        self.program = self.need_program()
        shutil.copy(str(PAYMENTS / "scenario"), str(self.folder))

    def play(self, text, *words):
        return self.run_tool("play", "scenario", *words, given=text.encode())

    def icrun(self, *words):
        done = subprocess.run([self.program] + list(words), cwd=str(self.folder), stdout=subprocess.PIPE)
        return done.stdout.decode().splitlines()

    def test_what_is_saved_misses_no_input(self):
        text = "settled\ninput till pay 60\ninput till pay 10\ncrash bank\ninput till pay 1 # a comment\nvalues\nsave made\n"
        status, out, err = self.play(text)
        self.assertEqual((0, ""), (status, err))
        self.assertEqual(["scenario", "made"][::-1], sorted(path.name for path in self.folder.iterdir()))
        report = self.icrun("run", "scenario", "made")
        self.assertIn("inputs taken 3 kept 0 lost 0 missed 0", report)
        # what was told at the prompt is what the run prints
        told = [line[2:] for line in out.splitlines() if line.startswith("  ") and line[2:3].isdigit()]
        lines = len((self.folder / "made").read_text().splitlines())
        self.assertEqual([line for line in report if line[:1].isdigit()][:lines], told)
        # and over these logs a later play goes on, without changing them
        before = {path.name: path.read_bytes() for path in self.folder.glob("*.log*")}
        status, out, _ = self.play("settled\ninput till pay 2\nvalues\nsave more\n", ".")
        self.assertEqual(0, status, out)
        self.assertEqual(before, {path.name: path.read_bytes() for path in self.folder.glob("*.log*")})
        self.assertIn("inputs taken 1 kept 0 lost 0 missed 0", self.icrun("resume", "scenario", "more"))

    def test_lines_that_are_refused(self):
        status, out, _ = self.play("input till pay\njump\nundo x\nsave scenario\nundo\nhelp me\n")
        self.assertEqual(1, status)
        for part in ("wrong number", "has 1 parameter (amount)", "A line begins with one of", "The form is `undo [N]`",
                     "scenario: File exists", "no line to take back", "`help` has the words"):
            self.assertIn(part, out.replace("The handler", "wrong number: The handler"))
        status, out, _ = self.play("input till pay 1\ninput till pay 2\nlines\n")
        self.assertEqual((1, True), (status, "The input is missed, so the line isn't kept" in out))
        self.assertTrue(out.endswith("> lines\n  input till pay 1\n"), out)
        (self.folder / ("icrun.01.log" if writes_former_logs(self.program) else "icrun.01.log2")).write_bytes(b"x")
        status, _, err = self.play("", ".")
        self.assertEqual((1, "play: icrun: bad log of bank at 0\n"), (status, err))

    def test_undo_and_completion(self):
        _, program = load_scenario(str(self.folder / "scenario"))

        class Still(Player):
            """Without runs: what a step adds."""

            def add(self, lines):
                self.lines += lines
                self.groups.append(len(lines))
                return []

        player = Still(None, program)
        player.add(["a"])
        player.add(["b", "c", "d"])
        player.do("undo 2")
        self.assertEqual((["a", "b"], [1, 1]), (player.lines, player.groups))
        player.do("undo")
        player.do("undo 9")
        self.assertEqual(([], []), (player.lines, player.groups))
        for before, offered in ((["input"], ["till"]), (["input", "till"], ["pay"]), (["input", "till", "pay"], []),
                                (["deliver", "till"], ["bank", "till"]), (["crash"], ["bank", "till"]), (["crash", "till"], []),
                                (["save"], [])):
            self.assertEqual(offered, player.offered(before))
        self.assertIn("settle", player.offered([]))

    def test_a_terminal(self):
        """At a prompt a refused line is passed over, and a tab completes a name."""
        ours, its = pty.openpty()
        process = subprocess.Popen([sys.executable, "-B", str(TOOLS / "play"), "scenario"], stdin=its, stdout=its, stderr=its,
                                   cwd=str(self.folder), env=dict(os.environ, ICRUN=self.program, TERM="dumb"))
        os.close(its)
        os.write(ours, b"jump\ninp\tti\tp\t7\nquit\n")
        out = b""
        try:
            while True:
                out += os.read(ours, 4096)
        except OSError:  # (the other end is closed)
            os.close(ours)
        self.assertEqual(0, process.wait(60))
        self.assertIn(b"A line begins with one of", out)
        try:
            import readline  # noqa: F401
        except ImportError:
            return
        self.assertIn(b"1 input till pay 7: taken", out)
