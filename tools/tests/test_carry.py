"""A changed scenario begins with the values of the old logs."""

import fcntl
import shutil
import subprocess

from support import ROOT, ToolTest, writes_former_logs

PAYMENTS = ROOT / "examples" / "payments"


class Carries(ToolTest):
    def setUp(self):
        super().setUp()
        self.program = self.need_program()
        self.old = (PAYMENTS / "scenario").read_text()
        self.write("old", self.old)
        self.write("new", self.old.replace("  var declined 0\n", "  var declined 00 # of all\n  var seen -3\n"))
        shutil.copy(str(PAYMENTS / "schedule"), str(self.folder))
        self.write("nothing", "")

    def icrun(self, *words, folder=None):
        done = subprocess.run([self.program] + [str(word) for word in words], cwd=str(folder or self.folder), stdout=subprocess.PIPE)
        return done.stdout.decode().splitlines()

    def state(self):
        return {path.name: path.read_bytes() for path in self.folder.iterdir() if path.is_file()}

    def assert_refused(self, part, *words):
        before = self.state()
        status, out, err = self.run_tool("carry", *words)
        self.assertEqual((1, ""), (status, out), err)
        self.assertIn(part, err)
        self.assertTrue(err.endswith("; nothing is changed\n"), err)
        self.assertEqual(before, self.state())
        self.assertEqual([], [path.name for path in self.folder.iterdir() if path.is_dir()])

    def test_values_are_carried_over(self):
        self.icrun("run", "old", "schedule")
        audit = self.icrun("audit", "old")
        status, out, err = self.run_tool("carry", "old", "new")
        self.assertEqual((0, ""), (status, err))
        for part in ("new.carried: new with 4 values of the old logs\n", "the old logs and their scenario: ./carried-1\n",
                     "new, with its declared value: till.seen=-3\n", "begins anew: numbers of messages, outputs and transactions"):
            self.assertIn(part, out)
        self.assertIn("  var declined 1 # of all\n  var seen -3\n", (self.folder / "new.carried").read_text())
        self.assertEqual(audit, self.icrun("audit", "scenario", folder=self.folder / "carried-1"))
        self.write("more", "input till pay 1\n")
        report = self.icrun("run", "new.carried", "more")
        self.assertIn("tcom bank up cash=39 paid=61", report)
        self.assertIn("pcom till up done=2 declined=1 seen=-3", report)
        # once more, over the logs of the new one
        status, out, _ = self.run_tool("carry", "new.carried", "old", "--drop", "till.seen", "-o", "again")
        self.assertEqual((0, True), (status, "the old logs and their scenario: ./carried-2\ngiven up: till.seen\n" in out))
        self.assertIn("tcom bank up cash=39 paid=61", self.icrun("run", "again", "nothing"))

    def test_what_is_refused(self):
        self.assert_refused("the audit of the old logs ends with: icrun: bad log of bank at 0", "old", "new")
        self.write("half", "input till pay 60\nhalt\n")
        self.icrun("run", "old", "half")
        self.assert_refused("the old run isn't settled; a `resume` of it with an empty schedule settles it", "old", "new")
        self.icrun("resume", "old", "nothing")
        self.write("less", self.old.replace("  key paid 0\n", "").replace("      get paid_now paid\n", "").replace(
            "      put paid paid_now + amount\n", ""))
        self.assert_refused("less has no place for: bank.paid=60 (`--drop NAME` gives a value up)", "old", "less")
        self.write("other", "pcom bank\n  var cash 0\n  var paid 0\nend\npcom till\n  var done 0\n  var declined 0\nend\n")
        self.assert_refused("has no place for: bank.cash=40, bank.paid=60", "old", "other")
        self.assert_refused("the audit of the old logs ends with: icrun: foreign log of bank", "new", "old")
        self.write("new.carried", "")
        self.assert_refused("new.carried is there already", "old", "new")
        log = "icrun.01.log" if writes_former_logs(self.program) else "icrun.01.log2"
        with open(str(self.folder / log), "rb") as file:
            fcntl.flock(file, fcntl.LOCK_EX)
            self.assert_refused("another call holds ./%s" % log, "old", "new", "-o", "out")
        self.assertEqual(2, self.run_tool("carry", "old", "absent")[0])
