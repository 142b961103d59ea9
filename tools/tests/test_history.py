"""The merged history: its last values are those of an audit, on examples and random runs."""

import csv
import hashlib
import io
import json
import shutil
import subprocess

from support import DATA, FORMER, ROOT, ToolTest

from ictools import history
from ictools.scenario import read_scenario

RUNS = ROOT / "tests" / "runs"
EXAMPLES = ("tally", "payments", "orders", "workflow")


def audits():
    """Each audit of the worked runs: its folder, the status, the scenario, what it prints, and the folder of its logs."""
    for folder in sorted(RUNS.iterdir()):
        logs = None
        for number, line in enumerate((folder / "calls").read_text().splitlines(), 1):
            found = folder / ("%d.found" % number)
            logs = found if found.is_dir() else logs
            words = line.split()
            if words[1:2] == ["audit"] and len(words) == 3 and logs is not None:
                yield folder.name, int(words[0]), folder / words[2], (folder / ("%d.printed" % number)).read_text().splitlines(), logs
            left = folder / ("%d.logs" % number)
            logs = left if left.is_dir() else logs
            if (folder / ("%d.any-logs" % number)).exists() or (left / "sums").exists():
                logs = None


class Histories(ToolTest):
    def test_audits_of_worked_runs(self):
        """Random runs among them: the values, the outputs and the number of entries are those that the model prints."""
        seen = {0: 0, 6: 0}
        for name, status, scenario, printed, logs in audits():
            if status == 0:
                found = history.open_history(str(scenario), str(logs))
                self.assertEqual(printed, list(history.text_lines(found))[-len(printed):], name)
                seen[0] += 1
            elif printed[-1].startswith("icrun: illegal history"):
                found = history.open_history(str(scenario), str(logs))
                list(found.told())
                self.assertEqual(printed[-1], "icrun: " + found.illegal.partition(":")[0], name)
                seen[6] += 1
        self.assertGreater(seen[0], 30)
        self.assertGreater(seen[6], 0)

    def test_examples(self):
        program = self.need_program()
        for name in EXAMPLES:
            folder = ROOT / "examples" / name
            place = self.folder / name
            place.mkdir()
            for words in (["run", str(folder / "scenario"), str(folder / "schedule")], ["audit", str(folder / "scenario")]):
                done = subprocess.run([program] + words, cwd=str(place), stdout=subprocess.PIPE)
            audit = done.stdout.decode().splitlines()
            found = list(history.text_lines(history.open_history(str(folder / "scenario"), str(place))))
            self.assertEqual(audit, found[-len(audit):], name)

    def test_the_tool(self):
        for case in (DATA / "sale").iterdir():
            shutil.copy(str(case), str(self.folder))
        status, out, err = self.run_tool("history", "scenario")
        self.assertEqual((0, ""), (status, err))
        for part in ("bank       transaction 1 of till committed\n" + " " * 25 + "bank: account 1000 -> 300\n" + " " * 25
                     + "till: paid 0 -> 1\n" + " " * 25 + "shows clerk: 1 0 (output 1)\n",
                     "transaction 2 at bank aborted: the `need` of line 16 failed"):
            self.assertIn(part, out)
        _, out, _ = self.run_tool("history", "scenario", "--json")
        told = json.loads(out)
        self.assertEqual(({"shop": {"orders": 2}, "bank": {"account": 300}, "till": {"paid": 1, "refused": 1}}, 2, None),
                         (told["values"], told["outputs"], told["illegal"]))
        self.assertEqual(["input", "input", "take", "commit", "take", "abort"], [it["kind"] for it in told["history"]])
        _, out, _ = self.run_tool("history", "scenario", "--csv", "ledgers")
        self.assertEqual(["3", "3", "bank", "account", "1000", "300", "till", "1"], list(csv.reader(io.StringIO(out)))[1])
        _, out, _ = self.run_tool("history", "scenario", "--csv", "outputs")
        self.assertEqual([["3", "3", "till", "clerk", "1", "1", "0"], ["5", "6", "till", "clerk", "2", "1", "1"]],
                         list(csv.reader(io.StringIO(out)))[1:])

    def test_former_logs(self):
        """Those of the former format have the same history."""
        told = [self.run_tool("history", folder / "sale" / "scenario", folder / "sale") for folder in (DATA, FORMER)]
        self.assertEqual((0, told[0]), (told[1][0], told[1]))

    def test_doubts(self):
        """An older log beside newer ones passes an audit, and is told here; worked runs have none."""
        for case in (DATA / "sale").iterdir():
            shutil.copy(str(case), str(self.folder))
        self.assertEqual((0, "no doubt\n", ""), self.run_tool("history", "scenario", "--doubt"))
        log = self.folder / "icrun.03.log2"
        log.write_bytes(log.read_bytes()[:9257] + b"\0")  # the ledger's log as it was at first
        self.assertEqual((1, "illegal history at entry 3: `till` has a message in hand\n", ""), self.run_tool("history", "scenario", "--doubt"))
        seen = 0
        for name, status, scenario, _, logs in audits():
            if status == 0:
                found = history.open_history(str(scenario), str(logs))
                list(found.told())
                self.assertEqual([], history.doubts(found, str(scenario), str(logs)), name)
                seen += 1
        self.assertGreater(seen, 30)

    def test_each_doubt(self):
        scenario = self.write("scenario", "pcom a\n  on h\n    send b h\n  end\nend\npcom b\n  on h\n  end\nend\n")

        def header(owner):
            return b"ICLOG002" + hashlib.sha256((self.folder / "scenario").read_bytes()).digest() + bytes([owner]) + bytes(9216)

        def log(records):
            return header(0) + bytes([1]) + len(records).to_bytes(4, "big") + records + bytes(1)

        number = (1).to_bytes(8, "big")
        self.write("icrun.00.log2", log(b"\3" + number + b"\0\0" + b"\6\1" + number + b"\7" + number + b"\5" + number + number + b"\0"))
        self.write("icrun.01.log2", header(1) + bytes(1))
        status, out, _ = self.run_tool("history", scenario, "--doubt")
        self.assertEqual(1, status)
        for part in ("at 9273: message 1 to b is told as installed, and the log of b has no receipt", "at 9283: output 1 was shown, and 0 were made",
                     "at 9292: transaction 1 is told as committed, and no log decides it"):
            self.assertIn(part, out)

    def test_logs_that_are_none(self):
        for case in (DATA / "sale").iterdir():
            shutil.copy(str(case), str(self.folder))
        log = self.folder / "icrun.02.log2"
        data = log.read_bytes()
        for changed, part in ((data[:9300], "bad at 9300: "), (data[:9262] + b"\0" + data[9263:], "bad at 9262: "), (data[:40] + b"\3" + data[41:], "bad at 40: "),
                              (data[:49] + b"\0" + data[50:], "bad at 41: "), (data[:42] + (9257).to_bytes(8, "big") + data[50:], "bad at 41: "),
                              (data[:9] + b"x" + data[10:], "of another scenario")):
            log.write_bytes(changed)
            status, out, err = self.run_tool("history", "scenario")
            self.assertEqual((1, "", True), (status, out, part in err), err)
        log.unlink()
        self.assertEqual(2, self.run_tool("history", "scenario")[0])
        self.write("scenario", "pcom a\n  on h\n  end\nend\n")
        program = read_scenario((self.folder / "scenario").read_bytes())
        header = b"ICLOG001" + hashlib.sha256((self.folder / "scenario").read_bytes()).digest()
        self.write("icrun.00.log", header + bytes([1, 0, 0, 0, 11, 3, 0, 0, 0, 0, 0, 0, 0, 1, 4, 0, 0]))
        self.assertEqual(1, len(program.components))
        status, out, _ = self.run_tool("history", "scenario")
        self.assertEqual((1, "illegal history at entry 0: there is no such handler"), (status, out.splitlines()[-1]))
