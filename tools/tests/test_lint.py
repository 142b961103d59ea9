"""All mistakes of texts, warnings, and what explain tells of logs that can't be used."""

import fcntl
import random
import re
import shutil

from support import DATA, ROOT, ToolTest, mangled

from ictools import lint
from ictools.mistakes import MISTAKES_LIMIT, scenario_mistakes, schedule_mistakes
from ictools.scenario import read_scenario
from ictools.schedule import check_schedule
from ictools.texts import TextRefused

EXAMPLES = [folder for folder in sorted((ROOT / "examples").iterdir()) if (folder / "schedule").exists()] + [DATA / "sale", DATA / "repair"]
MANY = """xcom clerk
tcom bank
  key cash 100.50
end
pcom till
  var is-done 0
  var declined 0
  on pay amount
    txn bank
      get cash_now cash
    else
      set declined declined - 1 - 1
      if amount > 3 and declined
        set declined 1
      else if amount > 2
        set decline 2
      end
    end
    while declined
      set declined "no"
    end
    out clerk declined + 1
    set is_done 1
  end
  on ask
    if declined
      set declined 1
  end
end
pcom other
  on ask
    send till pay
  end
end
"""
TOLD = [(3, "bad word", "count the smaller unit, as cents: `10050`"),
        (6, "bad word", "as `is_done`"),
        (12, "bad structure", "two operands at most"),
        (13, "bad structure", "There is no `and`"),
        (15, "bad structure", "`else` stands alone"),
        (16, "unknown name", "Is `declined` meant?"),
        (19, "bad structure", "begins with one of"),
        (20, "bad word", "no texts: let a number"),
        (22, "bad structure", "`send` and `out` take single operands"),
        (30, "bad structure", "`end` of line 28 closes `if` of line 26, and is indented as that of `on ask`"),
        (32, "wrong number of arguments", "1 parameter (amount)")]
WARNED = """xcom nobody
tcom bank
  key cash 5
  key old_cash 0
end
tcom vault
end
pcom till
  var unused 0
  var left 0
  on pay amount note
    txn bank
      get now cash
      get seen old_cash
      put cash now - amount
    else
    end
    txn bank
      get more cash
      need more > amount
      put cash more - amount
    else
    end
    if amount
      send back ring 1
    else
      send back ring amount
    end
  end
  end
pcom back
  on ring bell
    send till pay bell bell
  end
  on idle
    set left 1
  end
  var left 0
end
"""
WARNINGS = ["warning: Nothing is shown to `nobody`", "warning: No transaction is done with `vault`",
            "warning: No handler uses the variable `unused`", "warning: The parameter `note` isn't used",
            "warning: The value `seen` isn't used", "warning: `cash` may go below 0: no `need` guards it, as `need now >= amount`",
            "warning: The `end` of line 30 closes `pcom till` of line 8, and is indented otherwise",
            "warning: A circle of sends without end: `pay` of `till` sends to `ring` of `back`, then `pay` of `till`",
            "warning: No `send` names the handler `idle`"]


class Mistakes(ToolTest):
    def test_all_mistakes(self):
        found = scenario_mistakes(MANY.encode())[2]
        self.assertEqual([told[:2] for told in TOLD], [(it.line, it.cause) for it in found])
        for (_, _, part), it in zip(TOLD, found):
            self.assertIn(part, it.detail)
        self.write("scenario", MANY)
        self.write("schedule", "crash till\nparse till\npacket 0\ncrash absent\npcom a\n")
        self.write("policy", "checkpoint-every = 4\nlane = 0\nreport = full\n")
        status, out, err = self.run_tool("lint", "scenario", "schedule", "policy")
        self.assertEqual((1, ""), (status, err))
        for part in ("scenario:6:   var is-done 0\n" + " " * 18 + "^~~~~~~\n", "schedule:2: parse till", "schedule:3: packet 0",
                     "schedule:5: pcom a", "are scenario and schedule exchanged?", "Is `checkpoint_every` meant?",
                     "policy:2: lane = 0", "A string stands in quotes", "17 mistakes, 0 warnings\n"):
            self.assertIn(part, out)
        self.assertEqual(["policy", "scenario", "schedule"], sorted(path.name for path in self.folder.iterdir()))

    def test_what_the_program_refuses_is_told(self):
        """Each line that the program refuses is among the mistakes; a text that it takes has none."""
        rng = random.Random(5)
        for folder in EXAMPLES:
            text, schedule = ((folder / name).read_text() for name in ("scenario", "schedule"))
            program = read_scenario(text.encode())
            self.assertEqual([], scenario_mistakes(text.encode())[2])
            for _ in range(60):
                data = mangled(rng, text, ["end", "else", "if", "x", "7", "A", "-", "on", "pcom"]).encode()
                self.assert_told(read_scenario, data, scenario_mistakes(data)[2])
                data = mangled(rng, schedule, ["stop", "crash", "x", "7", "A", "halt"]).encode()
                self.assert_told(lambda it: check_schedule(program, it), data, schedule_mistakes(program, data, True))

    def test_texts_with_very_many_mistakes(self):
        """A text of any kind is read to its end, and told up to a limit."""
        for text in ("pcom a\n" * 90000, "pcom a\n  on h\n" * 40000, "pcom a\n  on h\n" + "    foo x\n" * 60000 + "  end\nend\n", "foo\n" * 99999):
            found = scenario_mistakes(text.encode())[2]
            self.assertTrue(0 < len(found) <= 2 * MISTAKES_LIMIT)
        self.assertEqual(MISTAKES_LIMIT, len(schedule_mistakes(read_scenario(b""), b"foo\n" * 99999, True)))

    def assert_told(self, read, data, mistakes):
        found = [(it.line, it.cause) for it in mistakes]
        self.assertEqual(sorted(set(line for line, _ in found)), [line for line, _ in found], data)
        try:
            read(data)
        except TextRefused as refused:
            self.assertIn((refused.line, refused.cause), found, data)
        else:
            self.assertEqual([], found, data)

    def test_refused_texts_of_the_worked_runs(self):
        seen = 0
        for folder in sorted((ROOT / "tests" / "runs").glob("refused-scenario-*")):
            told = re.match(r"icrun: bad scenario at line (\d+): (.*)", (folder / "1.printed").read_text().splitlines()[-1])
            words = (folder / "calls").read_text().split()
            if told is None or not (folder / words[2]).exists():
                continue
            found = scenario_mistakes((folder / words[2]).read_bytes())[2]
            self.assertIn((int(told.group(1)), told.group(2)), [(it.line, it.cause) for it in found], folder.name)
            seen += 1
        self.assertGreater(seen, 10)

    def test_warnings(self):
        self.write("scenario", WARNED.replace("  var left 0\nend\n", "end\n").replace("set left 1", "send till pay 1 1"))
        self.write("schedule", "")
        texts = lint.Texts(str(self.folder / "scenario"), str(self.folder / "schedule"), None)
        texts.look()
        told = [line.strip() for line in lint.shown(texts) if "warning: " in line]
        for part in WARNINGS:
            self.assertTrue(any(line.startswith(part) for line in told), (part, told))
        self.assertEqual(len(WARNINGS) + 1, len(told), told)  # (two variables aren't used)

    def test_missed_inputs(self):
        self.need_program()
        shutil.copy(str(ROOT / "examples" / "payments" / "scenario"), str(self.folder))
        self.write("schedule", "input till pay 60\n# busy\ninput till pay 1\ncrash till\ninput till pay 2\n")
        self.write("policy", "force_every = 1\ncheckpoint_every = 1\n")
        for words in (["scenario", "schedule"], ["scenario", "schedule", "policy"]):
            status, out, _ = self.run_tool("lint", *words)
            self.assertEqual((0, "0 mistakes, 2 warnings"), (status, out.splitlines()[-1]))
            self.assertIn("schedule:3: input till pay 1\n            ^~~~~\n  warning: This input is missed: its component has", out)
            self.assertIn("schedule:5: input till pay 2\n            ^~~~~\n  warning: This input is missed: its component is down", out)
        self.assertEqual(["policy", "scenario", "schedule"], sorted(path.name for path in self.folder.iterdir()))
        self.assertIn("missed inputs aren't looked for", self.run_tool("lint", "scenario", "schedule", "--icrun", "/absent")[1])


class Logs(ToolTest):
    """Fresh logs, and what explain says of a folder."""

    def setUp(self):
        super().setUp()
        shutil.copy(str(DATA / "sale" / "scenario"), str(self.folder))

    def explain(self, line):
        return self.run_tool("explain", "-s", "scenario", given=b"icrun: " + line.encode())[1]

    def test_no_logs(self):
        self.assertIn("nothing was run here yet", self.explain("bad log of till at 0"))
        self.write("icrun.02.log2", b"ICLO")
        for line in ("bad log of till at 4", "log of till is not blank"):
            self.assertIn("`tools/fresh` takes these logs away", self.explain(line))

    def test_a_bank_keeps_its_ledger(self):
        """No advice is to move logs away."""
        for case in ("sale",):
            for name in ("icrun.01.log2", "icrun.02.log2", "icrun.03.log2"):
                shutil.copy(str(DATA / case / name), str(self.folder))
        for line in ("bad log of till at 50", "log of till is not blank", "limit of log till", "illegal history at entry 0",
                     "foreign log of till: kept %s given %s" % ("0" * 64, "1" * 64), "disk fault of till"):
            out = self.explain(line)
            self.assertNotRegex(out, "logs? away|move|throw|delete")
            self.assertRegex(out, "resume|tools/carry|opy the folder")

    def test_what_holds_a_log(self):
        log = self.write("icrun.02.log2", bytes(9258))
        self.assertIn("can be read and written now", self.explain("disk fault of till"))
        with open(log, "rb") as file:
            fcntl.flock(file, fcntl.LOCK_EX)
            self.assertIn("Another call holds the lock of ./icrun.02.log2", self.explain("disk fault of till"))
            self.assert_tool(1, "another call holds", "fresh")
        (self.folder / "icrun.01.log2").mkdir()
        self.assertIn("icrun.01.log2 is a folder", self.explain("disk fault of shop"))
        self.assert_tool(1, "is a folder; nothing is changed", "fresh")
        self.assertIn("absent is no folder", self.run_tool("explain", "-s", "scenario", "-l", "absent",
                                                           given=b"icrun: disk fault of till")[1])

    def test_fresh(self):
        self.assert_tool(1, "there is no log in .", "fresh")
        for data in (b"", b"ICLOG", bytes(9258)):
            self.write("icrun.00.log2", b"")
            self.write("icrun.02.log2", data)
            self.assertEqual((0, "2 logs without a record taken away\n", ""), self.run_tool("fresh"))
            self.assertEqual(["scenario"], [path.name for path in self.folder.iterdir()])
        self.write("icrun.00.log2", b"")
        shutil.copy(str(DATA / "sale" / "icrun.02.log2"), str(self.folder))
        self.assert_tool(1, "may hold records; nothing is changed", "fresh")
        self.assertTrue((self.folder / "icrun.00.log2").exists())
        # logs of the former format, where no other ones are there
        for name in ("icrun.00.log2", "icrun.02.log2"):
            (self.folder / name).unlink()
        self.write("icrun.00.log", bytes(42))
        self.assert_tool(1, "icrun.00.log has 42 bytes, and may hold records; nothing is changed", "fresh")
        self.write("icrun.00.log", bytes(41))
        self.assertEqual((0, "1 log without a record taken away\n", ""), self.run_tool("fresh"))
