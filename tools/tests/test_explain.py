"""Explanations of last lines."""

import re
import shutil

from support import DATA, FORMER, ROOT, ToolTest

HEX = "0123456789abcdef" * 4
TEXT_CAUSES = ["limit", "not text", "bad word", "bad structure", "name twice", "unknown name",
               "wrong number of arguments"]
LAST_LINES = (
    ["bad scenario at line 4: " + cause for cause in TEXT_CAUSES]
    + ["bad schedule at line 4: " + cause for cause in TEXT_CAUSES]
    + ["bad policy: " + cause for cause in ("not TOML", "unknown key", "wrong kind",
                                            "out of range")]
    + ["usage: run SCENARIO SCHEDULE [POLICY], resume SCENARIO SCHEDULE [POLICY], "
       "audit SCENARIO, make NUMBER", "foreign log of till: kept %s given %s" % (HEX, HEX),
       "bad log of till at 45", "illegal history at entry 0", "limit of receipts",
       "limit of packets", "limit of log till", "read fault", "disk fault of till",
       "log of till is not blank"])
UNKNOWN = ["hello", "icrun: hello", "icrun: bad scenario at line 4: no cause", "run: read fault",
           "icrun: bad log of till at x", "icrun: bad scenario at line : limit",
           "icrun: bad schedule at line %s: limit" % ("9" * 5000), "icrun:read fault"]

SHOWN = [  # the kind of text, the text, the last line, the lines that are shown
    ("schedule", "input till\n", "bad schedule at line 1: bad structure",
     ["schedule:1: input till", "                       ^"]),
    ("schedule", "crash till\n\tcrash tils # x\n", "bad schedule at line 2: unknown name",
     ["schedule:2:  crash tils # x", "                   ^~~~", "Is `till` meant?"]),
    ("schedule", "crash \x80\n", "bad schedule at line 1: not text",
     ["schedule:1: crash \\xc2\\x80", "                  ^~~~"]),
    ("schedule", "crash till" + " " * 400 + "x\n", "bad schedule at line 1: bad structure",
     ["schedule:1: .. " + " " * 50 + "x", " " * 65 + "^"]),
    ("schedule", "crash till\n", "bad schedule at line 1: bad structure", ["isn't refused now"]),
    ("schedule", "crash a\n", "bad schedule at line 1: limit", ["at line 1: unknown name"]),
    ("scenario", "pcom a\n  on h\n    set x 1\n  end\n", "bad scenario at line 5: bad structure",
     ["scenario:5: ", "an `end` is missing for: `pcom a` of line 1"]),
    ("scenario", "pcom a\n  vat x 1\nend\n", "bad scenario at line 2: bad structure",
     ["scenario:2:   vat x 1", "              ^~~"]),
    ("scenario", "pcom a\n  var x 0\n  on h\n    if x\n    else if x\n    end\n    set y 1\n  end\nend\n", "bad scenario at line 5: bad structure",
     ["`else` stands alone on its line: nest an `if` behind it", "There is another mistake: `tools/lint scenario` shows all"]),
    ("scenario", "pcom a\n  var x 0\n  on h\n    set x x - 1 - 1\n  end\nend\n", "bad scenario at line 4: bad structure",
     ["scenario:4:     set x x - 1 - 1", " " * 28 + "^", "A value has two operands at most"]),
    ("scenario", "input till order 1\n", "bad scenario at line 1: bad structure", ["are scenario and schedule exchanged?"]),
    ("schedule", "packet 0\n", "bad schedule at line 1: bad structure",
     ["The number of a packet goes from 1 to 1000000", "The order is `run SCENARIO SCHEDULE"]),
    ("policy", "checkpoint-every = 1\n", "bad policy: unknown key", ["Is `checkpoint_every` meant?"]),
    ("policy", "lane = 64\nlane_ = 1\n", "bad policy: unknown key",
     ["policy:2: lane_ = 1", "          ^~~~~"]),
    ("policy", "report = \"\"\"full\n\"\"\"\n", "bad policy: out of range",
     ["The line isn't found in policy"]),
]


class Explained(ToolTest):
    def setUp(self):
        super().setUp()
        for name in ("scenario", "schedule", "icrun.01.log2", "icrun.02.log2", "icrun.03.log2"):
            shutil.copy(str(DATA / "sale" / name), str(self.folder / name))
        self.write("policy", "lane = 0\n")

    def explain(self, line, *words):
        return self.run_tool("explain", *words, given=line.encode("utf-8", "surrogateescape"))

    def test_each_last_line(self):
        every = ["-s", "scenario", "-c", "schedule", "-p", "policy"]
        for text in LAST_LINES:
            for program in ("icrun", "iclive"):
                for words in ([], every):
                    status, out, err = self.explain("%s: %s\n" % (program, text), *words)
                    self.assertEqual((0, ""), (status, err), text)
                    self.assertIn("Usual mistake: ", out)
                    self.assertIn("What to do: ", out)

    def test_lines_of_iclive(self):
        """They are of its own logs, and it goes on from none."""
        (self.folder / "icrun.01.log2").rename(self.folder / "iclive.01.log2")
        _, out, _ = self.explain("iclive: log of shop is not blank\n", "-s", "scenario")
        self.assertIn("Its log is ./iclive.01.log2, with", out)
        for line in ("log of shop is not blank", "disk fault of shop"):
            _, out, _ = self.explain("iclive: %s\n" % line, "-s", "scenario")
            self.assertNotIn("resume", out)

    def test_lines_that_are_none(self):
        for line in UNKNOWN:
            status, out, err = self.explain(line + "\n")
            self.assertEqual((1, ""), (status, out))
            self.assertTrue(err.startswith("explain: no last line of icrun: "), err)
        status, out, _ = self.explain("")
        self.assertEqual((1, True), (status, "Statuses 9 and 12" in out))
        for line in ("settled", "halted", "legal", "migrated tally 9306"):
            self.assertEqual((0, True), (lambda got: (got[0], "nothing was refused" in got[1]))(
                self.explain("history 3\n%s\n" % line)))
        self.assertNotIn("\x1b", "".join(self.explain("icrun: \x1b[2J\n")[1:]))

    def test_only_the_last_line_counts(self):
        _, out, _ = self.explain("1 crash till: done\nicrun: read fault\r\n\n")
        self.assertTrue(out.startswith("icrun: read fault\n"), out)

    def test_lines_of_texts(self):
        for kind, text, line, parts in SHOWN:
            self.write(kind, text)
            words = ["--scenario", "scenario", "--" + kind, kind]
            status, out, _ = self.explain("icrun: " + line, *words)
            self.assertEqual(0, status)
            for part in parts:
                self.assertIn(part, out)
            if parts[-1].strip("^~ ") == "":
                self.assertIn("\n" + parts[0] + "\n" + parts[1] + "\n", out)
            shutil.copy(str(DATA / "sale" / "scenario"), str(self.folder / "scenario"))

    def test_without_the_files(self):
        for line, part in (("bad scenario at line 1: limit", "Give --scenario to see"),
                           ("bad schedule at line 1: limit", "Give --scenario and --schedule"),
                           ("bad policy: not TOML", "Give --policy"),
                           ("bad log of till at 4", "Give --scenario, with the component till"),
                           ("illegal history at entry 0", "Give --scenario to see the entry")):
            self.assertIn(part, self.explain("icrun: " + line)[1])
        out = self.explain("icrun: bad schedule at line 2: bad word", "-c", "schedule")[1]
        self.assertIn("schedule:2: lose shop till", out)
        for word in ("-s", "-c", "-p"):
            self.assert_tool(2, "absent: No such file", "explain", "-s", "scenario", word,
                             "absent", given={"-s": b"icrun: bad scenario at line 1: limit",
                                              "-c": b"icrun: bad schedule at line 1: limit",
                                              "-p": b"icrun: bad policy: not TOML"}[word])

    def test_logs(self):
        log = self.folder / "icrun.02.log2"
        data = log.read_bytes()
        for changed, place, part in ((data[:9417], 9417, "bad at 9417: the file ends inside batch 4"),
                                     (data[:9262] + b"\0" + data[9263:], 9262, "begins no whole record"),
                                     (data[:9476] + data[9262:9280] + data[9494:], 9476,
                                      "its stamp isn't above the clock")):
            log.write_bytes(changed)
            out = self.explain("icrun: bad log of till at %d" % place, "-s", "scenario")[1]
            self.assertIn("bad at %d: " % place, out)
            self.assertIn(part, out)
            self.assertEqual(changed, log.read_bytes())
        out = self.explain("icrun: bad log of till at 134217728", "-s", "scenario")[1]
        self.assertIn("no room for the next epoch", out)
        out = self.explain("icrun: bad log of till at 4", "-s", "scenario", "-l", "absent")[1]
        self.assertIn("There is no absent/icrun.02.log2", out)

    def test_former_logs(self):
        """Logs of the former format are shown, and `migrate` makes new ones of them."""
        line = "icrun: bad log of till at 0"
        for name in ("icrun.01", "icrun.02", "icrun.03"):
            shutil.copy(str(FORMER / "sale" / (name + ".log")), str(self.folder))
        self.assertNotIn("migrate", self.explain(line, "-s", "scenario")[1])
        (self.folder / "icrun.02.log2").write_bytes(bytes(300))
        self.assertIn("was cut off, take the new logs away first", self.explain(line, "-s", "scenario")[1])
        for name in ("icrun.01", "icrun.02", "icrun.03"):
            (self.folder / (name + ".log2")).unlink()
        out = self.explain(line, "-s", "scenario")[1]
        self.assertIn("log ./icrun.02.log: 354 bytes, of the former format, component 2, pcom till", out)
        self.assertIn("`icrun migrate SCENARIO` makes new logs", out)
        self.assertIn("no room for the next epoch", self.explain("icrun: bad log of till at 67108864", "-s", "scenario")[1])

    def test_foreign(self):
        shutil.copy(str(ROOT / "examples" / "tally" / "scenario"), str(self.folder / "other"))
        shutil.copy(str(self.folder / "icrun.01.log2"), str(self.folder / "icrun.00.log2"))
        line = "icrun: foreign log of tally: kept %s given %s" % (HEX, HEX)
        out = self.explain(line, "-s", "other")[1]
        self.assertIn("not that of other, which is fe16c634", out)

    def test_entries(self):
        """The entries of a history are in order of stamp and component."""
        entries = ["record at 9262 of ./icrun.01.log2", "record at 9286 of ./icrun.01.log2",
                   "record at 9262 of ./icrun.02.log2", "record at 9262 of ./icrun.03.log2",
                   "record at 9476 of ./icrun.02.log2", "record at 9534 of ./icrun.02.log2"]
        for index, part in enumerate(entries):
            out = self.explain("icrun: illegal history at entry %d" % index, "-s", "scenario")[1]
            self.assertIn("Entry %d is the %s:" % (index, part), out)
        out = self.explain("icrun: illegal history at entry 6", "-s", "scenario")[1]
        self.assertIn("have 6 entries", out)

    def test_files_of_a_log(self):
        for line in ("log of till is not blank", "disk fault of till", "limit of log till"):
            self.assertIn("Its log is ./icrun.02.log2, with 9571 bytes",
                          self.explain("icrun: " + line, "-s", "scenario")[1])
        out = self.explain("icrun: read fault", "-s", "scenari", "-c", "schedule")[1]
        self.assertTrue(re.search(r"^scenari: No such file", out, re.M), out)
