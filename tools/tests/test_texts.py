"""Scenarios, schedules and policies: the line, the cause and the place of a refusal."""

import unittest

from support import DATA, ROOT

from ictools.policy import find_fault
from ictools.scenario import read_scenario
from ictools.schedule import check_schedule
from ictools.texts import TextRefused

HEAD = "xcom u\ntcom t\n  key s 1\nend\npcom b\n  on k q r\n  end\nend\npcom a\n  var x 0\n"
SCENARIOS = [  # lines behind `pcom a` with its variable x; what is refused; its line and place
    ("on h p\nset x p +\nend\nend", "bad structure", 12, 10),
    ("on h p\nset x p p p\nend\nend", "bad structure", 12, 8),
    ("on h p\nset x p + p p\nend\nend", "bad structure", 12, 12),
    ("on h p\nset y p\nend\nend", "unknown name", 12, 4),
    ("on h p\nset p 1\nend\nend", "unknown name", 12, 4),
    ("on h p\nset x q\nend\nend", "unknown name", 12, 6),
    ("on h p\nset  x==p\nend\nend", "bad word", 12, 5),
    ("on h P\nend\nend", "bad word", 11, 5),
    ("on h p # \x80\nend\nend", "not text", 11, 9),
    ("on h x\nend\nend", "name twice", 11, 5),
    ("on h p p\nend\nend", "name twice", 11, 7),
    ("on h\nend\non h\nend\nend", "name twice", 13, 3),
    ("on stop\nend\nend", "bad structure", 11, 3),
    ("on set\nend\nend", "bad structure", 11, 3),
    ("on h a1 a2 a3 a4 a5 a6 a7 a8 a9\nend\nend", "limit", 11, 29),
    ("on h\nsend b k 1\nend\nend", "wrong number of arguments", 12, 11),
    ("on h\nsend b k 1 2 3\nend\nend", "wrong number of arguments", 12, 13),
    ("on h\nsend b l 1 2\nend\nend", "unknown name", 12, 7),
    ("on h\nsend u k 1 2\nend\nend", "unknown name", 12, 5),
    ("on h\nsend a h\nend\nend", "bad structure", 12, 5),
    ("on h\nout b\nend\nend", "unknown name", 12, 4),
    ("on h\nput s 1\nend\nend", "bad structure", 12, 0),
    ("on h\ntxn t\nneed x\nelse\nend\nend\nend", "bad structure", 13, 0),
    ("on h\ntxn t\nget v s\nend\nend\nend", "bad structure", 14, 0),
    ("on h\ntxn t\nget v s\nelse\nset x v\nend\nend\nend", "unknown name", 15, 6),
    ("on h\ntxn t\nget v z\nelse\nend\nend\nend", "unknown name", 13, 6),
    ("on h\ntxn b\nget v s\nelse\nend\nend\nend", "unknown name", 12, 4),
    ("on h\ntxn t\nget x s\nelse\nend\nend\nend", "name twice", 13, 4),
    ("on h\nif x\nelse\nelse\nend\nend\nend", "bad structure", 14, 0),
    ("on h\n" + "if x\n" * 17 + "end\n" * 19, "limit", 28, 0),
    ("on h\n" + "set x 1\n" * 257 + "end\nend", "limit", 268, 0),
    ("on h\nend\nvar y 1\nend", "bad structure", 13, 0),
    ("var x 1\nend", "name twice", 11, 4),
    ("var y one\nend", "bad structure", 11, 6),
    ("var y 9223372036854775808\nend", "bad word", 11, 6),
    ("var " + "y" * 33 + " 1\nend", "bad word", 11, 4),
    ("end\nend", "bad structure", 12, 0),
    ("end\npcom b\nend", "name twice", 12, 5),
    ("on h\nend\n", "bad structure", 13, 0),
    ("end\n" + "".join("xcom u%d\n" % i for i in range(29)), "limit", 40, 5),
]
SCHEDULES = [  # for the scenario of SCENARIO; the cause, the line and the place
    ("input b k 1", "wrong number of arguments", 1, 12),
    ("input b k 1 2 3", "wrong number of arguments", 1, 14),
    ("\n\ninput b k 1 2 stop", "bad structure", 3, 19),
    ("input b k 1 2 stop 17", "bad structure", 1, 19),
    ("input b k 1 2 stop 1 4294967296", "bad structure", 1, 21),
    ("input b k 1 2 stop 1 0 256", "bad structure", 1, 23),
    ("input b k 1 2 stop 1 0 old 1", "bad structure", 1, 27),
    ("input b j", "unknown name", 1, 8),
    ("input t k", "unknown name", 1, 6),
    ("crash u", "unknown name", 1, 6),
    ("crash end", "unknown name", 1, 6),
    ("crash", "bad structure", 1, 6),
    ("crash b stop 1", "bad structure", 1, 8),
    ("lose b t t", "bad structure", 1, 9),
    ("packet 0", "bad structure", 1, 7),
    ("packet b", "bad structure", 1, 7),
    ("jump b", "bad structure", 1, 0),
    ("halt b", "bad structure", 1, 5),
    ("halt # all\n crash b", "bad structure", 2, 1),
    ("crash b\r\n\tcrash +b", "bad word", 2, 7),
]
SCENARIO = HEAD + "end\n"
POLICIES = [  # the cause, the line and the place
    ('checkpoint_every = "16"', "wrong kind", 1, 19),
    ("report = 1", "wrong kind", 1, 9),
    ("lane = true # x", "wrong kind", 1, 7),
    ("turns = 1.5", "wrong kind", 1, 8),
    ("workers = [1]", "wrong kind", 1, 10),
    ("lane = 64\nworkers = 9", "out of range", 2, 10),
    ("lane = 0", "out of range", 1, 7),
    ('report = "all"', "out of range", 1, 9),
    ("lane = 0x10\nturns = 1_000_001", "out of range", 2, 8),
    ("zone = 1\nfoo = 2", "unknown key", 2, 0),
    ("lane = 1\n[lan]\nreport = 1", "unknown key", 2, 1),
    ("report = full", "not TOML", 1, 9),
    ("lane = 1\nlane = 2", "not TOML", 2, 0),
    ("# c\n\nfull", "not TOML", 3, 0),
]


class Texts(unittest.TestCase):
    def assert_refused(self, check, text, cause, line, place):
        with self.assertRaises(TextRefused) as refused:
            check(text.encode("latin-1"))
        got = refused.exception
        self.assertEqual((cause, line, place), (got.cause, got.line, got.place), text)
        self.assertTrue(got.detail.endswith((".", "?")), got.detail)

    def test_scenarios(self):
        for text, cause, line, place in SCENARIOS:
            self.assert_refused(read_scenario, HEAD + text, cause, line, place)
        self.assert_refused(read_scenario, " " * 1048577, "limit", 0, 0)

    def test_an_end_that_is_missing(self):
        """Told by the indentation, in the words of the text that ends or of the line that doesn't fit."""
        text = "pcom a\n  var x 0\n  on h\n    if x\n      set x 1\n  end\nend\n"
        for more in ("", "pcom b\nend\n"):
            with self.assertRaises(TextRefused) as refused:
                read_scenario((text + more).encode())
            self.assertIn("The `end` of line 6 closes `if` of line 4, and is indented as that of `on h` of line 3: an `end` is missing above",
                          refused.exception.detail)

    def test_schedules(self):
        program = read_scenario(SCENARIO.encode())
        for text, cause, line, place in SCHEDULES:
            self.assert_refused(lambda data: check_schedule(program, data), text, cause, line,
                                place)
        self.assert_refused(lambda data: check_schedule(program, data), " " * 1048577, "limit",
                            0, 0)

    def test_policies(self):
        for text, cause, line, place in POLICIES:
            fault = find_fault(text.encode(), cause)
            self.assertEqual((line, place), (fault.line, fault.place), text)
        self.assertEqual((2, 3), (lambda fault: (fault.line, fault.place))(
            find_fault(b"a\nbcd\xff", "not TOML")))

    def test_accepted(self):
        examples = sorted(path.parent for path in (ROOT / "examples").glob("*/schedule"))
        self.assertEqual(["chain", "orders", "payments", "tally", "workflow"],
                         [folder.name for folder in examples])
        for folder in examples + [DATA / "sale", DATA / "repair"]:
            program = read_scenario((folder / "scenario").read_bytes())
            check_schedule(program, (folder / "schedule").read_bytes())
        self.assertEqual([], read_scenario(b"").components)
