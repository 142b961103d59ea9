"""Random schedules around inputs, the tests of each run, and schedules that are made small."""

import random

from support import ROOT, ToolTest

from ictools import chaos
from ictools.disturb import Cut, Disturber, lives_of
from ictools.expression import BadExpression, Expression
from ictools.scenario import read_scenario

PAYMENTS = ROOT / "examples" / "payments"
# a program that prints something else than the real one: the change of its report, and what is told of it
WRONG = [("audit) sed 's/^tcom bank cash=.*/tcom bank cash=7 paid=60/' ;;", "the run's values aren't those of the audit"),
         ("audit) sed 's/^outputs .*/outputs 9/' ;;", "of 9 outputs were shown"),
         ("run) sed 's/: taken$/: missed busy/' ;;", "0 inputs told as taken, and the logs have"),
         ("run) sed 's/^out clerk till 1 .*/&\\nagain clerk till 1 7 7/' ;;", "output 1 of till was shown as"),
         ("run) sed 's/^settled$/halted/' ;;", "the run ends with: halted")]


class Chaos(ToolTest):
    def test_runs_that_hold(self):
        self.need_program()
        status, out, err = self.run_tool("chaos", PAYMENTS / "scenario", PAYMENTS / "schedule", "--runs", "12", "--jobs", "1", "--seed", "2",
                                         "--check", "bank.cash + bank.paid == 100", "--check", "bank.cash >= 0 and inputs <= 2")
        self.assertEqual((0, "This is a sample: other schedules weren't tried."), (status, out.splitlines()[-1]), out + err)
        self.assertRegex(out, r"\A12 runs of 2 inputs in [0-9.]+ s, none failed: [0-9]+ inputs, [0-9]+ deliveries, ")
        self.assertEqual([], list(self.folder.iterdir()))

    def test_a_run_that_fails(self):
        self.need_program()
        status, out, err = self.run_tool("chaos", PAYMENTS / "scenario", PAYMENTS / "schedule", "--runs", "2", "--jobs", "1",
                                         "--check", "bank.paid == 0")
        self.assertEqual((1, ""), (status, err))
        self.assertIn("made small, 1 line of ", out)
        self.assertIn("`bank.paid == 0` doesn't hold: bank.cash = 40, bank.paid = 60", out)
        (folder,) = self.folder.iterdir()
        self.assertEqual(["chart-1.svg", "schedule-1"], sorted(path.name for path in folder.iterdir()))
        self.assertEqual("input till pay 60\n", (folder / "schedule-1").read_text())
        self.assertIn("</svg>", (folder / "chart-1.svg").read_text())

    def test_what_is_tested_of_a_run(self):
        """A program that prints something wrong fails, for the cause that it has."""
        program = self.need_program()
        for number, (change, told) in enumerate(WRONG):
            wrong = self.folder / ("wrong-%d" % number)
            wrong.write_text("#!/bin/sh\nout=$('%s' \"$@\"); status=$?\necho \"$out\" | case $1 in %s *) cat ;; esac\nexit $status\n"
                             % (program, change))
            wrong.chmod(0o755)
            task = chaos.Task(str(wrong), str(PAYMENTS / "scenario"), ["input till pay 60"], [], 1)
            place = self.folder / ("place-%d" % number)
            place.mkdir()
            failure = chaos.Trial(task, str(place)).failure(["input till pay 60"])
            self.assertIsNotNone(failure, told)
            self.assertIn(told, failure.text)

    def test_schedules_are_made_small(self):
        items = ["line %d" % number for number in range(40)]
        items[7:7] = [Cut(), "input a b stop 1 2 old"]

        def fails(part):
            return {"line 3", "line 30"} <= set(part) and any(isinstance(item, str) and item.startswith("input") for item in part)

        small = chaos.shrunk(items, fails)
        self.assertEqual(["line 3", "input a b stop 1 2 old", "line 30"], small)
        self.assertEqual(["line 3", "input a b", "line 30"], chaos.without_stops(small, fails))
        self.assertEqual([(["a"], Cut()), (["b", "c"], Cut(4)), ([], None)], lives_of(["a", Cut(), "b", "c", Cut(4)]))

    def test_the_same_seed_draws_the_same(self):
        program = read_scenario((PAYMENTS / "scenario").read_bytes())
        drawn = [Disturber(random.Random(seed), program).draw(["input till pay 60"] * 8) for seed in ("1 4", "1 4", "1 5")]
        self.assertEqual(drawn[0], drawn[1])
        self.assertNotEqual(drawn[0], drawn[2])
        words = {item.split()[0] for seed in range(20) for item in Disturber(random.Random(seed), program).draw(["input till pay 60"] * 8)
                 if isinstance(item, str)}
        self.assertEqual({"input", "deliver", "packet", "lose", "force", "checkpoint", "resend", "emit", "crash", "recover"}, words)

    def test_expressions(self):
        values, counts = {"bank": {"cash": 40, "paid": 60}}, {"inputs": 2}
        for text, value in (("bank.cash + bank.paid == 100", True), ("0 <= bank.cash <= 40", True), ("-bank.cash", -40),
                            ("not inputs == 2 or bank.paid // 7 % 3 > 5", False), ("bank.cash * 2", 80)):
            self.assertEqual(value, Expression(text).value(values, counts))
        for text in ("bank.cash +", "", "__import__('os')", "bank.cash.real", "[1]", "'a'", "bank.none", "none", "till.done", "1.5", "1 // 0",
                     "2 ** 9", "True"):
            with self.assertRaises(BadExpression, msg=text):
                Expression(text).value(values, counts)

    def test_words(self):
        self.need_program()
        self.write("none", "crash till\n")
        self.write("bad", "input till\n")
        for words, part in (([PAYMENTS / "scenario", "none"], "it has no input"), ([PAYMENTS / "scenario", "bad"], "bad schedule at line 1"),
                            ([PAYMENTS / "scenario", PAYMENTS / "schedule", "--check", "bank."], "is no expression"),
                            ([PAYMENTS / "scenario", PAYMENTS / "schedule", "--runs", "0"], "invalid numbered value")):
            status, out, err = self.run_tool("chaos", *words)
            self.assertEqual((2, ""), (status, out))
            self.assertIn(part, err)
        status, _, err = self.run_tool("chaos", PAYMENTS / "scenario", PAYMENTS / "schedule", "--runs", "1", "--check", "bank.non == 1")
        self.assertEqual((2, "chaos: there is no value `bank.non`\n"), (status, err))
