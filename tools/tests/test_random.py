"""Random runs of the plain model: reports, logs and texts. Skipped where the model isn't here."""

import argparse
import hashlib
import json
import os
import random
import sys
import tempfile
import unittest

from support import mangled, model_folder

from ictools import chart, explain, history, records, showlog
from ictools.frame import PRESENT, Frame, walk
from ictools.image import BadImage, read_image
from ictools.lifelines import lifelines
from ictools.report import read_report
from ictools.scenario import read_scenario
from ictools.schedule import check_schedule
from ictools.texts import TextRefused
from test_chart import overlaps

RUNS = 40
WORDS = ("end else on stop old x a0 v0 h0 p0 t0 x0 k0 - + 7 99999999999999999999 A # if set txn "
         "immediate halt 17 \x01 \xe9 send out get put need var").split()


def wanted():
    """Why these tests are skipped, or None."""
    if model_folder() is None:
        return "the plain model isn't here"
    if sys.version_info < (3, 11):
        return "the plain model needs Python 3.11"
    return None


class Runs(unittest.TestCase):
    @classmethod
    def setUpClass(cls):
        why = wanted()
        if why:
            raise unittest.SkipTest(why)
        sys.path.insert(0, model_folder())
        import fuzz
        from icoracle.rules import RULES
        cls.fuzz, cls.rules = fuzz, RULES
        cls.rules.forgets = True

    def cases(self):
        """Random cases that were run, each with the calls and what they printed; one in four with logs of the former format."""
        self.audits = []
        for seed in range(RUNS):
            self.rules.format = 2 if seed % 4 else 1
            case = self.fuzz.Case(seed, False)
            calls = []
            self.watch(case, calls)
            case.run()
            yield random.Random(seed), case, calls

    def watch(self, case, calls):
        """Keeps each call with its report and the states of its components behind each event."""
        plain, make = case.call, self.fuzz.WatchedCall

        class Watched(make):
            def tell(self, trace):
                super().tell(trace)
                self.states.append({
                    self.world.program.name(c): "down" if self.world.is_down(c) else
                    "replaying" if self.world.is_replaying(c) else "up"
                    for c in self.world.program.with_disk()})
                return trace

        def call(word, schedule):
            Watched.states = []
            self.fuzz.WatchedCall = Watched
            try:
                done = plain(word, schedule)
            finally:
                self.fuzz.WatchedCall = make
            if word != "audit":
                calls.append((case.printed.encode(), Watched.states))
            else:
                self.audits.append(({c: bytes(case.disks[c].bytes()) for c in range(len(case.disks))}, case.scenario, case.printed))
            return done

        case.call = call

    def test_reports(self):
        """Each report is drawn, and each lifeline has the states that the model had."""
        for _, _, calls in self.cases():
            for printed, states in calls:
                report = read_report("r", printed)
                self.assertEqual(len(states), len(report.events))
                self.assertEqual([], overlaps(chart.draw(printed, "r")))
                for name, changes in lifelines(report).items():
                    got = [[state for at, state in changes if at <= index][-1]
                           for index in range(len(states))]
                    self.assertEqual([state[name] for state in states], got)

    def test_logs(self):
        """Cut and changed logs are bad where the model says so; images too."""
        for rng, case, _ in self.cases():
            scenario = case.scenario.encode()
            given = hashlib.sha256(scenario).digest()
            mine, theirs = read_scenario(scenario), self.program(scenario)
            for com in theirs.with_disk():
                for data in self.variants(rng, bytes(case.disks[com].bytes())):
                    subject = showlog.Subject("x", data, "s", given, records.Names(mine, com))
                    self.compare_log(subject, theirs, com, given)

    def test_histories(self):
        """The last lines of each history are those of an audit, and no doubt is told."""
        for _ in self.cases():
            pass
        self.assertGreater(len(self.audits), RUNS // 2)
        for number, (disks, scenario, printed) in enumerate(self.audits):
            with tempfile.TemporaryDirectory() as folder:
                name = os.path.join(folder, "scenario")
                for path, data in [(name, scenario.encode())] + [(history.log_of(folder, c), data) for c, data in disks.items()]:
                    with open(path, "wb") as file:
                        file.write(data)
                found = history.open_history(name, folder)
                lines, audit = list(history.text_lines(found)), printed.splitlines()
                self.assertEqual(audit, lines[-len(audit):], number)
                self.assertEqual([], history.doubts(found, name, folder), number)

    def program(self, scenario):
        from icoracle.syntax import read_scenario as read
        return read(scenario)

    def variants(self, rng, data):
        yield data
        for _ in range(12):
            yield data[:self.place(rng, data)]
            changed = bytearray(data)
            changed[self.place(rng, data)] = rng.choice([0, 1, 2, 3, 8, 9, 10, 255])
            yield bytes(changed)

    def place(self, rng, data):
        """Most of a directory is closed: its first slots are enough."""
        some = [at for at in range(len(data)) if len(data) < PRESENT.header or at < 80 or at > PRESENT.header - 10]
        return rng.choice(some)

    def compare_log(self, subject, program, com, given):
        from icoracle.base import LogBad, LogForeign
        from icoracle.disk import MemDisk
        from icoracle.logs import load_log
        reading = showlog.Reading(subject)
        list(showlog.table_lines(reading))
        json.loads("".join(showlog.json_lines(showlog.Reading(subject))))
        damage = reading.frame.damage or reading.bad_record or reading.bad_slot
        try:
            logged = load_log(MemDisk(subject.data), given, com)[2]
        except LogBad as bad:
            self.assertEqual(bad.place, damage and damage.place)
        except LogForeign:
            self.assertTrue(subject.is_foreign)
        else:
            self.assertIsNone(damage)
            self.assertEqual(len(logged), reading.count)
            self.compare_misfit(reading, program, com, given)
            self.compare_images(subject, logged, program, com)

    def compare_misfit(self, reading, program, com, given):
        """A record that is told as one that may not stand there is refused by the model, which
        may refuse an earlier one, unless it waits for a message before."""
        from icoracle.base import Kind, LogBad, Steps
        from icoracle.disk import MemDisk
        from icoracle.pcom import Pcom
        from icoracle.tcom import Tcom
        if reading.misfit is None:
            return
        disk = MemDisk(reading.subject.data)
        try:
            if program.kind(com) is Kind.TCOM:
                Tcom.recover(program, com, disk, given)
                self.fail("the model takes the record at %d" % reading.misfit.place)
            pcom, _ = Pcom.recover(program, com, disk, given, Steps())
            self.assertTrue(pcom.is_replaying(), reading.misfit)
        except LogBad as bad:
            self.assertLessEqual(bad.place, reading.misfit.place)

    def compare_images(self, subject, logged, program, com):
        from icoracle.ckpt import read_image as read
        from icoracle.wire import BadAt
        rows = [row for batch in walk(subject.data, Frame())
                for row in records.read_records(subject.data, batch)]
        for row, there in zip(rows, logged):
            self.assertEqual(there.offset, row.offset)
            if row.name != "Checkpoint" or subject.names.known(com).kind != "pcom":
                continue
            try:
                read(program, com, row.fields["image"])
                read_image(row.fields["image"], subject.names)
            except BadAt as bad:
                with self.assertRaises(BadImage) as mine:
                    read_image(row.fields["image"], subject.names)
                self.assertEqual(bad.place, mine.exception.place)

    def test_texts(self):
        """Mangled scenarios and schedules are refused where and why the model does."""
        from icoracle.plan import read_schedule
        from icoracle.syntax import Refused
        for seed in range(RUNS):
            rng = random.Random(seed)
            made = self.fuzz.ScenarioMaker(rng)
            scenario, schedule = made.text(), self.fuzz.ScheduleMaker(rng, made).text()
            mine, theirs = read_scenario(scenario.encode()), self.program(scenario.encode())
            for _ in range(20):
                text = mangled(rng, scenario, WORDS).encode("latin-1")
                told = self.refusal(self.program, Refused, text)
                self.assertEqual(told, self.refusal(read_scenario, TextRefused, text), text)
                self.assert_explained(told, text)
                text = mangled(rng, schedule, WORDS).encode("latin-1")
                self.assertEqual(
                    self.refusal(lambda data: read_schedule(theirs, data), Refused, text),
                    self.refusal(lambda data: check_schedule(mine, data), TextRefused, text), text)

    def assert_explained(self, told, text):
        """The line is shown with a caret."""
        if told is None:
            return
        with tempfile.TemporaryDirectory() as folder:
            name = os.path.join(folder, "s")
            with open(name, "wb") as file:
                file.write(text)
            files = explain.Files(argparse.Namespace(scenario=name, schedule=None, policy=None,
                                                     logs=folder))
            lines = explain.explain("icrun: bad scenario at line %d: %s" % told, files)
            self.assertTrue(lines[0].startswith("%s:%d: " % (name, told[0])), lines)
            self.assertRegex(lines[1], r"\A *\^~*\Z")

    def refusal(self, read, error, text):
        try:
            read(text)
        except error as refused:
            return refused.line, getattr(refused.cause, "value", refused.cause)
        return None
