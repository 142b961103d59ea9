"""The page of a run: what it says of each event is what a run up to there leaves, and a browser shows it."""

import html
import json
import os
import random
import re
import shutil
import subprocess

from support import ROOT, ToolTest

from ictools.disturb import Disturber
from ictools.follow import Follower
from ictools.frame import Frame, walk
from ictools.page import events_of, make_page, origins
from ictools.program import log_path, values_of
from ictools.records import read_records
from ictools.report import read_report
from ictools.scenario import XCOM, load_scenario
from ictools.stage import Stage, event_of

EXAMPLES = ROOT / "examples"
BROWSER = shutil.which("chromium")
DATA = re.compile(r'<script id="data" type="application/json">(.*?)</script>')
# what a reader does with the keys and the filter: a word for each step goes into the title
USE = """<script>
const told = [], key = (name, place) => (place || document.body).dispatchEvent(new KeyboardEvent("keydown", {key: name, bubbles: true, cancelable: true}));
const now = () => told.push(document.getElementById("number").value);
key("End"); now(); key("ArrowLeft"); now(); key("PageUp"); now(); key("Home"); now(); key("ArrowRight"); now();
document.querySelectorAll("#filter input")[0].click(); key("ArrowRight"); now(); document.querySelectorAll("#filter input")[0].click();
document.getElementById("slider").value = 20; document.getElementById("slider").dispatchEvent(new Event("input")); now();
document.querySelectorAll("#list button")[0].click(); now(); document.getElementById("last").click(); now();
key("Home", document.getElementById("number")); now(); document.getElementById("number").value = 20;
document.getElementById("number").dispatchEvent(new Event("change")); now();
const names = [...document.querySelectorAll("button, input, [tabindex]")].filter(it => !(it.textContent || it.labels && it.labels.length || it.ariaLabel || it.getAttribute("aria-labelledby")));
document.title = told.join(" ") + "; without a name: " + names.length;
</script>
"""


def schedule_of(folder):
    return events_of((folder / "schedule").read_bytes())


class Follows(ToolTest):
    def compare(self, scenario, lines, every):
        """Values and records in the logs behind an event are those that a run leaves which halts there."""
        text, program = load_scenario(str(scenario))
        stage = Stage(self.need_program(), text, None)
        self.addCleanup(stage.close)
        report = read_report("r", ("\n".join(stage.run(lines).lines) + "\n").encode())
        follower = Follower(program, report)
        coms = [(number, com.name) for number, com in enumerate(program.components) if com.kind != XCOM]
        forced, buffered = {name: [] for _, name in coms}, {name: [] for _, name in coms}
        values = {name: list(follower.values[name].values()) for _, name in coms}
        events = [event_of(event.text) for event in report.events]
        for at, moment in enumerate(follower.moments(), 1):
            for name, words in moment.added:
                buffered[name].append(words.partition(":")[0])
            for name in moment.forced:
                forced[name] += buffered[name]
                buffered[name] = []
            for name in moment.lost:
                buffered[name] = []
            values.update(moment.values)
            if at % every == 0 or at == len(events):
                summary = values_of(stage.run(events[:at] + ["halt"]).lines)
                for number, name in coms:
                    self.assertEqual(list(summary[name].values()), values[name] or [], (scenario, at, name))
                    self.assertEqual(self.records(stage.folder, number), forced[name], (scenario, at, name))

    def records(self, folder, number):
        with open(log_path(folder, "icrun", number), "rb") as file:
            data = file.read()
        return [record.name for batch in walk(data, Frame()) for record in read_records(data, batch)]

    def test_examples(self):
        for folder in sorted(path.parent for path in EXAMPLES.glob("*/schedule")):
            self.compare(folder / "scenario", schedule_of(folder), 5)

    def test_random_schedules(self):
        """Crashes and stops among them."""
        for seed, name in ((10, "payments"), (11, "orders"), (13, "payments")):
            scenario = EXAMPLES / name / "scenario"
            inputs = [line for line in schedule_of(EXAMPLES / name) if line.startswith("input ")]
            items = Disturber(random.Random(seed), load_scenario(str(scenario))[1]).draw(inputs)
            self.compare(scenario, [item for item in items if isinstance(item, str)], 9)

    def test_origins(self):
        """Events of the schedule, of the policy and of settling are told apart."""
        self.assertEqual(["input a b 7 stop 1 0 old", "input a b -3", "packet 2 stop 2 5 old", "force a stop 1 2 9"],
                         events_of(b"input a b 007 stop 01 # x\n\n input a b -3\npacket 2 stop 2 5\nforce a stop 1 2 9\nhalt\n"))
        report = read_report("r", b"1 input a b: taken\n2 checkpoint a: done\n3 force a: idle\n4 crash a: done\n5 recover a: up\nicrun: x\n")
        self.assertEqual([0, 1, 0, 2, 2], origins(report, ["input a b", "force a"]))


class Pages(ToolTest):
    def setUp(self):
        super().setUp()
        self.need_program()

    def test_the_file(self):
        folder = EXAMPLES / "payments"
        words = [folder / "scenario", folder / "schedule", "-o", "run.html"]
        status, out, err = self.run_tool("page", *words)
        self.assertEqual((0, ""), (status, err))
        self.assertRegex(out, r"\Arun.html: [0-9]+ bytes\n\Z")
        text = (self.folder / "run.html").read_text()
        self.assertNotRegex(text, r"""(src|href)=|https?:|@import|url\(|fetch\(""")
        data = json.loads(DATA.search(text).group(1))
        self.assertEqual(26, len(data["events"]))
        self.assertEqual([0] * 9 + [2] * 17, [event.get("m", 0) for event in data["events"]])
        self.assertEqual([["clerk", "till", "out 1", "0 1"]], data["events"][21]["o"])
        self.assertEqual(["run.html"], [path.name for path in self.folder.iterdir()])
        self.assert_tool(2, "run.html: File exists", "page", *words)
        self.assert_tool(1, "the report isn't at level full", "page", folder / "scenario", folder / "schedule", folder / "policy", "-o", "x")
        self.write("schedule", "input shop order 3\ndeliver shop store\n")
        self.write("policy", "checkpoint_every = 1\n")
        self.run_tool("page", EXAMPLES / "orders" / "scenario", "schedule", "policy", "-o", "more.html")
        data = json.loads(DATA.search((self.folder / "more.html").read_text()).group(1))
        self.assertEqual(([0, 1, 0], "reserve pieces=3"), ([event.get("m", 0) for event in data["events"]][:3], data["events"][0]["p"][0][4]))

    def test_in_a_browser(self):
        if BROWSER is None:
            self.skipTest("chromium isn't here")
        folder = EXAMPLES / "payments"
        text = make_page(self.need_program(), str(folder / "scenario"), str(folder / "schedule"), None)
        self.write("run.html", text.replace("</body>", USE + "</body>"))
        done = subprocess.run([BROWSER, "--headless", "--no-sandbox", "--disable-gpu", "--user-data-dir=%s" % (self.folder / "browser"),
                               "--dump-dom", (self.folder / "run.html").as_uri()], stdout=subprocess.PIPE, stderr=subprocess.PIPE, timeout=120)
        if done.returncode != 0 and not done.stdout:
            self.skipTest("chromium doesn't start here")
        shown = html.unescape(done.stdout.decode())
        self.maxDiff = 100
        title = shown[shown.find("<title>"):].partition("\n")[0]
        self.assertEqual("<title>26 25 5 0 1 3 20 5 26 26 20; without a name: 0</title>", title)
        for part in ('<th scope="row">cash</th><td class="number">40</td>', "20 deliver till bank: 14 commit 2 used (settling)",
                     "A crash now would leave 2 records of the log.", "2 Decided: transaction 2 of till: cash=40 paid=60",
                     "<td>15</td><td>bank</td><td>till</td><td>outcome 2 committed</td>"):
            self.assertTrue(part in shown, part)

    def test_a_long_run(self):
        """The page of some thousand events isn't large."""
        self.write("schedule", "".join("input intake claim %d\n" % number for number in range(300)))
        text = make_page(self.need_program(), str(EXAMPLES / "workflow" / "scenario"), str(self.folder / "schedule"), None)
        events = len(json.loads(DATA.search(text).group(1))["events"])
        self.assertGreater(events, 2000)
        self.assertLess(len(text), 500 * events)
