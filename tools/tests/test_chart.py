"""Charts: what is drawn, that no text overlaps, and reports that can't be read."""

import os
import random
import re
import xml.etree.ElementTree as tree

from support import CASES, DATA, ROOT, ToolTest

from ictools import chart
from ictools.lifelines import lifelines
from ictools.report import ReportError, read_report

REPORTS = [(case, name) for case in CASES for name in ("report", "later-report")
           if (DATA / case / name).exists()]
SVG = "{http://www.w3.org/2000/svg}"
SIZES = {"title": 14, "gutter": 12, "name": 12, "label": 11}
PER_SIZE = 0.602  # the width of a letter of DejaVu Sans Mono, as a part of its size

ANSWERS = {  # as docs/TOOLS.md has them; packet 1 is a message from a to b
    "input a h 1 -2": ["taken", "kept", "lost", "missed down", "missed replaying",
                       "missed busy"],
    "input a h stop 16 4294967295 255": ["taken", "kept", "lost"],
    "deliver a b": ["empty"] + ["1 data 1 " + word for word in (
        "down stopped taken fed busy used ignored".split())],
    "deliver a b stop 1 0 old": ["1 data 1 stopped"],
    "packet 1": ["1 data 1 taken"],
    "packet 9": ["unknown"],
    "lose a b": ["empty", "1 data 1 lost"],
    "force a": ["down", "idle", "stopped", "done"],
    "checkpoint a": ["down", "replaying", "busy", "idle", "stopped", "done"],
    "resend a": ["down", "idle", "done"],
    "emit a": ["down", "replaying", "idle", "done"],
    "crash a": ["down", "done"],
    "recover a": ["already", "stopped", "replaying", "up"],
    "recover a stop 2 7 0": ["stopped"],
}
PACKETS = ["data 1", "stable 2", "installed 3", "fetch 4", "op 5 0", "reply 5 255", "commit 6",
           "outcome 7 committed", "outcome 7 aborted need 11", "outcome 7 aborted held c 8",
           "outcome 7 aborted epoch 1 2", "drop 7"]
EXTRAS = ["abort a 1 need 11", "abort a 1 held b 2", "abort a 1 epoch 1 2", "out x a 1 5 -6",
          "out x a 2", "again x a 1 5 -6"]
FIRST = "1 input a h: taken\nput 1 a b data 1\n"

SESSION = """1 input tally add 5: taken
2 crash tally: done
3 recover tally: up
4 input tally add 7: taken
inputs taken 2 kept 0 lost 0 missed 0
outputs first 0 again 0
pcom tally up total=12
played 1
history 2
settled
"""  # of examples/tally

FATES = [  # lines behind FIRST; arrows of packets, dashed ones, red ones, dashed red ones; circles
    ("", 2, 0, 0, 0, 1),
    ("2 deliver a b: 1 data 1 used\n", 2, 0, 0, 0, 0),
    ("2 deliver a b: 1 data 1 down\n", 1, 0, 1, 0, 0),
    ("2 lose a b: 1 data 1 lost\n", 1, 0, 1, 0, 0),
    ("2 lose a b: 1 data 1 lost\n3 packet 1: 1 data 1 taken\n", 1, 1, 1, 0, 0),
    ("2 deliver a b: 1 data 1 taken\n3 packet 1: 1 data 1 down\n", 2, 0, 0, 1, 0),
    ("2 resend a: done\nput 2 a b data 1\n", 2, 1, 0, 0, 2),
    ("2 resend a: done\nput 2 a b data 2\nput 3 b a data 1\n", 4, 0, 0, 0, 3),
]

WRONG = [  # a report; its line; among the cause
    ("", 0, "no line of a report"),
    ("hello\n", 1, "this is no line of a report"),
    ("2 force a: done\n", 1, "has the number 2, and 1 is due"),
    ("1 force a: gone\n", 1, "`gone` is no answer to `force`"),
    ("1 force a b: done\n", 1, "this is no `force` event"),
    ("1 jump a: done\n", 1, "no event line"),
    ("1 force A: done\n", 1, "this is no `force` event"),
    ("1 force a\n", 1, "no event line"),
    ("1 force a: done\n1 force a: done\n", 2, "has the number 1, and 2 is due"),
    ("put 1 a b data 1\n", 1, "no event line stands before it"),
    ("out x a 1\n", 1, "no event line stands before it: the report isn't at level full"),
    ("1 force a: done\nput 2 a b data 1\n", 2, "has the number 2, and 1 is due"),
    ("1 force a: done\nput 1 a b date 1\n", 2, "no line of a report"),
    ("1 deliver a b: 1 data 1 used\n", 1, "packet 1 wasn't put out before"),
    (FIRST + "2 deliver a b: 1 data 2 used\n", 3, "packet 1 was put out as `data 1`"),
    (FIRST + "2 deliver b a: 1 data 1 used\n", 3, "packet 1 goes from a to b"),
    (FIRST + "2 packet 2: 1 data 1 used\n", 3, "tells of another packet"),
    ("icrun: read fault\nicrun: read fault\n", 2, "behind the end"),
    ("inputs taken 0 kept 0 lost 0 missed 0\n", 1, "the summary ends here"),
    ("inputs taken 0 kept 0 lost 0\n", 1, "isn't the line of the summary that is due"),
    ("1 force \xe9: done\n", 1, "isn't text"),
    ("1" * 5000 + " force a: done\n", 1, "no event line"),
]
BRIEF = ("inputs taken 1 kept 0 lost 0 missed 0\noutputs first 0 again 0\n"
         "played 0\nhistory 1\nsettled\n")
EMPTY = BRIEF.replace("taken 1", "taken 0").replace("history 1", "history 0")


def boxes(svg):
    """Each text of a chart with the box that it takes."""
    found = []
    for text in tree.fromstring(svg).iter(SVG + "text"):
        shown = "".join(text.itertext())
        for part in text.findall(SVG + "title"):
            shown = shown.replace(part.text, "", 1)
        size = SIZES[text.get("class").split()[0]]
        width = len(shown) * size * PER_SIZE
        left = float(text.get("x")) - {"end": width, "middle": width / 2}.get(
            text.get("text-anchor"), 0)
        found.append((float(text.get("y")) - size * 0.8, left, left + width,
                      float(text.get("y")) + size * 0.25, shown))
    return sorted(found)


def overlaps(svg):
    """Pairs of texts of which one lies over the other, and texts that leave the picture."""
    bad = []
    found = boxes(svg)
    page = float(tree.fromstring(svg).get("width"))
    for i, (top, left, right, bottom, text) in enumerate(found):
        if left < 0 or right > page:
            bad.append((text, "the border"))
        for other in found[i + 1:]:
            if other[0] >= bottom:
                break
            if other[1] < right and left < other[2]:
                bad.append((text, other[4]))
    return bad


def kinds(svg, tag, kind):
    """How many elements of this class a chart has, the legend left out."""
    found = re.findall(r'<%s class="%s"' % (tag, kind), svg)
    legend = re.findall(r'<%s class="%s"' % (tag, kind), chart.draw(EMPTY.encode(), "r"))
    return len(found) - len(legend)


def long_report(events, components=5, seed=1):
    """A report with packets of all fates."""
    rng = random.Random(seed)
    names = ["part_%d" % i for i in range(components)]
    lines, puts = [], []
    for number in range(1, events + 1):
        if puts and rng.random() < 0.6:
            put = rng.choice(puts[-20:])
            word = rng.choice(["taken", "used", "ignored", "busy", "down"])
            if rng.random() < 0.1:
                lines.append("%d lose %s %s: %d %s lost" % ((number, put[1], put[2]) +
                                                           (put[0], put[3])))
                continue
            lines.append("%d deliver %s %s: %d %s %s" % (number, put[1], put[2], put[0], put[3],
                                                        word))
        else:
            lines.append("%d input %s order %d: taken" % (number, rng.choice(names), number))
        for _ in range(rng.randrange(3)):
            sender, to = rng.sample(names, 2)
            puts.append((len(puts) + 1, sender, to, rng.choice(PACKETS[:7])))
            lines.append("put %d %s %s %s" % puts[-1])
    return "\n".join(lines) + "\nicrun: limit of receipts\n"


class Drawn(ToolTest):
    def test_no_text_overlaps(self):
        for case, name in REPORTS:
            svg = chart.draw((DATA / case / name).read_bytes(), name)
            self.assertEqual([], overlaps(svg), (case, name))
        self.assertEqual([], overlaps(chart.draw(SESSION.encode(), "r")))
        for components in (2, 7, 30):
            self.assertEqual([], overlaps(chart.draw(long_report(300, components).encode(), "r")))

    def test_long_names(self):
        name = "a" * 31
        report = ("1 input %sx %s %s: taken\nput 1 %sx %sy outcome 1 aborted held %sx 7\n"
                  % (name, name, " ".join(["-9223372036854775808"] * 8), name, name, name)
                  + "2 deliver %sx %sy: 1 outcome 1 aborted held %sx 7 used\n" % ((name,) * 3)
                  + "icrun: limit of log %sx\n" % name)
        self.assertEqual([], overlaps(chart.draw(report.encode(), "r" * 200)))

    def test_each_way_of_a_packet(self):
        svg = chart.draw((DATA / "sale" / "report").read_bytes(), "report")
        lines = (DATA / "sale" / "report").read_text().splitlines()
        lost = sum(line.endswith(" lost") for line in lines)
        again = 2 + 1 + 1 + 1  # data 1 and stable 1 are put out again, packet 5 delivered; output
        arrows = sum(bool(re.match(r"[0-9]+ (deliver|packet|input) |out |again ", line))
                     for line in lines)
        forces = sum(bool(re.match(r"[0-9]+ (force|checkpoint) .*: done", line))
                     for line in lines)
        self.assertEqual(lost, kinds(svg, "path", "lostway"))
        self.assertEqual(again, kinds(svg, "path", "again"))
        self.assertEqual(arrows - again, kinds(svg, "path", "packet"))
        self.assertEqual(forces, kinds(svg, "rect", "full") + kinds(svg, "path", "full"))
        self.assertEqual(1 + lost, kinds(svg, "path", "cross"))
        for kind in ("flag", "replaying", "down"):
            self.assertEqual(1, kinds(svg, "path", kind))

    def test_fates(self):
        for lines, *wanted in FATES:
            svg = chart.draw((FIRST + lines).encode(), "r")
            got = [kinds(svg, "path", kind) for kind in ("packet", "again", "lostway",
                                                        "lostagain")]
            circles = len(re.findall('<circle class="hollow"[^>]* r="3.0"', svg)) - 1
            self.assertEqual(wanted, got + [circles], lines)

    def test_each_answer_and_packet(self):
        for event, answers in ANSWERS.items():
            for answer in answers:
                for packet in (PACKETS if "data 1" in answer else PACKETS[:1]):
                    text = (FIRST + "2 %s: %s\n" % (event, answer)).replace("data 1", packet)
                    report = read_report("r", text.encode())
                    self.assertEqual(2, len(report.events))
                    self.assertEqual([], overlaps(chart.draw(text.encode(), "r")))
        text = FIRST + "".join(line + "\n" for line in EXTRAS)
        self.assertEqual(7, len(read_report("r", text.encode()).events[0].extras))
        self.assertEqual([], overlaps(chart.draw(text.encode(), "r")))

    def test_lifelines(self):
        lines = ["crash a: done", "recover a: replaying", "deliver b a: 1 data 1 fed",
                 "deliver b a: 2 data 2 fed", "force a stop 1 0 old: stopped", "recover a: up",
                 "input a h stop 1 0 old: lost"]
        text = "1 force b: done\nput 1 b a data 1\nput 2 b a data 2\n"
        for number, line in enumerate(lines, 2):
            text += "%d %s\n" % (number, line)
            if number == 5:
                text += "put 3 a b stable 2\n"
        got = lifelines(read_report("r", text.encode()))
        self.assertEqual([(-1, "up"), (1, "down"), (2, "replaying"), (4, "up"), (5, "down"),
                          (6, "up"), (7, "down")], got["a"])
        self.assertEqual([(-1, "up")], got["b"])
        later = (DATA / "repair" / "later-report").read_bytes()
        got = lifelines(read_report("r", later))
        self.assertEqual({"down"}, {changes[0][1] for changes in got.values()})
        self.assertEqual([(-1, "down"), (3, "replaying"), (7, "up")], got["back"])

    def test_twenty_thousand_events_are_drawn(self):
        report = self.write("r", long_report(20000))
        self.assert_tool(0, "", "chart", report, "-o", self.folder / "r.svg")
        self.assertEqual(20000, (self.folder / "r.svg").read_text().count('class="gutter"'))

    def test_picture_of_the_page(self):
        """docs/chart.svg is what the tool draws now."""
        self.assertEqual((ROOT / "docs" / "chart.svg").read_text(),
                         chart.draw((DATA / "sale" / "report").read_bytes(), "report"))


class Refused(ToolTest):
    def test_reports_that_can_not_be_read(self):
        for text, line, part in WRONG:
            with self.assertRaises(ReportError) as refused:
                read_report("r", text.encode("latin-1"))
            self.assertIn(part, str(refused.exception))
            self.assertTrue(str(refused.exception).startswith("r:%d: " % line if line else "r: "))

    def test_levels(self):
        self.assert_tool(1, "no event line: the report is at level brief or summary", "chart",
                         self.write("r", BRIEF))
        self.assert_tool(0, "<svg", "chart", self.write("r", EMPTY))

    def test_any_line_may_be_damaged(self):
        rng = random.Random(2)
        for case, name in REPORTS:
            lines = (DATA / case / name).read_bytes().split(b"\n")
            for _ in range(400):
                piece = list(lines)
                at = rng.randrange(len(piece))
                line = bytearray(piece[at])
                if line and rng.random() < 0.7:
                    line[rng.randrange(len(line))] = rng.choice(b"0 a:\n\xff9-")
                    piece[at] = bytes(line)
                else:
                    del piece[at]
                try:
                    tree.fromstring(chart.draw(b"\n".join(piece), "r"))
                except ReportError as refused:
                    self.assertRegex(str(refused), r"\Ar:[0-9]+: ")

    def test_no_log_is_written_over(self):
        report = self.write("report", FIRST)
        log = self.write("some", b"ICLOG001 and more")
        new = self.write("new", b"ICLOG002 and more")
        before = self.folder / "icrun.31.log2"
        damaged = self.folder / "icrun.00.log"
        damaged.write_bytes(b"X")
        (self.folder / "link").symlink_to(damaged)
        for output, part in ((before, "the name of a log"),
                             (self.folder / "link", "the name of a log"), (log, "this is a log"), (new, "this is a log"),
                             (report, "this is the report"), (self.folder, "directory"),
                             (self.folder / "absent" / "x", "No such file")):
            self.assert_tool(2, part, "chart", report, "-o", output)
        self.assertEqual(b"ICLOG001 and more", (self.folder / "some").read_bytes())
        self.assertEqual(FIRST, (self.folder / "report").read_text())
        self.assertFalse(before.exists())

    def test_words(self):
        self.assert_tool(0, "<svg", "chart", "-", given=FIRST.encode())
        self.assert_tool(1, "standard input:1: ", "chart", "-", given=b"x\n")
        odd = self.folder / os.fsdecode(b"\xff\x1b<&>")
        odd.write_bytes(FIRST.encode())
        _, out, _ = self.run_tool("chart", odd)
        self.assertIn("??<&>: 1 event, 1 packet", "".join(tree.fromstring(out).itertext()))
        for words, part in (([], "usage"), (["absent"], "absent: No such file"),
                            ([os.curdir], "directory"), ([odd, "-o", ""], "No such file")):
            self.assert_tool(2, part, "chart", *words)
