"""A run as a sequence chart."""

from __future__ import annotations

import math
import os
import sys
import textwrap
from typing import Optional

from .common import (ANY_LOG_NAME, DONE, STATUSES, ToolError, count, read_file,
                     read_standard_input, word_parser)
from .frame import FORMER, PRESENT
from .layout import (EDGE, GUTTER_FONT, GUTTER_LIMIT, LABEL_FONT, NAME_FONT, RIGHT, ROW,
                     Layout, Row, Sending)
from .lifelines import DOWN, REPLAYING, UP, lifelines
from .report import Report, read_report
from .svg import FONT, MORE, PER_SIZE, Picture, clip, text_width

ABOUT = """Draws the report of a run, printed by icrun at level full, as a sequence chart in SVG.
Time goes down. Each component has a lifeline; each line of the report has a row."""

NOTES = STATUSES + """
Status 1 means that the report can't be read: the file, the line and the cause are told."""

REPORT_LIMIT = 1 << 30  # bytes
LAYERS = ("bands", "lifelines", "arrows", "plates", "marks", "labels")
LEGEND_PITCH = 16

STYLE = """
text{font-family:%s;white-space:pre}
.page{fill:#fff}.band{fill:#f4f6f8}.head{fill:#e3e9ef}
.title{font-size:14px;font-weight:bold;fill:#1d2833}
.gutter{font-size:%dpx;fill:#1d2833}
.name{font-size:%dpx;font-weight:bold;fill:#1d2833}
.label{font-size:%dpx;fill:#1d2833}
.bad{fill:#b3261e}
.up{stroke:#3f6f9f;stroke-width:2;fill:none}
.replaying{stroke:#e8a33d;stroke-width:6;fill:none}
.down{stroke:#7d8894;stroke-width:1.5;stroke-dasharray:2 5;fill:none}
.outside{stroke:#9aa5b1;stroke-width:1;fill:none}
.packet{stroke:#1d2833;stroke-width:1.2;fill:none}
.again{stroke:#1d2833;stroke-width:1.2;stroke-dasharray:5 4;fill:none}
.lostway{stroke:#b3261e;stroke-width:1.2;fill:none}
.lostagain{stroke:#b3261e;stroke-width:1.2;stroke-dasharray:5 4;fill:none}
.tip{fill:#1d2833;stroke:none}
.cross{stroke:#b3261e;stroke-width:2.2;fill:none}
.full{fill:#3f6f9f;stroke:#3f6f9f;stroke-width:1.2}
.good{fill:#2f8f4e;stroke:#2f8f4e;stroke-width:1.2}
.late{fill:#e8a33d;stroke:#e8a33d;stroke-width:1.2}
.hollow{fill:#fff;stroke:#3f6f9f;stroke-width:1.2}
.flag{fill:#b3261e;stroke:#b3261e;stroke-width:1.2}
""" % (FONT, GUTTER_FONT, NAME_FONT, LABEL_FONT)


# Shapes


def arrow(picture: Picture, kind: str, x1: float, y1: float, x2: float, y2: float) -> None:
    """A line with a tip at its end."""
    long = math.hypot(x2 - x1, y2 - y1) or 1.0
    dx, dy = (x2 - x1) / long, (y2 - y1) / long
    bx, by = x2 - 8 * dx, y2 - 8 * dy
    picture.line("arrows", kind, x1, y1, bx, by)
    picture.path("arrows", "tip", "M%.1f %.1fL%.1f %.1fL%.1f %.1fZ" % (
        x2, y2, bx - 3.5 * dy, by + 3.5 * dx, bx + 3.5 * dy, by - 3.5 * dx))


def cross(picture: Picture, x: float, y: float, size: float = 5) -> None:
    picture.path("marks", "cross", "M%.1f %.1fL%.1f %.1fM%.1f %.1fL%.1f %.1f" % (
        x - size, y - size, x + size, y + size, x - size, y + size, x + size, y - size))


def bar(picture: Picture, kind: str, x: float, y: float) -> None:
    picture.box("marks", kind, x - 8, y - 3, 16, 6)


def diamond(picture: Picture, kind: str, x: float, y: float) -> None:
    picture.path("marks", kind, "M%.1f %.1fl7 7l-7 7l-7 -7Z" % (x, y - 7))


def dot(picture: Picture, kind: str, x: float, y: float) -> None:
    picture.circle("marks", kind, x, y, 4)


def flag(picture: Picture, x: float, y: float) -> None:
    picture.path("marks", "flag", "M%.1f %.1fl6 10h-12Z" % (x, y - 5))


# The chart


class Chart:
    def __init__(self, report: Report, title: str) -> None:
        self.report = report
        self.title = title
        self.layout = Layout(report)
        self.width = max(self.layout.width, 640.0,
                         2 * EDGE + text_width(clip(title, 90), 14))
        self.picture = Picture(LAYERS)

    def svg(self) -> str:
        self.layout.move_down(self.legend())
        self.bands()
        self.lifelines()
        for row in self.layout.rows:
            self.row(row)
        for sending in self.layout.sendings.values():
            self.sending(sending)
        height = self.footer()
        return self.picture.whole(self.width, height, self.title, STYLE)

    # Title and legend

    def legend(self) -> float:
        """Draws the title and the legend; gives where they end."""
        self.picture.text("labels", "title", EDGE, EDGE + 12, clip(self.title, 90))
        x, y = float(EDGE), EDGE + 26.0
        for words, draw in self.legend_items():
            width = 40 + text_width(words, LABEL_FONT) + 16
            if x > EDGE and x + width > self.width:
                x, y = float(EDGE), y + LEGEND_PITCH
            draw(x, y)
            self.picture.text("labels", "label", x + 40, y + 4, words)
            x += width
        return y

    def legend_items(self) -> list:
        p = self.picture

        def state(kind: str):
            return lambda x, y: p.line("lifelines", kind, x + 4, y, x + 32, y)

        def way(kind: str, tip: bool = True):
            def draw(x: float, y: float) -> None:
                if tip:
                    arrow(p, kind, x + 2, y, x + 34, y)
                else:
                    p.line("arrows", kind, x + 2, y, x + 28, y)
                    cross(p, x + 28, y, 4)
            return draw

        def stub(x: float, y: float) -> None:
            p.line("arrows", "packet", x + 6, y, x + 28, y)
            p.circle("marks", "hollow", x + 31, y, 3)

        return [("up", state("up")), ("replaying", state("replaying")), ("down", state("down")),
                ("packet", way("packet")), ("put out or delivered again", way("again")),
                ("lost", way("lostway", False)), ("never delivered", stub),
                ("force", lambda x, y: bar(p, "full", x + 20, y)),
                ("checkpoint", lambda x, y: diamond(p, "full", x + 20, y)),
                ("crash or stop", lambda x, y: cross(p, x + 20, y)),
                ("recovery", lambda x, y: dot(p, "good", x + 20, y)),
                ("abort", lambda x, y: flag(p, x + 20, y)),
                ("nothing done", lambda x, y: dot(p, "hollow", x + 20, y))]

    # Bands, names, lifelines

    def bands(self) -> None:
        """Every second event has a grey band, over all its rows."""
        first: Optional[Row] = None
        rows = self.layout.rows + [Row(self.layout.bottom)]
        for row in rows:
            if first is not None and (row.is_header or row.extra is None):
                if first.index % 2 == 0:
                    self.band("band", first.y, row.y)
                first = None
            if not row.is_header and row.extra is None:
                first = row

    def band(self, kind: str, top: float, bottom: float) -> None:
        self.picture.box("bands", kind, 0, top - ROW / 2, self.width, bottom - top)

    def header(self, row: Row) -> None:
        self.band("head", row.y, row.y + ROW)
        self.picture.text("labels", "name", EDGE, row.y + 4, "event")
        for name in self.layout.names:
            x, width = self.layout.x[name], text_width(name, NAME_FONT) + 8
            self.picture.box("plates", "head", x - width / 2, row.y - ROW / 2, width, ROW)
            self.picture.text("labels", "name", x, row.y + 4, name, "middle")

    def lifelines(self) -> None:
        top, bottom = self.layout.rows[0].y + ROW / 2, self.layout.bottom - ROW / 2
        changes = lifelines(self.report)
        for name in self.layout.names:
            x = self.layout.x[name]
            if name not in changes:  # an Xcom, or a component without events
                kind = "outside" if self.report.kinds.get(name) == "xcom" else "up"
                self.picture.line("lifelines", kind, x, top, x, bottom)
                continue
            ends = [self.layout.of_event[i] for i, _ in changes[name][1:]] + [bottom]
            y = top
            for (_, state), end in zip(changes[name], ends):
                self.picture.line("lifelines", state, x, y, x, end)
                y = end

    # Rows

    def row(self, row: Row) -> None:
        if row.is_header:
            self.header(row)
            return
        if row.extra is None:
            self.picture.text("labels", "gutter", EDGE, row.y + 4,
                              clip(row.event.text, GUTTER_LIMIT), whole=row.event.text)
            self.mark(row)
        else:
            self.extra_mark(row)
        if row.com:
            self.label(row)

    def label(self, row: Row) -> None:
        whole = row.extra.text if row.extra is not None else row.event.text
        place = "" if row.side == RIGHT else "end"
        bad = row.event.stopped and row.extra is None or row.extra is not None and (
            row.extra.kind == "abort")
        x, width = self.layout.x[row.com] + row.side * row.gap, text_width(row.label, LABEL_FONT)
        # Lines go behind a label, and not through it.
        self.picture.box("plates", "page" if row.index % 2 else "band",
                         x - 1 - (0 if row.side == RIGHT else width), row.y - 7, width + 2, 14)
        self.picture.text("labels", "label bad" if bad else "label", x, row.y + 4, row.label,
                          place, whole if row.label.endswith(MORE) else "")

    def mark(self, row: Row) -> None:
        """What an event did at its component's lifeline."""
        event = row.event
        if not event.com:
            return
        x = self.layout.x[event.com]
        if event.word == "input":
            self.input_mark(row, x)
        elif event.stopped or (event.word, event.answer) == ("crash", "done"):
            cross(self.picture, x, row.y, 7)
        elif event.put is not None:
            return  # the arrow of its packet ends here
        elif event.answer == "done" and event.word == "force":
            bar(self.picture, "full", x, row.y)
        elif event.answer == "done" and event.word == "checkpoint":
            diamond(self.picture, "full", x, row.y)
        elif event.answer == "done":
            dot(self.picture, "full", x, row.y)
        elif event.answer in (UP, REPLAYING) and event.word == "recover":
            dot(self.picture, "good" if event.answer == UP else "late", x, row.y)
        else:
            dot(self.picture, "hollow", x, row.y)

    def input_mark(self, row: Row, x: float) -> None:
        answer = row.event.answer
        if answer.startswith("missed"):
            self.picture.line("arrows", "lostway", x - 30, row.y, x - 10, row.y)
            cross(self.picture, x - 10, row.y, 4)
            return
        arrow(self.picture, "packet", x - 30, row.y, x - 1, row.y)
        if row.event.stopped:
            cross(self.picture, x, row.y, 7)

    def extra_mark(self, row: Row) -> None:
        extra = row.extra
        x = self.layout.x[extra.com]
        if extra.kind == "abort":
            flag(self.picture, x, row.y)
        elif extra.kind != "put":
            arrow(self.picture, "again" if extra.kind == "again" else "packet",
                  x, row.y, self.layout.x[extra.to], row.y)

    # Packets

    def sending(self, sending: Sending) -> None:
        """The ways of a packet: one for each delivery or loss."""
        x1, x2 = self.layout.x[sending.put.sender], self.layout.x[sending.put.to]
        toward = 1 if x2 >= x1 else -1
        if not sending.moved:
            end = x1 + toward * 26
            self.picture.line("arrows", "again" if sending.again else "packet",
                              x1, sending.y, end, sending.y + 4)
            self.picture.circle("marks", "hollow", end + toward * 3, sending.y + 4.5, 3)
        again = sending.again
        for row in sending.moved:
            if row.event.answer in ("lost", DOWN):
                end = x2 - toward * 14
                self.picture.line("arrows", "lostagain" if again else "lostway",
                                  x1, sending.y, end, row.y)
                cross(self.picture, end, row.y)
            else:
                arrow(self.picture, "again" if again else "packet", x1, sending.y,
                      x2 - toward * 2, row.y)
            again = True

    # Footer

    def footer(self) -> float:
        """The summary or the last line below the chart; gives the height of the picture."""
        y = self.layout.bottom + ROW / 2
        letters = max(20, int((self.width - 2 * EDGE) / (GUTTER_FONT * PER_SIZE)))
        lines = [(line, "gutter") for line in self.report.summary]
        if self.report.refusal:
            lines.append((self.report.refusal, "gutter bad"))
        if not lines:
            lines.append(("The report ends here, without a summary.", "gutter bad"))
        for line, kind in lines:
            for piece in textwrap.wrap(line, letters, subsequent_indent="  ") or [""]:
                self.picture.text("labels", kind, EDGE, y, piece)
                y += ROW - 3
        return y + EDGE / 2


def draw(data: bytes, name: str) -> str:
    """The chart of a report, or `ReportError`."""
    report = read_report(name, data)
    plain = "".join(letter if letter.isprintable() else "?" for letter in os.path.basename(name))
    title = "%s: %s, %s" % (plain, count(len(report.events), "event"),
                            count(len(report.puts), "packet"))
    return Chart(report, title).svg()


# Words and files


def parser():
    words = word_parser("chart", ABOUT, NOTES)
    words.add_argument("report", metavar="REPORT",
                       help="what icrun printed; - reads it from standard input")
    words.add_argument("-o", "--output", metavar="SVG",
                       help="the file to write; without it the chart goes to standard output")
    return words


def check_output(name: str, report: str) -> None:
    """No log and no report is written over."""
    if any(ANY_LOG_NAME.match(os.path.basename(path)) for path in (name, os.path.realpath(name))):
        raise ToolError("%s: this is the name of a log, and no chart is written to it" % name)
    if not os.path.isfile(name):
        return
    if read_file(name, len(PRESENT.letters)).startswith((PRESENT.letters, FORMER.letters)):
        raise ToolError("%s: this is a log, and no chart is written over it" % name)
    if os.path.exists(report) and os.path.samefile(name, report):
        raise ToolError("%s: this is the report, and no chart is written over it" % name)


def write_chart(name: Optional[str], chart: str) -> None:
    if name is None:
        sys.stdout.buffer.write(chart.encode("utf-8"))
        return
    try:
        with open(name, "w", encoding="utf-8") as file:
            file.write(chart)
    except OSError as error:
        raise ToolError("%s: %s" % (name, error.strerror or error)) from None


def main(words: Optional[list] = None) -> int:
    given = parser().parse_args(words)
    if given.output is not None:
        check_output(given.output, given.report)
    data = read_standard_input() if given.report == "-" else read_file(given.report, REPORT_LIMIT)
    chart = draw(data, "standard input" if given.report == "-" else given.report)
    write_chart(given.output, chart)
    return DONE
