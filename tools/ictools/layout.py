"""Where the parts of a chart stand: rows from top to bottom, columns from left to right."""

from __future__ import annotations

from dataclasses import dataclass
from typing import Optional

from .report import Event, Extra, Put, Report
from .svg import clip, text_width

ROW = 20
GUTTER_FONT, LABEL_FONT, NAME_FONT = 12, 11, 12
GUTTER_LIMIT, LABEL_LIMIT = 64, 40  # letters that are shown of an event's line, of a label
EDGE = 12  # between the picture's border and what stands in it
GAP = 12  # between a lifeline and its label
INPUT_GAP = 34  # the same where an input comes in
LEAST_PITCH = 84
HEADER_EVERY = 40  # rows between two lines of names
LEFT, RIGHT = -1, 1


@dataclass
class Row:
    """One line of the report, or a line of names."""

    y: float
    event: Optional[Event] = None
    extra: Optional[Extra] = None
    index: int = -1  # of the event
    label: str = ""
    side: int = RIGHT  # of the lifeline, where the label stands
    com: str = ""

    @property
    def is_header(self) -> bool:
        return self.event is None

    @property
    def is_input(self) -> bool:
        return self.event is not None and self.event.word == "input" and self.extra is None

    @property
    def gap(self) -> int:
        """Between the lifeline and the label."""
        return INPUT_GAP if self.is_input else GAP


@dataclass
class Sending:
    """A packet and the events that moved it."""

    put: Put
    y: float
    again: bool  # the same packet was put out before on this link
    moved: list  # rows of deliveries and losses


def event_label(event: Event) -> str:
    if event.word == "input":
        return "%s: %s" % (event.label, event.answer)
    if event.word in ("deliver", "packet", "lose"):
        return event.answer
    if event.answer == "done":
        return event.word
    return "%s: %s" % (event.word, event.answer)


def order_of(report: Report) -> list:
    """The components from left to right: as declared, then others, then Xcoms."""
    names = dict.fromkeys(report.declared)
    for event in report.events:
        if event.put is not None:
            names[event.put.sender] = None
        if event.com:
            names[event.com] = None
        for extra in event.extras:
            names[extra.com] = None
            if extra.to:
                names[extra.to] = None
    return sorted(names, key=lambda name: report.kinds.get(name) == "xcom")


class Layout:
    def __init__(self, report: Report) -> None:
        self.report = report
        self.names = order_of(report)
        self.place = {name: i for i, name in enumerate(self.names)}
        self.rows: list = []
        self.of_event: list = []  # the y of each event's row
        self.sendings: dict = {}  # by number of packet
        self.x: dict = {}
        self.set_rows()
        self.set_columns()

    # Rows

    def set_rows(self) -> None:
        self.y = 0.0
        self.put_before: set = set()
        self.since_header = 0
        self.add_row(Row(0))
        for index, event in enumerate(self.report.events):
            self.set_event(index, event)
        self.bottom = self.y + ROW

    def move_down(self, by: float) -> None:
        """Makes room above the rows."""
        self.bottom += by
        self.of_event = [y + by for y in self.of_event]
        for part in self.rows + list(self.sendings.values()):
            part.y += by

    def add_row(self, row: Row) -> Row:
        self.y += ROW
        row.y = self.y
        row.label = clip(row.label, LABEL_LIMIT)
        self.rows.append(row)
        self.since_header = 0 if row.is_header else self.since_header + 1
        return row

    def set_event(self, index: int, event: Event) -> None:
        if self.since_header + 1 + len(event.extras) > HEADER_EVERY and self.since_header:
            self.add_row(Row(0))
        side = LEFT if event.word == "input" else RIGHT
        if event.put is not None:
            side = self.side(event.put.sender, event.put.to)
        row = self.add_row(Row(0, event, None, index, event_label(event), side, event.com))
        self.of_event.append(row.y)
        if event.put is not None:
            self.sendings[event.put.number].moved.append(row)
        for extra in event.extras:
            self.set_extra(index, event, extra)

    def set_extra(self, index: int, event: Event, extra: Extra) -> None:
        side = self.side(extra.to, extra.com) if extra.to else RIGHT
        row = self.add_row(Row(0, event, extra, index, extra.label, side, extra.com))
        if extra.put is not None:
            put = extra.put
            key = (put.sender, put.to, put.packet)
            self.sendings[put.number] = Sending(put, row.y, key in self.put_before, [])
            self.put_before.add(key)

    def side(self, begin: str, end: str) -> int:
        """The side of `end` that looks away from `begin`."""
        return RIGHT if self.place[begin] <= self.place[end] else LEFT

    # Columns

    def set_columns(self) -> None:
        self.gutter = EDGE + max([text_width(clip(e.text, GUTTER_LIMIT), GUTTER_FONT)
                                  for e in self.report.events] + [text_width("event", 12)])
        need = self.label_widths()
        half = {name: text_width(name, NAME_FONT) / 2 + 8 for name in self.names}
        x = self.gutter + 2 * EDGE
        before = None
        for name in self.names:
            left = max(need[name, LEFT], half[name], 34)
            if before is None:
                x += left
            else:
                x += max(LEAST_PITCH, need[before, RIGHT] + EDGE, need[name, LEFT] + EDGE,
                         half[before] + half[name] + 6)
            self.x[name] = x
            before = name
        if before is not None:
            x += max(need[before, RIGHT], half[before])
        self.width = x + EDGE

    def label_widths(self) -> dict:
        """What the labels of each component need on each side."""
        need = {(name, side): 0.0 for name in self.names for side in (LEFT, RIGHT)}
        for row in self.rows:
            if row.com:
                key = (row.com, row.side)
                need[key] = max(need[key], row.gap + text_width(row.label, LABEL_FONT))
        return need
