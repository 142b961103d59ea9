"""When each component of a report is up, replaying or down."""

from __future__ import annotations

from .report import Event, Report

UP, REPLAYING, DOWN = "up", "replaying", "down"

FOUND_DOWN = {  # answers of a component that was down as the event began
    "input": ("missed down",), "deliver": ("down",), "packet": ("down",), "force": ("down",),
    "checkpoint": ("down",), "resend": ("down",), "emit": ("down",), "crash": ("down",),
    "recover": ("up", "replaying", "stopped"),
}
TELLS_NOTHING = ("empty", "unknown", "lost")  # of the component, where no input is answered


def state_behind(event: Event, state: str) -> str:
    """The state of an event's component behind it."""
    if event.stopped or (event.word, event.answer) == ("crash", "done"):
        return DOWN
    if event.word == "recover" and event.answer in (UP, REPLAYING):
        return event.answer
    if event.answer == "fed" and event.extras:
        # The event that ends a replay acknowledges what was taken; one that doesn't is silent.
        return UP
    return state


def begins_down(report: Report) -> bool:
    """Whether all are down at first, as in a run over the logs of an earlier one."""
    seen: set = set()
    for event in report.events:
        if event.com in seen or (event.word != "input" and event.answer in TELLS_NOTHING):
            continue
        if event.answer in FOUND_DOWN.get(event.word, ()):
            return True
        seen.add(event.com)
    return False


def lifelines(report: Report) -> dict:
    """For each component with events its changes: the index of an event, and the state behind
    it, the first one before all events."""
    first = DOWN if begins_down(report) else UP
    lines: dict = {name: [(-1, first)] for name in report.declared}
    for index, event in enumerate(report.events):
        if event.com:
            changes = lines.setdefault(event.com, [(-1, first)])
            state = state_behind(event, changes[-1][1])
            if state != changes[-1][1]:
                changes.append((index, state))
    return lines
