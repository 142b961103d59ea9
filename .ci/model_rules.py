"""The rules of the model by which the programs are compared: a Tcom forgets decisions, and the logs are of a format. The folder of the model
is on the path before this is imported."""

from __future__ import annotations

from icoracle.rules import RULES


def choose(log_format: int) -> None:
    RULES.format, RULES.forgets = log_format, True
