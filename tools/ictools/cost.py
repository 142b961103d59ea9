"""How many bytes the logs of a scenario grow by each input, message and transaction, and when one is full."""

from __future__ import annotations

from dataclasses import dataclass, field
from typing import Dict, List, Optional, Set, Tuple

from .common import DONE, LOG_LIMIT, word_parser
from .scenario import PCOM, TCOM, Component, Handler, Program, Statement, load_scenario

ABOUT = """Tells how many bytes each input and each message adds to the logs, from the least to the most, and after how many a
log of 134,217,728 bytes is full. It reads the scenario alone. Records that are buffered share a batch, so the least
counts no batch of their own for them. Checkpoints, recoveries and repeats add more, which is told below the table."""

BATCH = 5  # a gate and a length
TAKE, TAKE_WHOLE, INPUT = 18, 20, 11
VALUE_OF_CALL = 8
ANSWER, COMMITTED, ABORTED = 35, 18, (22, 34)  # Value; Outcome
RELEASED, SHOWN = 10, 9
DECIDED, WRITE = 20, 10
EPOCH = 9
Range = Tuple[int, int]


@dataclass
class Growth:
    """The least and the most bytes, of the own log and of those of Tcoms."""

    own: Range = (0, 0)
    tcoms: Dict[str, Range] = field(default_factory=dict)

    def __add__(self, other: "Growth") -> "Growth":
        names = list(dict.fromkeys([*self.tcoms, *other.tcoms]))
        return Growth(added(self.own, other.own),
                      {name: added(self.tcoms.get(name, (0, 0)), other.tcoms.get(name, (0, 0))) for name in names})

    def __or__(self, other: "Growth") -> "Growth":
        """Either the one or the other."""
        names = list(dict.fromkeys([*self.tcoms, *other.tcoms]))
        return Growth(either(self.own, other.own),
                      {name: either(self.tcoms.get(name, (0, 0)), other.tcoms.get(name, (0, 0))) for name in names})


def added(one: Range, other: Range) -> Range:
    return one[0] + other[0], one[1] + other[1]


def either(one: Range, other: Range) -> Range:
    return min(one[0], other[0]), max(one[1], other[1])


def buffered(size: int) -> Growth:
    """A record that may have a batch of its own, or share one."""
    return Growth((size, size + BATCH))


def body_growth(body: List[Statement]) -> Growth:
    total = Growth()
    for one in body:
        if one.kind == "send":
            total += Growth((0, RELEASED + BATCH))  # (once its receiver has told that it is installed)
        elif one.kind == "out":
            total += buffered(SHOWN)
        elif one.kind == "if":
            total += body_growth(one.first) | body_growth(one.second)
        elif one.kind == "txn":
            total += transaction_growth(one)
    return total


def transaction_growth(one: Statement) -> Growth:
    """It commits, or it aborts behind some of its answers and the other part is played."""
    least, most = answers(one.first)
    keys_least, keys_most = keys(one.first)
    decided = DECIDED + WRITE * len(keys_least) + BATCH, DECIDED + WRITE * len(keys_most) + BATCH
    commits = Growth((ANSWER * least + COMMITTED, (ANSWER + BATCH) * most + COMMITTED + BATCH), {one.words[1].text: decided})
    aborts = Growth((ABORTED[0], (ANSWER + BATCH) * most + ABORTED[1] + BATCH)) + body_growth(one.second)
    return commits | aborts


def answers(body: List[Statement]) -> Range:
    """How many requests a part makes."""
    total = (0, 0)
    for one in body:
        if one.kind in ("get", "put"):
            total = added(total, (1, 1))
        elif one.kind == "if":
            total = added(total, either(answers(one.first), answers(one.second)))
    return total


def keys(body: List[Statement]) -> Tuple[Set[str], Set[str]]:
    """The keys that are written in each case, and in some case."""
    surely: Set[str] = set()
    maybe: Set[str] = set()
    for one in body:
        if one.kind == "put":
            surely.add(one.words[1].text)
        elif one.kind == "if":
            first, second = keys(one.first), keys(one.second)
            surely |= first[0] & second[0]
            maybe |= first[1] | second[1]
    return surely, maybe | surely


def receipt(com: Component, handler: Handler, is_input: bool) -> Growth:
    """An input has a batch of its own, and so has a receipt with content."""
    values = VALUE_OF_CALL * len(handler.params)
    if is_input:
        return Growth((INPUT + values + BATCH,) * 2)
    return Growth((TAKE_WHOLE + values + BATCH,) * 2) if com.immediate else buffered(TAKE)


def handler_growth(com: Component, handler: Handler, is_input: bool) -> Growth:
    return receipt(com, handler, is_input) + body_growth(handler.body)


def span(size: Range) -> str:
    return str(size[0]) if size[0] == size[1] else "%d to %d" % size


def rows(program: Program) -> List[Tuple[str, ...]]:
    sent = {(one.words[1].text, one.words[2].text) for com in program.components for handler in com.handlers
            for one in every(handler.body) if one.kind == "send"}
    found: List[Tuple[str, ...]] = [("log", "what", "bytes", "full after about")]
    for com in program.components:
        for handler in com.handlers:
            for is_input in (True, False):
                if not is_input and (com.name, handler.name) not in sent:
                    continue
                growth = handler_growth(com, handler, is_input)
                what = "%s %s" % ("input" if is_input else "message", handler.name)
                found.append((com.name, what, span(growth.own), "%d" % (LOG_LIMIT // growth.own[1])))
                found += [(tcom, "%s of %s" % (what, com.name), span(size), "%d" % (LOG_LIMIT // size[1]))
                          for tcom, size in growth.tcoms.items()]
    return found


def every(body: List[Statement]) -> List[Statement]:
    return [inner for one in body for inner in [one] + every(one.first) + every(one.second)]


def more_lines(program: Program) -> List[str]:
    lines = []
    for com in program.components:
        if com.kind == PCOM:
            size = 36 + VALUE_OF_CALL * len(com.cells)
            lines.append("a checkpoint of %s: %d and more: each held message, unshown output, receiver and sender adds to it"
                         % (com.name, size + 5 + BATCH))
        elif com.kind == TCOM:
            lines.append("a recovery of %s: %d" % (com.name, EPOCH + BATCH))
    return lines


def main(words: Optional[list] = None) -> int:
    parser = word_parser("cost", ABOUT)
    parser.add_argument("scenario", metavar="SCENARIO")
    given = parser.parse_args(words)
    _, program = load_scenario(given.scenario)
    table = rows(program)
    widths = [max(len(row[at]) for row in table) for at in range(4)]
    for row in table:
        print("%-*s  %-*s  %*s  %*s" % (widths[0], row[0], widths[1], row[1], widths[2], row[2], widths[3], row[3]))
    print()
    for line in more_lines(program):
        print(line)
    return DONE
