"""Whole runs as folders of tests/runs: calls over texts and logs, what each must print, and the logs that it leaves."""

from __future__ import annotations

from typing import Optional, Sequence

from icoracle.disk import MemDisk, MemSink, MemTexts
from icoracle.gate2 import COM_AT, HEADER_2
from icoracle.rules import log_suffix
from icoracle.top import run

Files = dict[str, bytes]
Logs = dict[int, bytes]

TALLY = b"pcom tally\n  var total 0\n  on add n\n    set total total + n\n  end\nend\n"
AROUND = b"input tally add 5\ncrash tally\nrecover tally\ninput tally add 7\n"


class Run:
    """The calls of one folder, each over the logs that the one before left, or over logs of its own."""

    def __init__(self, **texts: bytes) -> None:
        self.files: Files = dict(texts)
        self.logs: Logs = {}
        self.calls: list[str] = []

    def call(self, words: str, found: Optional[Logs] = None) -> "Run":
        number = len(self.calls) + 1
        if found is not None:
            self.logs = dict(found)
            self.files |= self._named(f"{number}.found", self.logs)
        disks = [MemDisk(self.logs.get(i, b"")) for i in range(32)]
        sink = MemSink()
        texts = MemTexts([(name.encode(), text) for name, text in self.files.items()])
        status = run([word.encode() for word in words.split()], texts, sink, disks)
        self.calls.append(f"{status} {words}".rstrip())
        self.files[f"{number}.printed"] = sink.bytes()
        left = {i: disk.bytes() for i, disk in enumerate(disks) if disk.bytes()}
        if left != self.logs:
            self.files |= self._named(f"{number}.logs", left)
        self.logs = left
        return self

    def _named(self, folder: str, logs: Logs) -> Files:
        return {f"{folder}/icrun.{i:02}.{log_suffix()}": data for i, data in logs.items()}

    def all_files(self) -> Files:
        calls = "".join(line + "\n" for line in self.calls)
        return self.files | {"calls": calls.encode()}


AT_ONCE = (b"pcom src\n  var n 0\n  on go x\n    set n n + 1\n    send dst add x\n  end\nend\n"
           b"pcom dst immediate\n  var sum 0\n  on add x\n    set sum sum + x\n  end\nend\n")
CHAIN = (b"pcom shop\n  var orders 0\n  var left 0\n  on order n\n    set orders orders + 1\n    send store take n\n  end\n"
         b"  on rest m\n    set left m\n  end\nend\npcom store\n  var stock 10\n  on take n\n    set stock stock - n\n"
         b"    send shop rest stock\n  end\nend\n")
SHOP = (b"xcom desk\npcom shop\n  var orders 0\n  on order n\n    set orders orders + 1\n    send store take n\n  end\n"
        b"  on left m\n    out desk m\n  end\nend\npcom store\n  var stock 10\n  on take n\n    set stock stock - n\n"
        b"    send shop left stock\n  end\nend\n")
BANK = (b"tcom bank\n  key a 100\n  key b 0\nend\npcom payer\n  var ok 0\n  var bad 0\n  on pay n\n    txn bank\n"
        b"      get x a\n      need x >= n\n      put a x - n\n      get y b\n      put b y + n\n      set ok ok + 1\n"
        b"    else\n      set bad bad + 1\n    end\n  end\nend\n")
SHOPS = (b"xcom left\npcom one\n  var total 0\n  on add n\n    set total total + n\n  end\nend\nxcom right\npcom two\n"
         b"  var total 0\n  on add n\n    set total total + n\n  end\nend\n")

TO_AND_FRO = "deliver payer bank\ndeliver bank payer\n"

# Stories of crashes, event by event: each answer is told, and the run halts behind them.
STORIES: dict[str, tuple[bytes, str]] = {
    "told-immediate-receiver": (AT_ONCE, "input src go 4\ninput src go 5\npacket 2\npacket 1\npacket 2\nlose dst src\n"
                                         "crash src\nrecover src\ndeliver dst src\n"),
    "told-mutual-recovery": (CHAIN, "input shop order 3\ndeliver shop store\nforce store\ndeliver store shop\n"
                                    "deliver store shop\nforce shop\ncrash shop\ncrash store\nrecover shop\nrecover store\n"
                                    "packet 5\ndeliver store shop\npacket 7\nresend store\ndeliver store shop\n"
                                    "deliver store shop\n"),
    "told-shown-again": (SHOP, "input shop order 3\ndeliver shop store\nforce store\ndeliver store shop\ndeliver store shop\n"
                               "emit shop\nforce shop\nemit shop\ncrash shop\ninput shop order 2\nrecover shop\n"
                               "input shop order 2\npacket 5\ndeliver store shop\nemit shop\n"),
    "told-late-request": (BANK, "input payer pay 30\n" + TO_AND_FRO * 3 + "crash bank\nrecover bank\npacket 1\npacket 3\n"
                                "deliver bank payer\ndeliver bank payer\ndeliver payer bank\ndeliver bank payer\n"),
    "told-gate-kept-in-a-recovery": (BANK, "crash bank\nrecover bank stop 6 1\nrecover bank\n"),
    "told-gate-lost-in-a-recovery": (BANK, "crash bank\nrecover bank stop 6\nrecover bank\n"),
}

NO_CALLS = ["", "run", "run scenario", "run -x schedule", "audit scenario schedule", "make x"]

# Texts that are refused, by the names under which they stand.
REFUSED: list[tuple[bytes, bytes, Optional[bytes]]] = [
    (b"tally\nend\n", AROUND, None), (b"pcom tally\n# \xc3\xa9\nend\n", AROUND, None),
    (b"pcom tally\n  var total 0\n  on add n\n    set total totl + n\n  end\nend\n", AROUND, None),
    (TALLY, b"input tally add\n", None), (TALLY, b"crash tally\ninput tally take 1\n", None),
    (TALLY, AROUND, b"checkpoint_every = \"16\"\n"), (b"tally\nend\n", b"input tally add\n", b"lane = 0\n")]


def tally_log() -> bytes:
    """The log that two inputs around a crash leave."""
    return Run(scenario=TALLY, schedule=AROUND).call("run scenario schedule").logs[0]


def refused_texts() -> Run:
    texts: Files = {}
    words = []
    for i, (scenario, schedule, policy) in enumerate(REFUSED, start=1):
        names = [f"scenario{i}", f"schedule{i}"] + ([] if policy is None else [f"policy{i}"])
        texts |= zip(names, [scenario, schedule, policy or b""])
        words.append("run " + " ".join(names))
    made = Run(**texts)
    for line in words + ["run absent schedule1"]:
        made.call(line)
    return made


def damaged_logs() -> Run:
    """Logs that a run, a resume and an audit refuse: not blank, of another scenario, cut and damaged."""
    log = tally_log()
    made = Run(scenario=TALLY, schedule=b"")
    for found in [log, b"x"]:
        made.call("run scenario schedule", {0: found})
    first, second = HEADER_2 + 5, HEADER_2 + 29  # the records
    foreign, bad, other = (changed(log, at, 0 if at != COM_AT else 1) for at in (8, first, COM_AT))
    for found in [foreign, bad, other, *(log[:count] for count in (0, 7, 39, 40, 41, HEADER_2 - 1, HEADER_2, HEADER_2 + 1, first + 25, len(log) - 1))]:
        for words in ["resume scenario schedule", "audit scenario"]:
            made.call(words, {0: found})
    return made.call("audit scenario", {0: changed(log, second + 9, 9)})


def changed(log: bytes, at: int, byte: int) -> bytes:
    return log[:at] + bytes([byte]) + log[at + 1:]


def folders() -> dict[str, Files]:
    """The files of each folder."""
    made = {name: Run(scenario=scenario, schedule=schedule.encode() + b"halt\n").call("run scenario schedule")
            for name, (scenario, schedule) in STORIES.items()}
    made["told-logs-in-their-places"] = Run(scenario=SHOPS, schedule=b"input one add 5\ninput two add 7\n").call(
        "run scenario schedule")
    audited = Run(scenario=TALLY, schedule=AROUND, nothing=b"")
    made["told-audited-and-gone-on-with"] = audited.call("run scenario schedule").call("audit scenario").call(
        "resume scenario nothing")
    unread = Run(scenario=TALLY, schedule=AROUND)
    for words in NO_CALLS:
        unread.call(words)
    made["told-words-that-are-no-call"] = unread
    made["told-refused-texts"] = refused_texts()
    made["told-refused-logs"] = damaged_logs()
    return {name: run_.all_files() for name, run_ in made.items()}
