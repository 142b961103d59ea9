"""Computes the definitions in specs/ as they stand and compares them with the reference model on random cases.

The words are those of compare.py in the folder `speceval` beside that of the model, behind the model's own and, where it is given,
`--format 1` or `--format 2`, that of the logs: the repository, and --kind, --seed, --count and so on. Over what that program compares stands here what the core step asks of the disks: the torn
image of each reached stop, its gate byte and the records left, what an event meets that refuses it, who receives, whether a log
is full, the agenda's next event, and the values of the crash-free world.
"""

import re
import sys
from dataclasses import asdict
from pathlib import Path

MODEL, FORMAT = Path(sys.argv.pop(1)).resolve(), 2
if sys.argv[1:2] == ["--format"]:
    FORMAT = int(sys.argv[2])
    del sys.argv[1:3]
sys.path[:0] = [str(MODEL.parent.parent), str(MODEL)]

import fuzz  # noqa: E402, F401 (so that no other one is taken)
import icoracle.base as m  # noqa: E402
from icoracle import ckpt, replay, wire  # noqa: E402
from icoracle.base import Steps  # noqa: E402
from icoracle.gate2 import SLOTS  # noqa: E402
from icoracle.plan import LARGE_POLICY, make_large  # noqa: E402
from icoracle.report import usage_text  # noqa: E402
from icoracle.settle import next_event, next_policy  # noqa: E402
from icoracle.world import Refusal, WorldRefused  # noqa: E402
from model_rules import choose  # noqa: E402
from speceval import bridge, compare, compiler, faults, library, logs, plain, reader, rows, state, steps  # noqa: E402
from speceval.values import NONE, Con, apply, some  # noqa: E402

TOOLS = ("icrun", "iclive")  # whose last lines are defined
MOVED = {
    "def_step.specs.Pcom.has_no_room": "def_step.specs.Room.has_no_room",
    "def_run.specs.Places.": "def_run.specs.SystemStates.",
}


# -- what the reader and the compiler don't know


def elim(parser):
    """Arms may begin with a bar."""
    parser.take("elim")
    value = parser.atom()
    parser.take("[")
    if parser.is_at("|"):
        parser.take()
    arms = []
    while True:
        pattern = parser.pattern()
        parser.take("↦")
        arms.append((pattern, parser.expr(0)))
        if not parser.is_at("|"):
            break
        parser.take()
    parser.take("]")
    return ("elim", value, arms)


reader.Parser.elim = elim
take_declared = compiler.Definitions.take_declared


def take_constants(self, module, use, crate, parts):
    """The constants of a module of Rust stand for their numbers."""
    if parts[-1] != "TheConstants":
        return take_declared(self, module, use, crate, parts)
    text = (self.crates / crate / "src" / f"{parts[0]}.rt").read_text()
    values = {name: int(number.replace("_", "")) for name, number in
              re.findall(r"pub const (\w+): \w+ = ([\d_]+);", text)}
    for there, here in use.names or []:
        module.scope[here] = ("const", values[there])


compiler.Definitions.take_declared = take_constants

function = compiler.Writer.function


def with_one_arity(self, fn):
    """One that names an implicit type in some of its equations isn't computed."""
    if len({len(patterns) for patterns, _, _ in fn.equations}) > 1:
        raise compiler.NotComputed("an implicit type is named")
    return function(self, fn)


compiler.Writer.function = with_one_arity

# Propositions of the library that can be computed.
library.LIBRARY["IsSomeAnd"] = (2, lambda o, holds: o != NONE and apply(holds, o.args))
library.CONSTANTS["⊤"] = True


# -- a run


def picked(choose, values):
    """What is chosen of these values, in order."""
    return tuple(o.args[0] for o in map(choose, values) if o != NONE)


class State(dict):
    """A state of the system; what compares calls it a place."""


class Run(steps.Run):
    def get(self, path):
        for old, new in MOVED.items():
            path = path.replace(old, new)
        if path == "def_step.specs.World.happens":
            happens = self.defs.value(path)
            return lambda p, w, event, outcome: happens(p, w, event, {"size": self.size, "free": self.free, **outcome})
        if path == "def_run.specs.SystemStates.KeepsLog":
            keeps, turns = self.defs.value(path), iter(range(self.program.count()))
            return lambda fingerprint, file, node: keeps(fingerprint, bridge.com(next(turns)), file, node)
        return self.defs.value(path)

    def compare_opening(self):
        """Fresh logs, each of its component."""
        has_disk, fresh = self.get("def_run.specs.Places.has_disk"), self.get("def_log.specs.Frame.fresh")
        for c in range(self.program.count()):
            given = fresh(tuple(self.print), c) if has_disk(self.p, bridge.com(c)) else ()
            steps.same("the opening's disk", self.disk(c), given)

    def free_of(self, c):
        """Whether a slot of the component's log is closed."""
        return len(self.get("def_log.specs.Directory.slots_in")(self.disk(c))) < SLOTS

    size, free = 0, True
    agenda = None

    def size_of(self, c):
        found = self.get("def_log.specs.Sizes.size_in")(self.disk(c))
        return found.args[0] if found != NONE else 0

    def step(self, event, settling=False):
        c = self.target(event.what)
        here = c is not None and self.world.cells[c] is not None
        if self.light:
            self.size = 0 if not here else len(self.disk(c))
            trace = super().step(event, settling)
            self.visits[-1]["state"] = self.place
            return trace
        self.size, self.free = (self.size_of(c), self.free_of(c)) if here else (0, True)
        before, before_state = self.world.receipts, self.place
        met = self.get("def_run.specs.Refusals.met")(
            self.p, tuple(self.print), before_state, bridge.event(event)["stop"], bridge.what(event.what))
        receives = self.get("def_step.specs.Calls.receives")(self.p, self.w, bridge.what(event.what))
        try:
            trace = super().step(event, settling)
        except WorldRefused as refused:
            steps.same(f"what {event} meets", met, self.refusal(refused))
            raise
        steps.same(f"what {event} meets", met, NONE)
        steps.same(f"receives at {event}", receives, self.world.receipts > before)
        self.compare_disk(event, before_state, c, trace)
        return trace

    def refusal(self, refused):
        who = bridge.com(refused.com)
        if refused.why is Refusal.BAD:
            return some(Con("refusals.WorldRefused.Bad", (who, refused.place)))
        if refused.why is Refusal.FOREIGN:
            return some(Con("refusals.WorldRefused.Foreign", (who, tuple(refused.kept))))
        return NONE

    def compare_disk(self, event, before, c, trace):
        """What `MeetsDisk` says of the disk of the event's component."""
        if c is None or self.world.cells[c] is None:
            return
        stopped = self.get("def_run.specs.CoreSteps.is_stopped")(bridge.answer(trace.answer))
        node = self.get("def_step.specs.World.node_at")
        forced = self.get("def_run.specs.CoreSteps.forced_of")
        old, new = before["files"][c], self.disk(c)
        who = bridge.com(c)
        if not stopped:
            if forced(node(before["world"], who)) == forced(node(self.w, who)):
                steps.same(f"the file of {c} behind {event}", new, old)
            return
        outcome = {"found": self.read(old), "size": self.size, "free": self.free, "left": self.read(new),
                   "is_open": self.get("def_log.specs.Stops.is_open_at")(new, self.size - 1)}
        facts = self.defs.facts(
            "def_run.specs.CoreSteps.IsTornAt", outcome, bridge.event(event)["stop"].args[0],
            self.get("def_run.specs.CoreSteps.loads_first")(self.p, who, node(before["world"], who)), self.size - 1,
            self.get("def_run.specs.CoreSteps.would_force")(
                self.p, before["world"], bridge.what(event.what), outcome, who), old, new)
        if not all(value is True for value in facts.values()):
            raise steps.Difference(f"the image that a stop leaves at {event}: {facts}")

    def is_full(self, c, event):
        return self.get("def_run.specs.CoreSteps.is_full_at")(self.p, self.place, bridge.what(event.what))

    def compare_places(self, event, trace, found):
        super().compare_places(event, trace, found)
        self.visits[-1]["state"] = self.place

    def compare_next(self, c):
        super().compare_next(c)
        for last in [None] + ([] if c is None else [c]):
            agenda = {"left": (), "halts": False, "settles_first": False,
                      "last": bridge.option(last, bridge.com)}
            event = None if last is None else next_policy(self.world, self.policy, last)
            event = event or next_event(self.world)
            got = self.get("def_run.specs.Executions.next")(self.w, self.pace, agenda)
            wanted = NONE if event is None else some({"event": bridge.event(event), "left": ()})
            steps.same("the agenda's next event", got, wanted)

    def compare_ends(self, totals):
        """What a run comes to, against the crash-free world of its logs; it began over blank disks, so no log was found."""
        crash_free = "def_run.specs.CrashFree."
        history_of = self.get("def_plain.specs.History.history_of")
        plain_run_of = self.get("def_plain.specs.Plain.plain_run_of")
        all_logs = self.get("def_facts.specs.World.whole_logs")(self.w)
        logs = self.get("def_facts.specs.World.forced_logs")(self.w)
        history = history_of(self.p, all_logs)
        plain_world = plain_run_of(self.p, history)
        if plain_world.tag != "Result.Ok":
            raise steps.Difference(f"the logs aren't legal: {plain_world}")
        plain_world = plain_world.args[0]
        node_at = self.get("def_step.specs.World.node_at")
        for c in range(self.program.count()):
            who = bridge.com(c)
            self.compare_values(c, node_at(self.w, who), plain_world, totals)
            if not self.get("ic_base.specs.Programs.is_a_pcom")(self.p, who):
                continue
            gained = picked(self.get(crash_free + "input_in"), logs[c])
            received = self.get(crash_free + "received_by")
            given = picked(lambda v: received(who, v["trace"]), self.visits)
            steps.same(f"the inputs that the log of {c} gained", gained, given)
            self.compare_outputs(who, plain_world)
        if self.settled:
            steps.same("the records that are forced", logs, all_logs)
            self.compare_history(history, logs, plain_world)
            totals.add("settled runs against the crash-free world")

    def compare_outputs(self, who, plain_world):
        cell = self.get("def_plain.specs.Plain.pcom_at")(plain_world, who).args[0]
        outputs = self.get("def_state.specs.Hist.number_outputs")(1, cell["outs"])
        firsts = self.get("def_facts.specs.World.firsts")(who, self.w["showings"])
        wanted = outputs if self.settled else outputs[:len(firsts)]
        steps.same(f"the first showings of {who}", firsts, wanted)

    def compare_history(self, history, logs, plain_world):
        """In a settled run each message, commit and input stands once."""
        crash_free = "def_run.specs.CrashFree."
        takes, commits, ends, input_of, input_in = (self.get(crash_free + word) for word in (
            "takes_number", "commits_number", "ends_committed", "input_of", "input_in"))
        message_of = self.get("def_plain.specs.Plain.message_of")
        has_values = self.get(crash_free + "HasValuesOf")
        pcom = self.get("ic_base.specs.Programs.is_a_pcom")
        everyone = [bridge.com(c) for c in range(self.program.count())]
        for who, log in zip(everyone, logs, strict=True):
            node = self.get("def_step.specs.World.node_at")(self.w, who).args[0]
            if not has_values(plain_world, who, node):
                raise steps.Difference(f"the values of {who} aren't those of the crash-free world")
            if not pcom(self.p, who):
                continue
            inputs = picked(lambda e, c=who: input_of(c, e), history)
            steps.same(f"the inputs of {who} in the history", inputs, picked(input_in, log))
            for number in range(len(log) + 2):
                found = sum(commits(who, number, e["act"]) for e in history)
                steps.same(f"commits {number} of {who}", found, sum(ends(number, r) for r in log))
            for sender in everyone:
                for k in range(len(history) + 2):
                    found = sum(takes(who, sender, k, e) for e in history)
                    steps.same(f"takes of message {k} from {sender} to {who}", found,
                               0 if message_of(plain_world, sender, who, k) == NONE else 1)

    def compare_values(self, c, node, plain_world, totals):
        kind = node.args[0].tag.rpartition(".")[2]
        who = bridge.com(c)
        if kind == "Runs":
            pcom = node.args[0].args[0]
            records = pcom["log"]["forced"] + pcom["log"]["buffered"]
            played = records[:len(records) - len(pcom["rest"])]
            contents = self.get("def_state.specs.Contents.contents_of")(plain_world, who)
            hist = self.get("def_state.specs.Hist.after")(self.p, who, contents, played)
            if hist == NONE or hist.args[0]["plain"]["vars"] != pcom["vol"]["vars"]:
                raise steps.Difference(f"the values of {c} aren't those of its log")
            totals.add("values of a Pcom")
        elif kind == "Serves":
            tcom = node.args[0].args[0]
            book = self.get("def_step.specs.Tcom.book_of")(self.p, who, tcom["records"])
            if book == NONE or book.args[0]["ledger"] != tcom["book"]["ledger"]:
                raise steps.Difference(f"the ledger of {c} isn't that of its log")
            totals.add("values of a ledger")


    def restart(self, disks):
        """The world over these disks: it is found, or refused for the same cause."""
        files = [()] * self.program.count()
        for c, disk in zip(self.program.with_disk(), disks, strict=True):
            files[c] = tuple(disk.bytes())
        why = self.get("def_run.specs.Openings.found_refusal")(self.p, tuple(self.print), tuple(files))
        try:
            super().restart(disks)
        except WorldRefused as refused:
            wanted = self.refusal(refused)
            steps.same("why a world isn't found", why, some(Con(
                wanted.args[0].tag.replace("WorldRefused", "StartWhy"), wanted.args[0].args)))
            raise
        steps.same("why a world isn't found", why, NONE)
        logs_found = tuple(self.read(file) for file in files)
        steps.same("the world found", self.w, self.get("def_run.specs.Openings.found_world")(self.p, logs_found))


# -- places, words, large texts


def compare_tcom(self, got, tcom, compared=Run.compare_tcom):
    """A Tcom: the decisions in its log, and those that it keeps."""
    compared(self, got, tcom)
    decided = [(v["peer"], v["n"], v["stamp"]) for v in got["book"]["decided"]]
    kept_at = self.get("def_step.specs.Tcom.kept_at")
    found = ((peer["0"], n, kept_at(got, peer, n)) for peer, n, _ in decided)
    steps.same("kept decisions", {(c, n): stamp.args[0] for c, n, stamp in found if stamp.args}, dict(tcom.kept))
    steps.same("least numbers", {pair.parts[0]["0"]: pair.parts[1] for pair in got["least"]}, tcom.least)



def compare_image(defs, run, c, data, compared=logs.compare_image):
    """Where an image is refused."""
    place = defs.value("def_state.specs.ImagePlaces.bad_image_at")(run.p, bridge.com(c), tuple(data))
    try:
        ckpt.read_image(run.program, c, data)
        wanted = NONE
    except ckpt.BadAt as bad:
        wanted = some(bad.args[0])
    steps.same(f"the place at which an image of {c} is refused, {data.hex()}", place, wanted)
    return compared(defs, run, c, data)


def compare_replay(run, c, records, compared=state.compare_replay):
    """Which record is a misfit."""
    got = run.get("def_step.specs.Replay.misfit_of")(run.p, bridge.com(c), bridge.records(records))
    try:
        replay.Replay(run.program, c, [wire.Logged(r, 0, 0) for r in records], Steps())
        wanted = NONE
    except replay.Misfit as misfit:
        wanted = some(misfit.index)
    steps.same(f"the misfit of {c} in {records}", got, wanted)
    compared(run, c, records)


def compare_large(defs, seed, totals):
    """The texts that `make` runs, and its policy."""
    scenario, schedule = make_large(seed)
    steps.same("the scenario of make", bytes(defs.value("def_syntax.specs.Large.large_scenario")), scenario)
    steps.same("the schedule of make", bytes(defs.value("def_syntax.specs.Large.large_schedule")(seed)), schedule)
    policy = defs.value("ic_plan.specs.Large.large_policy")
    wanted = {**asdict(LARGE_POLICY), "report": LARGE_POLICY.report.name.title()}
    steps.same("the policy of make", {**policy, "report": str(policy["report"])}, wanted)
    totals.add("large texts")


def told_refusals(call, run, rng, refusals=faults.refusals):
    """The refusals of the statuses that there are, which go up to 12."""
    return (pair for pair in refusals(call, run, rng) if pair[1].status <= 12)


choose(FORMAT)
Run.compare_tcom = compare_tcom
logs.compare_image = compare_image
state.compare_replay = compare_replay
faults.refusals = told_refusals
compare.KINDS["large"] = compare_large
rows.ROWS = MODEL.parent / "rows"
faults.USAGE = {tool: usage_text(tool)[len("usage: "):] for tool in TOOLS}
for module in (steps, state, plain, rows, compare, faults):
    if hasattr(module, "Run"):
        module.Run = Run

import definition_logs  # noqa: E402
from live_runs import compare_live  # noqa: E402

compare.KINDS["live"] = compare_live
compare.KINDS["logs"] = definition_logs.compare_case


if __name__ == "__main__":
    sys.exit(compare.main())
