"""Live runs of the model, turn by turn, beside the definitions in def_live: which event a turn does on what its lanes gave, the step
of its component alone, what a flush does, the world that is assembled behind the joins, and the serial phase up to the crash-free
world with the inputs of both phases; and beside those in def_live_run: what the berths count, when they are refused for it, and what
the run prints. Threads are imitated by turns and flushes in a random order."""

import random

from icoracle import base as m
from icoracle import live as threads
from icoracle.disk import MemSink
from icoracle.plan import Policy, ReportLevel
from icoracle.report import fault_bytes
from icoracle.settle import next_event, next_policy
from icoracle.top import Texts
from icoracle.world import Refusal, WorldRefused
from speceval import bridge, steps
from speceval.values import NONE, Con, Fn, Pair, force, some

TURNS = [8, 40, 220]  # in some runs berths come to a turn at which a Resend is asked for
CHOICE = "def_live.specs.Turns.Choice."
VISIT = "def_live_run.specs.Refusals.Visit."
LIMITS = {Refusal.RECEIPTS: "Receipts", Refusal.PACKETS: "Packets"}


def plan(rng, program):
    """Events of all lists, in order."""
    made = []
    for _ in range(rng.randint(3, 30)):
        com = rng.choice(program.with_disk())
        stop = m.Stop(rng.randint(1, 4), rng.choice([0, 1, 7]), rng.choice([None, 0, 1])) if rng.random() < 0.1 else None
        handlers = program.component(com).handlers
        kind = rng.choices(["input", "crash", "other"], [6, 2, 3])[0]
        if kind == "input" and handlers:
            number = rng.randrange(len(handlers))
            made.append(m.Event(m.EvInput(com, number, tuple(rng.randint(-1, 4) for _ in range(handlers[number].params))), stop))
        elif kind == "crash":  # behind an output that is shown, so that it is shown again
            made += [m.Event(m.EvEmit(com))] * rng.choice([0, 1])
            made += [m.Event(m.EvCrash(com)), m.Event(m.EvRecover(com), stop)][: rng.choice([1, 2, 2, 2])]
        else:
            what = rng.choice([m.EvRecover, m.EvCheckpoint, m.EvForce, m.EvEmit, m.EvResend])
            made.append(m.Event(what(com), stop if what in (m.EvRecover, m.EvCheckpoint, m.EvForce) else None))
    return made


class Berth(threads.Berth):
    """A berth that keeps what its last turn did."""

    def do(self, event, packet):
        self.did = (event, packet)
        self.done = None
        inner = self.cell.do

        def kept(what, given, stop):
            self.done = inner(what, given, stop)
            return self.done

        self.cell.do = kept
        try:
            return super().do(event, packet)
        finally:
            del self.cell.do


class LiveRun(steps.Run):
    def begin(self):
        """The berths, and the nodes as the definitions have them."""
        coms = self.program.with_disk()
        self.lanes = {(a, b): threads.Lane(self.rng.choice([1, 2, 3, 8])) for a in coms for b in coms if a != b}
        self.lists = {c: [e for e in plan(self.rng, self.program) if e.what.com == c] for c in coms}
        self.berths = [Berth(self.world.cells[c], self.lanes, self.lists[c], self.policy) for c in coms]
        self.nodes = list(self.w["nodes"])
        self.moves, self.first = [], self.live()
        near = self.rng.random() < 0.2  # to the limits of receipts and packets
        for berth in self.berths:
            berth.receipts = m.MAX_RECEIPTS - self.rng.randint(0, 5) if near else 0
            berth.packets = m.MAX_PACKETS - self.rng.randint(0, 12) if near else 0
        self.counts = {b.com: {"received": b.receipts, "inputs": 0, "packets": b.packets} for b in self.berths}

    def live(self):
        """All berths as they stand, with what is counted of them."""
        nodes, done = list(self.nodes), {b.com: tuple(b.answers) for b in self.berths}

        def berth_of(who):
            c = force(who)["0"]
            return {"part": {"node": nodes[c]}, "answers": tuple(map(bridge.answer, done.get(c, ())))}

        return {"berths": Fn(1, berth_of), "lanes": None}

    def word(self, name):
        return self.get("def_live.specs.Turns." + name)

    # -- one turn

    def live_turn(self, berth, is_flush):
        c, who, node = berth.com, bridge.com(berth.com), self.nodes[berth.com]
        left = tuple(map(bridge.event, berth.left))
        heads = {s: lane.queue[0] if lane.queue else None for (s, to), lane in self.lanes.items() if to == c}
        before = {key: (len(lane.sent), len(lane.received)) for key, lane in self.lanes.items()}
        outcome = self.outcome_before(c)
        berth.did = None
        stands = {"part": {"node": node, "showings": tuple(bridge.output(o) for o, _ in berth.showings)},
                  "files": self.files(), "left": left, "turns": berth.turns}
        refused = None
        try:
            (berth.flush if is_flush else berth.turn)()
        except WorldRefused as why:
            refused = why
        if is_flush:
            what, pops = self.word("flushes")(self.p, who, node), ()
            choice = NONE if what == NONE else some(Con(CHOICE + "Unlisted", what.args))
        else:
            pops = self.pops(who, node, heads)
            choice = self.word("choice")(self.p, self.pace, who, node, berth.turns, left, pops)
            if not self.word("ArePopsOf")(self.pace, who, node, self.word("senders_of")(self.p, who), pops):
                raise steps.Difference(f"the pops of a turn of {c}: {pops}")
        popped = tuple(bridge.packet(p) for s in sorted(heads) for p in self.lanes[s, c].received[before[s, c][1]:])
        steps.same("what was popped", popped, tuple(p for s in sorted(heads) for p in self.word("popped_of")(bridge.com(s), pops)))
        steps.same("the choice of a turn", choice, self.choice_of(berth, left))
        visit = Con(VISIT + "Flush") if is_flush else Con(VISIT + "Turn", (pops,))
        steps.same("the event of a visit", self.end_word("Refusals.event_for")(self.p, self.pace, who, stands, visit), choice)
        self.compare_counts(berth, stands, choice, refused)
        if refused is not None:
            raise refused
        if choice != NONE:
            self.compare_step(berth, choice.args[0], outcome)
        self.moves.append(Pair(who, self.live()))
        pushed = [p for (s, _), lane in self.lanes.items() if s == c for p in lane.sent[before[s, _][0]:]]
        put = [] if berth.did is None else list(berth.done.puts)
        if any(p not in put for p in pushed):
            raise steps.Difference(f"a lane of {c} took a packet that wasn't put out")

    def end_word(self, name):
        return self.get("def_live_run.specs." + name)

    def compare_counts(self, berth, stands, choice, refused):
        """What the berth counted before and behind an event, and whether it is refused for that."""
        if choice == NONE:
            return
        who, x = bridge.com(berth.com), choice.args[0]
        counts = self.counts[berth.com]
        made = self.get("def_run.specs.Refusals.receipts_of")(counts)
        world = self.end_word("Refusals.tried_in")(self.p, who, stands, x)["world"]
        past = self.get("def_run.specs.Refusals.is_past_receipts")(self.p, world, made, self.word("event_of")(who, x)["what"])
        steps.same("a turn past the receipts", past, refused is not None and refused.why is Refusal.RECEIPTS)
        if past:
            return
        puts = 0 if berth.done is None else len(berth.done.puts)
        behind = self.end_word("Refusals.counts_behind")(self.p, who, stands, choice, puts, counts)
        if refused is None or refused.why is Refusal.PACKETS:
            steps.same("a turn past the packets", behind["packets"] > m.MAX_PACKETS, refused is not None)
        if refused is None:
            steps.same("the counts of a berth", (behind["received"] + behind["inputs"], behind["packets"]), (berth.receipts, berth.packets))
            self.counts[berth.com] = behind

    def pops(self, who, node, heads):
        if self.word("policy_of")(self.pace, who, node) != NONE:
            return ()
        made = []
        for sender in sorted(heads):
            made.append({"from": bridge.com(sender), "gave": bridge.option(heads[sender], bridge.packet)})
            if heads[sender] is not None:
                break
        return tuple(made)

    def choice_of(self, berth, left):
        """What the model did, as a choice."""
        if berth.did is None:
            return NONE
        event, packet = berth.did
        if packet is not None:
            return some(Con(CHOICE + "Brings", (bridge.packet(packet),)))
        if len(berth.left) < len(left):
            return some(Con(CHOICE + "Lists", (bridge.event(event),)))
        return some(Con(CHOICE + "Unlisted", (bridge.what(event.what),)))

    def outcome_before(self, c):
        file = self.disk(c)
        self.size, self.free = self.size_of(c), self.free_of(c)
        return {"found": self.read(file), "size": self.size, "free": self.free}

    def compare_step(self, berth, choice, outcome):
        """The step of the component alone."""
        c, who = berth.com, bridge.com(berth.com)
        file = self.disk(c)
        outcome |= {"left": self.read(file), "is_open": self.get("def_log.specs.Stops.is_open_at")(file, self.size - 1)}
        shown = tuple(bridge.output(o) for o, _ in berth.showings[: len(berth.showings) - (berth.done.shown is not None)])
        alone = self.word("alone")(self.p, who, self.nodes[c], choice, shown)
        happened = self.get("def_step.specs.World.happens")(self.p, alone, self.word("event_of")(who, choice), outcome)
        if happened == NONE:
            raise steps.Difference(f"no step for {berth.did}")
        after = happened.args[0]
        trace = after["trace"]
        steps.same("puts of a turn", trace["puts"], tuple(map(bridge.packet, berth.done.puts)))
        steps.same("the output that a turn shows", self.word("shown_in")(trace),
                   () if berth.done.shown is None else (bridge.output(berth.done.shown),))
        if berth.did[1] is None:
            steps.same("the answer of a turn", trace["answer"], bridge.answer(berth.done.word))
        else:
            steps.same("the answer of a delivery", trace["answer"], bridge.answer(m.PacketAnswer(1, berth.did[1], berth.done.fate)))
        node = self.get("def_step.specs.World.node_at")(after["world"], who)
        self.nodes[c] = node.args[0]
        self.compare_node(c, self.nodes[c])

    # -- behind the joins

    def join(self):
        showings = tuple(Pair(bridge.com(b.com), bridge.output(o)) for b in self.berths for o, _ in b.showings)
        for berth in self.berths:
            for output, _ in berth.showings:
                self.world.shown.add((berth.com, output.m))
                self.world.showings.append((berth.com, output))
        self.w = self.get("def_live.specs.Assembled.assembled")(tuple(self.nodes), showings)
        self.place = self.first_place = {"world": self.w, "files": self.files()}
        self.compare_world()

    def serial(self):
        """What is left, in order of component and list; the world is settled before each input, and at the end."""
        left = [e for berth in self.berths for e in berth.left]
        last = None
        while True:
            event = None if last is None else next_policy(self.world, self.policy, last)
            if event is None and (not left or isinstance(left[0].what, m.EvInput)):
                event = next_event(self.world)
            behind = left if event is not None else left[1:]
            event = event if event is not None else (left[0] if left else None)
            agenda = self.get("def_live.specs.Serial.agenda_left")(tuple(map(bridge.event, left)))
            got = self.get("def_run.specs.Executions.next")(self.w, self.pace, {**agenda, "last": bridge.option(last, bridge.com)})
            steps.same("the serial phase's next event", got,
                       NONE if event is None else some({"event": bridge.event(event), "left": tuple(map(bridge.event, behind))}))
            if event is None:
                break
            left = behind
            last = self.asked(self.step(event))
        self.settled = True

    def compare_end(self, totals):
        """Against the crash-free world of the logs, with the inputs of both phases."""
        crash_free = "def_run.specs.CrashFree."
        history_of = self.get("def_plain.specs.History.history_of")
        logs = self.get("def_facts.specs.World.forced_logs")(self.w)
        steps.same("the records that are forced", logs, self.get("def_facts.specs.World.whole_logs")(self.w))
        history = history_of(self.p, logs)
        plain_world = self.get("def_plain.specs.Plain.plain_run_of")(self.p, history)
        if plain_world.tag != "Result.Ok":
            raise steps.Difference(f"the logs aren't legal: {plain_world}")
        plain_world = plain_world.args[0]
        for berth in self.berths:
            who = bridge.com(berth.com)
            self.compare_values(berth.com, self.get("def_step.specs.World.node_at")(self.w, who), plain_world, totals)
            if not self.get("ic_base.specs.Programs.is_a_pcom")(self.p, who):
                continue
            done = zip(self.lists[berth.com], berth.answers)
            both = [self.get("def_live.specs.Lists.input_done")(who, bridge.event(e), bridge.answer(a)) for e, a in done]
            both += [self.get(crash_free + "received_by")(who, v["trace"]) for v in self.visits]
            found = [self.get(crash_free + "input_in")(r) for r in logs[berth.com]]
            chosen = lambda options: tuple(o.args[0] for o in options if o != NONE)  # noqa: E731
            steps.same(f"the inputs of {berth.com}", chosen(found), chosen(both))
            self.compare_outputs(who, plain_world)
        self.compare_history(history, logs, plain_world)


    # -- what is printed

    def call(self, level=ReportLevel.FULL):
        """The model's call at this end, and what it puts."""
        sink = MemSink()
        sink.pieces = []
        put, sink.put = sink.put, lambda piece: (sink.pieces.append(piece), put(piece))
        call = threads.LiveCall(None, sink, [])
        call.policy = Policy(report=level)
        call.berths, call.traces = self.berths, self.traces
        return call, sink

    def compare_report_of_both(self, totals):
        counts = self.end_word("Counts.counts_of")(self.p, self.first, tuple(self.moves))
        for level in ReportLevel:
            call, sink = self.call(level)
            call.entries = self.world.history()
            call.print_all(self.program, self.world)
            at = Con(f"report.ReportLevel.{level.name.capitalize()}")
            got = self.end_word("Reports.live_report")(self.p, at, counts, self.first_place, tuple(self.visits))
            steps.same(f"what a live run prints at {level.value}", bytes(got).decode(), sink.bytes().decode())
            shown = self.end_word("Reports.output_lines")(self.p, at, self.w["showings"])
            steps.same("the first piece of two", [bytes(shown)] if shown else [], sink.pieces[:-1])
        for x in self.end_word("Reports.in_order")(self.p, self.w["showings"]):
            totals.add("outputs shown again" if x["before"] else "outputs shown first")

    def compare_last_line(self, refused):
        """The last line of a run that is refused."""
        call, _ = self.call()
        ended = call.refused_event(Texts(self.program, self.print), refused)
        why = self.refusal(refused)
        if refused.why in LIMITS:
            why = some(Con("refusals.WorldRefused.Limit", (Con(f"refusals.Which.{LIMITS[refused.why]}"),)))
        if why != NONE:
            line = self.end_word("Reports.live_refusal_line")(self.p, tuple(self.print), why.args[0])
            steps.same("the last line", bytes(line), fault_bytes("iclive", ended.line))


def compare_live(defs, seed, totals):
    """One live run. One that is refused for a limit ends there."""
    run = LiveRun(defs, seed)
    run.begin()
    if not run.berths:
        return
    rng = random.Random(seed)
    try:
        for _ in range(rng.choice(TURNS)):
            berth = rng.choice(run.berths)
            run.live_turn(berth, rng.random() < 0.1)
            totals.add("turns")
        run.join()
        run.serial()
    except WorldRefused as refused:
        totals.add("runs that were refused")
        run.compare_last_line(refused)
        return
    totals.add("events of serial phases", len(run.traces))
    run.compare_end(totals)
    run.compare_report_of_both(totals)
