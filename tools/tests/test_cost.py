"""What a log grows by is within what cost says, on runs without checkpoints."""

from support import DATA, ROOT, ToolTest

from ictools import cost, history
from ictools.frame import format_of
from ictools.program import values_of
from ictools.scenario import XCOM, load_scenario
from ictools.stage import Stage


class Costs(ToolTest):
    def test_logs_of_runs(self):
        program = self.need_program()
        for name in ("tally", "payments", "orders", "workflow"):
            folder = ROOT / "examples" / name
            text, known = load_scenario(str(folder / "scenario"))
            stage = Stage(program, text, None)
            self.addCleanup(stage.close)
            lines = [line.split("#")[0].strip() for line in (folder / "schedule").read_text().splitlines()]
            done = stage.run([line for line in lines if line])
            self.assertTrue(values_of(done.lines))
            self.compare(known, stage.folder, str(folder / "scenario"))

    def compare(self, program, folder, scenario):
        growth = {com.name: (0, 0) for com in program.components if com.kind != XCOM}
        entries = list(history.open_history(scenario, folder).told())
        for told in entries:
            if told.kind not in ("input", "take"):
                continue
            com = program.named(told.com)
            found = cost.handler_growth(com, com.handler(told.handler), told.kind == "input")
            growth[told.com] = cost.added(growth[told.com], found.own)
            for tcom, size in found.tcoms.items():
                growth[tcom] = cost.added(growth[tcom], size)
        for number, com in enumerate(program.components):
            if com.kind == XCOM:
                continue
            with open(history.log_of(folder, number), "rb") as file:
                data = file.read()
            grown = len(data) - format_of(data).fresh
            least, most = growth[com.name]
            more = 4 * (cost.EPOCH + cost.BATCH) if com.kind == "tcom" else 0  # (recoveries)
            self.assertTrue(least <= grown <= most + more, (scenario, com.name, least, grown, most))

    def test_the_table(self):
        status, out, _ = self.run_tool("cost", DATA / "sale" / "scenario")
        self.assertEqual(0, status)
        for part in ("log   what                        bytes  full after about\n", "a recovery of bank: 14\n", "a checkpoint of till: 62 and more"):
            self.assertIn(part, out)
