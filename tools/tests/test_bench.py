"""What bench measures is what it says: so many forces, syncs and bytes, each way once a round."""

import os
import tempfile
from unittest import mock

from support import ToolTest

from ictools import bench
from ictools.program import memory_folder


class Benches(ToolTest):
    def compared(self, work):
        """The lines of one round, over a disk in memory where there is one."""
        with tempfile.TemporaryDirectory(dir=memory_folder()) as folder:
            return bench.compare(folder, self.need_program(), work, 1)

    def test_a_forced_input(self):
        work = bench.Work("an input", bench.TALLY, "input tally add 1", 5)
        lines = self.compared(work)
        self.assertEqual("an input: 5 times, 1.0 forces (2.0 syncs) and 24 bytes of log each", lines[0])
        self.assertEqual(["icrun", "bare", "SQLite,", "SQLite,"], [line.split()[0] for line in lines[1:]])

    def test_an_order_is_forced_three_times(self):
        work = bench.Work("an order", bench.ORDERS, bench.ORDER, 5)
        lines = self.compared(work)
        self.assertIn("forces (6.4 syncs)", lines[0])  # (the last outputs are forced once)

    def test_plans_in_threads(self):
        """Each is done and forced; with no turns all is done behind the joins."""
        iclive = os.environ.get("ICLIVE")
        if iclive is None:
            self.skipTest("ICLIVE names no program")
        with tempfile.TemporaryDirectory(dir=memory_folder()) as folder, mock.patch.multiple(bench, CHAIN_ORDERS=20, ALONE=5):
            for plan in bench.plans():
                for way in (bench.Way(plan, self.need_program()), bench.Way(plan, iclive, 4, 100), bench.Way(plan, iclive, 1, 0)):
                    self.assertGreaterEqual(way.forces(folder), 1, way.title)

    def test_words(self):
        self.assert_tool(2, "bench: nowhere: not a folder", "bench", "--folder", "nowhere")
        self.assert_tool(2, "bench: --rounds: at least 1", "bench", "--rounds", "0")
        self.need_program()
        self.assert_tool(2, "bench: nothing: not a program", "bench", "--iclive", "nothing")
