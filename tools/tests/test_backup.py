"""Copies of logs, their return, and seals."""

import fcntl
import shutil

from support import DATA, FORMER, ToolTest

NAMES = ("icrun.01.log2", "icrun.02.log2", "icrun.03.log2")


class Backups(ToolTest):
    def setUp(self):
        super().setUp()
        (self.folder / "live").mkdir()
        for name in NAMES:
            shutil.copy(str(DATA / "sale" / name), str(self.folder / "live"))

    def logs(self, folder):
        return {path.name: path.read_bytes() for path in (self.folder / folder).glob("*.log*")}

    def change(self, name, at=60):
        data = bytearray((self.folder / name).read_bytes())
        data[at] ^= 4
        (self.folder / name).write_bytes(bytes(data))

    def test_there_and_back(self):
        (self.folder / "live" / "icrun.02.log2").chmod(0o600)
        self.assertEqual((0, "kept: 3 logs\n", ""), self.run_tool("backup", "live", "kept"))
        self.assertEqual(sorted(NAMES + ("MANIFEST",)), sorted(path.name for path in (self.folder / "kept").iterdir()))
        (self.folder / "new").mkdir()
        self.assertEqual((0, "new: 3 logs put back\n", ""), self.run_tool("restore", "kept", "new"))
        self.assertEqual(self.logs("live"), self.logs("new"))
        self.assertEqual([0o600, 1], [(self.folder / "new" / "icrun.02.log2").stat().st_mode & 0o777,
                                      (self.folder / "new" / "icrun.02.log2").stat().st_nlink])
        self.assertEqual(sorted(NAMES), sorted(path.name for path in (self.folder / "new").iterdir()))
        for words, part in ((("backup", "live", "kept"), "kept is there already"), (("restore", "kept", "new"), "there are logs in new already"),
                            (("restore", "live", "."), "live/MANIFEST: No such file")):
            self.assertIn(part, self.run_tool(*words)[2])

    def test_former_logs_beside_the_new_ones(self):
        """All logs are copied, whatever their format."""
        shutil.copy(str(FORMER / "sale" / "icrun.01.log"), str(self.folder / "live"))
        self.assertEqual((0, "kept: 4 logs\n", ""), self.run_tool("backup", "live", "kept"))
        (self.folder / "new").mkdir()
        self.assertEqual((0, "new: 4 logs put back\n", ""), self.run_tool("restore", "kept", "new"))
        self.assertEqual(self.logs("live"), self.logs("new"))
        self.assertEqual((0, "live/icrun.seal: 4 logs sealed\n", ""), self.run_tool("seal", "live"))

    def test_a_backup_that_is_damaged(self):
        self.run_tool("backup", "live", "kept")
        (self.folder / "new").mkdir()
        self.change("kept/icrun.02.log2")
        self.assert_tool(1, "kept: icrun.02.log2 isn't as it was: 9571 bytes then, 9571 now, and another sum", "restore", "kept", "new")
        (self.folder / "kept" / "icrun.02.log2").unlink()
        self.assert_tool(1, "kept: icrun.02.log2 is gone", "restore", "kept", "new")
        (self.folder / "kept" / "MANIFEST").write_bytes(b"\xff")
        self.assert_tool(1, "kept/MANIFEST is no manifest", "restore", "kept", "new")
        self.assertEqual([], list((self.folder / "new").iterdir()))

    def test_while_a_call_holds_a_log(self):
        with open(str(self.folder / "live" / "icrun.02.log2"), "rb") as file:
            fcntl.flock(file, fcntl.LOCK_EX)
            self.assert_tool(1, "another call holds live/icrun.02.log2", "backup", "live", "kept")
            self.assert_tool(1, "another call holds live/icrun.02.log2", "seal", "live")
        self.assertFalse((self.folder / "kept").exists())

    def test_seals(self):
        self.assertEqual((0, "live/icrun.seal: 3 logs sealed\n", ""), self.run_tool("seal", "live"))
        self.assertEqual((0, "live/icrun.seal: 3 logs as they were sealed\n", ""), self.run_tool("seal", "live"))
        kept = self.logs("live")
        self.change("live/icrun.01.log2")
        self.assert_tool(1, "icrun.01.log2 isn't as it was", "seal", "live")
        for name, other in (("icrun.01.log2", "icrun.02.log2"), ("icrun.02.log2", "icrun.01.log2")):
            (self.folder / "live" / name).write_bytes(kept[other])
        self.assert_tool(1, "icrun.01.log2 isn't as it was", "seal", "live")
        self.assertEqual((0, "live/icrun.seal: 3 logs sealed\n", ""), self.run_tool("seal", "live", "--again"))
        self.write("live/icrun.04.log2", b"x")
        self.assert_tool(1, "icrun.04.log2 wasn't there", "seal", "live")
        self.assert_tool(1, "there is no log in .", "seal")
