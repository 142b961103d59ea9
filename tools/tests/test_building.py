"""What builds, releases and installs the programs, with a script in the place of the kit."""

import hashlib
import json
import os
import pty
import shutil
import signal
import subprocess
import sys
import time
from pathlib import Path

from support import ROOT, ToolTest

KIT = """#!/bin/sh
# Stands in the place of the kit: it "proves" two crates and "builds" the program.
if [ "$1" = version ]; then echo "kit of the test"; exit 0; fi
echo "rt: low is kept: an earlier run proved the same files"
mode=$(cat "$KIT_MODE")
case $mode in
    fails) echo "rt: app NOT PROVED"; echo "0 passed, 1 failed"; exit 1 ;;
    full) echo "rt: the disk is full, with 1 MB left"; exit 2 ;;
    waits) touch "$KIT_MODE.begun"; sleep 60 & wait ;;
    nothing) echo "1 passed, 0 failed"; exit 0 ;;
esac
find . -type f | sort > "$KIT_MODE.files"
echo "rt: app proved"
mkdir -p crates/icrun/out
cp "$KIT_PROGRAM" crates/icrun/out/icrun
echo "rt: icrun proved"
echo "3 passed, 0 failed"
"""
CRATES = "# crates\nlow:\napp: low  other_of_the_kit\nicrun: app\naside: low\n"


class Building(ToolTest):
    """A repository of three small crates, the scripts, and the kit in a folder on the path."""

    def setUp(self):
        super().setUp()
        self.top, self.cache, self.mode = self.folder / "top", self.folder / "cache", self.folder / "mode"
        for name in ("low", "app", "icrun", "aside"):
            for part in ("src", "specs", "must-fail"):
                (self.top / "crates" / name / part).mkdir(parents=True)
                (self.top / "crates" / name / part / "a.txt").write_text(name + part)
        (self.top / "crates" / "icrun" / "stdout").write_text("hello\n")
        (self.top / "crates.txt").write_text(CRATES)
        (self.top / "HANDLES").write_text("Handles allowed: none.\n")
        for name in ("tools", "docs"):
            shutil.copytree(str(ROOT / name), str(self.top / name), ignore=shutil.ignore_patterns("tests", "__pycache__"))
        sources = self.top / "tools" / "building" / "sources.py"
        text = sources.read_text()
        self.assertIn("\nPROGRAMS = (\"icrun\", ", text)
        sources.write_text(text.replace("\nPROGRAMS = (", "\nPROGRAMS = (\"icrun\",)\nALL = ("))  # (one program is enough here)
        shutil.copy(str(ROOT / "VERSION"), str(self.top))
        shutil.copy(str(ROOT / "icrun"), str(self.top))
        (self.folder / "kit").mkdir()
        (self.folder / "kit" / "rt").write_text(KIT)
        (self.folder / "kit" / "rt").chmod(0o755)
        self.program = Path(shutil.which("true")).resolve()
        self.mode.write_text("builds")

    def env(self, **more):
        return dict(os.environ, PATH="%s:%s" % (self.folder / "kit", os.environ["PATH"]), KIT_MODE=str(self.mode),
                    KIT_PROGRAM=str(self.program), XDG_CACHE_HOME=str(self.cache), **more)

    def call(self, name, *words, **more):
        done = subprocess.run([sys.executable, "-B", str(self.top / "tools" / name)] + [str(word) for word in words],
                              stdout=subprocess.PIPE, stderr=subprocess.PIPE, cwd=str(self.folder),
                              env=dict(self.env(), **more))
        self.assertNotIn(b"Traceback", done.stderr)
        return done.returncode, done.stdout.decode(), done.stderr.decode()

    def kept(self):
        """What stands in the user's cache, without the folder's own name."""
        return sorted(path.name for path in self.cache.glob("zaimorus/*/*"))

    def assert_refused(self, part, result):
        """Status 1, and one plain line on standard error behind those of the progress."""
        status, out, err = result
        last = err.splitlines()[-1]
        self.assertEqual((1, "", True), (status, out, last.startswith("tools/")), err)
        self.assertIn(part, last)

    def test_a_build(self):
        status, out, err = self.call("build")
        self.assertEqual((0, 4), (status, len(err.splitlines())), err)
        self.assertEqual(["icrun: 1 of 3 crates are proved", "icrun: 2 of 3 crates are proved", "icrun: 3 of 3 crates are proved"],
                         [line.partition(",")[0] for line in err.splitlines()[1:]])
        self.assertIn("left", err)
        self.assertIn("remove it with: rm -r", out.lower())
        self.assertEqual(["icrun", "icrun.log", "icrun.sources", "lock"], self.kept())
        files = Path(str(self.mode) + ".files").read_text().split()
        self.assertIn("./crates/icrun/stdout", files)
        self.assertIn("./crates/app/specs/a.txt", files)
        self.assertEqual([], [name for name in files if "must-fail" in name or "aside" in name])
        done = subprocess.run([str(self.top / "icrun")], stdout=subprocess.PIPE, stderr=subprocess.STDOUT, env=self.env())
        self.assertEqual((0, b""), (done.returncode, done.stdout))
        self.assertIn("already", self.call("build")[1])
        (self.top / "crates" / "low" / "src" / "a.txt").write_text("changed")
        self.assertNotIn("already", self.call("build")[1])

    def test_the_progress_on_a_terminal(self):
        """One line is written over."""
        ours, its = pty.openpty()
        process = subprocess.Popen([sys.executable, "-B", str(self.top / "tools" / "build")], stdout=subprocess.PIPE,
                                   stderr=its, env=self.env())
        process.communicate()
        os.close(its)
        told = os.read(ours, 100000).decode()
        os.close(ours)
        first, behind = told.split("\r\n")
        self.assertIn("3 crates are to be proved", first)
        self.assertEqual(["", "1 of 3", "2 of 3", "3 of 3", ""],
                         [line.partition(": ")[2].partition(" crates")[0] for line in behind.split("\r\x1b[K")])

    def test_builds_that_fail(self):
        for mode, part in (("fails", "app isn't proved"), ("full", "the disk is full"), ("nothing", "left no program")):
            self.mode.write_text(mode)
            result = self.call("build")
            self.assert_refused(part, result)
            log = Path(result[2].splitlines()[-1].rpartition("the log: ")[2])
            self.assertIn("rt: low is kept", log.read_text())
            self.assertEqual(["icrun.log", "lock"], self.kept())

    def test_without_the_kit(self):
        only = self.folder / "only"
        only.mkdir()
        for name in ("sh", "cksum"):
            (only / name).symlink_to(shutil.which(name))
        for script in ("build", "release"):
            self.assert_refused("the kit isn't here", self.call(script, PATH=str(only)))
        self.assertEqual([], self.kept())

    def test_where_nothing_can_be_written(self):
        self.cache.write_text("")
        self.assert_refused(str(self.cache), self.call("build"))

    def test_a_disk_that_is_full(self):
        """A file that passes the limit of its size stands for one that finds no room."""
        (self.top / "crates" / "app" / "src" / "large").write_bytes(bytes(3_000_000))
        words = ["sh", "-c", "ulimit -f 1000; exec \"$@\"", "", sys.executable, "-B", str(self.top / "tools" / "build")]
        done = subprocess.run(words, stdout=subprocess.PIPE, stderr=subprocess.PIPE, env=self.env())
        self.assert_refused("large", (done.returncode, done.stdout.decode(), done.stderr.decode()))
        self.assertEqual(["lock"], self.kept())

    def begun(self):
        """A build that waits in the kit, and heeds an interrupt where these tests run in the background."""
        self.mode.write_text("waits")
        process = subprocess.Popen([sys.executable, "-B", str(self.top / "tools" / "build")], stdout=subprocess.PIPE,
                                   stderr=subprocess.PIPE, env=self.env(),
                                   preexec_fn=lambda: signal.signal(signal.SIGINT, signal.SIG_DFL))
        for _ in range(1000):
            if os.path.exists(str(self.mode) + ".begun"):
                return process
            time.sleep(0.02)
        self.fail("the build doesn't begin")

    def test_two_builds_at_once(self):
        process = self.begun()
        try:
            self.assert_refused("another build", self.call("build"))
        finally:
            process.terminate()
            process.communicate()
        self.mode.write_text("builds")
        self.assertEqual(0, self.call("build")[0])

    def test_a_build_that_is_ended(self):
        for number in (signal.SIGTERM, signal.SIGINT):
            process = self.begun()
            process.send_signal(number)
            process.communicate()
            self.assertNotEqual(0, process.returncode)
            self.assertEqual(["icrun.log", "lock"], self.kept())
            os.unlink(str(self.mode) + ".begun")

    def test_a_release(self):
        self.assert_refused("rt ci builds it", self.call("release"))
        out = self.top / "crates" / "icrun" / "out"
        out.mkdir()
        shutil.copyfile(str(self.program), str(out / "icrun"))
        status, said, err = self.call("release")
        self.assertEqual((0, ""), (status, err))
        lines = dict(line.split(": ") for line in said.splitlines())
        self.assertEqual(said, (self.top / "release" / "SOURCES").read_text())
        self.assertEqual(self.program.read_bytes(), (self.top / "release" / "icrun").read_bytes())
        self.assertEqual(["kit", "processor", "loader", "icrun"], list(lines))
        self.assertEqual(("kit of the test", self.sum()), (lines["kit"], lines["icrun"]))
        self.assertTrue(os.path.exists(lines["loader"]))
        done = subprocess.run([str(self.top / "icrun")], stdout=subprocess.PIPE, stderr=subprocess.STDOUT, env=self.env())
        self.assertEqual((0, b""), (done.returncode, done.stdout))
        other = self.folder / "other"
        shutil.copytree(str(self.top), str(other))
        (other / "crates" / "low" / "specs" / "a.txt").write_text("changed")
        self.assert_refused("other sources", self.call("release", other))
        os.utime(str(self.top / "crates" / "low" / "specs" / "a.txt"), (time.time() + 9, time.time() + 9))
        self.assert_refused("is older than", self.call("release"))

    def test_a_release_is_compared_with_what_was_built(self):
        out = self.top / "crates" / "icrun" / "out"
        out.mkdir()
        shutil.copyfile(str(self.program), str(out / "icrun"))
        self.assertEqual(4, len(self.differences()))
        self.call("release")
        self.assertEqual([], self.differences())
        self.assertIn("kit", self.differences("another kit")[0])
        with (out / "icrun").open("ab") as file:
            file.write(b"\0")
        self.assertEqual(["release/icrun isn't the program that was built"], self.differences())
        (self.top / "crates" / "low" / "specs" / "a.txt").write_text("changed")
        self.assertEqual(2, len(self.differences()))
        (self.top / "crates" / "low" / "must-fail" / "a.txt").write_text("changed")
        self.assertEqual(2, len(self.differences()))

    def differences(self, kit="kit of the test"):
        """What differs between release/ and what was built."""
        code = "import json, sys; from building.release import differences; print(json.dumps(differences(sys.argv[1])))"
        done = subprocess.run([sys.executable, "-B", "-c", code, kit], stdout=subprocess.PIPE, cwd=str(self.top / "tools"))
        return json.loads(done.stdout.decode())

    def sum(self):
        """The sum of the sources by its definition."""
        lines = "app: low other_of_the_kit\nicrun: app\nlow:\n"
        files = {"HANDLES": "Handles allowed: none.\n", "crates.txt": lines}
        files.update(("crates/%s/%s/a.txt" % (name, part), name + part) for name in ("app", "icrun", "low") for part in ("specs", "src"))
        return hashlib.sha256(b"".join(b"%s\0%d\0%s" % (name.encode(), len(text), text.encode()) for name, text in files.items())).hexdigest()

    def test_an_install(self):
        prefix = self.folder / "prefix"
        self.assert_refused("tools/build builds", self.call("install", prefix))
        self.assertFalse(prefix.exists())
        self.call("build")
        (prefix / "share").mkdir(parents=True)
        (prefix / "share" / "own").write_text("own")
        os.umask(0o077)
        self.addCleanup(os.umask, 0o022)
        for _ in range(2):
            self.assertEqual((0, ""), self.call("install", prefix)[::2])
        for name in ("bin/icrun", "share/man/man1/icrun.1", "share/bash-completion/completions/showlog", "lib/zaimorus/VERSION"):
            self.assertEqual(0o444, (prefix / name).stat().st_mode & 0o444, name)
        version = (ROOT / "VERSION").read_text()
        for name in ("showlog", "chart", "explain"):
            done = subprocess.run([str(prefix / "bin" / name), "--version"], stdout=subprocess.PIPE, stderr=subprocess.STDOUT)
            self.assertEqual((0, "%s %s" % (name, version)), (done.returncode, done.stdout.decode()))
        done = subprocess.run([str(prefix / "bin" / "icrun-new"), "booking", str(self.folder / "made")], stdout=subprocess.PIPE)
        self.assertEqual((0, True), (done.returncode, (self.folder / "made" / "checks").is_file()))
        done = subprocess.run([str(prefix / "bin" / "icrun-page"), str(self.folder / "made" / "scenario"), str(self.folder / "made" / "schedule"),
                               "-o", str(self.folder / "page")], stderr=subprocess.PIPE, env=dict(self.env(), ICRUN=""))
        self.assertIn(b"no line of a report", done.stderr)  # (of the program that stands in its place)
        self.assertEqual(0, subprocess.run([str(prefix / "bin" / "icrun")]).returncode)
        (prefix / "lib" / "zaimorus" / "own").write_text("own")
        self.assertEqual((0, "", ""), self.call("uninstall", prefix))
        left = sorted(str(path.relative_to(prefix)) for path in prefix.rglob("*"))
        self.assertEqual(["lib", "lib/zaimorus", "lib/zaimorus/own", "share", "share/own"], left)
        self.assert_refused("nothing is installed", self.call("uninstall", prefix))

    def test_an_install_takes_no_file_of_others(self):
        self.call("build")
        prefix = self.folder / "prefix"
        (prefix / "bin").mkdir(parents=True)
        (prefix / "bin" / "chart").write_text("own")
        self.assert_refused("bin/chart is there already", self.call("install", prefix))
        self.assertEqual(["bin", "bin/chart"], sorted(str(path.relative_to(prefix)) for path in prefix.rglob("*")))

    def test_an_install_without_room_leaves_nothing(self):
        large = self.folder / "large"
        large.write_bytes(self.program.read_bytes() + bytes(1_000_000))
        self.program = large
        self.call("build")
        prefix = self.folder / "prefix"
        words = ["sh", "-c", "ulimit -f 100; exec \"$@\"", "", sys.executable, "-B", str(self.top / "tools" / "install"), str(prefix)]
        done = subprocess.run(words, stdout=subprocess.PIPE, stderr=subprocess.PIPE, env=self.env())
        self.assert_refused("icrun", (done.returncode, done.stdout.decode(), done.stderr.decode()))
        self.assertFalse(prefix.exists())
