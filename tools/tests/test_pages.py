"""The pages, the version and the completion of words."""

import json
import os
import re
import shutil
import subprocess

from support import DATA, ROOT, TOOLS, ToolTest, writes_former_logs

from ictools.scenario import EVENT_WORDS
from ictools.texts import FIXED_WORDS

SESSION = re.compile(r"```\n\$ ([^\n]*)\n(.*?)```", re.S)
BLOCK = re.compile(r"```\n(.*?)```", re.S)
COMPLETIONS = [  # the words, the last of which is completed; what is offered
    (["icrun", ""], "run resume audit make migrate"),
    (["./icrun", "re"], "resume"),
    (["icrun", "run", "scen"], "scenario"),
    (["icrun", "run", "scenario", "sche"], "schedule"),
    (["icrun", "audit", "scenario", ""], ""),
    (["icrun", "migrate", "scen"], "scenario"),
    (["icrun", "migrate", "scenario", ""], ""),
    (["icrun", "make", ""], ""),
    (["iclive", "scen"], "scenario"),
    (["./iclive", "scenario", "sche"], "schedule"),
    (["iclive", "scenario", "schedule", "policy", ""], ""),
    (["tools/showlog", "--s"], "--scenario"),
    (["showlog", "icrun.01"], "icrun.01.log2"),
    (["tools/chart", "--"], "--output --version --help"),
    (["tools/explain", "--lo"], "--logs"),
    (["icrun-chaos", "--ch"], "--check --checks"),
    (["icrun-new", "a"], "approval"),
    (["tools/carry", "icrun.01"], "icrun.01.log2"),
]
COMPLETED_BY = {"icrun": "_icrun", "iclive": "_iclive"}
TOOL_NAMES = ("backup", "bench", "carry", "chaos", "chart", "cost", "explain", "fresh", "history", "lint", "new", "page", "play", "restore", "seal",
              "showlog")


class Pages(ToolTest):
    def test_version(self):
        version = (ROOT / "VERSION").read_text()
        self.assertRegex(version, r"\A[0-9]+\.[0-9]+\.[0-9]+\n\Z")
        newest = re.search(r"^## ([0-9.]+)", (ROOT / "CHANGELOG.md").read_text(), re.M)
        self.assertEqual(version.strip(), newest.group(1))
        self.assertIn("Zaimorus %s\"" % version.strip(), (ROOT / "docs" / "icrun.1").read_text())
        for name in TOOL_NAMES:
            self.assertEqual((0, "%s %s" % (name, version), ""), self.run_tool(name, "--version"))

    def test_help_and_completions(self):
        """The completions for bash, zsh and fish have the options that each tool's help has."""
        bash, zsh, fish = ((TOOLS / name).read_text() for name in ("icrun.bash", "_icrun", "icrun.fish"))
        for name in TOOL_NAMES:
            status, out, _ = self.run_tool(name, "--help")
            self.assertEqual((0, True), (status, "exit status:" in out), name)
            options = set(re.findall(r"(?<![\w`-])--[a-z]+", out.split("exit status:")[0]))
            self.assertEqual(options, set(re.search(r"^ +%s\) options=\"(.*)\" ;;" % name, bash, re.M).group(1).split()), name)
            self.assertEqual(options, set(re.search(r"^ +%s\) options=\((.*)\) ;;" % name, zsh, re.M).group(1).split()), name)
            self.assertEqual(options, {"--" + word for word in re.findall(r"^complete -c icrun-%s -l ([a-z]+)$" % name, fish, re.M)}, name)
        for shell, script in (("zsh", "_icrun"), ("fish", "icrun.fish")):
            if shutil.which(shell) is not None:
                self.assertEqual(0, subprocess.run([shell, "-n", str(TOOLS / script)]).returncode)

    def test_syntax_files(self):
        """Each word of the languages has a colour in both files."""
        grammar = json.loads((TOOLS / "editors" / "icrun.tmLanguage.json").read_text())
        rules = [re.compile(rule["match"]) for rule in grammar["patterns"]]
        vim = (TOOLS / "editors" / "icrun.vim").read_text()
        for word in sorted(FIXED_WORDS - {"immediate"}) + list(EVENT_WORDS):
            self.assertTrue(any(rule.search("  %s x" % word) for rule in rules), word)
            self.assertRegex(vim, r"[(|]%s[)|]" % word)
        for line, found in (("set a -4", "-4"), ("set a b - c", "-"), ("set a_1 b", None), ("crash a stop 3 0 old", "stop")):
            hits = [rule.search(line).group() for rule in rules[5:] if rule.search(line)]
            self.assertEqual(found, hits[0] if found else (hits or [None])[0], line)

    def test_sessions_of_the_pages(self):
        """What the pages show is what the tools print now, each session in a folder of its own."""
        program = self.need_program()
        if writes_former_logs(program):
            self.skipTest("icrun here is an older one, with logs of the former format")
        for page, least in (("TOOLS.md", 11), ("OPERATING.md", 3), ("WRITING.md", 2)):
            found = SESSION.findall((ROOT / "docs" / page).read_text())
            self.assertGreaterEqual(len(found), least, page)
            for number, (line, shown) in enumerate(found):
                folder = self.folder / ("%s-%d" % (page, number))
                shutil.copytree(str(DATA / "sale"), str(folder))
                (folder / "tools").symlink_to(TOOLS)
                (folder / "examples").symlink_to(ROOT / "examples")
                (folder / "bin").mkdir()
                (folder / "bin" / "icrun").symlink_to(program)
                if page == "WRITING.md":
                    self.set_first(folder)
                self.assert_session(folder, line, shown)

    def set_first(self, folder):
        """The first two blocks of the page on writing are a scenario and a schedule."""
        for log in folder.glob("*.log*"):
            log.unlink()
        for name, text in zip(("first", "events"), BLOCK.findall((ROOT / "docs" / "WRITING.md").read_text())):
            (folder / name).write_text(text)

    def test_parts_of_templates(self):
        """What the page on writing shows of larger scenarios stands in a template."""
        shown = [text for text in BLOCK.findall((ROOT / "docs" / "WRITING.md").read_text())[2:] if not text.startswith("$ ")]
        templates = [path.read_text() for path in sorted((TOOLS / "templates").glob("*/scenario"))]
        self.assertEqual((3, 4), (len(templates), len(shown)))
        for text in shown:
            self.assertTrue(any(text in template for template in templates), text)

    def test_templates(self):
        """Each is done without a miss, has no warning, and holds what it says under a few random schedules."""
        self.need_program()
        for name in ("booking", "approval", "transfer"):
            self.assertEqual(0, self.run_tool("new", name)[0])
            self.assertEqual(["checks", "policy", "scenario", "schedule"], sorted(path.name for path in (self.folder / name).iterdir()))
            status, out, err = self.run_tool("lint", "scenario", "schedule", "policy", folder=self.folder / name)
            self.assertEqual((0, "0 mistakes, 0 warnings\n", ""), (status, out, err), name)
            status, out, err = self.run_tool("chaos", "scenario", "schedule", "--checks", "checks", "--runs", "3", "--jobs", "1",
                                             folder=self.folder / name)
            self.assertEqual((0, ""), (status, err), out)
        self.assert_tool(1, "booking is there already; nothing is changed", "new", "booking")
        self.assertEqual(2, self.run_tool("new", "none")[0])

    def assert_session(self, folder, line, shown):
        if "--near" in line:
            log = folder / "icrun.02.log2"
            log.write_bytes(log.read_bytes()[:9417])
        if line.startswith("icrun run scenario schedule | tail"):
            (folder / "schedule").write_text("input shop order\n")
            for log in folder.glob("*.log*"):
                log.unlink()
        done = subprocess.run(["sh", "-c", line], cwd=str(folder), stdout=subprocess.PIPE, stderr=subprocess.STDOUT,
                              env=dict(os.environ, ICRUN=str(folder / "bin" / "icrun"), PATH="%s:%s" % (folder / "bin", os.environ["PATH"])))
        self.assertEqual(shown, done.stdout.decode(), line)

    def test_page_for_man(self):
        if shutil.which("groff") is None:
            self.skipTest("groff isn't here")
        for page in sorted((ROOT / "docs").glob("*.1")):
            done = subprocess.run(["groff", "-man", "-ww", "-z", str(page)], stdout=subprocess.PIPE, stderr=subprocess.STDOUT)
            self.assertEqual((0, b""), (done.returncode, done.stdout), page.name)

    def test_completion(self):
        if shutil.which("bash") is None:
            self.skipTest("bash isn't here")
        folder = DATA / "sale"
        for words, offered in COMPLETIONS:
            script = ("source '%s'; COMP_WORDS=(%s); COMP_CWORD=%d; compopt() { :; }; "
                      "%s '%s'; echo \"${COMPREPLY[*]}\"" % (
                          TOOLS / "icrun.bash", " ".join("'%s'" % word for word in words),
                          len(words) - 1,
                          COMPLETED_BY.get(words[0].rpartition("/")[2], "_icrun_tool"), words[0]))
            done = subprocess.run(["bash", "-c", script], stdout=subprocess.PIPE,
                                  stderr=subprocess.STDOUT, cwd=str(folder))
            self.assertEqual(offered + "\n", done.stdout.decode(), words)
