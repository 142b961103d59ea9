"""Makes the worked runs in tests/runs by the reference model, or compares those that stand there with it.

The word is the folder of the model, and `--write` behind it makes the runs anew. They are the worked rows that the programs can run,
refused texts, random runs with an audit, a resume and one more audit, and logs of the former format that are migrated; and runs in
threads, of which the model tries several orders of turns. tests/README.md says which files a run has.
"""

from __future__ import annotations

import argparse
import hashlib
import random
import shutil
import sys
from contextlib import redirect_stdout
from io import StringIO
from pathlib import Path


def parsed() -> argparse.Namespace:
    parser = argparse.ArgumentParser(description=__doc__.split("\n")[0])
    parser.add_argument("model", type=Path)
    parser.add_argument("--write", action="store_true", help="make the runs anew")
    parser.add_argument("--format", type=int, choices=[1, 2], default=2, help="that of the logs")
    return parser.parse_args()


GIVEN = parsed()
MODEL, WRITES = GIVEN.model.resolve(), GIVEN.write
sys.path.insert(0, str(MODEL))

from differ import Made, make_case, model_call, serve_model  # noqa: E402
from icoracle.disk import MemDisk  # noqa: E402
from icoracle.plan import Policy, read_policy  # noqa: E402
from icoracle.gate2 import slot_place  # noqa: E402
from icoracle.logs import load_log  # noqa: E402
from icoracle.rules import RULES, log_suffix  # noqa: E402
from icoracle.syntax import fingerprint  # noqa: E402
from live_cases import LiveTexts, model_run, summary_of  # noqa: E402
from model_rules import choose  # noqa: E402
from run_rows import Failed, edit_log, match_lines, match_text, match_words, spec_of, tools_of  # noqa: E402

choose(GIVEN.format)

HERE = Path(__file__).resolve().parent.parent
RUNS, EXAMPLES = HERE / "tests" / "runs", HERE / "examples"
LARGE = 30_000  # bytes of a log
FIRST_GATE = 9257
LONG = "limit-of-packets-of-two"
RANDOM = {"full": 24, "texts": 12, "first": 8, "two": 16, "clients": 16, "standby": 12, "migrate": 12}
LIVE = 16  # random runs in threads
LIVE_EXAMPLES = ("chain", "tally", "workflow")  # whose values hang on no order of threads
TURNS = (0, 60, 1000)  # of each worker, in the orders of turns that are tried
Files = dict[str, bytes]

SHOP = """xcom clerk
pcom shop
  var orders 0
  on order cents
    set orders orders + 1
    send till charge cents
  end
end
pcom till
  var paid 0
  on charge cents
    set paid paid + cents
    out clerk paid
  end
end
"""
DAY = "input shop order 5\ndeliver shop till\n"

# Texts that are refused: what stands in place of a text above, or a change of it.
REFUSED: dict[str, dict[str, bytes | tuple[str, str]]] = {
    "scenario-byte-that-is-no-text": {"scenario": ("var paid 0", "var paid 0 # \x01")},
    "scenario-name-too-long": {"scenario": ("orders", "o" * 33)},
    "scenario-number-too-large": {"scenario": ("var paid 0", "var paid 9223372036854775808")},
    "scenario-upper-case": {"scenario": ("var paid", "var Paid")},
    "scenario-without-its-last-end": {"scenario": ("out clerk paid\n  end\nend\n", "out clerk paid\n  end\n")},
    "scenario-send-to-itself": {"scenario": ("send till charge", "send shop order")},
    "scenario-name-that-is-kept": {"scenario": ("var paid", "var stop")},
    "scenario-variable-twice": {"scenario": ("var paid 0", "var paid 0\n  var paid 1")},
    "scenario-component-twice": {"scenario": ("pcom till", "pcom shop")},
    "scenario-parameter-named-like-a-variable": {"scenario": ("on charge cents", "on charge paid")},
    "scenario-ninth-parameter": {"scenario": ("on charge cents", "on charge a b c d e f g h i")},
    "scenario-thirty-three-components": {"scenario": "".join(f"xcom x{i}\n" for i in range(33)).encode()},
    "scenario-send-to-nobody": {"scenario": ("send till", "send tills")},
    "scenario-set-of-a-parameter": {"scenario": ("set paid", "set cents")},
    "scenario-send-of-too-few": {"scenario": ("charge cents\n  end\nend\npcom", "charge\n  end\nend\npcom")},
    "scenario-transaction-without-a-read": {"scenario": b"tcom bank\n  key a 1\nend\npcom till\n  on pay\n    txn bank\n    else\n    end\n  end\nend\n"},
    "scenario-transaction-in-a-transaction": {"scenario": b"tcom bank\n  key a 1\nend\npcom till\n  on pay\n    txn bank\n      get b a\n      txn bank\n      else\n      end\n    else\n    end\n  end\nend\n"},
    "scenario-unknown-key": {"scenario": b"tcom bank\n  key a 1\nend\npcom till\n  on pay\n    txn bank\n      put b 1\n    else\n    end\n  end\nend\n"},
    "schedule-byte-that-is-no-text": {"schedule": ("input", "\x7finput")},
    "schedule-word-that-is-none": {"schedule": ("order 5", "order 5x")},
    "schedule-unknown-event": {"schedule": ("deliver", "hand")},
    "schedule-stop-at-call-17": {"schedule": ("order 5", "order 5 stop 17")},
    "schedule-line-behind-halt": {"schedule": ("deliver", "halt\ndeliver")},
    "schedule-packet-0": {"schedule": ("deliver shop till", "packet 0")},
    "schedule-unknown-component": {"schedule": ("input shop", "input shops")},
    "schedule-unknown-handler": {"schedule": ("order 5", "orders 5")},
    "schedule-crash-of-a-user": {"schedule": ("deliver shop till", "crash clerk")},
    "schedule-input-of-too-many": {"schedule": ("order 5", "order 5 6")},
    "policy-that-is-no-toml": {"policy": b"report\n"},
    "policy-unknown-key": {"policy": b"checkpoint = 3\n"},
    "policy-of-the-wrong-kind": {"policy": b"force_every = \"3\"\n"},
    "policy-out-of-range": {"policy": b"checkpoint_every = 100001\n"},
    "policy-unknown-report": {"policy": b"report = \"long\"\n"},
    "policy-key-twice": {"policy": b"lane = 3\nlane = 3\n"},
}
# Words that are refused, or that name no text.
WORDS = {"no-words": [], "unknown-word": ["walk", "scenario"], "run-without-a-schedule": ["run", "scenario"],
         "run-of-four-texts": ["run", "scenario", "schedule", "policy", "policy"], "audit-of-two": ["audit", "scenario", "schedule"],
         "make-of-no-number": ["make", "x"], "make-of-a-number-too-large": ["make", "2147483648"], "make-of-nothing": ["make"],
         "migrate-of-nothing": ["migrate"], "migrate-of-two": ["migrate", "scenario", "schedule"], "migrate-of-what-is-not-there": ["migrate", "absent"],
         "word-with-a-minus": ["run", "scenario", "schedule", "-p"], "help": ["--help"],
         "scenario-that-is-not-there": ["run", "absent", "schedule"], "schedule-that-is-not-there": ["run", "scenario", "absent"],
         "policy-that-is-not-there": ["run", "scenario", "schedule", "absent"]}
# Sequences of calls on the texts above; the schedules that they name stand here.
SCHEDULES = {"schedule": DAY, "halted": "input shop order 7\nhalt\n", "nothing": "",
             "stopped": "input shop order 5 stop 3 1 old\nrecover shop\ninput shop order 6 stop 2\ninput shop order 7\n",
             "crashes": "input shop order 1\ncrash till\ndeliver shop till\nrecover till\nresend shop\ninput shop order 2\nlose shop till\n",
             "checkpoints": "input shop order 1\ncheckpoint shop\nforce shop\ninput shop order 2\ncheckpoint till\ncrash shop\n",
             "recovered": "input shop order 5 stop 3 1 old\nrecover shop\ninput shop order 6 stop 2\nrecover shop\ncrash till\nrecover till\ninput shop order 7\n",
             "marks": "input shop order 1\ncheckpoint shop stop 5 3 1\nrecover shop\ninput shop order 2\ncheckpoint shop stop 6 9 0\nrecover shop\n"
                      "checkpoint shop stop 7\nrecover shop\ninput shop order 3\ncheckpoint shop stop 8 1\nrecover shop\ncheckpoint shop stop 9\n"
                      "input shop order 4\ncheckpoint shop\ncheckpoint shop\n",
             "loads": "input shop order 1\ncheckpoint shop\ninput shop order 2\ncrash shop\nrecover shop stop 1\nrecover shop stop 3\n"
                      "recover shop stop 4\nrecover shop stop 5\n",
             "deliveries": "packet 7\ninput shop order 5\nlose shop till\ninput shop order 6\ndeliver shop till\nhalt\n"}
POLICIES = {"still": "turns = 0\n", "policy": "report = \"brief\"\n", "short": "report = \"summary\"\nforce_every = 1\n", "often": "checkpoint_every = 2\nforce_every = 3\n"}
SEQUENCES = {
    "halted-and-gone-on-with": [["run", "scenario", "halted"], ["audit", "scenario"], ["resume", "scenario", "nothing"], ["audit", "scenario"]],
    "gone-on-with-three-times": [["run", "scenario", "schedule"], ["resume", "scenario", "crashes"], ["resume", "scenario", "stopped"],
                                 ["resume", "scenario", "nothing"], ["audit", "scenario"]],
    "refused-and-gone-on-with": [["run", "scenario", "schedule"], ["run", "scenario", "schedule"], ["resume", "scenario", "schedule"]],
    "resume-of-nothing": [["resume", "scenario", "nothing"]],
    "audit-of-nothing": [["audit", "scenario"]],
    "brief-report": [["run", "scenario", "crashes", "policy"], ["resume", "scenario", "schedule", "policy"]],
    "summary-alone": [["run", "scenario", "crashes", "short"], ["resume", "scenario", "stopped", "short"], ["audit", "scenario"]],
    "stops-at-device-calls": [["run", "scenario", "stopped"], ["audit", "scenario"]],
    "checkpoints-and-forces": [["run", "scenario", "checkpoints"], ["resume", "scenario", "checkpoints", "often"], ["audit", "scenario"]],
    "stops-within-marks": [["run", "scenario", "marks"], ["audit", "scenario"], ["resume", "scenario", "checkpoints"], ["audit", "scenario"]],
    "calls-of-a-load": [["run", "scenario", "loads"], ["audit", "scenario"]],
    "large-run-twice": [["make", "2147483647"], ["make", "0"], ["audit", "scenario"]],
}
# Runs in threads, on the texts above: words and texts that are refused, and calls one after another.
LIVE_WORDS = {"no-words": [], "one-text": ["scenario"], "four-texts": ["scenario", "schedule", "policy", "policy"], "help": ["--help", "scenario"],
              "words-of-icrun": ["run", "scenario", "schedule"], "audit": ["audit", "scenario"], "word-with-a-minus": ["scenario", "schedule", "-p"],
              "scenario-that-is-not-there": ["absent", "schedule"], "plan-that-is-not-there": ["scenario", "absent"],
              "policy-that-is-not-there": ["scenario", "schedule", "absent"]}
LIVE_REFUSED = ["scenario-variable-twice", "scenario-send-to-nobody", "schedule-unknown-event", "schedule-line-behind-halt", "schedule-packet-0",
                "policy-unknown-key", "policy-out-of-range"]
LIVE_SEQUENCES = {
    "live-and-not-again": [["scenario", "schedule"], ["scenario", "schedule"]],
    "live-deliveries-are-passed-over": [["scenario", "deliveries", "policy"]],
    "live-crashes-and-stops": [["scenario", "recovered", "short"]],
    "live-left-to-the-joins": [["scenario", "crashes", "still"]],
    "live-stops-behind-the-joins": [["scenario", "stopped", "still"]],
}


class HeldTexts:
    """The texts of a run in threads, as the model's cases have them."""

    def __init__(self, words: list[str], texts: Files) -> None:
        self.texts = [(name, texts[word]) for name, word in zip((b"s", b"c", b"p"), words)]
        self.texts += [(b"p", b"")] * (3 - len(self.texts))

    def held(self) -> list[tuple[bytes, bytes]]:
        return list(self.texts)

    @property
    def policy(self) -> str:
        return self.texts[2][1].decode()


def policy_of(words: list[str], texts: Files) -> Policy:
    """That of a run in threads. With no turns all is done behind the joins, in one order."""
    return read_policy(texts[words[2]] if len(words) > 2 else b"")


def is_calm(plan: bytes) -> bool:
    """Whether nothing crashes in a plan: then no output is shown again, and no record is played."""
    return not {"crash", "recover", "stop"} & set(plan.decode().split())


def summary_in_threads(printed: bytes, plan: bytes) -> bytes:
    """The summary of a run in threads, with `*` for the numbers that hang on their order."""
    lines = summary_of(printed.decode())
    if not is_calm(plan):
        lines = [line.rpartition(" ")[0] + " *" if line.split()[0] in ("outputs", "played") else line for line in lines]
    return "".join(f"{line}\n" for line in lines).encode()


def hold_in_any_order(name: str, words: list[str], texts: Files, printed: bytes, is_whole: bool = False) -> None:
    """What is wanted of a run in threads comes of other orders of turns too, and of fewer turns, which leave more to do behind the joins."""
    plan = texts[words[1]]
    for seed, turns in enumerate(TURNS):
        status, other, _ = model_run(HeldTexts(words, texts), random.Random(seed), turns)
        if status != 0 or summary_in_threads(other, plan) != summary_in_threads(printed, plan) or is_whole and other != printed:
            raise Failed(f"{name}: another order of turns prints {other.decode()}")


class Run:
    """A worked run: its texts, and the calls with what they find, print and leave."""

    def __init__(self, name: str, texts: Files, tool: str = "icrun") -> None:
        self.name, self.texts, self.tool = name, texts, tool
        self.files: Files = {"calls": b""} if tool == "icrun" else {"calls": b"", "program": f"{tool}\n".encode()}
        self.disks = [MemDisk() for _ in range(32)]
        self.former = [MemDisk() for _ in range(32)]  # logs of the former format, which `migrate` reads
        self.number = 0
        self.is_edited = False

    def call(self, words: list[str], tool: str = "", lines: str = "") -> tuple[int, bytes]:
        """A call of its own program or of another one, which may read the lines of a text."""
        self.number += 1
        before = self.logs()
        if self.is_edited:
            self.put_logs("found")
        if (tool or self.tool) == "icserve":
            status, printed = serve_model(words, self.texts, self.disks, self.texts[lines])
            names = [*words, lines]
        else:
            status, printed = model_call(tool or self.tool, words, self.texts, self.disks, self.former)
            names = words if self.tool == "iclive" else words[1:]
        for text in names:
            if text in self.texts:
                self.files[text] = self.texts[text]
        given = [*([f"{tool}:"] if tool else []), *words, *(["<", lines] if lines else [])]
        self.files["calls"] += " ".join([str(status), *given]).encode() + b"\n"
        hangs_on_threads = self.tool == "iclive" and status in (0, 7) and policy_of(words, self.texts).turns > 0
        if hangs_on_threads and status == 0:
            self.put_summary(words, printed)
        else:
            self.files[f"{self.number}.printed"] = printed
        if self.logs() != before and not hangs_on_threads:
            self.put_logs("logs")
        self.is_edited = False
        return status, printed

    def put_summary(self, words: list[str], printed: bytes) -> None:
        """What is printed whatever order the threads take: all, where the summary is and nothing crashes. The logs hang on it."""
        hold_in_any_order(self.name, words, self.texts, printed)
        wanted = summary_in_threads(printed, self.texts[words[1]])
        self.files[f"{self.number}.{'printed' if wanted == printed else 'summary'}"] = wanted

    def logs(self) -> Files:
        name = "icrun" if self.tool == "icserve" else self.tool
        return {f"{name}.{com:02}.{log_suffix()}": disk.bytes() for com, disk in enumerate(self.disks) if disk.bytes()}

    def put_former(self, com: int, log: bytes) -> None:
        """A log of the former format, which stands there before the first call."""
        self.former[com] = MemDisk(log)
        self.files[f"icrun.{com:02}.log"] = log

    def edit(self, com: int, data: bytes) -> None:
        """Other bytes in place of a log, before the next call."""
        self.disks[com] = MemDisk(data)
        self.is_edited = True

    def put_logs(self, folder: str) -> None:
        """Each log, or its sum where it is large."""
        large = {name: log for name, log in self.logs().items() if len(log) > LARGE}
        for name in self.logs().keys() - large.keys():
            self.files[f"{self.number}.{folder}/{name}"] = self.logs()[name]
        if large:
            sums = "".join(f"{hashlib.sha256(log).hexdigest()}  {name}\n" for name, log in large.items())
            self.files[f"{self.number}.{folder}/sums"] = sums.encode()


def slug(text: str) -> str:
    return "-".join("".join(c if c.isalnum() else " " for c in text.lower()).split())


def row_runs() -> list[Run]:
    made = []
    for folder in sorted((MODEL.parent / "rows").iterdir()):
        spec = spec_of(folder)
        if spec is None or "cases" not in spec or folder.name == LONG:
            continue
        for case in [case for case in spec["cases"] if "serve" in case or tools_of(case) in ({"icrun"}, {"iclive"}, {"icmore"})]:
            name = folder.name if len(spec["cases"]) == 1 else f"{folder.name}-{slug(case['name'])}"
            made.append(row_run(folder, case, name))
    return made


def row_run(folder: Path, case, name: str) -> Run:
    """The run of a row, whose own demands hold."""
    run = Run(name, {file.name: file.read_bytes() for file in folder.iterdir()}, *(["icserve"] if "serve" in case else tools_of(case)))
    for step in case["steps"]:
        if "edit" in step:
            edit(run, step["edit"], step)
        elif "copy" in step:
            com, log = int(step["to"].split(".")[1]), (folder / step["copy"]).read_bytes()
            (run.put_former if step["to"].endswith(".log") else run.edit)(com, log)
        elif "log" in step:
            data = run.disks[step["log"]].bytes()
            if len(data) != step["size"] or "hex" in step and data[step["from"]:].hex() != step["hex"]:
                raise Failed(f"{name}: a log isn't the row's")
        else:
            hold(name, folder, step, *run.call(step["words"], step.get("tool", ""), step.get("lines", "")))
    return run


def edit(run: Run, com: int, step) -> None:
    class Place:
        read_bytes = staticmethod(run.disks[com].bytes)
        write_bytes = staticmethod(lambda data: run.edit(com, bytes(data)))

    edit_log(Place, step)


def hold(name: str, folder: Path, step, status: int, printed: bytes) -> None:
    if status != step["status"]:
        raise Failed(f"{name}: status {status}")
    text = printed.decode()
    if "stdout" in step:
        wanted = (folder / step["stdout"]).read_text()
        if "{P}" not in wanted and wanted != text:
            raise Failed(f"{name}: printed {text}")
        with redirect_stdout(StringIO()):  # (it tells what a number in place of {P} is)
            match_text(name, wanted, text)
    match_lines(step.get("line", {}), text)
    with redirect_stdout(StringIO()):
        match_words(name, step.get("words_in_summary", []), text)


def changed(text: str, change: bytes | tuple[str, str] | None) -> bytes:
    if isinstance(change, bytes):
        return change
    if change is None:
        return text.encode()
    old, new = change
    if old not in text:
        raise Failed(f"{old!r} isn't in the text")
    return text.replace(old, new).encode("latin1")


def refused_runs() -> list[Run]:
    made = []
    for name, changes in REFUSED.items():
        texts = {"scenario": changed(SHOP, changes.get("scenario")), "schedule": changed(DAY, changes.get("schedule"))}
        words = ["run", "scenario", "schedule"]
        if "policy" in changes:
            texts["policy"] = changed("", changes["policy"])
            words.append("policy")
        made.append(refused_run(name, texts, words))
    for name, words in WORDS.items():
        texts = {"scenario": SHOP.encode(), "schedule": DAY.encode(), "policy": b""}
        made.append(refused_run(name, texts, words))
    return made


def refused_live_runs() -> list[Run]:
    made = []
    for name in LIVE_REFUSED:
        changes = REFUSED[name]
        texts = {"scenario": changed(SHOP, changes.get("scenario")), "schedule": changed(DAY, changes.get("schedule")), "policy": changed("", changes.get("policy"))}
        made.append(refused_run(f"live-{name}", texts, ["scenario", "schedule", "policy"], "iclive"))
    for name, words in LIVE_WORDS.items():
        made.append(refused_run(f"live-{name}", {"scenario": SHOP.encode(), "schedule": DAY.encode(), "policy": b""}, words, "iclive"))
    row = MODEL.parent / "rows" / "limit-of-receipts"
    words = ["scenario", "schedule", "policy"]
    return [*made, refused_run("live-limit-of-receipts", {name: (row / name).read_bytes() for name in words}, words, "iclive")]


def random_live_runs() -> list[Run]:
    """The first seeds whose values hang on no order of threads."""
    made: list[Run] = []
    for seed in range(1, 1000):
        texts = LiveTexts(seed)
        if texts.kind == "strict" and len(made) < LIVE:
            run = Run(f"random-live-{len(made) + 1:02}", {TEXTS[name.decode()]: text for name, text in texts.held()}, "iclive")
            run.call(["scenario", "schedule", "policy"])
            made.append(run)
    return made


def refused_run(name: str, texts: Files, words: list[str], tool: str = "icrun") -> Run:
    run = Run(f"refused-{name}", texts, tool)
    if run.call(words)[0] == 0:
        raise Failed(f"{name}: it isn't refused")
    return run


def sequence_runs() -> list[Run]:
    texts = {name: text.encode() for name, text in {"scenario": SHOP, **SCHEDULES, **POLICIES}.items()}
    made = []
    for name, calls in {**SEQUENCES, **LIVE_SEQUENCES}.items():
        run = Run(name, texts, "iclive" if name in LIVE_SEQUENCES else "icrun")
        for words in calls:
            run.call(words)
        made.append(run)
    return made


def packets_run() -> Run:
    """The sender's only batch is gone, so its receiver asks for the message until the packets are at their limit."""
    run = Run("limit-of-packets", {"scenario": SHOP.encode(), "schedule": DAY.encode(), "nothing": b"", "policy": b"report = \"summary\"\n"})
    run.call(["run", "scenario", "schedule", "policy"])
    edit(run, 1, {"set": {FIRST_GATE: 0}})
    run.call(["resume", "scenario", "nothing", "policy"])
    return run


def marked_run(name: str) -> Run:
    """A run whose shop has two checkpoints, with a slot for each."""
    run = Run(name, {"scenario": SHOP.encode(), "schedule": SCHEDULES["checkpoints"].encode() + b"recover shop\ninput shop order 3\ncheckpoint shop\ninput shop order 4\n",
                     "nothing": b""})
    run.call(["run", "scenario", "schedule"])
    return run


def damaged_runs() -> list[Run]:
    """A log is read whole by what a call begins with, so that damage before the last slot's batch is told too; and slots that name what
    they must not, and a log of another component."""
    first, second = load_log(marked_run("").disks[1], fingerprint(SHOP.encode()), 1)[0].slots[:2]
    changes = {"batch-before-the-slot-damaged": {FIRST_GATE + 5: 0}, "slot-of-no-batch": {slot_place(1) + 8: (second + 1) % 256},
               "slots-out-of-order": {slot_place(1) + 1 + i: byte for i, byte in enumerate(first.to_bytes(8, "big"))},
               "slot-of-a-batch-without-a-checkpoint": {slot_place(0) + 1 + i: byte for i, byte in enumerate(FIRST_GATE.to_bytes(8, "big"))},
               "log-of-another-component": {40: 2}, "slot-closed": {slot_place(1): 0}, "slot-gate-of-another-byte": {slot_place(1): 2}}
    made = []
    for name, bytes_of in changes.items():
        run = marked_run(name)
        edit(run, 1, {"set": bytes_of})
        for words in (["audit", "scenario"], ["resume", "scenario", "nothing"]):
            run.call(words)
        made.append(run)
    return made


def migrated_runs() -> list[Run]:
    """Logs of the former format: migrated and gone on with; with checkpoints; beside new logs; and those that are refused."""
    texts = {name: text.encode() for name, text in {"scenario": SHOP, **SCHEDULES}.items()}
    texts["other"] = texts["scenario"] + b"# another text\n"
    go_on = [["migrate", "scenario"], ["audit", "scenario"], ["resume", "scenario", "checkpoints"], ["audit", "scenario"]]
    refused = [["migrate", "scenario"], ["audit", "scenario"]]
    made = []
    for name, schedule, change, calls in [
            ("migrated-and-gone-on-with", "crashes", None, go_on), ("migrated-with-checkpoints", "checkpoints", None, go_on),
            ("migrated-half-way", "halted", None, go_on), ("migrated-blank", "nothing", None, go_on),
            ("migrated-twice", "crashes", None, [["migrate", "scenario"], ["migrate", "scenario"]]),
            ("migrated-a-foreign-log", "crashes", None, [["migrate", "other"], ["audit", "other"]]),
            ("migrated-a-log-cut-off", "crashes", lambda log: log[:60], refused),
            ("migrated-a-log-damaged", "crashes", lambda log: log[:45] + b"\0" + log[46:], refused),
            ("migrated-a-log-of-no-length", "crashes", lambda log: b"", refused),
            ("migrated-bytes-behind-the-gate", "crashes", lambda log: log + b"\1\2\3", go_on)]:
        run = Run(name, texts)
        for com, log in former_logs(texts, schedule).items():
            run.put_former(com, log if com != 2 or change is None else change(log))
        for words in calls:
            run.call(words)
        made.append(run)
    return made


def former_logs(texts: Files, schedule: str) -> dict[int, bytes]:
    """What a run leaves in logs of the former format."""
    disks = [MemDisk() for _ in range(32)]
    RULES.format = 1
    model_call("icrun", ["run", "scenario", schedule], texts, disks, [])
    RULES.format = GIVEN.format
    return {com: disk.bytes() for com, disk in enumerate(disks) if disk.bytes()}


def random_runs() -> list[Run]:
    made = []
    for kind, count in RANDOM.items():
        for seed in range(1, count + 1):
            made.append(random_run(f"random-{NAMES[kind]}-{seed:02}", make_case(kind, seed)))
    return made


NAMES = {"full": "components", "migrate": "migrations", "texts": "texts", "first": "adders", "two": "moves", "clients": "clients", "standby": "standbys"}
TEXTS = {"s": "scenario", "c": "schedule", "p": "policy", "second": "later"}


def random_run(name: str, case: Made) -> Run:
    command = case.calls[0][0]
    names, tool = {"s": "script"} if command == "two" else TEXTS, "icmore" if command in ("two", "clients", "standby") else "icrun"
    whole = 2 if command == "standby" else 1  # (behind it words are names of texts)
    run = Run(name, {names[text]: data for text, data in case.texts.items()}, tool)
    for com, log in case.old_logs.items():
        run.put_former(com, log)
    for words in case.calls:
        if run.call([*words[:whole], *(names[word] for word in words[whole:])])[0] != 0:
            break
    return run


EXAMPLE_CALLS = [["two", "script"], ["clients", "scenario", "clients"], ["standby", "store", "scenario", "failover"], ["run", "scenario", "schedule"]]


def wanted() -> dict[str, Files]:
    """The files of each folder of worked runs, and what the examples print, by their paths from the repository."""
    made: dict[str, Files] = {"tests/runs": {}, "examples": {}}
    runs = [*row_runs(), *refused_runs(), *sequence_runs(), packets_run(), *damaged_runs(), *migrated_runs(), *random_runs(), *refused_live_runs(), *random_live_runs()]
    for run in runs:
        for file, data in run.files.items():
            made["tests/runs"][f"{run.name}/{file}"] = data
    for folder in sorted(EXAMPLES.iterdir()):
        texts = {file.name: file.read_bytes() for file in folder.iterdir() if file.is_file()}
        if "shop.py" in texts:  # its run hangs on chance
            continue
        words = next(words for words in EXAMPLE_CALLS if set(words[2 if words[0] == "standby" else 1 :]) <= set(texts))
        run = Run(folder.name, texts, "icrun" if words[0] == "run" else "icmore")
        status, printed = run.call([*words, *(name for name in ("policy",) if name in texts)])
        if status != 0:
            raise Failed(f"the example {folder.name} ends with status {status}")
        made["examples"][f"{folder.name}/report"] = printed
        if folder.name in LIVE_EXAMPLES:
            made["examples"][f"{folder.name}/live"] = example_in_threads(folder.name, texts)
    return made


def example_in_threads(name: str, texts: Files) -> bytes:
    """What iclive prints of an example, its schedule as the plan: all, where nothing crashes, else the summary."""
    words = [name for name in ("scenario", "schedule", "policy") if name in texts]
    status, printed = model_call("iclive", words, texts, [MemDisk() for _ in range(32)], [])
    hold_in_any_order(name, words, texts, printed, is_whole=is_calm(texts["schedule"]))
    return printed if status == 0 and is_calm(texts["schedule"]) else summary_in_threads(printed, texts["schedule"])


def there(folder: str) -> Files:
    """Those that stand there. Runs told by .ci/cases.py are its own."""
    found = sorted((HERE / folder).rglob("*"))
    files = {str(file.relative_to(HERE / folder)): file.read_bytes() for file in found
             if file.is_file() and (folder != "examples" or file.name in ("report", "live"))}
    return {name: data for name, data in files.items() if not name.startswith("told-")}


def main() -> int:
    made = wanted()
    if WRITES:
        for folder in RUNS.glob("*"):
            if not folder.name.startswith("told-"):
                shutil.rmtree(folder)
        for folder, files in made.items():
            for name, data in files.items():
                path = HERE / folder / name
                path.parent.mkdir(parents=True, exist_ok=True)
                path.write_bytes(data)
    differ = 0
    for folder, files in made.items():
        found = there(folder)
        for name in sorted(files.keys() | found.keys()):
            if files.get(name) != found.get(name):
                differ += 1
                print(f"{folder}/{name}: {'not of the model' if name not in files else 'missing' if name not in found else 'differs from the model'}")
    print(f"worked runs: {len(made['tests/runs'])} files, {len(made['examples'])} texts that examples print, {differ} differ from the model")
    return 1 if differ else 0


if __name__ == "__main__":
    sys.exit(main())
