"""For each last line of icrun and iclive: what it means, the usual mistake, and what to do."""

from __future__ import annotations

from dataclasses import dataclass


@dataclass(frozen=True)
class Advice:
    means: str
    mistake: str
    remedy: str


TEXT_CAUSES = {
    "limit": Advice(
        "The line has one more of something than is allowed; at line 0 the whole text is too "
        "long.",
        "a scenario or a schedule that a program made.",
        "Stay below the limits: a text has at most 1,048,576 bytes, and docs/FORMATS.md, "
        "\"Limits of a scenario\", has the others. No option raises them."),
    "not text": Advice(
        "A byte of the line is none of the letters that a text may have.",
        "an accented letter, a curly quote or a blank of another kind, often in a comment.",
        "Write plain ASCII, in comments too."),
    "bad word": Advice(
        "A word of the line is no name, no number and no operator.",
        "a capital letter, `==` for `=`, an operator without blanks around it, or a fraction.",
        "Names have lower-case letters, digits and `_`; operators stand between blanks; numbers "
        "are whole."),
    "bad structure": Advice(
        "The words are known, but the line doesn't fit where it stands.",
        "an `end` too few or too many further up, or the words of the line in another order.",
        "Compare the line with its form, and count the `end` lines above it."),
    "name twice": Advice(
        "The line declares a name that is taken already.",
        "a handler, a variable or a parameter copied without its name being changed.",
        "Take another name."),
    "unknown name": Advice(
        "The line uses a name that isn't declared, is of another kind, or isn't seen there.",
        "a slip of the pen; or a local of a `get` used behind the block in which it stands.",
        "Correct the name, or declare it."),
    "wrong number of arguments": Advice(
        "The handler has another number of parameters than values are given.",
        "a value forgotten, or a handler that got a parameter since.",
        "Give as many values as its `on` line has parameters."),
}
SCHEDULE_CAUSES = dict(TEXT_CAUSES, **{
    "bad structure": Advice(
        "The words are known, but the line is none of the events of a schedule.",
        "a word too few or too many, a number out of its range, or the texts of the call "
        "exchanged.",
        "Compare the line with its form. The order is `run SCENARIO SCHEDULE [POLICY]`."),
    "unknown name": Advice(
        "The line names a component or a handler that the scenario hasn't, or one of another "
        "kind.",
        "a slip of the pen, or a handler without its component.",
        "Correct the name. Users, which are xcoms, have no events."),
})
POLICY_CAUSES = {
    "not TOML": Advice(
        "The policy is no TOML document.",
        "a string without quotes, as in `report = full`, or a line without `=`.",
        "Write one `key = value` on a line, strings in double quotes."),
    "unknown key": Advice(
        "The policy has a key that isn't known.",
        "a slip of the pen, or a `-` for a `_`.",
        "The keys are checkpoint_every, force_every, report, workers, lane and turns."),
    "wrong kind": Advice(
        "A value of the policy is of another kind than its key asks for.",
        "a number in quotes, as in `checkpoint_every = \"16\"`.",
        "`report` is a string in quotes, and every other value is an integer without quotes."),
    "out of range": Advice(
        "A value of the policy is outside its range, or the text has more than 1,048,576 bytes.",
        "a level of `report` that there isn't, or 0 for `workers` or `lane`.",
        "`report` is \"full\", \"brief\" or \"summary\"; checkpoint_every and force_every go "
        "from 0 to 100000, workers from 1 to 8, lane from 1 to 1024, turns from 0 to 1000000."),
}
USAGE = Advice(
    "The words behind the program's name are none of the forms that it takes.",
    "a file name left out, a word too many, a word that begins with `-`, or a number for "
    "`make` above 2147483647.",
    "Take one of the forms of the line. What stands in brackets may be left out.")
FOREIGN = Advice(
    "The log was made with another scenario: it keeps the fingerprint of that text.",
    "the scenario was edited since; a comment or a blank counts too. Or the call was made in "
    "the folder of another run.",
    "Take the scenario with which the log was made. To go on with a changed one, `tools/carry` "
    "takes the values of the old logs over. Copy the folder first.")
BAD_LOG = Advice(
    "The log can't be read from that offset on, or a record may not stand there.",
    "a file that was edited, cut off or mixed up with that of another component.",
    "Change nothing here, and copy the folder first: the logs hold what was taken. Then put all "
    "logs of the run back from one backup, of the same moment; `tools/restore` does so.")
NO_LOGS = Advice(
    "The log isn't there, or is empty.",
    "nothing was run here yet, or the call was made in another folder than the run.",
    "Go to the folder of the logs, or `run` first. Where other logs are there, take all of them "
    "from one backup.")
NOT_MIGRATED = Advice(
    "The log stands there in the former format alone, or `migrate` was cut off before the new one "
    "was whole.",
    "icrun was replaced by a newer one since, or `migrate` was killed.",
    "`icrun migrate SCENARIO` makes new logs of the former ones, which keep their bytes. Where it "
    "was cut off, take the new logs away first, those with a 2 at the end of their names. Where a "
    "call has gone on from the new logs since, put them back from a backup instead.")
CUT_OFF = Advice(
    "The making of the logs was cut off: none of them holds a record yet, and no input was "
    "taken.",
    "a `run` that was killed, or that found a full disk, while it made its logs.",
    "`tools/fresh` takes these logs away; then `run` begins again.")
ILLEGAL = Advice(
    "Each log can be read, but together they aren't those of one run.",
    "one log was put back from an older copy, or comes from another run.",
    "Copy the folder first. Then take all logs of the run from the same moment, as "
    "`tools/backup` keeps them.")
RECEIPTS = Advice(
    "One call takes at most 20,000 inputs and messages, and this one came to one more.",
    "components that send to each other without end, or a very long schedule.",
    "Look at the handlers for a circle of `send` lines. Else make the schedule shorter.")
PACKETS = Advice(
    "One call puts out at most 1,000,000 packets, and this one came to one more.",
    "a schedule with very many `resend` events.",
    "Make the schedule shorter.")
FULL = Advice(
    "The next record doesn't fit into this component's log, which has at most 134,217,728 "
    "bytes; or its next number would pass 9223372036854775807.",
    "a run that goes on and on over the same logs.",
    "What was taken stands in the logs. Copy the folder, and take the values over into fresh "
    "logs with `tools/carry`, which wants a run that is settled: do so while there is room "
    "left. A checkpoint doesn't shorten a log.")
READ = Advice(
    "A text couldn't be read.",
    "a file name with a slip of the pen, or a file that this user may not read.",
    "Look whether the scenario, the schedule and the policy are there.")
DISK = Advice(
    "The host refused to read or to write this component's log.",
    "a full disk, a folder in which this user may not write, or a second call in the same "
    "folder.",
    "Take away the cause. Inputs that were told as taken stand in the logs, and `resume` goes "
    "on from there.")
NOT_BLANK = Advice(
    "A `run` and a `migrate` make their logs on blank disks, and there is a log of an earlier call "
    "in this folder.",
    "a second `run` or `migrate` in the same folder.",
    "To go on from the logs take `resume`. To begin another run take a folder of its own: these "
    "logs hold the values of the earlier one.")
LIVE_DISK = Advice(
    "The host refused to read or to write this component's log.",
    "a full disk, a folder in which this user may not write, or a second call in the same "
    "folder.",
    "Take away the cause, and begin the run in a folder of its own: iclive goes on from no logs.")
LIVE_NOT_BLANK = Advice(
    "A run begins on blank disks, and there is a log of an earlier run of iclive in this folder.",
    "a second call in the same folder.",
    "Begin another run in a folder of its own: these logs hold the values of the earlier one, "
    "and iclive goes on from none.")
NO_LINE = Advice(
    "There is no last line. Statuses 9 and 12 have none: the output failed, or memory was "
    "wanting.",
    "the call's output goes to a program that has ended, or to a full disk.",
    "Look at the call's exit status, as by `echo $?` behind it.")
ENDED = Advice(
    "The call did all that it was asked for, and nothing was refused.",
    "",
    "")
