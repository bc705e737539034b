#!/usr/bin/env python3
"""Compares `haystack audit` with the judge of bench/blocks.py, which was written from the rules and from no code of the program.

    bench/audits.py judge --program PATH [--scripts N] [--changes N] [--seed N] [--keep FOLDER]
    bench/audits.py time --program PATH [--photos N]
    bench/audits.py states [--scripts N] [--seed N]

`judge` draws scripts of plain lines, faults and restarts, and runs each with the program over void disks. What it prints has to be
lawful for both. Then it makes one change after the other in the transcript: a field is another one, or a line is left out, doubled or
exchanged with another; and both have to agree in the judgement and in its number. `time` lets the program put and read so many photos,
and judge what it printed, and tells the processor time that each took. `states` counts what an audit keeps of such scripts, whose
transcripts are those of the store of block_store.py: by the compactions that may go on and by the counts of the disks, as docs/audit.md
says, and beside it what it would keep if it left out no state.
"""

import argparse
import collections
import copy
import itertools
import random
import re
import resource
import subprocess
import sys
from dataclasses import dataclass
from pathlib import Path

import block_judge
import block_text as text
from block_store import Store
from blocks import Script

LINES = (5, 60)
WORDS = ("stored", "deleted", "gone", "photo", "full", "readonly", "failed", "flushed", "compacted", "stepped", "kept", "lost", "idle")


class PlainScript(Script):
    """A script without blocks."""

    def add_block(self):
        for _ in range(self.draw.randrange(*LINES)):
            self.lines.append(self.plain_line())
        if self.draw.random() < 0.5:
            self.add_behind()


# THE TWO JUDGES


def run(program, mode, settings, given):
    done = subprocess.run([program, mode, *settings.words()], input=given, capture_output=True, timeout=600, check=False)
    return done.returncode, done.stdout


def audited(program, script, transcript):
    """What the program says of a transcript."""
    frame = b"script %d\n" % len(script.text()) + script.text() + transcript
    status, line = run(program, "audit", script.settings, frame)
    word = {0: "lawful", 9: "unlawful", 11: "open"}.get(status)
    found = re.fullmatch(rb"(\w+) (\d+)\n", line)
    if word is None or found is None or found[1].decode() != word:
        sys.exit(f"audit: status {status}, {line!r}")
    return word, int(found[2])


def is_wanting(transcript):
    """Whether a line is answered for want of memory, which leaves its item open."""
    return re.search(rb"^\d+ nomem$", transcript, re.M) is not None


def fits_shorter(judge, item, lines):
    """Whether a restart is lawful with fewer of the notes that stand behind it."""
    rest = lines.lines[lines.at :]
    for count in range(len(rest) - 1, 0, -1):
        shorter = text.Lines("\n".join(rest[:count]) + "\n")
        tried = block_judge.Judge(judge.settings, judge.sure)
        tried.worlds = list(judge.worlds)
        if block_judge.verdict_of(tried, item, shorter).word == "lawful":
            return True
    return False


def judged(script, transcript):
    """What the judge says of it: the number of items from the first on that are lawful. Any arm and any disk may fail."""
    lines = text.Lines(transcript.decode("ascii", "replace"))
    try:
        settings = text.settings_of(lines.take(), script.settings.secret)
    except text.BadText:
        return "unlawful", 0
    if settings != script.settings:
        return "unlawful", 0
    judge = block_judge.Judge(settings)
    for number, item in enumerate(text.items_of(script.text())):
        ahead = copy.copy(lines)
        verdict = block_judge.verdict_of(judge, item, lines)
        if verdict.word == "undecided":
            return "undecided", number
        if verdict.word == "unlawful":
            restarts = item.command is not None and item.command.word == "restart"
            return "unlawful", number + int(restarts and fits_shorter(judge, item, ahead))
    count = len(list(text.items_of(script.text())))
    return ("unlawful" if lines.next() or lines.open_end else "lawful"), count


# CHANGES


def with_field(draw, line):
    """The line with one of its fields changed."""
    fields = line.split(b" ")
    at = draw.randrange(len(fields))
    parts = re.split(rb"(\d+)", fields[at])
    numbers = [i for i, part in enumerate(parts) if part.isdigit()]
    if numbers and draw.random() < 0.8:
        i = draw.choice(numbers)
        parts[i] = str(max(0, int(parts[i]) + draw.choice((-1, 1, 1, 7, 64)))).encode()
        fields[at] = b"".join(parts)
    else:
        fields[at] = draw.choice(WORDS).encode()
    return b" ".join(fields)


def changed(draw, transcript):
    """The transcript with one change, and what it was."""
    lines = transcript.splitlines()
    at, kind = draw.randrange(len(lines)), draw.choice(("field", "field", "field", "left out", "doubled", "exchanged"))
    if kind == "field":
        lines[at] = with_field(draw, lines[at])
    elif kind == "left out":
        del lines[at]
    elif kind == "doubled":
        lines.insert(at, lines[at])
    else:
        other = draw.randrange(len(lines))
        lines[at], lines[other] = lines[other], lines[at]
    return kind, b"".join(line + b"\n" for line in lines)


# STATES THAT ARE KEPT


@dataclass(frozen=True)
class Kept:
    """What an audit's states may differ in: the replicas whose compactions go on, and the least counts of their disks."""

    runs: frozenset
    faults: tuple

    def ended(self, settings, places):
        """The state where the compactions of these replicas have ended, each by a failure of its disk."""
        slots = [volume * settings.replicas + replica for volume, replica in places]
        return Kept(self.runs - set(places), tuple(count + (slot in slots) for slot, count in enumerate(self.faults)))

    def failed(self, settings, place, count):
        """The state where the disk of this replica failed and its count came up to this one, if it can have."""
        slot = place[0] * settings.replicas + place[1]
        if self.faults[slot] >= count:
            return []
        return [Kept(self.runs, self.faults[:slot] + (count,) + self.faults[slot + 1 :])]

    def without(self, places):
        return Kept(self.runs - set(places), self.faults)

    def stands_for(self, other):
        return self.runs == other.runs and all(count <= higher for count, higher in zip(self.faults, other.faults))


def behind_failure(settings, state, word, place, count):
    """The states behind a command of this word that failed on a replica."""
    if word not in ("put", "del", "begin", "step", "finish", "compact"):
        return state.failed(settings, place, count)
    frozen = [run for run in state.runs if run[0] == place[0]]
    left = [frozen] if word == "put" else [[], frozen] if word == "del" else [[place]]
    return [after for states in (state.failed(settings, place, count),) for after in states for after in map(after.without, left)]


def behind_work(state, word, place, reply):
    """The states behind a command of this word on a compaction."""
    goes_on = place in state.runs
    due = {"begun": False, "idle": False, "stepped": True, "busy": True, "damaged": True, "compacted": word == "finish"}
    if reply.word in due and due[reply.word] != goes_on:
        return []
    if reply.word == "begun":
        return [Kept(state.runs | {place}, state.faults)]
    return [state.without([place])] if reply.word in ("compacted", "damaged") else [state]


def behind(settings, state, word, reply):
    """The states behind a reply to a command of this word."""
    if reply.word == "restarted":
        return [state.without(state.runs)]
    if reply.word == "deleted":
        runs = sorted(run for run in state.runs if run[0] == reply.volume)
        choices = itertools.chain.from_iterable(itertools.combinations(runs, count) for count in range(len(runs) + 1))
        return [state.ended(settings, chosen) for chosen in choices]
    replica = None if None in (reply.volume, reply.machine) else settings.replica_on(reply.volume, reply.machine)
    if replica is None:
        return [state]
    place = (reply.volume, replica)
    if reply.word == "failed":
        return behind_failure(settings, state, word, place, reply.count)
    return behind_work(state, word, place, reply) if word in ("begin", "step", "finish", "compact") else [state]


def joined(states):
    """The states without those for which one before them stands."""
    left = []
    for state in states:
        if not any(other.stands_for(state) for other in left):
            left.append(state)
    return left


def most_kept(script, transcript, joins):
    """The greatest number of states behind a line of a transcript, and whether there are some to the end."""
    asked = script.text().decode("ascii").splitlines()
    states, most = [Kept(frozenset(), (0,) * (script.settings.volumes * script.settings.replicas))], 1
    for line in transcript.splitlines()[1:]:
        number, _, told = line.partition(" ")
        if not number.isdigit():
            continue
        word, reply, before = asked[int(number) - 1].partition(" ")[0], text.reply_of(told), len(states)
        states = [after for state in states for after in behind(script.settings, state, word, reply)]
        if joins and (len(states) > before or reply.word == "restarted"):
            states = joined(states)
        most = max(most, len(states))
    return most, bool(states)


# RUNS


def keep(folder, name, script, transcript):
    if folder:
        Path(folder).mkdir(parents=True, exist_ok=True)
        Path(folder, f"{name}.script").write_bytes(script.text())
        Path(folder, f"{name}.transcript").write_bytes(transcript)


def compare(options, tally, name, script, transcript):
    """Whether both say the same of a transcript."""
    if is_wanting(transcript):
        tally["open"] += 1
        return True
    ours, theirs = judged(script, transcript), audited(options.program, script, transcript)
    tally[ours[0]] += 1
    if ours[0] == "undecided" or ours == theirs:
        return True
    keep(options.keep, name, script, transcript)
    print(f"{name}: the judge says {ours[0]} {ours[1]}, audit says {theirs[0]} {theirs[1]}", flush=True)
    return False


def run_judge(options):
    tally, kinds, wrong = collections.Counter(), collections.Counter(), 0
    for seed in range(options.seed, options.seed + options.scripts):
        script, draw = PlainScript(seed), random.Random(f"changes {seed}")
        status, transcript = run(options.program, "run", script.settings, script.text())
        if status != 0:
            sys.exit(f"seed {seed}: status {status}")
        if not compare(options, tally, f"{seed}", script, transcript) or audited(options.program, script, transcript)[0] != "lawful":
            wrong += 1
            continue
        for number in range(options.changes):
            kind, other = changed(draw, transcript)
            kinds[kind] += 1
            wrong += not compare(options, tally, f"{seed}.{number}", script, other)
    print(f"{options.scripts} scripts; judged: {dict(tally)}; changes: {dict(kinds)}; {wrong} apart")
    return 1 if wrong else 0


def seconds():
    """The processor time of the programs that ended so far."""
    used = resource.getrusage(resource.RUSAGE_CHILDREN)
    return used.ru_utime + used.ru_stime


def measured(program, mode, settings, given):
    """What the program answers, and the seconds of the processor that it took."""
    begun = seconds()
    status, said = run(program, mode, settings, given)
    return status, said, seconds() - begun


def run_time(options):
    settings = text.Settings(capacity=1 << 30)
    puts = "".join(f"put {key} 1 x64:{key % 256:02x}\n" for key in range(options.photos))
    reads = "".join(f"read {key} 1 {text.cookie_of(settings.secret, key):x}\n" for key in range(options.photos))
    given = (puts + reads).encode()
    status, transcript, ran = measured(options.program, "run", settings, given)
    frame = b"script %d\n" % len(given) + given + transcript
    judged_status, line, took = measured(options.program, "audit", settings, frame)
    print(f"{options.photos} puts and reads: run {ran:.2f} s (status {status}), audit {took:.2f} s (status {judged_status}, {line!r}), {took / ran:.2f} times")
    return 0 if status == judged_status == 0 else 1


def run_states(options):
    joins, all_kept, lost = collections.Counter(), collections.Counter(), 0
    for seed in range(options.seed, options.seed + options.scripts):
        script = PlainScript(seed)
        transcript = Store(script.settings, seed, 0, 0).run(script.text())
        for counter, left_out in ((joins, True), (all_kept, False)):
            most, some = most_kept(script, transcript, left_out)
            counter[most] += 1
            lost += not some
    for name, counter in (("kept", joins), ("without leaving any out", all_kept)):
        print(f"{name}: " + ", ".join(f"at most {most} in {count}" for most, count in sorted(counter.items())))
    print(f"{options.scripts} scripts, {lost} lost")
    return 1 if lost else 0


def main():
    parser = argparse.ArgumentParser(description=__doc__.splitlines()[0])
    modes = parser.add_subparsers(dest="mode", required=True)
    judge = modes.add_parser("judge")
    judge.add_argument("--scripts", type=int, default=1000)
    judge.add_argument("--changes", type=int, default=10, help="so many of each transcript")
    judge.add_argument("--seed", type=int, default=1)
    judge.add_argument("--keep", help="a folder for what the two judge differently")
    timed = modes.add_parser("time")
    timed.add_argument("--photos", type=int, default=100_000)
    states = modes.add_parser("states")
    states.add_argument("--scripts", type=int, default=1000)
    states.add_argument("--seed", type=int, default=1)
    for mode in (judge, timed):
        mode.add_argument("--program", required=True)
    options = parser.parse_args()
    sys.exit({"judge": run_judge, "time": run_time, "states": run_states}[options.mode](options))


if __name__ == "__main__":
    main()
