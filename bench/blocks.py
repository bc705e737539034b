#!/usr/bin/env python3
"""Judges blocks of lanes: whether what a script and its transcript show is lawful, and why it is not.

    bench/blocks.py judge SCRIPT TRANSCRIPT [--secret HEX] [--sure]
    bench/blocks.py blocks [--program PATH] [--blocks N] [--seed N] [--keep FOLDER]
    bench/blocks.py faults [--scripts N] [--seed N] [--only WORD]

`judge` reads a script and the transcript of a run of it over void disks, and tells of each block whether it is lawful; it stops at the
first item that is not. `blocks` draws scripts of plain lines, blocks of 2 to 8 lanes and restarts until there are N blocks, and judges
what the store of block_store.py prints of them, or with --program what the program does. The state that the store stands at in the end
has to be one of those that the judge keeps (block_truth.py). `faults` takes that store with one planted fault after the other
(block_faults.py), and tells how many scripts it takes until the judge finds it.

The judge is written from the rules of docs/model.md, and from no definition or code of the program. It keeps all states that the store
may stand at, with the least counts of faults. A plain line is judged as a block of one lane. What each line did to a volume, or found
there, is taken apart into parts (block_volume.py). A block is lawful where no rule below refuses it, and where the parts at each
replica have an order, each lane's in its own, by which each line was answered as it was. What such orders leave stands behind it.

each line has one reply, in order, with its one text          block_text: take_turn, reply_of
a reply is of a kind of its command; nowhere where it is due  block_judge: kinds, own_place
where no read can fail each shows its start replica           block_judge: start_replicas
the log has the acknowledged lines, at their positions        block_judge: new_entries; block_volume: must_be_next
rows, and why no earlier try took the photo                   block_judge: new_rows, decision; block_volume: Passed, Takes
fronts, positions and rows of a lane rise                     block_judge: fronts; block_volume: Shown
answers at their fronts                                       block_judge: answers, right_photo, right_url, right_causes
counts of failures come up, and none is told twice            block_judge: counts, arm_counts; block_volume: counted, fails
no change comes to a volume that is closed                    block_volume: must_be_open, in each change
room at each put; the lowest replica without room, its end    block_judge: needs, ends_in_range; block_volume: Stored, NoRoom
who closed a volume, and when                                 block_judge: closings; block_volume: ClosedBy, Flush, Work
groups are the tries in order, of a pair without a home       block_judge: groups, homes_in_order
ends and records are of one moment, in each lane's order      block_volume: orders
a freeze is one line's, and who met it meets it later too     block_volume: froze, PutFailed, DeleteFailed, Wanted, orders
one change of a volume is pending, and one row                block_volume: Pending, with froze; block_judge: ways_of
the count that froze a volume is its disk's last one told     block_volume: counted, with orders
the Directory's freeze, and what a lane knows of homes        block_judge: directory_in_order, met_frozen, homes_in_order
a run of before ends by a deletion whose disk failed, or by   block_volume: Deleted, froze
  a freeze
busy, worn, and the generations that are made                 block_judge: generations; block_volume: Begin, with orders
records that a flush writes; an index that is stuck           block_volume: Flush, swapped
want of memory                                                block_judge: wanted_choices; block_volume: Wanted, wanted_here
what is left behind the block                                 block_judge: stand_behind, stays_in_range, directory_behind
restarts and their notes                                      block_judge: worlds_restarted, notes_fit, reopened

It asks for more than the rules in these: the lanes' order, positions, rows and fronts stand in one order over all volumes (`one_order`);
all lines of a replica came in one order, not each at some front by itself; a lane that held a lock is shown all that came before; and a
swap leaves just the cells that its order makes of it, where the rules have a range.

It does not hold these:
- replicas that a read passed over are laid to no count, so the counts of arms and disks may be taken as too low behind it;
- of a refusal of a volume it does not ask that one moment fits all of its replicas, and an earlier try that no group tells of may lack
  room on any replica that can lack it at some moment of the block;
- of `readonly dir` and `failed dir` in a block it asks that some try can have taken the photo, and not when;
- a restart that is answered `nomem`, an `open` line, and a turn that has more orders than it looks at are undecided.
"""

import argparse
import collections
import itertools
import random
import subprocess
import sys
from pathlib import Path

import block_judge
import block_text as text
from block_faults import FAULTS
from block_store import Store
from block_truth import is_kept

SIZES = ((0, 1, 20, 600), (1, 500, 900, 1500), (3, 40, 3000))
MIXES = ((5, 4, 1, 2, 1, 1, 1), (8, 2, 0, 2, 0, 1, 1), (3, 8, 2, 1, 1, 0, 0), (5, 2, 0, 3, 0, 2, 3))
MOST_LINES = 40
# how often an arm fails, or a look at a disk; and how often memory is wanting
FLAKY = (0, 0, 0, 0.1)
SCARCE = (0, 0, 0, 0, 0, 0.02)
# how many more scripts are tried for a fault that was found outside of a block
MOST_FURTHER = 100


# SCRIPTS


class Script:
    """A drawn script, with the settings that it is for."""

    def __init__(self, seed):
        self.draw = draw = random.Random(seed)
        machines = draw.choice((1, 2, 2, 3))
        replicas = draw.randint(1, min(3, machines))
        secret = bytes(32) if draw.random() < 0.8 else draw.randbytes(32)
        self.settings = text.Settings(machines, draw.choice((1, 1, 2, 3)), replicas, draw.choice((4096, 4096, 4600, 65536)), secret)
        self.keys, self.sizes = draw.choice((2, 3, 4)), draw.choice(SIZES)
        self.lines = []
        for _ in range(draw.randrange(12)):
            self.lines.append(self.lane_line((9, 0, 0, 1, 0, 1, 1)) if draw.random() < 0.7 else self.plain_line())
        for _ in range(draw.randint(1, 5)):
            self.add_block()

    def text(self):
        return "".join(line + "\n" for line in self.lines).encode("ascii")

    def pair(self):
        return (self.draw.randrange(self.keys), self.draw.choice((1, 1, 2)))

    def replica(self):
        volume = self.draw.randrange(self.settings.volumes)
        if self.draw.random() < 0.03:
            return f"{volume} {self.draw.randrange(4)}"
        return f"{volume} {self.settings.machine_of(volume, self.draw.randrange(self.settings.replicas))}"

    def cookie(self, key):
        cookie = text.cookie_of(self.settings.secret, key)
        return cookie if self.draw.random() < 0.95 else cookie ^ 1

    def lane_line(self, mix):
        word = self.draw.choices(("put", "read", "get", "del", "url", "flush", "compact"), mix)[0]
        key, alt = self.pair()
        if word == "put":
            size = self.draw.choice(self.sizes)
            return f"put {key} {alt} " + ("-" if size == 0 else f"x{size}:{self.draw.randrange(256):02x}")
        if word == "read":
            return f"read {key} {alt} {self.cookie(key):x}"
        if word == "get":
            volume = self.draw.randrange(self.settings.volumes)
            machine = self.settings.machine_of(volume, self.draw.randrange(self.settings.replicas))
            return "get " + text.Url(machine, volume, (key, alt), self.cookie(key)).text()
        return f"{word} {key} {alt}" if word in ("del", "url") else f"{word} {self.replica()}"

    def plain_line(self):
        word = self.draw.choices(("lane", "begin", "step", "finish", "drain", "undrain", "fuse"), (12, 2, 2, 1, 0.5, 1, 2))[0]
        if word == "lane":
            return self.lane_line((6, 3, 1, 2, 1, 1, 1))
        if word == "step":
            return f"step {self.replica()} {self.draw.choice((1, 2, 5))}"
        if word in ("drain", "undrain"):
            return f"{word} {self.draw.randrange(self.settings.machines)}"
        return self.fuse_line() if word == "fuse" else f"{word} {self.replica()}"

    def fuse_line(self):
        if self.draw.random() < 0.25:
            return f"fuse dir {self.draw.randrange(9)}"
        return f"fuse {self.replica()} {self.draw.randrange(30)}"

    def add_block(self):
        """A block, with what may come before and behind it."""
        while self.draw.random() < 0.3:
            self.lines.append(self.fuse_line())
        if self.draw.random() < 0.3:
            replica = self.replica()
            self.lines += [f"begin {replica}", f"step {replica} {self.draw.choice((1, 3, 9))}"]
        lanes, mix = self.draw.randint(2, 8), self.draw.choice(MIXES)
        self.lines.append(f"lanes {lanes}")
        count = min(self.draw.choice((lanes, 2 * lanes, 3 * lanes, MOST_LINES)), MOST_LINES)
        chosen = self.draw.sample(range(lanes), lanes) + self.draw.choices(range(lanes), k=count - lanes)
        self.lines += [f"{lane} {self.lane_line(mix)}" for lane in chosen]
        self.lines.append("end")
        if self.draw.random() < 0.8:
            self.add_behind()

    def add_behind(self):
        for _ in range(self.draw.randrange(4)):
            self.lines.append(self.plain_line())
        if self.draw.random() < 0.4:
            self.add_reads()
        if self.draw.random() < 0.6:
            self.lines.append(self.draw.choice(("restart", "restart 1", f"restart {self.draw.randrange(2, 99)}")))
            if self.draw.random() < 0.7:
                self.add_reads()

    def add_reads(self):
        """Reads each pair from each replica, and flushes and compacts each at times."""
        for key, alt in itertools.product(range(self.keys), (1, 2)):
            self.lines += [f"read {key} {alt} {text.cookie_of(self.settings.secret, key):x}"] * self.settings.replicas
        for volume, replica in itertools.product(range(self.settings.volumes), range(self.settings.replicas)):
            if self.draw.random() < 0.3:
                word = self.draw.choice(("flush", "compact"))
                self.lines.append(f"{word} {volume} {self.settings.machine_of(volume, replica)}")


def flaky_of(seed):
    """How often a read of a script's store fails."""
    return random.Random(seed).choice(FLAKY)


def store_of(kind, script, seed):
    return kind(script.settings, seed, flaky_of(seed), random.Random(f"memory {seed}").choice(SCARCE))


def judge_program(program, script, seed):
    """The transcript of the program, and its verdicts."""
    done = subprocess.run([program, "run", *script.settings.words()], input=script.text(), capture_output=True, timeout=600, check=False)
    if done.returncode != 0:
        sys.exit(f"seed {seed}: status {done.returncode}, {done.stderr!r}")
    transcript = done.stdout.decode("ascii")
    return transcript, block_judge.verdicts(script.text(), transcript, script.settings.secret, sure=True)


def judge_store(kind, script, seed):
    """The transcript of a store of this kind, and its verdicts, of which the last one is that the judge keeps the state of the store."""
    store = store_of(kind, script, seed)
    transcript = store.run(script.text())
    verdicts, worlds = block_judge.judged(script.text(), transcript, script.settings.secret, flaky_of(seed) == 0)
    if verdicts[-1].word == "lawful" and not is_kept(store, worlds):
        verdicts.append(block_judge.Verdict(0, word="lost", reasons=("the judge does not keep the state that the store stands at",)))
    return transcript, verdicts


# RUNS


class Tally:
    """How blocks and other items were judged, and which replies and notes their transcripts have."""

    def __init__(self):
        self.blocks, self.plain, self.lanes, self.in_blocks, self.others = (collections.Counter() for _ in range(5))

    def add(self, verdicts, transcript, script):
        for verdict in verdicts:
            (self.blocks if verdict.is_block else self.plain)[verdict.word] += 1
        items = [item for item in text.items_of(script) if isinstance(item, text.Block)]
        self.lanes.update(len({asked.lane for asked in item.asked if asked.command}) for item in items)
        in_block = {str(asked.line) for item in items for asked in item.asked}
        for line in transcript.splitlines()[1:]:
            first, _, reply = line.partition(" ")
            counter = self.in_blocks if first in in_block else self.others
            counter[text.reply_of(reply).word if first.isdigit() else first] += 1

    def told(self):
        def parts(counter):
            return ", ".join(f"{count} {word}" for word, count in sorted(counter.items()))

        lanes = ", ".join(f"{count} of {number}" for number, count in sorted(self.lanes.items()))
        return (
            f"blocks: {parts(self.blocks)}; other items: {parts(self.plain)}\nblocks by their lanes: {lanes}\n"
            f"replies in blocks: {parts(self.in_blocks)}\nother replies, and notes: {parts(self.others)}"
        )


def keep(folder, seed, script, transcript):
    if folder:
        Path(folder).mkdir(parents=True, exist_ok=True)
        Path(folder, f"{seed}.script").write_bytes(script.text())
        Path(folder, f"{seed}.transcript").write_text(transcript, encoding="ascii")


def run_blocks(options):
    tally, seed, wrong = Tally(), options.seed, 0
    while sum(tally.blocks.values()) < options.blocks:
        script = Script(seed)
        transcript, verdicts = judge_program(options.program, script, seed) if options.program else judge_store(Store, script, seed)
        tally.add(verdicts, transcript, script.text())
        for verdict in verdicts:
            if verdict.word != "lawful":
                wrong += 1
                keep(options.keep, seed, script, transcript)
                print(f"seed {seed}: {verdict.told()}", flush=True)
        seed += 1
    print(f"{seed - options.seed} scripts\n{tally.told()}")
    return 1 if wrong else 0


def found_by(kind, options):
    """After how many scripts a fault is found, and after how many in a block, each with the verdict, where it is."""
    first, in_block = None, None
    for count in range(1, options.scripts + 1):
        if in_block or (first and count > first[0] + MOST_FURTHER):
            break
        seed = options.seed + count
        script = Script(seed)
        _, verdicts = judge_store(kind, script, seed)
        last = verdicts[-1]
        if last.word != "unlawful":
            continue
        first = first or (count, last)
        if last.is_block:
            in_block = (count, last)
    return first, in_block


def run_faults(options):
    missed = 0
    print("| planted fault | scripts until found | until found in a block | told |\n|---|---:|---:|---|")
    for name, kind in FAULTS.items():
        if options.only and options.only not in name:
            continue
        first, in_block = found_by(kind, options)
        missed += first is None
        told = (in_block or first or (0, None))[1]
        counts = " | ".join(str(found[0]) if found else "none" for found in (first, in_block))
        print(f"| {name} | {counts} | {told.reasons[0] if told else ''} |", flush=True)
    return 1 if missed else 0


def run_judge(options):
    transcript = options.transcript.read_text(encoding="ascii")
    found = block_judge.verdicts(options.script.read_bytes(), transcript, bytes.fromhex(options.secret), options.sure)
    for verdict in found:
        if verdict.is_block or verdict.word != "lawful":
            print(verdict.told())
    return 0 if all(verdict.word == "lawful" for verdict in found) else 1


def main():
    parser = argparse.ArgumentParser(description=__doc__.splitlines()[0])
    modes = parser.add_subparsers(dest="mode", required=True)
    judge = modes.add_parser("judge")
    judge.add_argument("script", type=Path)
    judge.add_argument("transcript", type=Path)
    judge.add_argument("--secret", default="00" * 32)
    judge.add_argument("--sure", action="store_true", help="no read fails, so each shows its start replica")
    blocks = modes.add_parser("blocks")
    blocks.add_argument("--program")
    blocks.add_argument("--blocks", type=int, default=2000)
    blocks.add_argument("--seed", type=int, default=1)
    blocks.add_argument("--keep", help="a folder for the scripts and transcripts that are not lawful")
    faults = modes.add_parser("faults")
    faults.add_argument("--scripts", type=int, default=500)
    faults.add_argument("--seed", type=int, default=1)
    faults.add_argument("--only", help="the faults with this word in their name")
    options = parser.parse_args()
    sys.exit({"judge": run_judge, "blocks": run_blocks, "faults": run_faults}[options.mode](options))


if __name__ == "__main__":
    main()
