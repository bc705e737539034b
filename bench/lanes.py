#!/usr/bin/env python3
"""Measures lanes: how much faster several serve a block than one does, and what lines and blocks cost in instructions and memory.

    bench/lanes.py [--program PATH] [--before PATH] [--repeat N] [--lines N] [--folder PATH] [--only TABLE] [--csv FOLDER]

The tables are `reads`, `puts`, `apart`, `count`, `memory`, `store` and `session`; without --only all are made.

`reads` has blocks of reads of photos of 64 KiB, and `puts` of puts of settled pairs to four volumes, each line in a block of one lane,
of two, of four and of eight, on memory disks. All bytes of a photo are equal, so that neither the script nor the transcript weighs. The
time is that on the clock, the median of all repeats, without that of the same run with an empty block; the runs with one lane and with
several are made in turn. Beside it stands what the first thread did, which answers a lane, and all that is done in front of the block and
behind it: how long it ran, and how long it was ready and another program had the processor; the rest of the clock it waited for other
lanes. The last column is the most that the lanes could do if no thread had waited, by the seconds that the first one ran, where there is a
processor for each lane and they change no common volume. `apart` has the same lines with a photo of no bytes, which tells what a line costs
besides its photo. With --csv the numbers of `reads` and of `puts` to four volumes are also written to a file in FOLDER, from which
bench/plot.py draws.

`count` has the instructions of a plain put, a plain read and a plain delete, by valgrind's cachegrind, which do not depend on other work,
those of the same lines in a block of one lane, and with --before PATH those of another build.

`memory` has the greatest memory of a run with one block of 65,536 lines above that of a run with the same lines outside of a block, beside
the bytes of the replies. `store` has what a block of one line costs over stores of files. `session` has the greatest memory of two runs
over files, one with twice as many changes as the other, of which a compaction leaves one: what is left of each change for the rest of the
session is their difference by the changes between them.

Each reply is looked at. Where other work goes on it is to be run as `nice -n -15 bench/lanes.py`.
"""

import argparse
import os
import statistics
import subprocess
import sys
import tempfile
import time
from pathlib import Path
from typing import NamedTuple

import bench
import block_text as text

ROOT = Path(__file__).resolve().parent.parent
LARGE = 65_536
KEYS = 16
VOLUMES = 4
LANES = (1, 2, 4, 8)
# what several lanes are to do of what one lane does
WANTED = {"reads": {2: 1.7, 4: 3.0}, "puts": {4: 2.5}}
MOST_LINES = 65_536


def data_of(size):
    return f"x{size}:61" if size else "-"


def put_lines(size, keys=KEYS):
    return [f"put {key} 1 {data_of(size)}" for key in range(keys)]


def cookie(key):
    return f"{text.cookie_of(bytes(32), key):016x}"


def reads(lines, size, keys=KEYS):
    return [f"read {number % keys} 1 {cookie(number % keys)}" for number in range(lines)]


def puts(lines, size, keys=KEYS):
    return [f"put {number % keys} 1 {data_of(size)}" for number in range(lines)]


def block_of(lines, lanes):
    """A block in which so many lanes have the lines in turn, each of which is a lane's whose number is that of the line's pair."""
    return [f"lanes {lanes}", *(f"{number % lanes} {line}" for number, line in enumerate(lines)), "end"]


class Runs:
    """Runs of a program."""

    def __init__(self, program, folder, words):
        self.program, self.folder, self.words = program, folder, words

    def once(self, lines, more=()):
        """What a run of a script took, and its transcript."""
        script, transcript = self.folder / "script", self.folder / "transcript"
        script.write_text("".join(line + "\n" for line in lines), encoding="ascii")
        return bench.run_once(self.program, [*self.words, *more], script, transcript), transcript

    def once_in_files(self, lines, place):
        """The same over files in a new folder."""
        with tempfile.TemporaryDirectory(prefix="haystack-bench-", dir=place) as store:
            return self.once(lines, ["--folder", store])


def check_replies(transcript, lines, word):
    """Each of the last lines of a block has this word as its reply, in front of the block's notes."""
    with open(transcript, encoding="ascii") as file:
        words = [line.split()[1] for line in file if line[0].isdigit()]
    if words[-lines:] != [word] * lines:
        sys.exit(f"{lines} lines were to be answered {word}, and were {sorted(set(words[-lines:]))}")


class Watched(NamedTuple):
    """What a run took on the clock, and of it the first thread ran, and was ready while it did not run."""

    clock: float
    ran: float
    ready: float


def watch(command, script, transcript):
    """Runs a command, and reads over and over what its first thread did."""
    seen = "0 0"
    with open(script, "rb") as source, open(transcript, "wb") as sink:
        began = time.monotonic()
        process = subprocess.Popen(command, stdin=source, stdout=sink)
        path = Path(f"/proc/{process.pid}/task/{process.pid}/schedstat")
        while process.poll() is None:
            seen = path.read_text(encoding="ascii") or seen
            time.sleep(0.001)
        clock = time.monotonic() - began
    if process.returncode != 0:
        sys.exit(f"{command}: status {process.returncode}")
    return Watched(clock, *(int(word) / 1e9 for word in seen.split()[:2]))


def watched(runs, before, lines, repeat, word):
    """The medians for the lines in blocks of each number of lanes, all in turn, without an empty block's."""
    found = {lanes: [] for lanes in (0, *LANES)}
    script, transcript = runs.folder / "script", runs.folder / "transcript"
    for _ in range(repeat):
        for lanes, own in found.items():
            block = block_of(lines, lanes) if lanes else ["lanes 1", "end"]
            script.write_text("".join(line + "\n" for line in before + block), encoding="ascii")
            own.append(watch([runs.program, *runs.words], script, transcript))
            if lanes:
                check_replies(transcript, len(lines), word)
    medians = {lanes: Watched(*(statistics.median(part) for part in zip(*own))) for lanes, own in found.items()}
    none = medians.pop(0)
    return {lanes: Watched(*(own - other for own, other in zip(median, none))) for lanes, median in medians.items()}


def speed_table(options, folder, name, size, make, word):
    """Lines of every number of lanes, over one volume and over four."""
    print(f"| {name} of photos of {size:,} bytes | volumes | lanes | lines/s | times one lane | asked for | ran | ready | waited | at most |")
    print("|---|---:|---:|---:|---:|---:|---:|---:|---:|---:|")
    for volumes in (1, VOLUMES):
        runs = Runs(options.program, folder, ["run", "--volumes", str(volumes), "--capacity", str(1024 * bench.MIB)])
        lines = make(options.lines, size)
        found = watched(runs, put_lines(size), lines, options.repeat, word)
        for lanes, (clock, ran, ready) in found.items():
            is_free = lanes <= os.cpu_count() and not (make is puts and volumes == 1)
            asked = WANTED.get(name, {}).get(lanes) if is_free else None
            most = f"{found[1].ran / ran:.2f}" if is_free else ""
            parts = " | ".join(f"{part:.2f}" for part in (ran, ready, max(clock - ran - ready, 0)))
            speed = f"{len(lines) / clock:,.0f} | {found[1].clock / clock:.2f}"
            print(f"| {name} | {volumes} | {lanes} | {speed} | {asked or ''} | {parts} | {most} |", flush=True)
            if name in WANTED and not (make is puts and volumes == 1):
                run = argparse.Namespace(csv=options.csv, name=f"{name}, {volumes} volume{'s' * (volumes > 1)}")
                per_second, times = f"{len(lines) / clock:.0f}", f"{found[1].clock / clock:.2f}"
                bench.record(run, "lanes", lanes=lanes, volumes=volumes, lines_a_second=per_second, times_one_lane=times)


def reads_table(options, folder):
    speed_table(options, folder, "reads", LARGE, reads, "photo")


def puts_table(options, folder):
    speed_table(options, folder, "puts", LARGE, puts, "stored")


def apart_table(options, folder):
    for name, make, word in (("reads", reads, "photo"), ("puts", puts, "stored")):
        speed_table(argparse.Namespace(**{**vars(options), "lines": 20 * options.lines}), folder, f"small {name}", 0, make, word)
        print()


def counted(program, folder, lines):
    script = folder / "script"
    script.write_text("".join(line + "\n" for line in lines), encoding="ascii")
    options = argparse.Namespace(program=program, words="run", folder=None)
    return bench.instructions(options, script, folder)


def count_of(program, folder, size, count):
    """The instructions of a put, of a read, of a put of a settled pair and of a delete."""
    first = put_lines(size, count)
    steps = [[], first, reads(count, size, count), puts(count, size, count), [f"del {key} 1" for key in range(count)]]
    scripts = [sum(steps[: more + 1], []) for more in range(len(steps))]
    totals = [counted(program, folder, lines) for lines in scripts]
    return [(after - before) / count for before, after in zip(totals, totals[1:])]


def count_in_block(program, folder, size, count):
    """The same in a block of one lane, but for a first put."""
    first = put_lines(size, count)
    empty = counted(program, folder, [*first, "lanes 1", "end"])
    for lines in (reads(count, size, count), puts(count, size, count), [f"del {key} 1" for key in range(count)]):
        yield (counted(program, folder, first + block_of(lines, 1)) - empty) / count


def count_table(options, folder):
    print("| photo bytes | build | a first put | a read | a put of a settled pair | a delete |")
    print("|---:|---|---:|---:|---:|---:|")
    for size, count in ((64, 400), (LARGE, 10)):
        own = count_of(options.program, folder, size, count)
        print(f"| {size:,} | this build | " + " | ".join(f"{value:,.0f}" for value in own) + " |", flush=True)
        block = list(count_in_block(options.program, folder, size, count))
        print(f"| {size:,} | in a block | | " + " | ".join(f"{value:,.0f}" for value in block) + " |", flush=True)
        if options.before:
            other = count_of(options.before, folder, size, count)
            print(f"| {size:,} | before | " + " | ".join(f"{value:,.0f}" for value in other) + " |", flush=True)
            print(f"| {size:,} | times as many | " + " | ".join(f"{new / old:.3f}" for new, old in zip(own, other)) + " |", flush=True)


def memory_table(options, folder):
    print("| a block of 65,536 lines in 4 lanes | bytes of replies | peak KiB above plain lines | bytes a line | bytes of a reply |")
    print("|---|---:|---:|---:|---:|")
    runs = Runs(options.program, folder, ["run", "--volumes", str(VOLUMES), "--capacity", str(1024 * bench.MIB)])
    kinds = [("URLs of pairs without a home", ["url 99 9"] * MOST_LINES, "unknown", 0)]
    kinds += [("reads with a wrong cookie", ["read 0 1 0"] * MOST_LINES, "wrong", 64)]
    kinds += [(f"reads of {size:,} equal bytes", reads(MOST_LINES, size), "photo", size) for size in (0, 64, 1024, 8192)]
    kinds += [("puts of 64 equal bytes", puts(MOST_LINES, 64), "stored", 64)]
    for name, lines, word, size in kinds:
        before, peaks = put_lines(size), []
        for script in (before + lines, before + block_of(lines, 4)):
            own = []
            for _ in range(options.repeat):
                run, transcript = runs.once(script)
                check_replies(transcript, MOST_LINES, word)
                own.append(run.peak)
            peaks.append(statistics.median(own))
        written, more = transcript.stat().st_size, peaks[1] - peaks[0]
        print(f"| {name} | {written:,} | {more / 1024:,.0f} | {more / MOST_LINES:,.0f} | {written / MOST_LINES:,.0f} |", flush=True)


def store_table(options, folder):
    print("| pairs in the store | milliseconds of a block of one line | more memory, KiB | bytes a pair |")
    print("|---:|---:|---:|---:|")
    runs = Runs(options.program, folder, ["run", "--capacity", str(1024 * bench.MIB)])
    for pairs in (1_000, 10_000, 100_000):
        first, blocks = put_lines(0, pairs), ["lanes 1", "0 url 0 1", "end"] * 20
        none, some = ([runs.once_in_files(lines, options.folder)[0] for _ in range(options.repeat)] for lines in (first, first + blocks))
        cpu, peak = (statistics.median(own) - statistics.median(other) for own, other in zip(parts_of(some), parts_of(none)))
        print(f"| {pairs:,} | {cpu / 20 * 1e3:.2f} | {peak / 1024:,.0f} | {peak / pairs:,.0f} |", flush=True)


def parts_of(runs):
    return [run.cpu for run in runs], [run.peak for run in runs]


def session_lines(rounds, lanes, volumes):
    """Rounds of 1,000 changes of a pair in each volume, with compactions behind them, which leave one cell of each pair."""
    changes = [f"put {number % volumes} 1 61" for number in range(1000)]
    return [*(block_of(changes, lanes) if lanes else changes), *(f"compact {volume} 0" for volume in range(volumes))] * rounds


def session_table(options, folder):
    print("| changes of a pair in each volume, compacted behind each 1,000 | peak KiB | of twice as many | bytes a change |")
    print("|---|---:|---:|---:|")
    kinds = (("plain, one volume", 0, 1), ("blocks of one lane, one volume", 1, 1), ("blocks of four lanes, four volumes", 4, 4))
    for name, lanes, volumes in kinds:
        runs = Runs(options.program, folder, ["run", "--volumes", str(volumes)])
        peaks = [runs.once_in_files(session_lines(rounds, lanes, volumes), options.folder)[0].peak for rounds in (100, 200)]
        print(f"| 100,000, {name} | {peaks[0] / 1024:,.0f} | {peaks[1] / 1024:,.0f} | {(peaks[1] - peaks[0]) / 100_000:.1f} |", flush=True)


TABLES = {
    "reads": reads_table,
    "puts": puts_table,
    "apart": apart_table,
    "count": count_table,
    "memory": memory_table,
    "store": store_table,
    "session": session_table,
}


def main():
    parser = argparse.ArgumentParser(description=__doc__, formatter_class=argparse.RawDescriptionHelpFormatter)
    parser.add_argument("--program", default=ROOT / "crates" / "haystack" / "out" / "haystack")
    parser.add_argument("--before", help="another build, whose instructions `count` has too")
    parser.add_argument("--repeat", type=int, default=5)
    parser.add_argument("--lines", type=int, default=400, help="how many lines of large photos a block has")
    parser.add_argument("--folder", help="the folder in which the files of `session` are made")
    parser.add_argument("--only", choices=TABLES)
    parser.add_argument("--csv", help="the folder of the file from which bench/plot.py draws")
    options = parser.parse_args()
    if not os.access(options.program, os.X_OK):
        sys.exit(f"{options.program} is not there: cd crates/haystack && rt run -- run < stdin")
    print(f"{bench.machine()}; the median of {options.repeat} runs.\n", flush=True)
    with tempfile.TemporaryDirectory(prefix="haystack-bench-") as name:
        for table, make in TABLES.items():
            if options.only in (None, table):
                make(options, Path(name))
                print()


if __name__ == "__main__":
    main()
