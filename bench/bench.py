#!/usr/bin/env python3
"""Measures the built program: photos of three sizes, put and read, and how time and memory grow with their number.

    bench/bench.py [--program PATH] [--words WORDS] [--repeat N] [--max PUTS] [--size BYTES] [--folder PATH] [--only TABLE]
                   [--csv FOLDER] [--name NAME] [--before PATH] [--photos N] [--equal] [--count] [--flush N]

With --folder each run has real files, in a new folder below PATH. The tables are `sizes`, `growth`, `openings`, `compaction`,
`beside`, `largest` and `small`; without --only all are made.

With --csv the numbers of `sizes`, `growth` and `openings` are also written to files of these names in FOLDER, from which
bench/plot.py draws: each row under --name, in place of the one that stood at its place of the figure.

Each measure has two scripts: the puts alone, and the same puts with a read of each photo behind them. The program runs
on each of them with plain files as its standard input and output. The time of the reads is the difference of the two
runs. Times are those of the processor, user and system together, the least of all repeats; the time on the clock stands
beside them. The memory is the greatest resident size of the process, by /usr/bin/time, and its bytes a photo are those
above a run of an empty script. Each reply is looked at: a run in which a put is not stored, or a read shows other bytes
than were put, ends the benchmark.

A compaction is measured over a volume of which every second photo was deleted, as the difference of a run with the command
and one without. `beside` has puts and reads of one volume while another, as large and half deleted, has no compaction,
or one that has examined half of its cells.

With --flush N the scripts of `growth` flush the index of volume 0 on machine 0 behind every N puts, so that few records wait.

`openings` has runs that ask for nothing over stores of real files whose index is flushed.

`largest` has a put and a read of the largest photo, 16 MiB, against those of one of 1 MiB: the time of the processor, the median
of five runs over --photos of each size, and with --count the instructions. With --equal all bytes of a photo are equal, and its
line is short.

`small` has the greatest memory of runs over small photos alone, the median of five, and with --before PATH that of another build
beside it: a lane keeps room for the largest photo, and is to touch no more of it than the photos need.
"""

import argparse
import csv
import functools
import itertools
import os
import random
import re
import statistics
import subprocess
import sys
import tempfile
import time
from pathlib import Path

import plot

ROOT = Path(__file__).resolve().parent.parent
MIB = 1024 * 1024
TIME = "/usr/bin/time"
SIZES = ((10_000, 64), (10_000, 4096), (100, MIB))
COUNTS = (1_000, 10_000, 100_000, 1_000_000)
OPENINGS = ((100_000, 4096), (1_000_000, 16))
LARGE = (MIB, 16 * MIB)
LANES = 8


class Run:
    """What one run of the program took."""

    def __init__(self, cpu, clock, peak):
        self.cpu = cpu
        self.clock = clock
        self.peak = peak

    def joined(self, other):
        """The least times of both, and the greatest memory."""
        return Run(min(self.cpu, other.cpu), min(self.clock, other.clock), max(self.peak, other.peak))


def photo(number, size):
    """The bytes of a photo, which are not all equal."""
    return random.Random(number).randbytes(size).hex()


def put_lines(count, size, first=0, stride=1):
    """Puts of photos under the keys FIRST, FIRST + STRIDE and so on."""
    return [f"put {first + stride * number} 1 {photo(number, size)}\n" for number in range(count)]


def read_lines(cookies, first=0, stride=1):
    return [f"read {first + stride * number} 1 {cookie}\n" for number, cookie in enumerate(cookies)]


def delete_lines(count, stride=1):
    """Deletes every second of the photos."""
    return [f"del {stride * number} 1\n" for number in range(0, count, 2)]


def run_once(program, words, script, transcript):
    peak = transcript.with_name("peak")
    with open(script, "rb") as source, open(transcript, "wb") as sink:
        began = time.monotonic()
        # by a small process between, since a peak is never below that of the process that forked
        process = subprocess.Popen([TIME, "-f", "%M", "-o", peak, program, *words], stdin=source, stdout=sink)
        _, status, usage = os.wait4(process.pid, 0)
        clock = time.monotonic() - began
    process.returncode = os.waitstatus_to_exitcode(status)
    if process.returncode != 0:
        sys.exit(f"{program} {' '.join(words)}: status {process.returncode}")
    return Run(usage.ru_utime + usage.ru_stime, clock, int(peak.read_text(encoding="ascii")) * 1024)


def run_in(options, script, transcript, more):
    """Runs the program once, over real files if they are asked for."""
    words = [*options.words.split(), *more]
    if options.folder is None:
        return run_once(options.program, words, script, transcript)
    with tempfile.TemporaryDirectory(prefix="haystack-bench-", dir=options.folder) as store:
        return run_once(options.program, [*words, "--folder", store], script, transcript)


def run_script(options, folder, lines, more=()):
    """Runs the program on a script, and gives what it took and the file of its transcript."""
    script, transcript = folder / "script", folder / "transcript"
    with open(script, "w", encoding="ascii") as file:
        file.writelines(lines)
    runs = [run_in(options, script, transcript, more) for _ in range(options.repeat)]
    return functools.reduce(Run.joined, runs), transcript


def replies(transcript):
    """The words of each reply behind its line number, without the header."""
    with open(transcript, encoding="ascii") as file:
        next(file)
        for line in file:
            yield line.split()[1:]


def cookies_of(transcript, before=0):
    """The cookies of the puts behind so many other lines."""
    cookies = []
    for words in itertools.islice(replies(transcript), before, None):
        if words[0] != "stored":
            sys.exit(f"put {len(cookies) + 1} was answered: {' '.join(words)[:80]}")
        cookies.append(words[4])
    return cookies


def check_photos(transcript, before, count, size):
    shown = 0
    for number, words in enumerate(itertools.islice(replies(transcript), before, None)):
        if words[0] != "photo" or words[5] != photo(number, size):
            sys.exit(f"read {number + 1} was answered: {' '.join(words)[:80]}")
        shown += 1
    if shown != count:
        sys.exit(f"{count} reads were asked, and {shown} photos shown")


def with_flushes(lines, every):
    """The lines, and a flush behind every so many of them, where that is asked."""
    if not every:
        return lines
    return [more for number, line in enumerate(lines, 1) for more in ([line, "flush 0 0\n"] if number % every == 0 else [line])]


def measure(options, folder, count, size):
    """What the puts took, and what the puts with the reads took."""
    lines = with_flushes(put_lines(count, size), options.flush)
    puts, transcript = run_script(options, folder, lines)
    cookies = [words[4] for words in replies(transcript) if words[0] == "stored"]
    if len(cookies) != count:
        sys.exit(f"{count} puts were asked, and {len(cookies)} stored")
    both, transcript = run_script(options, folder, lines + read_lines(cookies))
    check_photos(transcript, len(lines), count, size)
    return puts, both


def total_of(size):
    """How many bytes the needle of a photo of this size has."""
    return (48 + size + 7) // 8 * 8


def check_last(transcript, due):
    *_, words = replies(transcript)
    if words != due:
        sys.exit(f"the last line was answered: {' '.join(words)[:80]}")


def rate(count, seconds):
    return count / max(seconds, 0.001)


def speeds(count, size, seconds):
    return f"{rate(count, seconds):,.0f} | {rate(count * size, seconds) / MIB:,.1f}"


def record(options, table, **numbers):
    """Writes a row to the file of a figure, in place of the one of the same run at the same number across.

    A number is an integer, or a text with as many digits as the table has."""
    if options.csv is None:
        return
    path = Path(options.csv, f"{table}.csv")
    new = {"run": options.name, **{name: str(number) for name, number in numbers.items()}}
    across = next(figure.across for figure in plot.FIGURES if figure.name == table)
    rows = {(row["run"], row[across]): row for row in plot.rows_of(path)} if path.exists() else {}
    rows[new["run"], new[across]] = new
    with open(path, "w", encoding="utf-8", newline="") as file:
        writer = csv.DictWriter(file, new, lineterminator="\n")
        writer.writeheader()
        writer.writerows(rows.values())


def machine():
    """The machine, in a line."""
    fields = dict(line.split(":", 1) for line in Path("/proc/cpuinfo").read_text(encoding="utf-8").splitlines() if ":" in line)
    model = {key.strip(): value.strip() for key, value in fields.items()}.get("model name", "an unknown processor")
    memory = os.sysconf("SC_PAGE_SIZE") * os.sysconf("SC_PHYS_PAGES") / 1024**3
    return f"{os.cpu_count()} processors of {model}, {memory:.0f} GiB of memory, Linux {os.uname().release}"


def sizes_table(options, folder):
    print("| photos | bytes each | puts/s | MiB/s | reads/s | MiB/s | seconds on the clock, all | peak MiB |")
    print("|---:|---:|---:|---:|---:|---:|---:|---:|")
    for count, size in SIZES:
        puts, both = measure(options, folder, count, size)
        print(
            f"| {count:,} | {size:,} | {speeds(count, size, puts.cpu)} | {speeds(count, size, both.cpu - puts.cpu)}"
            f" | {both.clock:.2f} | {both.peak / MIB:.1f} |",
            flush=True,
        )
        a_second = {"puts_a_second": f"{rate(count, puts.cpu):.0f}", "reads_a_second": f"{rate(count, both.cpu - puts.cpu):.0f}"}
        record(options, "sizes", photos=count, bytes_each=size, **a_second, peak_mib=f"{both.peak / MIB:.1f}")


def growth_table(options, folder):
    empty, _ = run_script(options, folder, [])
    print(f"| puts of {options.size} bytes, and as many reads | seconds | microseconds a put | microseconds a read | peak MiB | bytes a photo |")
    print("|---:|---:|---:|---:|---:|---:|")
    for count in COUNTS:
        if count > options.max:
            break
        puts, both = measure(options, folder, count, options.size)
        a_put, a_read = ((most - least) / count * 1e6 for least, most in ((empty.cpu, puts.cpu), (puts.cpu, both.cpu)))
        print(
            f"| {count:,} | {both.cpu:.2f} | {a_put:.1f} | {a_read:.1f} | {both.peak / MIB:.1f} | {(both.peak - empty.peak) / count:.0f} |",
            flush=True,
        )
        each = {"microseconds_a_put": f"{a_put:.1f}", "microseconds_a_read": f"{a_read:.1f}"}
        record(options, "growth", photos=count, bytes_each=options.size, **each, peak_mib=f"{both.peak / MIB:.1f}")


def openings_table(options, folder):
    """Runs that ask for nothing, over stores of one replica."""
    empty, _ = run_script(options, folder, [])
    print("| photos | bytes each | seconds of the processor | peak MiB | bytes a photo |")
    print("|---:|---:|---:|---:|---:|")
    for count, size in OPENINGS:
        if count > options.max:
            break
        with tempfile.TemporaryDirectory(prefix="haystack-bench-", dir=options.folder) as store:
            kept = argparse.Namespace(**{**vars(options), "folder": None, "words": f"{options.words} --folder {store}"})
            _, transcript = run_script(argparse.Namespace(**{**vars(kept), "repeat": 1}), folder, [*put_lines(count, size), "flush 0 0\n"])
            check_last(transcript, ["flushed", "0:0", f"{count}"])
            opened, _ = run_script(kept, folder, [])
        print(f"| {count:,} | {size:,} | {opened.cpu:.2f} | {opened.peak / MIB:.1f} | {(opened.peak - empty.peak) / count:.0f} |", flush=True)
        record(options, "openings", photos=count, bytes_each=size, seconds=f"{opened.cpu:.2f}", peak_mib=f"{opened.peak / MIB:.1f}")


def compaction_table(options, folder):
    print("| photos, half of them deleted | bytes each | seconds | cells examined/s | MiB copied/s | more seconds on the clock |")
    print("|---:|---:|---:|---:|---:|---:|")
    for count, size in SIZES:
        lines = put_lines(count, size) + delete_lines(count)
        without, _ = run_script(options, folder, lines)
        compacted, transcript = run_script(options, folder, [*lines, "compact 0 0\n"])
        check_last(transcript, ["compacted", "0:0", "1"])
        seconds = max(compacted.cpu - without.cpu, 0.001)
        live = count // 2 * total_of(size)
        print(
            f"| {count:,} | {size:,} | {seconds:.3f} | {count / seconds:,.0f} | {live / seconds / MIB:,.1f}"
            f" | {compacted.clock - without.clock:.3f} |",
            flush=True,
        )


def beside_table(options, folder):
    """Even keys are at home in volume 0, and odd ones in volume 1."""
    count, size, words = 10_000, options.size, ["--volumes", "2"]
    print(f"| {count:,} puts of {size} bytes to another volume, and as many reads | microseconds a put | microseconds a read |")
    print("|---|---:|---:|")
    half = put_lines(count, size, 0, 2) + delete_lines(count, 2)
    puts = put_lines(count, size, 1, 2)
    for name, more in (("no compaction", []), ("one stands", ["begin 0 0\n", f"step 0 0 {count // 2}\n"])):
        before = half + more
        empty, transcript = run_script(options, folder, before, words)
        if more:
            check_last(transcript, ["stepped", "0:0", f"{count // 2}"])
        stored, transcript = run_script(options, folder, before + puts, words)
        cookies = cookies_of(transcript, len(before))
        both, transcript = run_script(options, folder, before + puts + read_lines(cookies, 1, 2), words)
        check_photos(transcript, len(before) + count, count, size)
        print(f"| {name} | {(stored.cpu - empty.cpu) / count * 1e6:.1f} | {(both.cpu - stored.cpu) / count * 1e6:.1f} |", flush=True)


def instructions(options, script, folder):
    """The instructions of one run, by valgrind's cachegrind, which does not depend on other work."""
    counts = folder / "counts"
    command = ["valgrind", "--tool=cachegrind", "--cache-sim=no", "--cachegrind-out-file=/dev/null", f"--log-file={counts}"]
    command += [options.program, *options.words.split()]
    with tempfile.TemporaryDirectory(prefix="haystack-bench-", dir=options.folder) as store, open(script, "rb") as source:
        if options.folder is not None:
            command += ["--folder", store]
        subprocess.run(command, stdin=source, stdout=subprocess.DEVNULL, check=True)
    return int(re.search(r"I +refs: +([0-9,]+)", counts.read_text(encoding="utf-8")).group(1).replace(",", ""))


def taken(options, folder, lines):
    """The median time of the processor of five runs of a script, its instructions or none, and the transcript."""
    once = argparse.Namespace(**{**vars(options), "repeat": 1})
    runs = [run_script(once, folder, lines) for _ in range(5)]
    counted = instructions(options, folder / "script", folder) if options.count else None
    return statistics.median(run.cpu for run, _ in runs), counted, runs[-1][1]


def large_puts(options, count, size):
    """Puts of photos in hexadecimal digits, or with --equal of equal bytes, which a line gives by their number."""
    if options.equal:
        return [f"put {number} 1 x{size}:61\n" for number in range(count)]
    return put_lines(count, size)


def check_large(options, transcript, before, count, size):
    if not options.equal:
        return check_photos(transcript, before, count, size)
    shown = [words[5] for words in itertools.islice(replies(transcript), before, None) if words[0] == "photo"]
    if shown != [f"x{size}:61"] * count:
        sys.exit(f"{count} reads were asked, and not so many photos shown")


def largest_table(options, folder):
    """What a photo costs beyond the program's start and its end."""
    count = options.photos
    print("| photo bytes | milliseconds a put | milliseconds a read | million instructions a put | million instructions a read |")
    print("|---:|---:|---:|---:|---:|")
    rows = []
    for size in LARGE:
        empty, none, _ = taken(options, folder, [])
        puts, most, transcript = taken(options, folder, large_puts(options, count, size))
        cookies = cookies_of(transcript)
        both, all_of, transcript = taken(options, folder, large_puts(options, count, size) + read_lines(cookies))
        check_large(options, transcript, count, count, size)
        row = [(puts - empty) / count * 1e3, (both - puts) / count * 1e3]
        row += [None, None] if None in (none, most, all_of) else [(most - none) / count / 1e6, (all_of - most) / count / 1e6]
        rows.append(row)
        print(f"| {size:,} | " + " | ".join("" if value is None else f"{value:,.1f}" for value in row) + " |", flush=True)
    print("| times as much | " + " | ".join("" if None in pair else f"{pair[1] / pair[0]:.2f}" for pair in zip(*rows)) + " |", flush=True)


def small_table(options, folder):
    programs = [("this build", options.program)] + ([("before", options.before)] if options.before else [])
    print("| 10,000 photos of 64 bytes, each put and read | peak KiB | of an empty script, KiB |")
    print("|---|---:|---:|")
    peaks = []
    for name, program in programs:
        once = argparse.Namespace(**{**vars(options), "program": program, "repeat": 1})
        puts = put_lines(10_000, 64)
        _, transcript = run_script(once, folder, puts)
        lines = puts + read_lines(cookies_of(transcript))
        peak = statistics.median(run_script(once, folder, lines)[0].peak for _ in range(5)) / 1024
        empty = statistics.median(run_script(once, folder, [])[0].peak for _ in range(5)) / 1024
        peaks.append(peak)
        print(f"| {name} | {peak:,.0f} | {empty:,.0f} |", flush=True)
    if len(peaks) > 1:
        print(f"| more, for each of {LANES} lanes | {(peaks[0] - peaks[1]) / LANES:,.1f} | |", flush=True)


TABLES = {
    "sizes": sizes_table,
    "growth": growth_table,
    "openings": openings_table,
    "compaction": compaction_table,
    "beside": beside_table,
    "largest": largest_table,
    "small": small_table,
}


def main():
    parser = argparse.ArgumentParser(description=__doc__, formatter_class=argparse.RawDescriptionHelpFormatter)
    parser.add_argument("--program", default=ROOT / "crates" / "haystack" / "out" / "haystack")
    parser.add_argument("--words", default=f"run --capacity {1024 * MIB}")
    parser.add_argument("--repeat", type=int, default=3)
    parser.add_argument("--max", type=int, default=100_000)
    parser.add_argument("--size", type=int, default=64)
    parser.add_argument("--flush", type=int, default=0, help="flush behind every so many puts in `growth`")
    parser.add_argument("--folder")
    parser.add_argument("--only", choices=TABLES)
    parser.add_argument("--csv", help="the folder of the files from which bench/plot.py draws")
    parser.add_argument("--name", help="the name of the run there; the words, where none is said")
    parser.add_argument("--before", help="another build, beside which the memory of small photos is measured")
    parser.add_argument("--photos", type=int, default=4, help="how many photos of each size `largest` has")
    parser.add_argument("--equal", action="store_true", help="photos of equal bytes in `largest`")
    parser.add_argument("--count", action="store_true", help="count the instructions of `largest` by valgrind, too")
    options = parser.parse_args()
    options.name = options.name or options.words
    if not os.access(options.program, os.X_OK):
        sys.exit(f"{options.program} is not there: cd crates/haystack && rt run -- run < stdin")
    print(f"{machine()}; the least of {options.repeat} runs of `haystack {options.words}`.\n", flush=True)
    with tempfile.TemporaryDirectory(prefix="haystack-bench-") as name:
        for table, make in TABLES.items():
            if options.only in (None, table):
                make(options, Path(name))
                print()


if __name__ == "__main__":
    main()
