#!/usr/bin/env python3
"""The script of a day's use and its summary, written from the rule and from no code of the program.

    bench/drill.py script COUNT FIRST
    bench/drill.py summary COUNT FIRST
    bench/drill.py numbers [--most N]
    bench/drill.py program PATH [COUNT ..]
    bench/drill.py lanes PATH COUNT

Photo i, from 0 on, has the key FIRST + i, which goes on at 0 behind 2^64 - 1, and under the alternate keys 1 to 4 it has 65,536, 16,384,
4,096 and 1,024 bytes, each of them i mod 256. `script` prints the lines: all puts; for every fifth photo another put of the largest, of
the bytes 255 - i mod 256; for every seventh a delete of the second; a flush of each replica; a block in which lanes 0 to 3 read all while
lane 4 compacts each replica; a restart; and all reads again. `summary` prints what a store without faults sums up of it. `numbers` plays
the lines of all counts of photos to N, the first key at and near both ends, by a plain table of photos, and compares with the sums.
`program` runs the program's drill for each of these counts of photos (1 to 1,000 where none is said) and compares what it prints, and
tells how long it took and how much memory. `lanes` runs the script of COUNT photos, and the same with the lines of its block in one lane, and
tells how long each block took on the clock: the whole run without one whose block is empty, the median of five.
"""

import argparse
import collections
import os
import statistics
import subprocess
import sys
import time

import block_text as text

SIZES = {1: 65_536, 2: 16_384, 3: 4_096, 4: 1_024}
STORE = text.Settings(machines=4, volumes=8, replicas=2)
LAST = 2**64 - 1
FIRSTS = (0, 1, 2**63, LAST - 6, LAST)
NAMES = ("stored", "deleted", "photo", "gone", "flushed", "compacted", "rows", "other")


# THE SCRIPT


def key_of(first, photo):
    return (first + photo) % 2**64


def put_line(first, photo, alt, byte):
    return f"put {key_of(first, photo)} {alt} x{SIZES[alt]}:{byte:02x}"


def reads_of(count, first, lane):
    for photo in range(count):
        key = key_of(first, photo)
        for alt in SIZES:
            yield f"{lane(photo)}read {key} {alt} {text.cookie_of(STORE.secret, key):016x}"


def replica_lines(verb):
    for volume in range(STORE.volumes):
        for replica in range(STORE.replicas):
            yield f"{verb} {volume} {STORE.machine_of(volume, replica)}"


def lines_of(count, first):
    for photo in range(count):
        for alt in SIZES:
            yield put_line(first, photo, alt, photo % 256)
    for photo in range(0, count, 5):
        yield put_line(first, photo, 1, 255 - photo % 256)
    for photo in range(0, count, 7):
        yield f"del {key_of(first, photo)} 2"
    yield from replica_lines("flush")
    yield "lanes 5"
    yield from reads_of(count, first, lambda photo: f"{photo % 4} ")
    yield from replica_lines("4 compact")
    yield "end"
    yield "restart 0"
    yield from reads_of(count, first, lambda photo: "")


# THE NUMBERS


def summed(count):
    """The numbers by arithmetic."""
    fifths, sevenths = (count + 4) // 5, (count + 6) // 7
    shown = 4 * count - sevenths
    shown_bytes = sum(SIZES.values()) * count - SIZES[2] * sevenths
    replicas = STORE.volumes * STORE.replicas
    numbers = (4 * count + fifths, sevenths, f"{2 * shown} {2 * shown_bytes}", 2 * sevenths, replicas, replicas, 4 * count, 0)
    return dict(zip(NAMES, numbers, strict=True))


def played(lines):
    """The numbers by a plain table: what each line is answered where nothing fails."""
    sizes, counts, shown_bytes = {}, collections.Counter(), 0
    for line in lines:
        words = line.removeprefix(line.split()[0] if line[0].isdigit() else "").split()
        pair = tuple(words[1:3])
        if words[0] == "put":
            sizes[pair] = int(words[3][1:].split(":")[0])
            counts["stored"] += 1
        elif words[0] == "del":
            counts["deleted" if sizes.get(pair) else "gone"] += 1
            sizes[pair] = None
        elif words[0] == "read":
            counts["photo" if sizes[pair] else "gone"] += 1
            shown_bytes += sizes[pair] or 0
        else:
            counts[{"flush": "flushed", "compact": "compacted", "lanes": "", "end": "", "restart": ""}[words[0]]] += 1
    numbers = {name: counts[name] for name in NAMES}
    return numbers | {"photo": f"{counts['photo']} {shown_bytes}", "rows": len(sizes)}


def summary_text(count, first):
    return "".join(f"{name} {number}\n" for name, number in ({"drill": f"{count} {first}"} | summed(count)).items())


def check_numbers(most):
    """Each count's numbers, and that the script's lines are of the grammar."""
    for count in range(1, most + 1):
        for first in FIRSTS if count < 20 or count == most else (0,):
            lines = list(lines_of(count, first))
            if played(lines) != summed(count):
                sys.exit(f"{count} {first}: {played(lines)}, and not {summed(count)}")
            if count < 20 and any(asked.command is None for asked in asked_of(lines)):
                sys.exit(f"{count} {first}: a bad line")
    print(f"1 to {most} photos: the numbers agree")


# THE PROGRAM


def drilled(program, count, first):
    """What a drill prints, with its seconds of wall time and of processors, and its KiB of memory."""
    begun = time.monotonic()
    with subprocess.Popen([program, "drill", str(count), str(first)], stdout=subprocess.PIPE) as child:
        printed = child.stdout.read().decode()
        _, status, used = os.wait4(child.pid, 0)
        child.returncode = os.waitstatus_to_exitcode(status)
    return printed, child.returncode, time.monotonic() - begun, used.ru_utime + used.ru_stime, used.ru_maxrss


def check_program(program, counts):
    for place, count in enumerate(counts):
        first = FIRSTS[place % len(FIRSTS)]
        printed, status, wall, used, memory = drilled(program, count, first)
        if status or printed != summary_text(count, first):
            sys.exit(f"{count} {first}: status {status}, {printed}")
        print(f"{count} {first}: {wall:.2f} s, {used:.2f} s of processors, {memory // 1024} MiB", flush=True)


def with_lanes(lines, lanes):
    """The script with the lines of its block dealt out to all its lanes, put into one, or left out."""
    within = False
    for line in lines:
        if line.startswith("lanes "):
            within = True
            yield f"lanes {max(lanes, 1)}"
        elif line == "end":
            within = False
            yield line
        elif not within or lanes > 1:
            yield line
        elif lanes == 1:
            yield "0 " + line.partition(" ")[2]


def run_seconds(program, script):
    options = [f"--{name}={value}" for name, value in (("machines", STORE.machines), ("volumes", STORE.volumes), ("replicas", STORE.replicas))]
    begun = time.monotonic()
    subprocess.run([program, "run", *options], input=script, stdout=subprocess.DEVNULL, check=True)
    return time.monotonic() - begun


def tell_lanes(program, count):
    scripts = {lanes: "".join(f"{line}\n" for line in with_lanes(lines_of(count, 0), lanes)).encode() for lanes in (0, 1, 5)}
    seconds = {lanes: statistics.median(run_seconds(program, script) for _ in range(5)) for lanes, script in scripts.items()}
    for lanes in (1, 5):
        print(f"{count} photos, {lanes} lanes: {seconds[lanes] - seconds[0]:.2f} s of {seconds[lanes]:.2f} s")


def asked_of(lines):
    for item in text.items_of("".join(f"{line}\n" for line in lines).encode()):
        yield from item.asked if isinstance(item, text.Block) else (item,)


def main():
    parser = argparse.ArgumentParser(description=__doc__.splitlines()[0])
    modes = parser.add_subparsers(dest="mode", required=True)
    for name in ("script", "summary"):
        mode = modes.add_parser(name)
        mode.add_argument("count", type=int)
        mode.add_argument("first", type=int)
    modes.add_parser("numbers").add_argument("--most", type=int, default=1000)
    program = modes.add_parser("program")
    program.add_argument("path")
    program.add_argument("counts", type=int, nargs="*")
    lanes = modes.add_parser("lanes")
    lanes.add_argument("path")
    lanes.add_argument("count", type=int)
    options = parser.parse_args()
    if options.mode == "numbers":
        check_numbers(options.most)
    elif options.mode == "program":
        check_program(options.path, options.counts or range(1, 1001))
    elif options.mode == "lanes":
        tell_lanes(options.path, options.count)
    elif options.mode == "script":
        sys.stdout.writelines(f"{line}\n" for line in lines_of(options.count, options.first))
    else:
        sys.stdout.write(summary_text(options.count, options.first))


if __name__ == "__main__":
    main()
