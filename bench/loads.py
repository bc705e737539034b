#!/usr/bin/env python3
"""Measures bulk loads over real files beside puts of a run, and kills loads.

    bench/loads.py speed [--program PATH] [--in FOLDER] [--photos N] [--repeat N]
    bench/loads.py growth [--program PATH] [--in FOLDER] [--most N]
    bench/loads.py kills [--program PATH] [--in FOLDER] [--rounds N] [--seed N]

`speed` loads photos of 4 KiB in batches of 64 into a new folder on one replica, and puts the same photos by a run into another: photos
a second by the clock, the median of so many times, and the syncs of each where `strace` is there. FOLDER is to be on a real disk, whose
syncs take time.

`growth` loads photos of 16 bytes, from a thousand up to N: microseconds of the processor, and the greatest memory, for each photo.

`kills` kills (SIGKILL) a load over two machines and two replicas at a random moment. What it had printed by then is acknowledged. A run
over the folder then reads every photo: the batches that are there are the first ones, each whole, at least those that were acknowledged and
at most one more. The same script loaded once more answers these as known and loads the rest, and then all photos are there.
"""

import argparse
import os
import random
import re
import signal
import statistics
import subprocess
import sys
import tempfile
import time
from pathlib import Path

ROOT = Path(__file__).resolve().parent.parent
BATCH = 64
TIME = "/usr/bin/time"
STORE = ["--machines", "2", "--volumes", "2", "--replicas", "2"]
BATCHES = 200


def photo(number, size):
    return random.Random(number).randbytes(size).hex()


def put_lines(count, size):
    """Puts whose keys have 64 photos each."""
    return [f"put {number // BATCH} {number % BATCH} {photo(number, size)}\n" for number in range(count)]


def run_once(program, words, lines):
    """Seconds by the clock and of the processor, and the greatest memory of one run; its transcript."""
    with tempfile.TemporaryDirectory(prefix="haystack-loads-") as scratch:
        script, peak = Path(scratch) / "script", Path(scratch) / "peak"
        script.write_text("".join(lines), encoding="ascii")
        with open(script, "rb") as source, tempfile.TemporaryFile() as sink:
            began = time.monotonic()
            # by a small process between, since a peak is never below that of the process that forked
            process = subprocess.Popen([TIME, "-f", "%M", "-o", peak, program, *words], stdin=source, stdout=sink)
            _, status, usage = os.wait4(process.pid, 0)
            clock = time.monotonic() - began
            process.returncode = os.waitstatus_to_exitcode(status)
            if process.returncode != 0:
                sys.exit(f"{program} {' '.join(map(str, words))}: status {process.returncode}")
            sink.seek(0)
            said = sink.read().decode("ascii").splitlines()[1:]
        return clock, usage.ru_utime + usage.ru_stime, int(peak.read_text(encoding="ascii")) * 1024, said


def syncs_of(program, words, lines):
    """How many syncs a run asks for, or None where nobody can count them."""
    with tempfile.TemporaryDirectory(prefix="haystack-loads-") as scratch:
        script, counts = Path(scratch) / "script", Path(scratch) / "counts"
        script.write_text("".join(lines), encoding="ascii")
        with open(script, "rb") as source:
            try:
                done = subprocess.run(
                    ["strace", "-f", "-c", "-e", "trace=fsync,fdatasync,sync_file_range", "-o", counts, program, *words],
                    stdin=source, stdout=subprocess.DEVNULL, stderr=subprocess.DEVNULL, check=False,
                )
            except FileNotFoundError:
                return None
        if done.returncode != 0:
            return None
        return sum(int(line.split()[3]) for line in counts.read_text(encoding="ascii").splitlines() if re.search(r" f(data)?sync$", line))


def speed(options):
    lines = put_lines(options.photos, 4096)
    batches = (options.photos + BATCH - 1) // BATCH
    rates = {}
    for mode, told in (("load", "loaded"), ("run", "stored")):
        seconds = []
        for _ in range(options.repeat):
            with tempfile.TemporaryDirectory(prefix="haystack-loads-", dir=options.folder) as store:
                clock, _, _, said = run_once(options.program, [mode, "--folder", store], lines)
            if len(said) != (batches if mode == "load" else options.photos) or any(line.split()[1] != told for line in said):
                sys.exit(f"{mode}: not all was {told}")
            seconds.append(clock)
        rates[mode] = options.photos / statistics.median(seconds)
    print(f"{options.photos} photos of 4 KiB: load {rates['load']:.0f} photos a second, run {rates['run']:.0f}: {rates['load'] / rates['run']:.1f} times")
    for mode in ("load", "run"):
        with tempfile.TemporaryDirectory(prefix="haystack-loads-", dir=options.folder) as store:
            opened = syncs_of(options.program, [mode, "--folder", store], [])
        with tempfile.TemporaryDirectory(prefix="haystack-loads-", dir=options.folder) as store:
            syncs = syncs_of(options.program, [mode, "--folder", store], lines)
        if opened is not None and syncs is not None:
            each = batches if mode == "load" else options.photos
            print(f"{mode}: {syncs - opened} syncs behind the opening's {opened}: {(syncs - opened) / each:.2f} a {'batch' if mode == 'load' else 'put'}")


def growth(options):
    count = 1000
    while count <= options.most:
        with tempfile.TemporaryDirectory(prefix="haystack-loads-", dir=options.folder) as store:
            _, cpu, peak, said = run_once(options.program, ["load", "--capacity", "1073741824", "--folder", store], put_lines(count, 16))
        if any(line.split()[1] != "loaded" for line in said):
            sys.exit("not all was loaded")
        print(f"{count} photos of 16 bytes: {cpu * 1e6 / count:.2f} microseconds a photo, {peak / 1048576:.1f} MiB, {peak / count:.0f} bytes a photo")
        count *= 10


def batches_of(draw):
    """Batches of one key each: the photos by alternate key."""
    sizes = (0, 1, 20, 300, 5000)
    return [{alt: draw.randbytes(draw.choice(sizes)).hex() for alt in range(draw.randrange(1, BATCH + 1))} for _ in range(BATCHES)]


def script_of(batches):
    return "".join(f"put {key} {alt} {data or '-'}\n" for key, batch in enumerate(batches) for alt, data in batch.items()).encode("ascii")


def kill_load(program, folder, script, delay):
    """Loads the script until it is killed, and answers how many batches were acknowledged by then."""
    with tempfile.TemporaryFile() as out:
        process = subprocess.Popen([program, "load", *STORE, "--folder", folder], stdin=subprocess.PIPE, stdout=out, stderr=subprocess.DEVNULL)
        os.set_blocking(process.stdin.fileno(), False)
        end = time.monotonic() + delay
        sent = 0
        while time.monotonic() < end and process.poll() is None:
            if sent < len(script):
                try:
                    sent += os.write(process.stdin.fileno(), script[sent : sent + 65536])
                    continue
                except BlockingIOError:
                    pass
                except BrokenPipeError:
                    break
            time.sleep(0.0005)
        process.send_signal(signal.SIGKILL)
        process.wait()
        out.seek(0)
        text = out.read().decode("ascii")
    whole = text[: text.rfind("\n") + 1].splitlines()[1:]
    for line in whole:
        if line.split()[1] != "loaded":
            sys.exit(f"a load over real files answered: {line}")
    return len(whole)


def run_over(program, folder, lines):
    done = subprocess.run([program, "run", *STORE, "--folder", folder], input="".join(lines), capture_output=True, text=True, check=False)
    if done.returncode != 0:
        sys.exit(f"the folder was not opened again: {done.stdout[-200:]!r} {done.stderr!r}")
    return [line.split()[1:] for line in done.stdout.splitlines()[1:]]


def shown(data):
    if data == "-":
        return ""
    match = re.fullmatch(r"x([0-9]+):([0-9a-f]{2})", data)
    return match.group(2) * int(match.group(1)) if match else data


def contents(program, folder, batches):
    """What the store has of each batch: its photos by alternate key, as each replica shows them."""
    pairs = [(key, alt) for key, batch in enumerate(batches) for alt in batch]
    urls = run_over(program, folder, [f"url {key} {alt}\n" for key, alt in pairs])
    found = [{} for _ in batches]
    there = []
    for (key, alt), said in zip(pairs, urls):
        if said[0] == "url":
            there.append((key, alt, said[-1].rsplit("_", 1)[1]))
        elif said[0] != "unknown":
            sys.exit(f"a url answered: {said}")
    # the start replica is the line's number modulo the replicas: each pair is read at an odd and at an even line
    reads = run_over(program, folder, [f"read {key} {alt} {cookie}\n" * 2 for key, alt, cookie in there])
    for number, (key, alt, _) in enumerate(there):
        both = [shown(said[5]) if said[0] == "photo" else None for said in reads[2 * number : 2 * number + 2]]
        if both[0] != both[1] or both[0] is None:
            sys.exit(f"a row of ({key}, {alt}) stands, and its replicas show {both}")
        found[key][alt] = both[0]
    return found


def check_prefix(found, batches, least):
    """The batches that are there are the first ones, each whole; answers how many."""
    many = sum(1 for batch in found if batch)
    for key, batch in enumerate(batches):
        if found[key] != (batch if key < many else {}):
            sys.exit(f"batch {key} of {many} is there in part, or with other photos")
    if not least <= many <= least + 1:
        sys.exit(f"{least} batches were acknowledged, and {many} are there")
    return many


def kills(options):
    draw = random.Random(options.seed)
    acknowledged = more = 0
    for _ in range(options.rounds):
        batches = batches_of(draw)
        script = script_of(batches)
        with tempfile.TemporaryDirectory(prefix="haystack-loads-", dir=options.folder) as scratch:
            folder = os.path.join(scratch, "store")
            least = kill_load(options.program, folder, script, draw.uniform(0.02, 0.6))
            many = check_prefix(contents(options.program, folder, batches), batches, least)
            done = subprocess.run([options.program, "load", *STORE, "--folder", folder], input=script, capture_output=True, check=False)
            said = [line.split()[1] for line in done.stdout.decode("ascii").splitlines()[1:]]
            if done.returncode != 0 or said != ["known"] * many + ["loaded"] * (BATCHES - many):
                sys.exit(f"the same script loaded again: status {done.returncode}, {said[:3]} ..")
            check_prefix(contents(options.program, folder, batches), batches, BATCHES)
        acknowledged += least
        more += many - least
    print(f"{options.rounds} rounds: {acknowledged} batches acknowledged, and all of them found whole; {more} times the one under way was there too; no part of a batch")


def main():
    parser = argparse.ArgumentParser(description=__doc__.splitlines()[0])
    parser.add_argument("what", choices=("speed", "growth", "kills"))
    parser.add_argument("--program", default=str(ROOT / "crates/haystack/out/haystack"))
    parser.add_argument("--in", dest="folder", default=None)
    parser.add_argument("--photos", type=int, default=6400)
    parser.add_argument("--repeat", type=int, default=5)
    parser.add_argument("--most", type=int, default=1_000_000)
    parser.add_argument("--rounds", type=int, default=200)
    parser.add_argument("--seed", type=int, default=1)
    options = parser.parse_args()
    options.program = str(Path(options.program).resolve())
    {"speed": speed, "growth": growth, "kills": kills}[options.what](options)


if __name__ == "__main__":
    main()
