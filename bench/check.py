#!/usr/bin/env python3
"""Looks at `haystack check`: over damaged folders, beside a reader of the formats in this script and the opening of a run; and how
long it takes over real files.

    bench/check.py [--program PATH] [--folders N] [--seed N] [--only damage|speed] [--photos N] [--size BYTES] [--folder PATH]

`damage` damages copies of a store as bench/damage.py does. Of each copy the check must tell what the reader here tells of its bytes,
with the status and the line on standard error that belong to it, and leave each file as it was. A run over the copy must then be
opened where no disk is damaged, and where it is refused as damaged the check must have told damage in the same slot.

`speed` checks a store of photos in real files, and reads the same files in one pass with their SHA-256 by hashlib: seconds of the
processor, the least of three runs.
"""

import argparse
import collections
import hashlib
import os
import random
import shutil
import subprocess
import sys
import tempfile
import time
from pathlib import Path

import damage

ROOT = Path(__file__).resolve().parent.parent
MIB = 1024 * 1024
SETTINGS = {"machines": 2, "volumes": 2, "replicas": 2, "capacity": 65536}
WORDS = [word for name, value in SETTINGS.items() for word in (f"--{name}", str(value))]
ERRORS = {0: "", 6: "haystack: store not opened\n", 8: "haystack: damage found\n"}
VOLUME, INDEX, HEAD, JOURNAL = 1, 2, 3, 4


class Damage(Exception):
    """The first place that is not of the format: file and offset."""


def number(data, at, length):
    return int.from_bytes(data[at : at + length], "big")


def read_super(file, data, kind, volume, replica, generation):
    """The fields of a superblock, lowest offset first."""
    if len(data) < 64:
        raise Damage(file, len(data))
    secret = hashlib.sha256(bytes(32)).digest()[:8]
    fields = [(0, b"HAYSTACK")]
    small = (1, kind, SETTINGS["machines"], SETTINGS["volumes"], SETTINGS["replicas"], volume, replica, 0)
    fields += [(8 + 4 * i, value.to_bytes(4, "big")) for i, value in enumerate(small)]
    fields += [(40, SETTINGS["capacity"].to_bytes(8, "big")), (48, generation.to_bytes(8, "big")), (56, secret)]
    for at, value in fields:
        if data[at : at + len(value)] != value:
            raise Damage(file, at)


def begins(file, data, at, magic):
    """Whether a record begins at a place where one or the end mark is due."""
    if len(data) < at + 8:
        raise Damage(file, at)
    return data[at : at + 8] == magic


def read_journal(data):
    read_super(0, data, JOURNAL, 0, 0, 0)
    at = 64
    while begins(0, data, at, b"HOMEROW1"):
        if len(data) < at + 24 or number(data, at + 20, 4) >= SETTINGS["volumes"]:
            raise Damage(0, at)
        at += 24
    return f"rows {(at - 64) // 24}"


def read_head(data, volume, replica):
    read_super(0, data, HEAD, volume, replica, 0)
    at = 64
    while begins(0, data, at, b"HEADROW1"):
        row = (at - 64) // 16
        if len(data) < at + 16 or number(data, at + 8, 8) != row or row > 65535:
            raise Damage(0, at)
        at += 16
    if at == 64:
        raise Damage(0, 64)
    return (at - 64) // 16 - 1


def read_needle(data, at):
    """The pair, size, flags and version of the needle at a place, or none where no needle is."""
    head = data[at : at + 36]
    if len(head) < 36:
        return None
    size, version = number(head, 32, 4), head[29] + 1
    if version > 2 or head[30:32] != bytes(2) or size > (MIB if version == 1 else 16 * MIB):
        return None
    total = (48 + size + 7) // 8 * 8
    needle = data[at : at + total]
    covered = needle[36 : 36 + size]
    if version == 2:
        covered = needle[8:28] + needle[32 : 36 + size]
    end = needle[36 + size :]
    if len(needle) < total or end != b"NEND" + hashlib.sha256(covered).digest()[:8] + bytes(total - 48 - size):
        return None
    return needle[16:28], size, head[28] != 0, version, total


def read_volume(file, data, volume, replica, generation):
    read_super(file, data, VOLUME, volume, replica, generation)
    at, cells = 64, []
    while begins(file, data, at, b"NEEDLE01"):
        needle = read_needle(data, at)
        if needle is None:
            raise Damage(file, at)
        cells.append((at, *needle))
        at += needle[4]
    return cells, at


def read_index(file, data, volume, replica, generation, cells):
    read_super(file, data, INDEX, volume, replica, generation)
    at, records = 64, 0
    while begins(file, data, at, b"INDEXBLK"):
        count = number(data, at + 8, 8)
        block = data[at + 16 : at + 16 + 32 * count]
        rows = [block[32 * i : 32 * i + 32] for i in range(len(block) // 32)]
        if count == 0 or len(block) < 32 * count or any(row[12:16] != bytes(4) or row[28:] != bytes(4) for row in rows):
            raise Damage(file, at)
        for i, row in enumerate(rows):
            if records == len(cells) or (row[:12], number(row, 16, 8), number(row, 24, 4)) != (cells[records][1], cells[records][0], cells[records][2]):
                raise Damage(file, at + 16 + 32 * i)
            records += 1
        at += 16 + 32 * count
    return records


def read_replica(files, volume, replica):
    generation = read_head(files(0), volume, replica)
    cells, end = read_volume(2 * generation + 1, files(2 * generation + 1), volume, replica, generation)
    records = read_index(2 * generation + 2, files(2 * generation + 2), volume, replica, generation, cells)
    latest = {pair: deleted for _, pair, _, deleted, _, _ in cells}
    live = sum(not deleted for deleted in latest.values())
    old = sum(version == 1 for *_, version, _ in cells)
    return f"whole {generation} {len(cells)} {live} {records} {end} {old}"


def verdict(folder, slot):
    """What this script tells of the disk in a slot."""

    def files(file):
        path = Path(folder, f"{slot}-{file}")
        return path.read_bytes() if path.exists() else b""

    if not files(0):
        return "void"
    try:
        if slot == 0:
            return read_journal(files(0))
        return read_replica(files, *divmod(slot - 1, SETTINGS["replicas"]))
    except Damage as place:
        return f"damaged {place.args[0]} {place.args[1]}"


def expected(folder):
    """The lines of all disks, or none where a file of the folder is a folder."""
    if any(path.is_dir() for path in Path(folder).iterdir()):
        return None
    slots = range(1 + SETTINGS["volumes"] * SETTINGS["replicas"])
    return [f"check {slot} {verdict(folder, slot)}" for slot in slots]


def contents(folder):
    return {path.name: path.read_bytes() for path in Path(folder).iterdir() if path.is_file() and path.suffix != ".lock"}


def run(program, words, **more):
    done = subprocess.run([program, *words], capture_output=True, timeout=600, check=False, **more)
    return done.returncode, done.stdout.decode("ascii").splitlines(), done.stderr.decode("ascii")


def check_folder(program, folder):
    """Checks and then opens one folder, and answers how both ended."""
    due, before = expected(folder), contents(folder)
    status, lines, error = run(program, ["check", *WORDS, "--folder", folder], stdin=subprocess.DEVNULL)
    if contents(folder) != before:
        sys.exit(f"{folder}: a file was changed")
    if status not in ERRORS or error != ERRORS[status]:
        sys.exit(f"{folder}: status {status}, {error!r}")
    if due is None:
        if status != 6 or not lines[-1].startswith("open "):
            sys.exit(f"{folder}: status {status}, {lines[-1]!r}, where a file is a folder")
    elif lines[1:] != due or status != (8 if any(" damaged " in line for line in due) else 0):
        sys.exit(f"{folder}: status {status}, {lines[1:]!r}, where {due!r} is due")
    opened, replies, _ = run(program, ["run", *WORDS, "--folder", folder], input=b"")
    if opened == 0 and status in (0, 8):
        return "whole and opened" if status == 0 else "damaged and opened"
    words = replies[-1].split()
    if opened == 6 and status == 6:
        return "refused by both"
    if opened == 6 and status == 8 and words[:2] == ["open", "damaged"]:
        told = lines[1 + int(words[2])].split()
        if told[2] == "damaged":
            return "damaged for both, " + ("at the same place" if told[3:] == words[3:] else "the check at another place")
    sys.exit(f"{folder}: check {status} {lines[1:]!r}, run {opened} {replies[-1]!r}")


def damaged_folders(options):
    draw = random.Random(options.seed)
    ends = collections.Counter()
    with tempfile.TemporaryDirectory() as scratch:
        for count in range(options.folders):
            if count % 25 == 0:
                store = os.path.join(scratch, f"store-{count}")
                damage.make_store(options.program, store, draw)
            folder = os.path.join(scratch, f"damaged-{count}")
            shutil.copytree(store, folder)
            for _ in range(draw.choice((1, 1, 1, 2, 4))):
                damage.damage(folder, draw)
            ends[check_folder(options.program, folder)] += 1
            shutil.rmtree(folder)
    print(f"{options.folders} damaged folders: " + ", ".join(f"{count} {end}" for end, count in sorted(ends.items())))


def processor(action):
    """The least seconds of the processor and on the clock of three runs, of this process and its children."""
    figures = []
    for _ in range(3):
        began, before = time.monotonic(), os.times()
        action()
        after = os.times()
        used = sum(after[:4]) - sum(before[:4])
        figures.append((used, time.monotonic() - began))
    return min(figure[0] for figure in figures), min(figure[1] for figure in figures)


def one_pass(files):
    for path in files:
        with open(path, "rb", buffering=0) as file:
            hasher, at = hashlib.sha256(), 0
            while piece := os.pread(file.fileno(), MIB, at):
                hasher.update(piece)
                at += len(piece)


def speed(options):
    draw = random.Random(options.seed)
    with tempfile.TemporaryDirectory(dir=options.folder) as scratch:
        store = os.path.join(scratch, "store")
        words = ["--capacity", "1073741824", "--folder", store]
        script = "".join(f"put {key} 1 {draw.randbytes(options.size).hex()}\n" for key in range(options.photos)) + "flush 0 0\n"
        status, _, error = run(options.program, ["run", *words], input=script.encode("ascii"))
        if status != 0:
            sys.exit(f"the store was not made: {error!r}")
        files = sorted(path for path in Path(store).iterdir() if path.suffix != ".lock")
        total = sum(path.stat().st_size for path in files) / MIB

        def check():
            status, lines, error = run(options.program, ["check", *words], stdin=subprocess.DEVNULL)
            if status != 0 or not lines[2].startswith(f"check 1 whole 0 {options.photos} {options.photos} {options.photos} "):
                sys.exit(f"check: status {status}, {lines!r}, {error!r}")

        checked, hashed = processor(check), processor(lambda: one_pass(files))
    print(f"{options.photos} photos of {options.size} bytes, {total:.1f} MiB of files")
    for name, (used, clock) in (("check", checked), ("pread and SHA-256", hashed)):
        print(f"{name}: {used:.3f} seconds of the processor, {clock:.3f} on the clock, {total / used:.1f} MiB/s")


def main():
    parser = argparse.ArgumentParser(description=__doc__.splitlines()[0])
    parser.add_argument("--program", default=str(ROOT / "crates/haystack/out/haystack"))
    parser.add_argument("--folders", type=int, default=500)
    parser.add_argument("--seed", type=int, default=1)
    parser.add_argument("--only", choices=("damage", "speed"))
    parser.add_argument("--photos", type=int, default=10_000)
    parser.add_argument("--size", type=int, default=4096)
    parser.add_argument("--folder")
    options = parser.parse_args()
    options.program = str(Path(options.program).resolve())
    if options.only != "speed":
        damaged_folders(options)
    if options.only != "damage":
        speed(options)


if __name__ == "__main__":
    main()
