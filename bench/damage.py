#!/usr/bin/env python3
"""Damages folders of a store in many ways, and looks at how the program ends on each.

    bench/damage.py [--program PATH] [--folders N] [--seed N]

A store over two machines, two volumes and two replicas is made in a folder. Each round damages a copy of it: files are cut,
bytes flipped, files swapped, lengthened, taken away, or replaced by foreign bytes or by a folder. The program then reads every
pair, puts and deletes. It must end by itself with status 0 or 6 and with the line on standard error that belongs to it, and
every photo that it shows must be one that was put under its pair.

Of the folders that open, the acknowledged photos are counted that stand at their pairs as the store was made, by how many replicas
show them: a read that starts at a replica shows another photo, or none, where that replica has lost it and does not know so. Apart
are counted the folders in which a head or the journal was lost or emptied, since their disks are formatted.
"""

import argparse
import collections
import os
import random
import re
import shutil
import subprocess
import sys
import tempfile
from pathlib import Path

ROOT = Path(__file__).resolve().parent.parent
WORDS = ["run", "--machines", "2", "--volumes", "2", "--replicas", "2", "--capacity", "65536"]
COOKIE = "903df1a0ade0b876"
PAIRS = 12
SLOTS = 5
ENDS = {0: "", 6: "haystack: store not opened\n"}


class Photos:
    """What was put under each pair, and what stands there in the end, if anything does."""

    def __init__(self):
        self.put = collections.defaultdict(set)
        self.last = {}

    def add(self, alt, photo):
        self.put[alt].add(photo)
        self.last[alt] = photo


def make_store(program, folder, draw):
    """Makes the store, and answers its photos. All of its lines are acknowledged."""
    photos = Photos()
    lines = []
    for number in range(60):
        alt = draw.randrange(1, PAIRS + 1)
        kind = draw.random()
        if kind < 0.7:
            photo = f"{number:04x}" + draw.randbytes(draw.choice((1, 40, 700))).hex()
            photos.add(alt, photo)
            lines.append(f"put 0 {alt} {photo}")
        elif kind < 0.85:
            photos.last.pop(alt, None)
            lines.append(f"del 0 {alt}")
        else:
            lines.append(f"flush 0 {draw.randrange(2)}")
    done = subprocess.run([program, *WORDS, "--folder", folder], input="\n".join(lines) + "\n", capture_output=True, text=True)
    answers = re.compile(r"[0-9]+ (stored|deleted|gone|unknown|flushed) ")
    if done.returncode != 0 or not all(answers.match(reply) for reply in done.stdout.splitlines()[1:]):
        sys.exit(f"the store was not made: {done.stdout[-300:]!r}")
    return photos


def is_void(folder):
    """Whether the head of a replica, or the journal, is missing or empty."""
    paths = [Path(folder, f"{slot}-0") for slot in range(SLOTS)]
    return any(not path.exists() or (path.is_file() and path.stat().st_size == 0) for path in paths)


def damage(folder, draw):
    """One damage of a file of the folder, and what it was."""
    names = sorted(name for name in os.listdir(folder) if not name.endswith(".lock"))
    name = draw.choice(names)
    path = os.path.join(folder, name)
    if not os.path.isfile(path):
        return "none"
    data = bytearray(Path(path).read_bytes())
    kind = draw.choice(("cut", "flip", "flip", "flip", "longer", "foreign", "away", "swap", "folder", "zeros"))
    if kind == "cut":
        data = data[: draw.randrange(len(data) + 1)]
    elif kind == "flip" and data:
        for _ in range(draw.choice((1, 1, 3))):
            data[draw.randrange(len(data))] ^= 1 << draw.randrange(8)
    elif kind == "longer":
        data += draw.randbytes(draw.randrange(1, 200))
    elif kind == "foreign":
        data = bytearray(draw.randbytes(draw.randrange(1, 400)))
    elif kind == "zeros" and data:
        at = draw.randrange(len(data))
        data[at : at + 64] = bytes(len(data[at : at + 64]))
    elif kind == "away":
        os.remove(path)
        return kind
    elif kind == "folder":
        os.remove(path)
        os.mkdir(path)
        return kind
    elif kind == "swap":
        other = os.path.join(folder, draw.choice(names))
        if not os.path.isfile(other):
            return "none"
        data, swapped = bytearray(Path(other).read_bytes()), bytes(data)
        Path(other).write_bytes(swapped)
    Path(path).write_bytes(data)
    return kind


def shown(data):
    if data == "-":
        return ""
    match = re.fullmatch(r"x([0-9]+):([0-9a-f]{2})", data)
    return match.group(2) * int(match.group(1)) if match else data


def shown_by(replies, photos, folder):
    """By pair, how many of its two reads, which start at different replicas, show the photo that stands there."""
    shows = collections.Counter()
    for reply in replies[1:]:
        words = reply.split()
        if len(words) > 6 and words[1] == "photo" and int(words[0]) <= 2 * PAIRS:
            alt = (int(words[0]) + 1) // 2
            if shown(words[6]) not in photos.put[alt]:
                sys.exit(f"{folder}: a photo that was never put: {reply[:200]}")
            shows[alt] += shown(words[6]) == photos.last.get(alt)
    return shows


def check(program, folder, photos):
    """Runs the program over the folder, and answers how it ended, and which photos it showed where it opened."""
    script = "".join(f"read 0 {alt} {COOKIE}\n" * 2 for alt in range(1, PAIRS + 1)) + "put 0 99 61\ndel 0 1\nread 0 99 0\nflush 0 0\n"
    done = subprocess.run([program, *WORDS, "--folder", folder], input=script.encode(), capture_output=True, timeout=60)
    if done.returncode not in ENDS or done.stderr.decode() != ENDS[done.returncode]:
        sys.exit(f"{folder}: status {done.returncode}, {done.stderr!r}, {done.stdout[-300:]!r}")
    replies = done.stdout.decode("ascii").splitlines()
    shows = shown_by(replies, photos, folder)
    if done.returncode == 6:
        return " ".join(replies[-1].split()[:2]), shows
    return "opened", shows


class Lost:
    """The photos of the folders that opened, by how many of the two reads showed them."""

    def __init__(self):
        self.folders = 0
        self.photos = collections.Counter()

    def add(self, photos, shows):
        self.folders += 1
        self.photos.update(shows[alt] for alt in photos.last)

    def told(self):
        each, one, none = (self.photos[number] for number in (2, 1, 0))
        return f"{self.folders} opened with {each + one + none} photos: {each} shown by both reads, {one} by one alone, {none} by none"


def main():
    parser = argparse.ArgumentParser(description=__doc__.splitlines()[0])
    parser.add_argument("--program", default=str(ROOT / "crates/haystack/out/haystack"))
    parser.add_argument("--folders", type=int, default=500)
    parser.add_argument("--seed", type=int, default=1)
    options = parser.parse_args()
    program = str(Path(options.program).resolve())
    draw = random.Random(options.seed)
    ends = collections.Counter()
    void, other = Lost(), Lost()
    with tempfile.TemporaryDirectory() as scratch:
        for number in range(options.folders):
            if number % 25 == 0:
                store = os.path.join(scratch, f"store-{number}")
                photos = make_store(program, store, draw)
            folder = os.path.join(scratch, f"damaged-{number}")
            shutil.copytree(store, folder)
            for _ in range(draw.choice((1, 1, 1, 2, 4))):
                damage(folder, draw)
            lost = void if is_void(folder) else other
            end, shows = check(program, folder, photos)
            ends[end] += 1
            if end == "opened":
                lost.add(photos, shows)
            shutil.rmtree(folder)
    print(f"{options.folders} damaged folders: " + ", ".join(f"{count} {end}" for end, count in sorted(ends.items())))
    print(f"with a head or the journal lost or emptied: {void.told()}")
    print(f"the others: {other.told()}")


if __name__ == "__main__":
    main()
