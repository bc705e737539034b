#!/usr/bin/env python3
"""Kills the built program at random moments of a long run over a folder, opens the folder again, and reads every photo.

    bench/kill.py [--program PATH] [--rounds N] [--seed N] [--seconds N] [--lanes N]

A round feeds the program puts, deletes, flushes and compactions, in one command and in parts, over two machines, two volumes and
two replicas, and kills it (SIGKILL) at a random moment. What it had printed by then is acknowledged; the one line behind that may
have been carried out too. A second run over the folder then reads each pair: it must show what the acknowledged lines, or
these and the next one, leave, on each replica. Before the rounds, two programs are started on one folder, and the second must
be refused.

With --lanes N the lines stand in blocks of N lanes. Each lane has pairs of its own, and some pairs are put and deleted by all. Of a block
whose replies are not all printed each lane may have carried out more of its lines, in their order: on each replica its own pairs must
be as the lines up to one of these leave them, behind those that are acknowledged. A pair of all lanes must be as its last line in
the printed log leaves it, and where its block has no printed log as one of its lines there does, or as it was.
"""

import argparse
import os
import random
import re
import shutil
import signal
import subprocess
import sys
import tempfile
import threading
import time
from pathlib import Path

ROOT = Path(__file__).resolve().parent.parent
WORDS = ["run", "--machines", "2", "--volumes", "2", "--replicas", "2"]
COOKIES = {0: "903df1a0ade0b876"}
PAIRS = 24
LINES = 4000
WORK = ("flush 0 {}", "compact 0 {}", "begin 0 {}", "step 0 {} 5", "step 0 {} 50", "finish 0 {}")
REPLIES = "stored|deleted|gone|unknown|flushed|begun|stepped|compacted|idle|busy"
NOTES = r"(log|rows) [0-9]+( [0-9]+(:[0-9]+)?)+"
# how many lines of a block a lane has at most, and how many of the pairs are put by all lanes
LANE_LINES = 12
SHARED = 4


def script_of(draw):
    """Lines of a script, each with the change that it asks for: a pair and its photo, which is none for a delete."""
    lines = []
    for number in range(LINES):
        alt = draw.randrange(1, PAIRS + 1)
        kind = draw.random()
        if kind < 0.60:
            size = draw.choice((1, 20, 300, 5000))
            photo = f"{number:08x}" + draw.randbytes(size).hex()
            lines.append((f"put 0 {alt} {photo}", (alt, photo)))
        elif kind < 0.75:
            lines.append((f"del 0 {alt}", (alt, None)))
        else:
            lines.append((draw.choice(WORK).format(draw.randrange(2)), None))
    return lines


def kill_process(program, folder, text, delay):
    """Runs the script until it is killed, and answers the whole lines that it had printed by then, which are read as they come."""
    process = subprocess.Popen(
        [program, *WORDS, "--folder", folder], stdin=subprocess.PIPE, stdout=subprocess.PIPE, stderr=subprocess.DEVNULL
    )
    printed = []
    reader = threading.Thread(target=lambda: printed.extend(iter(lambda: os.read(process.stdout.fileno(), 65536), b"")))
    reader.start()
    os.set_blocking(process.stdin.fileno(), False)
    end = time.monotonic() + delay
    sent = 0
    while time.monotonic() < end and process.poll() is None:
        if sent < len(text):
            try:
                sent += os.write(process.stdin.fileno(), text[sent : sent + 65536])
                continue
            except BlockingIOError:
                pass
        time.sleep(0.0005)
    process.send_signal(signal.SIGKILL)
    process.wait()
    reader.join()
    text = b"".join(printed).decode("ascii")
    return text[: text.rfind("\n") + 1].splitlines()[1:]


def kill_run(program, folder, lines, delay):
    """Runs the script until it is killed, and answers the replies to the lines that were acknowledged by then."""
    text = "".join(line + "\n" for line, _ in lines).encode()
    whole = kill_process(program, folder, text, delay)
    for number, reply in enumerate(whole, 1):
        if not re.match(rf"{number} ({REPLIES}) ", reply):
            sys.exit(f"a run over real files answered: {reply}")
    return whole


def contents_behind(before, changes):
    contents = dict(before)
    for change in changes:
        if change is None:
            continue
        alt, photo = change
        if photo is None:
            if alt in contents:
                contents[alt] = None
        else:
            contents[alt] = photo
    return contents


def shown(data):
    if data == "-":
        return ""
    match = re.fullmatch(r"x([0-9]+):([0-9a-f]{2})", data)
    return match.group(2) * int(match.group(1)) if match else data


def read_all(program, folder):
    """What each replica has of each pair: its photo, None where it is gone, and no entry where it is unknown."""
    # the start replica is the line's number modulo the replicas: each pair is read at an even and at an odd line
    script = "".join(f"read 0 {alt} {COOKIES[0]}\n" * 2 for alt in range(1, PAIRS + 1))
    done = subprocess.run([program, *WORDS, "--folder", folder], input=script, capture_output=True, text=True)
    if done.returncode != 0:
        sys.exit(f"the folder was not opened again: {done.stdout[-200:]!r} {done.stderr!r}")
    found = [{}, {}]
    for reply in done.stdout.splitlines()[1:]:
        words = reply.split()
        number = int(words[0])
        alt = (number + 1) // 2
        if words[1] == "photo":
            found[number % 2][alt] = shown(words[6])
        elif words[1] == "gone":
            found[number % 2][alt] = None
        elif words[1] != "unknown":
            sys.exit(f"a read answered: {reply}")
    return found


def drop_gone(contents):
    return {alt: photo for alt, photo in contents.items() if photo is not None}


def try_two(program, folder):
    """The second program on a folder is refused while the first one runs."""
    first = subprocess.Popen([program, *WORDS, "--folder", folder], stdin=subprocess.PIPE, stdout=subprocess.PIPE, text=True)
    first.stdout.readline()
    first.stdin.write("put 0 1 61\n")
    first.stdin.flush()
    first.stdout.readline()
    second = subprocess.run([program, *WORDS, "--folder", folder], input="", capture_output=True, text=True)
    if second.returncode != 6 or not second.stdout.splitlines()[-1].startswith("open shelf "):
        sys.exit(f"the second program was not refused: {second.returncode} {second.stdout!r}")
    first.stdin.close()
    if first.wait() != 0:
        sys.exit("the first program did not end with status 0")


# BLOCKS OF LANES


class Line:
    """A line of a block, with its number, its lane and the change that it asks for."""

    def __init__(self, number, lane, text, change):
        self.number, self.lane, self.text, self.change = number, lane, text, change

    def is_of(self, alt):
        return self.change is not None and self.change[0] == alt


def owner(alt, lanes):
    """The lane whose pair it is, or none where it is one of all lanes."""
    return None if alt <= SHARED else alt % lanes


def lane_line(draw, number, lane, lanes):
    own = [alt for alt in range(1, PAIRS + 1) if owner(alt, lanes) in (lane, None)]
    alt, kind = draw.choice(own), draw.random()
    if kind < 0.65:
        photo = f"{number:08x}" + draw.randbytes(draw.choice((1, 20, 300, 5000))).hex()
        return Line(number, lane, f"put 0 {alt} {photo}", (alt, photo))
    if kind < 0.85:
        return Line(number, lane, f"del 0 {alt}", (alt, None))
    return Line(number, lane, draw.choice(WORK[:2]).format(draw.randrange(2)), None)


def blocks_of(draw, lanes):
    """Blocks of lines, in the order of their numbers."""
    blocks, number = [], 1
    while number < LINES:
        chosen = [lane for lane in range(lanes) for _ in range(draw.randint(1, LANE_LINES))]
        draw.shuffle(chosen)
        blocks.append([lane_line(draw, number + place, lane, lanes) for place, lane in enumerate(chosen, 1)])
        number += len(chosen) + 2
    return blocks


def text_of(blocks, lanes):
    return "".join(f"lanes {lanes}\n" + "".join(f"{line.lane} {line.text}\n" for line in block) + "end\n" for block in blocks).encode()


def take_block(block, printed):
    """How many lines of a block have their replies in front of these lines, the order of the changes that the notes behind them tell of, and
    what is behind these."""
    count = 0
    while count < min(len(block), len(printed)) and re.match(rf"{block[count].number} ({REPLIES}) ", printed[count]):
        count += 1
    notes = count
    while count == len(block) and notes < len(printed) and re.fullmatch(NOTES, printed[notes]):
        notes += 1
    logs = [int(word) for note in printed[count:notes] if note.startswith("log") for word in note.split()[3:]]
    return count, {number: place for place, number in enumerate(logs)}, printed[notes:]


def shared_behind(before, block, logged):
    """What each pair of all lanes may hold behind a block of which these lines are known to be logged, by their places there."""
    behind = {}
    for alt in range(1, SHARED + 1):
        own = [line for line in block if line.is_of(alt)]
        last = max((line for line in own if line.number in logged), key=lambda line: logged[line.number], default=None)
        behind[alt] = [last.change[1]] if last else before[alt] + [line.change[1] for line in own]
    return behind


def may_hold(contents, held, shared, block, count, lanes):
    """Whether a replica may have these contents behind a block of which so many lines are acknowledged."""
    if any(contents.get(alt) not in shared[alt] for alt in shared):
        return False
    for lane in range(lanes):
        own = [alt for alt in range(1, PAIRS + 1) if owner(alt, lanes) == lane]
        wanted = {alt: contents.get(alt) for alt in own}
        least = [line.change for line in block[:count] if line.lane == lane]
        rest = [line.change for line in block[count:] if line.lane == lane]
        stands = (contents_behind(held, least + rest[:more]) for more in range(len(rest) + 1))
        if not any({alt: stood.get(alt) for alt in own} == wanted for stood in stands):
            return False
    return True


def check_blocks(number, blocks, printed, before, found, lanes):
    """Compares what the replicas have with what was printed, and answers how many lines were acknowledged."""
    held, done = dict(before), 0
    shared = {alt: [before.get(alt)] for alt in range(1, SHARED + 1)}
    for block in blocks:
        count, logged, printed = take_block(block, printed)
        shared = shared_behind(shared, block, logged)
        done += count
        if count < len(block):
            break
        held = contents_behind(held, [line.change for line in block if not any(line.is_of(alt) for alt in shared)])
    if printed:
        sys.exit(f"round {number}: a run over real files answered: {printed[0][:80]}")
    for replica, contents in enumerate(found):
        if not may_hold(contents, held, shared, block, count, lanes):
            sys.exit(f"round {number}, replica {replica}: {done} lines were acknowledged, and the store has something else")
    return done


def lane_rounds(options, program, scratch, draw):
    acknowledged = compacted = busy = runs = 0
    for number in range(options.rounds):
        folder = os.path.join(scratch, "store")
        shutil.rmtree(folder, ignore_errors=True)
        before = {}
        for _ in range(draw.randrange(1, 4)):
            blocks = blocks_of(draw, options.lanes)
            printed = kill_process(program, folder, text_of(blocks, options.lanes), draw.uniform(0.02, options.seconds))
            found = read_all(program, folder)
            acknowledged += check_blocks(number, blocks, printed, before, found, options.lanes)
            runs += 1
            compacted += sum(" compacted " in reply for reply in printed)
            busy += sum(" busy " in reply for reply in printed)
            if drop_gone(found[0]) != drop_gone(found[1]):
                # a line that was under way reached one replica alone
                break
            before = found[0]
    print(
        f"{options.rounds} rounds of {options.lanes} lanes, {runs} kills: {acknowledged} lines acknowledged, {compacted} of them compactions,"
        f" and all of them found; {busy} compactions were busy"
    )


def main():
    parser = argparse.ArgumentParser(description=__doc__.splitlines()[0])
    parser.add_argument("--program", default=str(ROOT / "crates/haystack/out/haystack"))
    parser.add_argument("--rounds", type=int, default=200)
    parser.add_argument("--seed", type=int, default=1)
    parser.add_argument("--seconds", type=float, default=0.6, help="the longest time to a kill")
    parser.add_argument("--lanes", type=int, default=0, help="so many lanes, in blocks; without it plain lines")
    options = parser.parse_args()
    program = str(Path(options.program).resolve())
    draw = random.Random(options.seed)
    acknowledged = compacted = next_kept = 0
    with tempfile.TemporaryDirectory() as scratch:
        try_two(program, os.path.join(scratch, "two"))
        if options.lanes:
            lane_rounds(options, program, scratch, draw)
            return
        for number in range(options.rounds):
            folder = os.path.join(scratch, "store")
            shutil.rmtree(folder, ignore_errors=True)
            before = {}
            for _ in range(draw.randrange(1, 4)):
                lines = script_of(draw)
                replies = kill_run(program, folder, lines, draw.uniform(0.02, options.seconds))
                done = len(replies)
                changes = [change for _, change in lines]
                least = contents_behind(before, changes[:done])
                most = contents_behind(least, changes[done : done + 1])
                found = read_all(program, folder)
                for replica, contents in enumerate(found):
                    if drop_gone(contents) not in (drop_gone(least), drop_gone(most)):
                        sys.exit(f"round {number}, replica {replica}: {done} lines were acknowledged, and the store has something else")
                if drop_gone(found[0]) != drop_gone(found[1]):
                    # the line that was under way reached one replica alone: both go on from a common state
                    break
                next_kept += drop_gone(found[0]) != drop_gone(least)
                acknowledged += done
                compacted += sum(" compacted " in reply for reply in replies)
                before = found[0]
    print(
        f"{options.rounds} rounds: {acknowledged} lines acknowledged, {compacted} of them compactions, and all of them found;"
        f" {next_kept} times the line under way was kept too"
    )


if __name__ == "__main__":
    main()
