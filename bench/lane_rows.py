#!/usr/bin/env python3
"""Runs scripts with blocks of lanes, of which all that may be printed is listed, and tells which of it was seen how often.

    bench/lane_rows.py [--program PATH] [--runs N]

A script stands with the transcripts that the order of its lanes allows. The judge of bench/blocks.py has to find each of these lawful, and
no other may be printed. Behind these a fuse lets 0 to 30 calls of a disk pass before one fails, and a restart follows, which keeps what
was under way or loses it. The lines that meet the fuse are plain ones, whose replies are listed here; those of a lane by itself; and
those of a lane beside three others, which read, and work on another volume. The lane is answered as the plain lines are, and what is
printed is lawful.
"""

import argparse
import collections
import subprocess
import sys
from pathlib import Path

import block_judge

ROOT = Path(__file__).resolve().parent.parent
C = "903df1a0ade0b876"
TWO = ("--machines", "2", "--volumes", "2")
VOLUMES = ("--volumes", "2")
SECRET = bytes(32)
CALLS = 31


def lines_of(text):
    return "".join(line.strip() + "\n" for line in text.split(";"))


class Row:
    """A script, with all that it may print behind the header."""

    def __init__(self, name, script, may_print, words=()):
        self.name, self.script, self.may_print, self.words = name, lines_of(script.replace("C", C)), may_print, words


def three_lanes():
    """Two puts of one pair and a read: the row is of the one or the other, and the log has them in either order."""
    for row in (2, 3):
        for first, last in ((2, 3), (3, 2)):
            photo = {2: "61", 3: "62"}
            for read in ("unknown 0", "gone 0 0 0 1", f"photo 0 0 1 1 {photo[first]}", f"photo 0 0 2 1 {photo[last]}"):
                stored = [f"{line} stored 0 {(first, last).index(line) + 1} 1 {C}" for line in (2, 3)]
                yield [*stored, f"4 {read}", f"log 0 0 {first} {last}", f"rows 0 {row}:0", f"6 photo 0 0 2 1 {photo[last]}"]


def put_beside():
    """A lane puts and reads, and another one puts the same pair."""
    for row in (2, 4):
        for first, last in ((2, 4), (4, 2)):
            photo = {2: "61", 4: "62"}
            reads = [f"photo 0 0 2 1 {photo[last]}"] + ([f"photo 0 0 1 1 {photo[2]}"] if first == 2 else [])
            for read in reads:
                stored = {line: f"{line} stored 0 {(first, last).index(line) + 1} 1 {C}" for line in (2, 4)}
                yield [stored[2], f"3 {read}", stored[4], f"log 0 0 {first} {last}", f"rows 0 {row}:0"]


def across_swap():
    """A read beside a compaction and a put."""
    for read in ("photo 0 0 1 1 61", "photo 0 0 2 1 62"):
        yield [f"1 stored 0 1 1 {C}", f"3 {read}", "4 compacted 0:0 1", f"5 stored 0 2 1 {C}", "log 0 1 5"]


TWO_VOLUMES = f"1 stored 0 1 1 {C};2 drained 0;3 stored 1 1 2 {C};4 undrained 0;6 stored 0 2 2 {C};7 stored 1 2 2 {C};log 0 1 6;log 1 1 7"

ROWS = (
    Row("three lanes at one pair", "lanes 3; 0 put 0 1 61; 1 put 0 1 62; 2 read 0 1 C; end; read 0 1 C", list(three_lanes())),
    Row("one lane's put beside another's", "lanes 2; 0 put 0 1 61; 0 read 0 1 C; 1 put 0 1 62; end", list(put_beside())),
    Row(
        "puts to two volumes",
        "put 0 1 61; drain 0; put 0 2 62; undrain 0; lanes 2; 0 put 0 1 63; 1 put 0 2 64; end",
        [TWO_VOLUMES.split(";")],
        TWO,
    ),
    Row("a read across a swap", "put 0 1 61; lanes 2; 0 read 0 1 C; 1 compact 0 0; 1 put 0 1 62; end", list(across_swap())),
)


def run(program, script, words=()):
    done = subprocess.run([program, "run", *words], input=script, capture_output=True, text=True, timeout=600, check=False)
    if done.returncode != 0:
        sys.exit(f"status {done.returncode} {done.stderr!r} of {script!r}")
    return done.stdout


def judge(script, transcript):
    """Stops where a transcript is not lawful."""
    for verdict in block_judge.verdicts(script.encode("ascii"), transcript, SECRET, True):
        if verdict.word != "lawful":
            sys.exit(f"{verdict.told()} in {transcript!r} of {script!r}")


def try_row(program, row, runs):
    seen = collections.Counter()
    for _ in range(runs):
        transcript = run(program, row.script, row.words)
        printed = transcript.splitlines()[1:]
        if printed not in row.may_print:
            sys.exit(f"{row.name}: {printed}")
        seen[tuple(printed)] += 1
    header = transcript.splitlines()[0]
    for printed in row.may_print:
        judge(row.script, "\n".join([header, *printed]) + "\n")
    print(f"| {row.name} | {runs} | {len(row.may_print)} | {len(seen)} | {', '.join(str(count) for _, count in seen.most_common())} |", flush=True)


# EVERY CALL OF A DISK IN TURN

ASKED = ("put 0 1 61", "put 0 1 62", "flush 0 0", "del 0 1", "compact 0 0", "put 0 2 63")
OTHERS = ("1 put 1 1 65", f"2 read 0 1 {C}", "1 read 1 1 fb7815c6d6df3fef", f"3 read 0 2 {C}", f"2 read 0 1 {C}", "1 flush 1 0", "1 compact 1 0")


def due(calls):
    """What the lines are answered in a store of one volume where so many calls of its disk pass."""
    done = [f"stored 0 1 1 {C}", f"stored 0 2 1 {C}", "flushed 0:0 2", "deleted 0 3 1"]
    closed = "readonly 0:0"
    if calls < 8:
        return done[: calls // 4] + ["failed 0:0 1"] + [closed] * (5 - calls // 4)
    if calls < 12:
        return done[:2] + ["failed 0:0 1", "failed 0:0 2"] + [closed] * 2
    if calls < 14:
        return done[:3] + ["failed 0:0 1"] + [closed] * 2
    if calls < 20:
        return done + ["failed 0:0 1", "failed 0:0 2"]
    if calls < 24:
        return done + ["failed 0:0 1", closed]
    last = f"stored 0 4 2 {C}" if calls == 30 else f"failed 0:0 {({24: 3, 25: 2}).get(calls, 1)}"
    return done + ["compacted 0:0 1", last]


def script_of(before, others, pick, lanes):
    """The lines that are asked, in lane 0 with these of other lanes, or plain without them: each has the same number both times."""
    own = [f"0 {line}" for line in ASKED] + [*others] if lanes else [*ASKED] + ["# no line"] * len(others)
    block = [f"lanes {lanes}" if lanes else "# no line", *own, "end" if lanes else "# no line"]
    return "".join(line + "\n" for line in [*before, *block, f"restart {pick}", f"read 0 1 {C}"])


def told_to(transcript, others):
    """The lines of a transcript but for its header, the replies to other lanes and the notes of a block."""
    lines = transcript.splitlines()[1:]
    return [line for line in lines if line.split()[0] not in others and not line.startswith(("log", "rows"))]


def try_pair(program, before, others, pick, lanes, words):
    """Runs the lines plain and in a block, judges both, and answers the replies to the plain ones."""
    plain, block = (script_of(before, others, pick, count) for count in (0, lanes))
    printed = [run(program, script, words) for script in (plain, block)]
    for script, transcript in zip((plain, block), printed):
        judge(script, transcript)
    first = len(before) + len(ASKED) + 2
    numbers = {str(number) for number in range(first, first + len(others))}
    if told_to(printed[0], numbers) != told_to(printed[1], numbers):
        sys.exit(f"plain lines are answered {printed[0]!r}, and those of lane 0 {printed[1]!r}, of {block!r}")
    return [line.split(" ", 1)[1] for line in printed[0].splitlines()[1:]][len(before) :]


def try_calls(program, runs):
    """Each number of calls and both picks, in a lane alone, and so often beside other lanes."""
    for calls in range(CALLS):
        for pick in range(2):
            replies = try_pair(program, [f"fuse 0 0 {calls}"], (), pick, 1, ())
            if replies[: len(ASKED)] != due(calls):
                sys.exit(f"{calls} calls pass: {replies}")
            for _ in range(runs):
                try_pair(program, ["put 0 2 60", "put 1 1 64", f"fuse 0 0 {calls}"], OTHERS, pick, 4, VOLUMES)
    print(f"\n0 to {CALLS - 1} calls pass, both picks, {runs} times beside three lanes: all as plain lines are answered, and lawful")


# MORE LINES THAN A BLOCK TAKES

MOST_LINES = 65_536


def try_limit(program):
    """A block takes so many commands: bad and blank lines between them do not count, and each command behind them is a bad line."""
    asked = [f"{number % 8} url {number} 1" for number in range(MOST_LINES)]
    lines = ["lanes 8", "step 0 0 1", *asked[:9], "# no line", "9 url 0 1", *asked[9:], "0 put 0 1 61", "# no line", "7 url 0 1", "end", "put 0 1 61"]
    bad = {"2", "13", *(str(len(asked) + line) for line in (5, 7))}
    transcript = run(program, "".join(line + "\n" for line in lines)).splitlines()[1:]
    replies = dict(line.split(" ", 1) for line in transcript)
    wanted = {str(number): "unknown 0" for number, line in enumerate(lines, 1) if line[1:6] == " url "}
    wanted |= {number: "bad line" for number in bad} | {str(len(lines)): f"stored 0 1 1 {C}"}
    if replies != wanted or len(transcript) != len(wanted):
        sys.exit(f"a block of {MOST_LINES} commands and two more: {dict(set(replies.items()) ^ set(wanted.items()))}")
    print(f"a block takes {MOST_LINES:,} commands, and each one behind them is a bad line")


def main():
    parser = argparse.ArgumentParser(description=__doc__.splitlines()[0])
    parser.add_argument("--program", default=str(ROOT / "crates/haystack/out/haystack"))
    parser.add_argument("--runs", type=int, default=500)
    options = parser.parse_args()
    print("| script | runs | may be printed | were printed | how often each |\n|---|---:|---:|---:|---|")
    for row in ROWS:
        try_row(options.program, row, options.runs)
    try_calls(options.program, max(1, options.runs // 50))
    try_limit(options.program)


if __name__ == "__main__":
    main()
