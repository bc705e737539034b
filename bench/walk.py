#!/usr/bin/env python3
"""Runs what the documents show, and exits with 1 where something else is printed than stands there.

    bench/walk.py --program PATH [--left-out]

Walked are README.md, docs/*.md and the man page, block of code by block of code, each in a copy of examples/ of its own:

- commands behind a dollar sign print what stands below them;
- other commands end well, and print what their comments and the next block show, but for the header; `rt try` stands for the program, and
  `rt run`, which proves, is left out;
- a script beside its transcript, with the words `run ..` that the text before it names;
- what the text before it says that `haystack ..` writes;
- lines of python behind `>>>`;
- bytes behind their places: those of a file of a store, as the text before them names it, or of a needle.

Then the scripts of examples/ print their transcripts, examples/album/try-album comes to its end, each status of the man page comes with its
message, most rows of the table of what one sees come as they say, and as many descriptors as the pages tell are enough for a run, and one
fewer is not. With --left-out the blocks that were not run are named: pictures.
"""

import argparse
import doctest
import functools
import itertools
import os
import re
import resource
import shutil
import subprocess
import sys
import tempfile
from pathlib import Path

ROOT = Path(__file__).resolve().parent.parent
HEADER = re.compile(r"haystack( \d+){4}")
COMMAND = re.compile(r"\(cd |export |put-photo |haystack (run|load|check|audit)\b")
RT = '#!/bin/sh\n[ "$1" = try ] || exit 0\nshift 2\nexec haystack "$@"\n'
LONGEST = 1_073_741_824
# what ends with each status of the man page
STATUSES = {
    0: "haystack run < /dev/null",
    2: "haystack run --replicas 2",
    3: "haystack run < examples/first/script > /dev/full",
    4: "haystack run < .",
    5: "for kilobytes in $(seq 3000 250 40000); do (ulimit -v $kilobytes; haystack run < /dev/null 2> told); [ $? != 5 ] || { cat told >&2; exit 5; }; done",
    6: "haystack run --folder /dev/null < /dev/null",
    7: f"(printf '#'; head -c {LONGEST} /dev/zero | tr '\\0' x) | haystack run",
    8: "haystack run --folder store < examples/first/script; printf b | dd of=store/1-1 bs=1 seek=100 conv=notrunc status=none; haystack check --folder store",
    9: "cd examples/first; { echo script $(wc -c < script); cat script; echo haystack 1 1 1 4096; } | haystack audit",
    10: "echo script | haystack audit",
    11: "cd examples/lanes; { echo script $(wc -c < script); cat script transcript; } | haystack audit",
}
# rows of the table of what one sees, by their first words: what shows it, and does what the row says, and the replies
SEEN = (
    ("`haystack: usage`", "haystack run --volumes 65; haystack run --replicas 2; haystack run --folder a --folder=b", "haystack: usage\n" * 3),
    (
        "`open shelf F`",
        """mkfifo pipe; haystack run --folder store < pipe > told & exec 3> pipe; echo put 7 1 61 >&3; for wait in $(seq 99); do ! grep -q stored told || break; sleep 0.1; done
        run ''; exec 3>&-; wait; run 'read 7 1 b9b44932bfcab1d8\n'; mkdir -p other/1-0; haystack run --folder other < /dev/null""",
        """open shelf 1
haystack: store not opened
1 photo 0 0 0 1 61
haystack 1 1 1 67108864
open shelf 1
haystack: store not opened
""",
    ),
    (
        "`open failed SLOT F`",
        """(trap '' XFSZ; ulimit -f 0; run ''); rm -r store; run 'put 7 1 61\n'""",
        """open failed 0 1
haystack: store not opened
1 stored 0 1 1 b9b44932bfcab1d8
""",
    ),
    (
        "`open damaged 0 0 AT`",
        """run '' --machines 2; run ''; run '' --machines 2 --volumes 2; run '' --machines 2 --replicas 2; run '' --machines 2 --capacity 4096
        run '' --machines 2 --secret $(printf %064d 1); run 'put 7 1 61\n' --machines 2""",
        "".join(f"open damaged 0 0 {at}\nhaystack: store not opened\n" for at in (16, 20, 24, 40, 56)) + "1 stored 0 1 1 b9b44932bfcab1d8\n",
    ),
    (
        "another `open damaged SLOT FILE AT`",
        """run 'put 7 1 61\n'; cp -r store copy; truncate -s 70 store/1-0; run ''; check; rm -r store; cp -r copy store; run 'read 7 1 b9b44932bfcab1d8\n'""",
        """1 stored 0 1 1 b9b44932bfcab1d8
open damaged 1 0 64
haystack: store not opened
check 0 rows 1
check 1 damaged 0 64
haystack: damage found
1 photo 0 0 0 1 61
""",
    ),
    (
        "`check 0 damaged 0 AT`",
        """run 'put 7 1 61\n'; check --capacity 4096; check""",
        """1 stored 0 1 1 b9b44932bfcab1d8
check 0 damaged 0 40
check 1 damaged 0 40
haystack: damage found
check 0 rows 1
check 1 whole 0 1 1 0 120 0
""",
    ),
    (
        "`check SLOT void` beside whole disks, where slot 0 has no rows",
        """run '' --volumes 2; rm store/2-*; check --volumes 2; run 'put 7 1 61\n' --volumes 2""",
        """check 0 rows 0
check 1 whole 0 0 0 0 64 0
check 2 void
1 stored 1 1 1 b9b44932bfcab1d8
""",
    ),
    (
        "another `check SLOT void`",
        """run 'put 7 1 61\n'; cp -r store copy; rm store/1-0; check; rm -r store; cp -r copy store; check""",
        """1 stored 0 1 1 b9b44932bfcab1d8
check 0 rows 1
check 1 void
check 0 rows 1
check 1 whole 0 1 1 0 120 0
""",
    ),
    (
        "`failed V:M F`, and then `readonly V:M`",
        """(trap '' XFSZ; ulimit -f 1; run 'put 7 1 61\nput 8 1 x2000:62\nput 9 1 63\nread 7 1 b9b44932bfcab1d8\nrestart\nput 9 1 63\n'); run 'put 8 1 x2000:62\n'""",
        """1 stored 0 1 1 b9b44932bfcab1d8
2 failed 0:0 1
3 readonly 0:0
4 photo 0 0 1 2 61
5 restarted 2
lost 0:0 2
6 stored 0 1 3 d555c3dd002f88ad
1 stored 0 1 3 82585e275cda41a5
""",
    ),
    (
        "`failed dir F`, and then `readonly dir`",
        """memory 'fuse dir 0\nput 7 1 61\nput 7 1 61\nrestart\nput 7 1 61\n'""",
        """1 fused dir 0
2 failed dir 1
3 readonly dir
4 restarted 0
lost dir 2
5 stored 0 1 1 b9b44932bfcab1d8
""",
    ),
    (
        "`readonly V:M` without a failure",
        """memory 'drain 0\nput 7 1 61\nundrain 0\nput 7 1 61\n'""",
        """1 drained 0
2 readonly 0:0
3 undrained 0
4 stored 0 1 1 b9b44932bfcab1d8
""",
    ),
    (
        "`readonly V:M` to a flush alone",
        """memory 'put 7 1 61\nfuse 0 0 0\nflush 0 0\nfuse 0 0 99\nflush 0 0\nput 7 1 62\ncompact 0 0\nput 7 1 63\nflush 0 0\n'""",
        """1 stored 0 1 1 b9b44932bfcab1d8
2 fused 0:0 0
3 failed 0:0 1
4 fused 0:0 99
5 readonly 0:0
6 stored 0 2 1 b9b44932bfcab1d8
7 compacted 0:0 1
8 stored 0 3 1 b9b44932bfcab1d8
9 flushed 0:0 1
""",
    ),
    (
        "`full ..`",
        """run 'put 7 1 x3000:61\nput 7 1 x3000:62\ndel 7 1\ncompact 0 0\nput 7 1 x3000:62\n' --capacity 4096""",
        """1 stored 0 1 1 b9b44932bfcab1d8
2 full 0:0:3112:3048
3 deleted 0 2 1
4 compacted 0:0 1
5 stored 0 3 1 b9b44932bfcab1d8
""",
    ),
    (
        "`gone`, though the photo was stored",
        """run 'put 7 1 61\n' --machines 2 --replicas 2; rm store/1-0
        run '\nread 7 1 b9b44932bfcab1d8\nread 7 1 b9b44932bfcab1d8\nput 7 1 61\n\nread 7 1 b9b44932bfcab1d8\n' --machines 2 --replicas 2""",
        """1 stored 0 1 1 b9b44932bfcab1d8
2 gone 0 0 0 1
3 photo 0 1 0 1 61
4 stored 0 1 1 b9b44932bfcab1d8
6 photo 0 0 1 1 61
""",
    ),
    (
        "`unknown`, though the photo was stored",
        """run 'put 7 1 61\n'; cp -r store copy; rm store/0-0; run 'read 7 1 b9b44932bfcab1d8\n'; rm -r store; cp -r copy store; run 'read 7 1 b9b44932bfcab1d8\n'""",
        """1 stored 0 1 1 b9b44932bfcab1d8
1 unknown 0
1 photo 0 0 0 1 61
""",
    ),
    (
        "`wrong cookie ..`",
        """memory 'put 7 1 61\nread 7 1 1\nurl 7 1\nget http://store/0/0,0000000000000007_00000001_b9b44932bfcab1d8\n'""",
        """1 stored 0 1 1 b9b44932bfcab1d8
2 wrong cookie 0 0 1 1
3 url 1 http://store/0/0,0000000000000007_00000001_b9b44932bfcab1d8
4 photo 0 0 1 1 61
""",
    ),
    (
        "`unreadable ..`",
        """run 'put 7 1 61\nflush 0 0\n'; printf b | dd of=store/1-1 bs=1 seek=100 conv=notrunc status=none; run 'read 7 1 b9b44932bfcab1d8\n'; check""",
        """1 stored 0 1 1 b9b44932bfcab1d8
2 flushed 0:0 1
1 unreadable 0 0 1 0:damage:64
check 0 rows 1
check 1 damaged 1 64
haystack: damage found
""",
    ),
    (
        "`busy`, `idle`, `worn`",
        """memory 'begin 0 0\nbegin 0 0\nfinish 0 0\nfinish 0 0\nbegin 0 0\n'""",
        """1 begun 0:0 1
2 busy 0:0 1
3 compacted 0:0 1
4 idle 0:0
5 begun 0:0 2
""",
    ),
    ("`bad line`", """memory 'put 7 1\nput 7 1 61\nend\n'""", "1 bad line\n2 stored 0 1 1 b9b44932bfcab1d8\n3 bad line\n"),
)
SHORT = """exec 2>&1
run() { printf "$1" | haystack run --folder store "${@:2}" |& tail -n +2; }
memory() { printf "$1" | haystack run |& tail -n +2; }
check() { haystack check --folder store "$@" |& tail -n +2; }
"""


class Walk:
    def __init__(self, program):
        self.program = program
        self.faults = 0
        self.left_out = []
        self.walked = 0

    def compare(self, where, printed, due):
        self.walked += 1
        if printed != due:
            self.faults += 1
            print(f"{where}\n  printed: {printed}\n  shown:   {due}", flush=True)

    def shell(self, commands):
        """What the commands do from the top of a tree that has the program and the examples, and photos beside them."""
        with tempfile.TemporaryDirectory() as scratch:
            tree = Path(scratch, "tree")
            shutil.copytree(ROOT / "examples", tree / "examples")
            for place in (tree / "crates/haystack/out/haystack", Path(scratch, "bin/haystack")):
                place.parent.mkdir(parents=True)
                place.symlink_to(self.program)
            tools = [Path(scratch, "bin"), tree / "examples/photo", tree / "examples/album"]
            (tools[0] / "rt").write_text(RT, encoding="utf-8")
            (tools[0] / "rt").chmod(0o755)
            subprocess.run([tools[1] / "make-jpeg", tree / "dot.jpg"], check=True)
            (tree / "photos").mkdir()
            for number in range(74):
                (tree / f"photos/{number:02}").write_bytes(bytes([number]) * number)
            paths = {**os.environ, "PATH": ":".join([*map(str, tools), os.environ["PATH"]]), "TMPDIR": scratch}
            return subprocess.run(["bash", "-c", commands], cwd=tree, env=paths, stdin=subprocess.DEVNULL, capture_output=True, text=True, check=False)

    def transcript_of(self, words, script=""):
        return subprocess.run([self.program, *words], input=script, capture_output=True, text=True, check=False).stdout

    # BLOCKS

    def block(self, where, before, lines, following):
        """Runs one block, and tells whether it could."""
        said = before.rstrip().splitlines()[-1:] or [""]
        writes = re.search(r"`haystack ([^`]*)` (?:writes|prints):$|`((?:run|drill|check) [^`]*)` (?:writes|prints):$", said[0])
        if lines[0].startswith("$ "):
            self.prompted(where, lines)
        elif COMMAND.match(lines[0]):
            self.commands(where, lines, following)
        elif HEADER.match(lines[0].strip()) and lines[0].startswith(" "):
            self.script(where, before, lines)
        elif writes:
            self.compare(where, self.transcript_of((writes[1] or writes[2]).split()).splitlines(), lines)
        elif lines[0].startswith(">>> "):
            self.python(where, lines)
        elif any(re.match(r" *\d* *[0-9a-f]{8} ", line) for line in lines):
            self.bytes(where, before, lines)
        else:
            # a transcript is compared by the commands in front of it
            return HEADER.match(lines[0]) is not None
        return True

    def prompted(self, where, lines):
        commands = "\n".join(line[2:] for line in lines if line.startswith("$ "))
        done = self.shell(f"exec 2>&1\n{commands}")
        self.compare(where, done.stdout.splitlines(), [line for line in lines if not line.startswith("$ ")])

    def commands(self, where, lines, following):
        shown = [match[1] for line in lines if (match := re.search(r"# (\d+ .*)$", line))]
        shown += [line for line in following if HEADER.match(following[0])]
        done = self.shell("set -eo pipefail\n" + "\n".join(lines))
        self.compare(where, (done.returncode, done.stderr), (0, ""))
        if shown:
            self.compare(where, *([line for line in part if not HEADER.match(line)] for part in (done.stdout.splitlines(), shown)))

    def script(self, where, before, lines):
        """The script stands on the left, and its transcript on the right."""
        middle = lines[0].index("haystack ")
        rows = [(line[:middle].strip(), line[middle:].strip()) for line in lines]
        named = re.findall(r"`(run( --\w+ \d+)+)`", before.rstrip().splitlines()[-1])
        script = "".join(f"{left}\n" for left, _ in rows if left)
        printed = self.transcript_of(named[-1][0].split() if named else ["run"], script)
        self.compare(where, printed.splitlines(), [right for _, right in rows if right])

    def python(self, where, lines):
        test = doctest.DocTestParser().get_doctest("\n".join(lines) + "\n", {}, where, where, 0)
        told = []
        doctest.DocTestRunner(verbose=False).run(test, out=told.append)
        self.compare(where, "".join(told), "")

    def bytes(self, where, before, lines):
        """Bytes, each row behind its place: those of the file that the text names, or of a needle of the photo `hello`."""
        words = [itertools.takewhile(re.compile("([0-9a-f]{2})+").fullmatch, re.sub(r"^ *\d{1,3}  ", "", line).split()) for line in lines]
        shown = bytes.fromhex("".join(itertools.chain(*words)))
        named = re.search(r"^Slot (\d), file (\d), [^(]*\((\d+) bytes\)", before, re.MULTILINE)
        if named is None:
            return self.needle(where, shown)
        with tempfile.TemporaryDirectory() as scratch:
            self.transcript_of(["run", "--folder", scratch], "put 0 1 61\nflush 0 0\n")
            file = Path(scratch, f"{named[1]}-{named[2]}")
            self.compare(where, file.read_bytes().hex() if file.is_file() else "", shown.hex())
        self.compare(where, len(shown), int(named[3]))

    def needle(self, where, shown):
        """In the place of the needle of a store it is whole, of the version that it has, and read."""
        with tempfile.TemporaryDirectory() as scratch:
            store = ["--folder", scratch]
            self.transcript_of(["run", *store], "put 0 1 68656c6c6f\n")
            with open(Path(scratch, "1-1"), "ab+") as file:
                held = file.seek(64) and file.read()
                file.truncate(64)
                file.write(shown + held[len(shown) :])
            told = self.transcript_of(["check", *store]).splitlines()[-1:]
            told += self.transcript_of(["run", *store], "read 0 1 903df1a0ade0b876\n").splitlines()[1:]
        self.compare(where, told, [f"check 1 whole 0 1 1 0 {64 + len(shown)} {1 - shown[29]}", "1 photo 0 0 0 1 68656c6c6f"])

    # PAGES

    def page(self, path):
        """Each block of a page with the text before it and the lines of the next one."""
        text = path.read_text(encoding="utf-8")
        if path.suffix == ".1":
            text = re.sub(r"^\.E[XE]$", "```", text, flags=re.MULTILINE).replace("\\-", "-")
        parts = text.split("```")
        blocks = [part.split("\n")[1:-1] for part in parts[1::2]] + [[""]]
        for number, (before, lines) in enumerate(zip(parts[::2], blocks[:-1]), 1):
            where = f"{path.relative_to(ROOT)}, block {number} ({lines[0].strip()})"
            if not self.block(where, before, lines, blocks[number]):
                self.left_out.append(where)

    def examples(self):
        for script in sorted((ROOT / "examples").glob("*/script")):
            printed = self.transcript_of(["run"], script.read_text(encoding="utf-8"))
            self.compare(script.relative_to(ROOT), printed, script.with_name("transcript").read_text(encoding="utf-8"))
        done = self.shell("try-album")
        self.compare("examples/album/try-album", (done.returncode, done.stderr, done.stdout[:13]), (0, "", "the album is "))

    def statuses(self):
        manual = (ROOT / "docs/haystack.1").read_text(encoding="utf-8")
        for number, message in re.findall(r"^\.TP\n\.B (\d+)\n(?:\.I ([a-z ]+)\n)?", manual, re.MULTILINE):
            done = self.shell(STATUSES[int(number)])
            told = done.stderr.splitlines()[-1:]
            self.compare(f"docs/haystack.1, status {number}", (done.returncode, told), (int(number), [f"haystack: {message}"] if message else []))

    def seen(self):
        """What one sees is shown by what the row says, and what it says to do helps."""
        text = (ROOT / "docs/script.md").read_text(encoding="utf-8")
        for row, commands, due in SEEN:
            done = self.shell(SHORT + commands)
            self.compare(f"docs/script.md, {row}", (f"\n| {row}" in text, done.stdout.splitlines()), (True, due.splitlines()))

    def descriptors(self):
        """What the pages tell is enough for a compaction on one replica, and one descriptor fewer is not."""
        counts = {"two": 2, "six": 6}
        said = r"needs (\w+), (\w+) more for each replica of each volume, and (\w+) more for each compaction that stands"
        told = [re.search(said, (ROOT / f"docs/{name}").read_text(encoding="utf-8")).groups() for name in ("script.md", "haystack.1")]
        self.compare("docs/haystack.1 and docs/script.md, descriptors", told[0], told[1])
        least = sum(counts[word] for word in told[0])
        for limit, enough in ((least, True), (least - 1, False)):
            with tempfile.TemporaryDirectory() as scratch:
                words = [self.program, "run", "--folder", f"{scratch}/store"]
                bound = functools.partial(resource.setrlimit, resource.RLIMIT_NOFILE, (limit, limit))
                done = subprocess.run(words, input="put 0 1 61\ncompact 0 0\n", preexec_fn=bound, capture_output=True, text=True, check=False)
            self.compare(f"docs/haystack.1, {limit} descriptors", "2 compacted 0:0 1" in done.stdout, enough)


def main():
    parser = argparse.ArgumentParser(description=__doc__.splitlines()[0])
    parser.add_argument("--program", required=True)
    parser.add_argument("--left-out", action="store_true")
    options = parser.parse_args()
    walk = Walk(str(Path(options.program).resolve()))
    for path in (ROOT / "README.md", *sorted((ROOT / "docs").glob("*.md")), ROOT / "docs/haystack.1"):
        walk.page(path)
    walk.examples()
    walk.statuses()
    walk.seen()
    walk.descriptors()
    for told in walk.left_out if options.left_out else []:
        print(f"left out: {told}")
    print(f"{walk.walked} comparisons: {walk.faults} faults; {len(walk.left_out)} blocks left out")
    sys.exit(1 if walk.faults else 0)


if __name__ == "__main__":
    main()
