#!/usr/bin/env python3
"""Counts the instructions of a put and of a read, as multiples of those of their own SHA-256, by valgrind's callgrind.

    bench/sums.py [--program PATH] [--words WORDS] [--size BYTES] [--photos N] [--folder PATH]

Three scripts are run: one that asks for nothing, one of N puts of photos of so many bytes, and one of the same puts with a read of each
behind them. A put costs what the second counts above the first, and a read what the third counts above the second. The part of SHA-256
is what the functions of `sha2` count of it. Neither depends on other work on the machine. With --folder each run has real files, in a new
folder below PATH; without it the disks in memory count too, some 18 instructions for each byte that is put.
"""

import argparse
import os
import re
import subprocess
import sys
import tempfile
from pathlib import Path

from bench import MIB, ROOT, check_photos, cookies_of, put_lines, read_lines

LINE = re.compile(r"^\s*([0-9,]+) \([^)]*\)\s+(.*)$")


def counted(options, folder, lines):
    """The instructions of a run of these lines, those of SHA-256 among them, and the file of the transcript."""
    script, transcript, counts = folder / "script", folder / "transcript", folder / "counts"
    script.write_text("".join(lines), encoding="ascii")
    command = ["valgrind", "--quiet", "--tool=callgrind", f"--callgrind-out-file={counts}", options.program, *options.words.split()]
    with tempfile.TemporaryDirectory(prefix="haystack-sums-", dir=options.folder) as store, open(script, "rb") as source, open(transcript, "wb") as sink:
        if options.folder is not None:
            command += ["--folder", store]
        subprocess.run(command, stdin=source, stdout=sink, check=True)
    listed = subprocess.run(["callgrind_annotate", "--threshold=100", counts], capture_output=True, text=True, check=True).stdout
    costs = [(int(found[1].replace(",", "")), found[2]) for found in map(LINE.match, listed.splitlines()) if found]
    whole = next(cost for cost, name in costs if name.startswith("PROGRAM TOTALS"))
    return whole, sum(cost for cost, name in costs if "sha2::" in name), transcript


def main():
    parser = argparse.ArgumentParser(description=__doc__, formatter_class=argparse.RawDescriptionHelpFormatter)
    parser.add_argument("--program", default=ROOT / "crates" / "haystack" / "out" / "haystack")
    parser.add_argument("--words", default=f"run --capacity {1024 * MIB}")
    parser.add_argument("--size", type=int, default=65_536)
    parser.add_argument("--photos", type=int, default=16)
    parser.add_argument("--folder")
    options = parser.parse_args()
    if not os.access(options.program, os.X_OK):
        sys.exit(f"{options.program} is not there: cd crates/haystack && rt run -- run < stdin")
    puts = put_lines(options.photos, options.size)
    with tempfile.TemporaryDirectory(prefix="haystack-sums-") as name:
        folder = Path(name)
        empty, no_sums, _ = counted(options, folder, [])
        stored, put_sums, transcript = counted(options, folder, puts)
        both, all_sums, transcript = counted(options, folder, puts + read_lines(cookies_of(transcript)))
        check_photos(transcript, options.photos, options.photos, options.size)
    each = options.photos * options.size
    print(f"| photos of {options.size:,} bytes | instructions a byte | of them SHA-256 | as a multiple of it |")
    print("|---|---:|---:|---:|")
    for what, whole, sums in (("a put", stored - empty, put_sums - no_sums), ("a read", both - stored, all_sums - put_sums)):
        print(f"| {what} | {whole / each:.1f} | {sums / each:.1f} | {whole / sums:.2f} |")


if __name__ == "__main__":
    main()
