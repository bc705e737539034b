#!/usr/bin/env python3
"""Holds lanes of the built program at chosen places by a debugger, and looks at what the others do meanwhile.

    bench/lane_points.py [--program PATH]

Two lanes stand in front of their first lines. Then lane 0 goes on until its thread comes to a place: in front of its second line, behind
the look of a read and in front of its fetch, or at the lock of a volume and in front of the first call of its disk. There it is held, and
lane 1 goes on. It must answer all its lines: its thread then waits for lane 0's. Last lane 0 goes on, and what is printed must be what is
listed here. It wants gdb, nm, and a program that has its symbols; the first thread of such a block is lane 1's.
"""

import argparse
import queue
import re
import subprocess
import sys
import tempfile
import threading
import time
from pathlib import Path
from typing import NamedTuple

ROOT = Path(__file__).resolve().parent.parent
C = "903df1a0ade0b876"
# where a program without a fixed place stands under a debugger
BASE = 0x555555554000
START = "hay_lane::lane::Shared::answer::"
SECONDS = 60


class Row(NamedTuple):
    name: str
    place: str
    words: tuple
    script: str
    printed: tuple


ACROSS = f"put 0 1 61; lanes 2; 0 read 0 1 {C}; 1 compact 0 0; 1 put 0 1 62; end"
SHOWN = (f"1 stored 0 1 1 {C}", "3 photo 0 0 1 1 61", "4 compacted 0:0 1", f"5 stored 0 2 1 {C}", "log 0 1 5")
ROWS = (
    Row(
        "one lane's put between another's put and read",
        START,
        (),
        f"lanes 2; 0 put 0 1 61; 0 read 0 1 {C}; 1 put 0 1 62; end",
        (f"2 stored 0 1 1 {C}", "3 photo 0 0 2 1 62", f"4 stored 0 2 1 {C}", "log 0 0 2 4", "rows 0 2:0"),
    ),
    Row(
        "a put to one volume while another's lock is held",
        "hay_logical::logical::Logical::write::",
        ("--machines", "2", "--volumes", "2"),
        "put 0 1 61; drain 0; put 0 2 62; undrain 0; lanes 2; 0 put 0 1 63; 1 put 0 2 64; end",
        (f"1 stored 0 1 1 {C}", "2 drained 0", f"3 stored 1 1 2 {C}", "4 undrained 0", f"6 stored 0 2 2 {C}", f"7 stored 1 2 2 {C}")
        + ("log 0 1 6", "log 1 1 7"),
    ),
    Row("a compaction and a put between a read's look and its fetch", "hay_reader::seat::LaneSeat::show_more::", (), ACROSS, SHOWN),
    Row("the same over files", "hay_reader::seat::LaneSeat::show_more::", ("--folder", "store"), ACROSS, SHOWN),
)


def addresses(program, name):
    """Where the functions of this name begin, one for each kind of disks."""
    symbols = subprocess.run(["nm", program], capture_output=True, text=True, check=True).stdout
    found = [int(line.split()[0], 16) for line in symbols.splitlines() if line.split(" ", 2)[2].startswith(name)]
    if not found:
        sys.exit(f"{program} has no symbol {name}")
    return found


class Debugger:
    """A debugger, which stops one thread and lets others run."""

    def __init__(self, program, folder):
        self.process = subprocess.Popen(
            ["gdb", "-q", "-nx", "--interpreter=mi3", program], cwd=folder, stdin=subprocess.PIPE, stdout=subprocess.PIPE, text=True
        )
        self.records, self.number = queue.Queue(), 0
        threading.Thread(target=lambda: [self.records.put(line.rstrip()) for line in self.process.stdout], daemon=True).start()

    def wait_for(self, shape):
        end = time.monotonic() + SECONDS
        while True:
            try:
                record = self.records.get(timeout=max(end - time.monotonic(), 0.01))
            except queue.Empty:
                sys.exit(f"the debugger did not tell {shape}")
            if found := re.match(shape, record):
                return found

    def tell(self, command):
        self.number += 1
        self.process.stdin.write(f"{self.number}{command}\n")
        self.process.stdin.flush()
        return self.wait_for(rf"{self.number}\^(?:done|running)(.*)")[1]

    def hold_at(self, places):
        for place in places:
            self.tell(f"-break-insert *{BASE + place:#x}")

    def start(self, words, script, transcript):
        for setting in ("non-stop on", "mi-async on", "startup-with-shell on"):
            self.tell(f"-gdb-set {setting}")
        self.tell(f'-interpreter-exec console "starti {" ".join(words)} < {script} > {transcript}"')
        self.wait_for(r"\*stopped")

    def threads(self):
        """The states of the threads, by their numbers, and the system's number of the first."""
        told = self.tell("-thread-info")
        states = dict(re.findall(r'\{id="(\d+)",.*?state="(\w+)"', told))
        return states, re.search(r'id="1",target-id="[^"]*?(?:LWP|process) (\d+)', told)[1]


def is_waiting(task):
    """Whether a thread comes to wait for another one."""
    for _ in range(10 * SECONDS):
        if Path(f"/proc/{task}/task/{task}/wchan").read_text(encoding="ascii").startswith("futex"):
            return True
        time.sleep(0.1)
    return False


def try_row(program, row, folder):
    script, transcript = folder / "script", folder / "transcript"
    script.write_text("".join(line.strip() + "\n" for line in row.script.split(";")), encoding="ascii")
    debugger = Debugger(program, folder)
    debugger.start(["run", *row.words], script, transcript)
    debugger.hold_at(addresses(program, START))
    debugger.tell("-exec-continue --all")
    for _ in range(2):
        debugger.wait_for(r'\*stopped,reason="breakpoint-hit"')
    if row.place != START:
        debugger.hold_at(addresses(program, row.place))
    debugger.tell("-exec-continue --thread 2")
    debugger.wait_for(r'\*stopped,reason="breakpoint-hit"')
    debugger.tell("-break-delete")
    debugger.tell("-exec-continue --thread 1")
    states, task = debugger.threads()
    if not is_waiting(task) or states["2"] != "stopped":
        sys.exit(f"{row.name}: lane 1 does not end while lane 0 is held: {states}")
    debugger.tell("-exec-continue --all")
    debugger.wait_for(r'\*stopped,reason="exited')
    debugger.process.kill()
    printed = tuple(transcript.read_text(encoding="ascii").splitlines()[1:])
    if printed != row.printed:
        sys.exit(f"{row.name}: {printed}")
    print(f"{row.name}: lane 1 answered all while lane 0 was held, and the transcript is as listed", flush=True)


def main():
    parser = argparse.ArgumentParser(description=__doc__.splitlines()[0])
    parser.add_argument("--program", default=str(ROOT / "crates/haystack/out/haystack"))
    options = parser.parse_args()
    program = str(Path(options.program).resolve())
    for row in ROWS:
        with tempfile.TemporaryDirectory(prefix="haystack-points-") as folder:
            try_row(program, row, Path(folder))


if __name__ == "__main__":
    main()
