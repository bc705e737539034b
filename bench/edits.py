#!/usr/bin/env python3
"""Tries the edits of crates, those in must-fail/ that the gate tries and those in edits/ that it leaves out for their cost.

    bench/edits.py [CRATE ..]

Each edit turns one meaning of its crate, and the prover has to refuse the crate with it. `rt ci` tries those of must-fail/ whenever a crate
or one below it changes; those of edits/ are tried by this script, which is to be run of a crate whose code or contracts change. It copies
the tree, puts the edits of the named crates (of all, where none is named) into their must-fail/ and those of no other, and runs `rt ci` on
the crates: what that has proved on this machine before is not proved again. It prints what `rt ci` says of the edits, and ends with its
status.
"""

import re
import shutil
import subprocess
import sys
import tempfile
from pathlib import Path

ROOT = Path(__file__).resolve().parent.parent
FOLDERS = ("must-fail", "edits")


def edits_of(crate):
    """The edits of a crate, from both of its folders."""
    return sorted(edit for folder in FOLDERS for edit in (ROOT / "crates" / crate / folder).glob("*.edit"))


def fault_of(edit):
    """Why an edit cannot be applied to its crate, or nothing."""
    file, old, texts = "", "", {}
    for line in edit.read_text(encoding="utf-8").splitlines():
        word, _, rest = line.partition(": ")
        if word == "file":
            file = edit.parent.parent / rest.strip()
            texts.setdefault(file, file.read_text(encoding="utf-8") if file.is_file() else "")
        elif word == "old":
            old = rest
        elif line.startswith("new:"):
            if texts[file].count(old) != 1:
                return f"{old!r} does not stand once in {file.relative_to(ROOT)}"
            texts[file] = texts[file].replace(old, rest)
    return None


def copy_tree(to, crates):
    """Copies the tree, with the edits of these crates alone."""
    shutil.copytree(ROOT, to, ignore=shutil.ignore_patterns(".git", "out", *FOLDERS))
    for crate in crates:
        place = to / "crates" / crate / "must-fail"
        place.mkdir()
        for edit in edits_of(crate):
            shutil.copy(edit, place)


def main():
    known = sorted(path.name for path in (ROOT / "crates").iterdir() if path.is_dir())
    crates = [crate for crate in sys.argv[1:] or known if crate not in known or edits_of(crate)]
    unknown = [crate for crate in crates if crate not in known]
    if unknown:
        sys.exit(f"no crate: {' '.join(unknown)}")
    with tempfile.TemporaryDirectory(prefix="edits-") as room:
        tree = Path(room) / "tree"
        copy_tree(tree, crates)
        ran = subprocess.run(["rt", "ci", *crates], cwd=tree, stdout=subprocess.PIPE, stderr=subprocess.STDOUT, text=True, check=False)
    print("\n".join(line for line in ran.stdout.splitlines() if re.search(r"must-fail|NOT PROVED|passed, ", line)))
    sys.exit(ran.returncode)


if __name__ == "__main__":
    main()
