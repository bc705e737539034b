#!/usr/bin/env python3
"""Checks the documents against the tree, and exits with 1 where one of them names what is not there.

    bench/check_docs.py

Looked at are README.md, CHANGELOG.md and all of docs/:

- links lead to a file, and to a heading of it;
- paths in code (`like/this`) are in the tree, those of a crate's folders in a crate of the same line where one is named;
- crates are in crates.txt, and the crate by crate table has each of them;
- modes, options, statuses with their messages, commands and replies are those of the program;
- names that a table gives of a crate or of a file are defined there;
- each limit that a page tells is the one of its definition, and the pages on the program have no other number of four digits or more;
- the magics, and how many tests and edits there are, are those of the tree, and each edit can be applied to its crate;
- the version stands in CHANGELOG.md, and the other pages name the same;
- README.md has at most 900 words;
- each figure is drawn from its numbers, which the tables of docs/benchmarks.md have too.

bench/walk.py runs what the documents show.
"""

import re
import sys
from pathlib import Path

import drill
import edits
import plot

ROOT = Path(__file__).resolve().parent.parent
CRATES = sorted(path.name for path in (ROOT / "crates").iterdir() if path.is_dir())
DOCUMENTS = [path for path in (ROOT / "README.md", ROOT / "CHANGELOG.md") if path.exists()] + sorted((ROOT / "docs").glob("*.*"))
# pages that tell what the program does, in which no measured figure stands
EXACT = ("README.md", "script.md", "check.md", "audit.md", "file-formats.md", "glossary.md", "rules.md", "architecture.md", "model.md", "haystack.1")
faults = []


def text_of(path):
    return (ROOT / path).read_text(encoding="utf-8")


def fault(path, what):
    faults.append(f"{path.relative_to(ROOT)}: {what}")


def number_in(path, pattern):
    """The number that a file of the tree has at the pattern's group."""
    found = re.search(pattern, text_of(path))
    if found is None:
        sys.exit(f"{path}: nothing fits {pattern!r}: this script looks at the wrong place")
    return int(found.group(1).replace("_", ""), 0)


# LINKS, PATHS AND CRATES


def anchors_of(path):
    headings = re.findall(r"^#+ (.*)$", path.read_text(encoding="utf-8"), re.MULTILINE)
    return {re.sub(r"[^\w -]", "", heading).strip().lower().replace(" ", "-") for heading in headings}


def check_links(path, text):
    for target in re.findall(r"\]\(([^)\s]+)\)", text):
        name, _, anchor = target.partition("#")
        if "://" in target:
            continue
        found = (path.parent / name).resolve() if name else path
        if not found.exists():
            fault(path, f"no file: {target}")
        elif anchor and anchor not in anchors_of(found):
            fault(path, f"no heading: {target}")


def is_in_tree(token, crates):
    """Whether a path is one of the tree, or of these crates' folders, with or without its ending."""
    places = [ROOT, ROOT / "docs", *(ROOT / "crates" / crate for crate in crates)]
    return any((place / token).exists() or (place / f"{token}.antt").exists() for place in places)


def check_paths(path, text):
    for line in text.splitlines():
        crates = [name for name in re.findall(r"`(hay\w+)`", line) if name in CRATES] or CRATES
        for token in re.findall(r"`([\w.-]+/[\w./-]*)`", line):
            if "out" not in token.split("/") and not is_in_tree(token, crates) and not is_in_tree(token, CRATES if "|" not in line else crates):
                fault(path, f"no path: {token}")


def check_crates(path, text):
    listed = set(re.findall(r"^(\w+):", text_of("crates.txt"), re.MULTILINE))
    for name in sorted(set(re.findall(r"\bhay_\w+\b", text)) - listed):
        fault(path, f"no crate: {name}")


def tables_of(path):
    """The rows of each table, the one of its heads first, and the cells of each row."""
    for table in re.findall(r"(?:^\|.*\n)+", path.read_text(encoding="utf-8"), re.MULTILINE):
        yield [[cell.strip() for cell in line.strip("|").split("|")] for line in table.splitlines() if not line.startswith("|--")]


def rows_of(path):
    """The cells of each row of each table."""
    for table in tables_of(path):
        yield from table


# NAMES


def is_defined(name, files):
    """Whether one of the files defines the name, as code, as a definition, or as the proof of a lemma."""
    word = re.escape(name.split("::")[-1])
    code = rf"\b(?:fn|struct|enum|trait|type|const|static)\s+{word}\b"
    clause = rf"^\s*(?:pub\s+|abbrev\s+|unfoldable\s+|record\s+|data\s+)*{word}\b.*?:"
    return any(re.search(f"{code}|{clause}", file.read_text(encoding="utf-8"), re.MULTILINE) for file in files)


def files_of(crates):
    return [file for crate in crates for kind in ("*.rt", "*.antt") for file in (ROOT / "crates" / crate).rglob(kind) if "out" not in file.parts]


def check_crate_table():
    path = ROOT / "docs/proved.md"
    seen = set()
    for cells in rows_of(path):
        crates = [name for name in re.findall(r"`(\w+)`", cells[0]) if name in CRATES]
        seen.update(crates)
        files = files_of(crates)
        for name in re.findall(r"`([A-Za-z_][\w:]*)`", cells[-1]) if crates else ():
            folder = any(file.stem == name and file.parent.name in ("specs", "proofs") for file in files)
            if name not in CRATES and not folder and not is_defined(name, files):
                fault(path, f"{'/'.join(crates)} has no {name}")
    # the program itself has no contract
    for name in sorted(set(CRATES) - seen - {"haystack"}):
        fault(path, f"no row for {name}")


def check_rules():
    path = ROOT / "docs/rules.md"
    for cells in rows_of(path):
        place = ROOT / cells[1].strip("`")
        if not cells[1].startswith("`"):
            continue
        if not place.is_file():
            fault(path, f"no file: {cells[1]}")
            continue
        # a call of a crate's root may stand in another file of src/
        files = [place, *place.parent.glob("*.rt")] if place.suffix == ".rt" else [place]
        for name in re.findall(r"`([\w:]+)`", cells[2]):
            if not is_defined(name, files):
                fault(path, f"{cells[1]} has no {name}")


# THE PROGRAM'S WORDS


def words_in(path, pattern):
    return set(re.findall(pattern, text_of(path)))


def check_words(path, text):
    names = words_in("crates/hay_cli/specs/Commands.antt", r'codes "(\w+)"') - {"run", "check", "drill"}
    tools = "".join(file.read_text(encoding="utf-8") for file in (ROOT / "bench").glob("*.py"))
    for option in set(re.findall(r"(?<![\w-])--([a-z][a-z-]*)", text.replace("\\-", "-"))):
        if option not in names and f'"--{option}"' not in tools and option not in ("tool", "name"):
            fault(path, f"no option: --{option}")
    modes = words_in("crates/hay_cli/src/lib.rt", r'"(\w+)" =>')
    for mode in set(re.findall(r"`haystack ([a-z]+)|^\.B haystack ([a-z]+)", text, re.MULTILINE)):
        if not set(mode) & modes:
            fault(path, f"no mode: {mode}")


def check_modes():
    """The man page has each mode; the words of a drill are read, and it is not built."""
    manual = ROOT / "docs/haystack.1"
    for mode in sorted(words_in("crates/hay_cli/src/lib.rt", r'"(\w+)" =>') - {"drill"}):
        if f".B haystack {mode}\n" not in manual.read_text(encoding="utf-8"):
            fault(manual, f"it does not name the mode {mode}")


def check_statuses():
    said = {int(status): message for status, message in re.findall(r'(\d+) => Some\("haystack: ([a-z ]+)"\)', text_of("crates/haystack/src/main.rt"))}
    manual = ROOT / "docs/haystack.1"
    told = {int(status): message for status, message in re.findall(r"^\.TP\n\.B (\d+)\n\.I ([a-z ]+)\n", manual.read_text(encoding="utf-8"), re.MULTILINE)}
    if told != said:
        fault(manual, f"statuses {told}, and the program has {said}")
    for name in ("script.md", "check.md", "audit.md"):
        path = ROOT / "docs" / name
        for message in set(re.findall(r"`haystack: ([a-z ]+)`", path.read_text(encoding="utf-8"))) - set(said.values()):
            fault(path, f"no message: {message}")
    for message, status in re.findall(r"`haystack: ([a-z ]+)`, status (\d)", text_of("docs/script.md")):
        if said.get(int(status)) != message:
            fault(ROOT / "docs/script.md", f"status {status} is not {message}")


def check_script_words():
    path = ROOT / "docs/script.md"
    commands = words_in("crates/hay_script/specs/Script.antt", r'codes "([a-z]+)"')
    replies = words_in("crates/hay_reply/specs/Replies.antt", r'codes "([a-z ]+?) ?"')
    replies = {word for reply in replies for word in reply.split()}
    section = ""
    for line in path.read_text(encoding="utf-8").splitlines():
        section = line[3:] if line.startswith("## ") else section
        known = {"Lines": commands, "Transcript": replies}.get(section)
        if known and line.startswith("| `"):
            for word in re.findall(r"`([a-z]+)", line.split("|")[1]):
                # the parts of a group that stand behind the first are no words of a reply
                if word not in known and word not in ("ro",):
                    fault(path, f"{section}: no such word: {word}")


# NUMBERS


def constant(file, name):
    return number_in(f"crates/{file}.rt", rf"const {name}: u(?:32|64|size) = ([\d_]+)")


def settings():
    """What is usual, the least and the most of each number of settings, from their limits by name."""

    def number(word):
        return int(word) if word.isdigit() else constant("hay_needle/src/settings", word)

    text = text_of("crates/hay_cli/specs/Commands.antt")
    found = re.findall(r'number_or (\w+) (\w+) (\w+) \(value \(codes "(\w+)"\)\) ≡', text)
    return {name: tuple(map(number, numbers)) for *numbers, name in found}


def limits():
    """Each limit by its name, from its definition."""
    ranges = settings()
    script = "crates/hay_script/specs/Script.antt"
    parts = (("superblock", "SUPER_LEN"), ("read", "HEAD_LEN"))
    superblock, head = (number_in(f"crates/hay_needle/src/{file}.rt", rf"{name}: usize = (\d+)") for file, name in parts)
    found = {
        "photo": number_in("crates/hay_needle/specs/Sizes.antt", r"max_photo Two = (\d+)"),
        "photo_one": number_in("crates/hay_needle/specs/Sizes.antt", r"max_photo One = (\d+)"),
        "line": constant("hay_script/src/words", "MAX_LINE"),
        "script": constant("hay_script/src/words", "MAX_SCRIPT"),
        "batch": constant("hay_batch/src/photo", "MAX_PHOTOS"),
        "batch_bytes": constant("hay_batch/src/photo", "MAX_TOTAL"),
        "transcript": constant("hay_frame/src/frame", "TRANSCRIPT"),
        "commands": constant("hay_script/src/words", "MAX_COMMANDS"),
        "generation": constant("hay_needle/src/settings", "LAST_GENERATION"),
        "lanes": constant("hay_script/src/words", "MAX_LANES"),
        "digits": number_in(script, r"nat_le \(length text\) (\d+) && list_all is_ascii_digit"),
        "cookie": number_in(script, r"nat_le \(length text\) (\d+) && list_all is_hex_digit"),
        "secret": number_in("crates/hay_cli/specs/Commands.antt", r"secret_in text = if length text == (\d+)"),
        "photos": number_in("crates/hay_cli/src/drill.rt", r"read_number\(count\?, 1, ([\d_]+)\)"),
        # a superblock, the head of a needle, and an end mark
        "opening": superblock + head + 8,
    }
    found |= {"least": ranges["capacity"][1], "usual": ranges["capacity"][0]}
    return found | {name: numbers[2] for name, numbers in ranges.items()} | {"hex_digits": 2 * found["photo"]}


# where each limit is told in words: by file the texts that have it, in which line ends count as spaces
LIMITS = {
    "README.md": ("up to {volumes} volumes, each of up to {replicas} replicas, on up to {machines} machines",),
    "CHANGELOG.md": (
        "photos of up to {photo:,} bytes",
        "Up to {volumes} volumes of up to {replicas} replicas on up to {machines} machines",
        "at most {opening} bytes more than its needles without a record",
    ),
    "docs/script.md": (
        "{least:,} to {capacity:,} bytes, for each volume file | {usual:,} |",
        "| {secret} hexadecimal digits of either case |",
        "is longer than {line:,} bytes",
        "A script has at most {script:,} bytes",
        "A decimal number is 1 to {digits} digits",
        "`COOKIE` is 1 to {cookie} hexadecimal digits",
        "hexadecimal digits from 2 to {hex_digits:,}, or `xLEN:BB` for `LEN` (1 to {photo:,}) bytes",
        "| open a block of N lanes, 1 to {lanes} |",
        "the command lines after the {commands:,}th",
        "the generation is the last one, {generation:,} |",
        "or has more than {photo:,} bytes",
        "a byte came after {script:,} bytes of script",
        "a byte came behind {script:,} bytes of script",
        "Photo 0 to {photo:,} bytes. Machines 1 to {machines}, volumes 1 to {volumes}, replicas 1 to {replicas}.",
        "Capacity of a volume file {least:,} to {capacity:,} bytes. Script line {line:,} bytes. Script {script:,} bytes.",
        "Lanes 1 to {lanes}. Command lines in a block {commands:,}.",
    ),
    "docs/haystack.1": (
        "{least:,} to {capacity:,} bytes for each volume file; {usual:,} where none is said",
        "{secret} hexadecimal digits, by which the cookies are made",
        "A photo has 0 to {photo:,} bytes, a line of the script at most {line:,}, and a script at most {script:,}.",
        "A block has 1 to {lanes} lanes, and at most {commands:,} commands.",
        "A replica is compacted at most {generation:,} times.",
        "COUNT photos (1 to {photos:,})",
        "a byte came behind {script:,} bytes of script, or, in an audit, of the transcript",
    ),
    "docs/drill.md": ("COUNT is 1 to {photos:,} photos",),
    "docs/audit.md": ("N is a decimal number of at most {script:,}, and the transcript has at most so many bytes",),
    "docs/rules.md": (
        "a photo has at most {photo:,} bytes, in version 1 at most {photo_one:,} |",
        "1 to {machines} machines, 1 to {volumes} volumes, 1 to {replicas} replicas and no more than the machines, "
        "capacity {least:,} to {capacity:,}, where none is said {usual:,} |",
        "a secret has {secret} hexadecimal digits",
        "a line has at most {line:,} bytes",
        "a script has at most {script:,} bytes",
        "a block has at most {commands:,} commands",
        "a block has 1 to {lanes} lanes",
        "a batch of a load has at most {batch} photos, and {batch_bytes:,} bytes of needles",
        "a transcript that is judged has at most {transcript:,} bytes",
        "a number has 1 to {digits} digits, a cookie 1 to {cookie} hexadecimal ones",
        "the last generation is {generation:,} |",
        "an opening reads at most {opening} bytes more",
    ),
    "docs/load.md": ("are no more than {batch}, and their needles have no more than {batch_bytes:,} bytes together",),
    "docs/glossary.md": ("any bytes, 0 to {photo:,} of them", "Each compaction makes the next one, up to {generation:,} |"),
    "docs/file-formats.md": (
        "0 to {photo_one:,} in version 1, 0 to {photo:,} in version 2",
        "a size above {photo:,}, or above {photo_one:,} where byte 29 is 0",
        "replica, capacity {usual:,}, zero secret",
        "each later one is one more, up to {generation:,};",
    ),
    "docs/model.md": (
        "at most {generation:,} ",
        "the generation is {generation:,} ",
        "With status 7 exactly {script:,} bytes were taken",
        "is at most {script:,}. An input is one frame at most",
        "{opening} bytes at most of a volume file",
    ),
    "docs/testing.md": ("a photo of {photo:,} bytes and a line of {line:,} go through the whole program",),
    "docs/benchmarks.md": ("A photo has up to {photo:,} bytes. What the largest costs against one of {photo_one:,}",),
    "docs/DECISIONS.md": ("and its size goes to {photo:,}.", "a compaction begins below generation {generation:,};"),
    "examples/photo/put-photo": ("largest={photo} ",),
    "examples/album/album": ("LARGEST = {photo:_} ",),
    "bench/check.py": ("or row > {generation}:",),
    "crates/hay_cli/src/lib.rt": (
        "| `machines` | 1 to {machines} |",
        "| `volumes` | 1 to {volumes} |",
        "| `replicas` | 1 to {replicas}",
        "| `capacity` | {least:,} to {capacity:,} bytes | {usual:,} |",
        "| `secret` | {secret} hexadecimal digits",
        "A number is 1 to {digits} decimal digits",
    ),
    "crates/hay_needle/src/lib.rt": ("In version 1 the size is at most {photo_one:,},", "In version 2 the size is at most {photo:,},"),
    "crates/hay_needle/src/read.rt": ("The size at 32 is above {photo:,}, or above {photo_one:,} where",),
    "crates/hay_needle/src/needle.rt": ("at most {photo_one:,} bytes, and the checksum", "at most {photo:,} bytes, and the checksum", "at most {photo:,} bytes, and the cookie"),
}


def check_limits():
    known = limits()
    for name, texts in LIMITS.items():
        path = ROOT / name
        text = " ".join(path.read_text(encoding="utf-8").split())
        for due in (told.format(**known) for told in texts):
            if due not in text:
                fault(path, f"it does not say: {due!r}")
            text = text.replace(due, "")
        if path.name in EXACT:
            for number in re.findall(r"(?<![\w,.])\d{1,3}(?:,\d{3})+(?![\w,])", text):
                fault(path, f"a number that is no limit told there: {number}")


def check_options():
    for name, (usual, low, high) in settings().items():
        script = rf"`--{name} N` \| {low:,} to {high:,}[^|]*\| {usual:,} \|"
        manual = rf'\\-\\-{name} " N"\n{low:,} to {high:,}(?:.|\n)*?[;,] (?:where none is said )?{usual:,}\b'
        for path, pattern in ((ROOT / "docs/script.md", script), (ROOT / "docs/haystack.1", manual)):
            if not re.search(pattern, path.read_text(encoding="utf-8")):
                fault(path, f"--{name} is {low:,} to {high:,}, and {usual:,} where none is said")


def check_counts():
    faults_rt = "crates/haystack/src/tests/faults.rt"
    picks = len(re.search(r"PICKS: \[u64; \d+\] = \[([^]]*)\]", text_of(faults_rt)).group(1).split(","))
    fuses = number_in("crates/haystack/src/tests/faults/script.rt", r"FUSES: u64 = (\d+)")
    machines = sum(int(count) for count in re.findall(r"run_scripts\(&rt, rt\.alloc\(\), (\d)\)", text_of(faults_rt)))
    lanes = re.search(r"\[\((\d)u32, ([\d_]+)u64\), \((\d), ([\d_]+)\)\]", text_of("crates/hay_thread_tests/src/tests.rt")).groups()
    words = {"2": "two", "8": "eight"}
    tried, kept = (len(list((ROOT / "crates").glob(f"*/{folder}/*.edit"))) for folder in edits.FOLDERS)
    page = ROOT / "docs/testing.md"
    text = page.read_text(encoding="utf-8")
    for due in (
        f"{machines * fuses * picks:,}\n  scripts",
        f"lets 0 to {fuses - 1} calls",
        f"{words[lanes[0]]} lanes of {int(lanes[1]):,} lines and {words[lanes[2]]} of {int(lanes[3]):,}",
        f"{tried + kept} edits",
        f"{tried} of them",
    ):
        if due not in text:
            fault(page, f"it does not say: {due!r}")


def check_edits():
    for edit in (edit for crate in CRATES for edit in edits.edits_of(crate)):
        why = edits.fault_of(edit)
        if why is not None:
            fault(edit, why)


def check_magics():
    path = ROOT / "docs/file-formats.md"
    for name, digits in re.findall(r"`([A-Z0-9]{4,8})`, `([0-9a-f]+)`", path.read_text(encoding="utf-8")):
        if name.encode().hex() != digits:
            fault(path, f"{name} is not {digits}")
        if not any(f"`{name}`" in file.read_text(encoding="utf-8") for file in files_of(CRATES)):
            fault(path, f"no magic: {name}")


def check_example():
    """The drill that is shown is what the rule says."""
    path = ROOT / "docs/drill.md"
    if drill.summary_text(200, 0) not in path.read_text(encoding="utf-8"):
        fault(path, "the summary is not that of 200 photos")


# VERSION AND FIGURES


def check_version():
    """No code prints the version: it stands in the list of changes, and the other pages repeat it."""
    found = re.search(r"^This is version (\d+\.\d+\.\d+)\.$", text_of("CHANGELOG.md"), re.MULTILINE)
    if found is None:
        return fault(ROOT / "CHANGELOG.md", "it names no version")
    for name, due in (("README.md", f"version {found[1]}:"), ("docs/haystack.1", f'"haystack {found[1]}"')):
        if due not in text_of(name):
            fault(ROOT / name, f"it does not say: {due!r}")
    for path in DOCUMENTS:
        for version in set(re.findall(r"(?:\b[Vv]ersion |haystack )(\d+\.\d+\.\d+)", path.read_text(encoding="utf-8"))) - {found[1]}:
            fault(path, f"version {version}, and the list of changes has {found[1]}")


def check_length():
    """The first page is short."""
    readme = ROOT / "README.md"
    words = len(readme.read_text(encoding="utf-8").split())
    if words > 900:
        fault(readme, f"{words} words, and 900 are the most")


def check_figures():
    """Each row of a figure's numbers stands in a table of the page, whose first row may name the size of the photos."""
    page = ROOT / "docs/benchmarks.md"
    for path in plot.stale():
        fault(path, "not the drawing of its numbers: run bench/plot.py")
    tables = [[set(cells) for cells in table] for table in tables_of(page)]
    for figure in plot.FIGURES:
        if f"](figures/{figure.name}.svg)" not in page.read_text(encoding="utf-8"):
            fault(page, f"it does not show {figure.name}.svg")
        for row in plot.numbers_of(figure):
            numbers = {shown(row[name]) for name in ("photos", "lanes", "volumes", *(panel.column for panel in figure.panels)) if name in row}
            size = shown(row["bytes_each"]) if "bytes_each" in row else None
            if not any(numbers <= cells and (size is None or size in cells or f"puts of {size} bytes" in " ".join(head)) for head, *rest in tables for cells in rest):
                fault(page, f"no row of a table has the numbers of {figure.name}.csv: {', '.join(row.values())}")


def shown(number):
    """A number as tables have it, with its digits behind the point."""
    whole, _, part = number.partition(".")
    return f"{int(whole):,}" + (f".{part}" if part else "")


def main():
    for path in DOCUMENTS:
        text = path.read_text(encoding="utf-8")
        for check in (check_links, check_paths, check_crates, check_words):
            check(path, text)
    for check in (check_crate_table, check_rules, check_modes, check_statuses, check_script_words, check_options, check_limits):
        check()
    for check in (check_counts, check_edits, check_magics, check_version, check_length, check_figures, check_example):
        check()
    for told in faults:
        print(told)
    print(f"{len(DOCUMENTS)} documents: {len(faults)} faults")
    sys.exit(1 if faults else 0)


if __name__ == "__main__":
    main()
