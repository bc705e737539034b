"""Scripts and transcripts as values, for bench/blocks.py: the grammar of docs/script.md, written from that page."""

import functools
import re
from dataclasses import dataclass

MAX_PHOTO = 16_777_216
MAX_LINE = 33_554_560
MAX_COMMANDS = 65_536
WORD, LONG = 2**32 - 1, 2**64 - 1
N = r"(0|[1-9][0-9]{0,19})"
ALONE = ("begin", "step", "finish", "drain", "undrain", "fuse", "restart")


class BadText(Exception):
    """A text that is none of the grammar."""


# SETTINGS AND COOKIES


@dataclass(frozen=True)
class Settings:
    machines: int = 1
    volumes: int = 1
    replicas: int = 1
    capacity: int = 67_108_864
    secret: bytes = bytes(32)

    def machine_of(self, volume, replica):
        return (volume + replica) % self.machines

    def replica_on(self, volume, machine):
        """The replica of a volume on a machine, or none."""
        if volume >= self.volumes or machine >= self.machines:
            return None
        replica = (machine - volume) % self.machines
        return replica if replica < self.replicas else None

    def tries_of(self, pair):
        return [(pair[0] + turn) % self.volumes for turn in range(self.volumes)]

    def order_from(self, start):
        return [(start + turn) % self.replicas for turn in range(self.replicas)]

    def header(self):
        return f"haystack {self.machines} {self.volumes} {self.replicas} {self.capacity}"

    def words(self):
        """The words of the command line."""
        named = ("machines", "volumes", "replicas", "capacity")
        return [word for name in named for word in (f"--{name}", str(getattr(self, name)))] + ["--secret", self.secret.hex()]


def settings_of(header, secret):
    found = re.fullmatch(rf"haystack {N} {N} {N} {N}", header)
    if found is None:
        raise BadText(f"no header: {header[:80]!r}")
    return Settings(*(int(word) for word in found.groups()), secret)


def total_of(size):
    """The bytes of a needle."""
    return (48 + size + 7) // 8 * 8


def quarter(state, a, b, c, d):
    for left, right, other, turn in ((a, b, d, 16), (c, d, b, 12), (a, b, d, 8), (c, d, b, 7)):
        state[left] = (state[left] + state[right]) & WORD
        mixed = state[other] ^ state[left]
        state[other] = (mixed << turn | mixed >> (32 - turn)) & WORD


@functools.lru_cache(maxsize=None)
def cookie_of(secret, key):
    """The first two words of ChaCha20 under the secret, on the stream whose number is the key."""
    words = [int.from_bytes(secret[4 * i : 4 * i + 4], "little") for i in range(8)]
    start = [0x61707865, 0x3320646E, 0x79622D32, 0x6B206574, *words, 0, 0, key & WORD, key >> 32]
    state = list(start)
    for turn in range(80):
        i, aside = turn % 4, turn // 4 % 2
        quarter(state, i, 4 + (i + aside) % 4, 8 + (i + 2 * aside) % 4, 12 + (i + 3 * aside) % 4)
    low, high = ((state[i] + start[i]) & WORD for i in range(2))
    return low + (high << 32)


# PHOTOS AND URLS


def photo_text(data):
    """The one text of a photo's bytes in a transcript."""
    if not data:
        return "-"
    if len(data) >= 16 and data == data[:1] * len(data):
        return f"x{len(data)}:{data[0]:02x}"
    return data.hex()


def number(text, most):
    if not re.fullmatch(r"[0-9]{1,20}", text) or int(text) > most:
        raise BadText(f"no number up to {most}: {text[:40]!r}")
    return int(text)


def photo_of(text):
    """The bytes that a word of a script stands for."""
    if text == "-":
        return b""
    if filled := re.fullmatch(r"x([0-9]+):([0-9a-fA-F]{2})", text):
        length = number(filled[1], MAX_PHOTO)
        if length == 0:
            raise BadText("a photo of no bytes is -")
        return bytes.fromhex(filled[2]) * length
    if not re.fullmatch(r"([0-9a-fA-F]{2})+", text) or len(text) > 2 * MAX_PHOTO:
        raise BadText("no photo")
    return bytes.fromhex(text)


@dataclass(frozen=True)
class Url:
    machine: int
    volume: int
    pair: tuple
    cookie: int

    def text(self):
        return f"http://store/{self.machine}/{self.volume},{self.pair[0]:016x}_{self.pair[1]:08x}_{self.cookie:016x}"


def url_of(text):
    found = re.fullmatch(r"http://store/(0|[1-9][0-9]*)/(0|[1-9][0-9]*),([0-9a-f]{16})_([0-9a-f]{8})_([0-9a-f]{16})", text)
    if found is None:
        raise BadText("no URL")
    machine, volume = number(found[1], WORD), number(found[2], WORD)
    return Url(machine, volume, (int(found[3], 16), int(found[4], 16)), int(found[5], 16))


# SCRIPTS


@dataclass(frozen=True)
class Command:
    word: str
    pair: tuple = None
    data: bytes = None
    cookie: int = None
    url: Url = None
    volume: int = None
    machine: int = None
    number: int = None


@dataclass(frozen=True)
class Asked:
    """A line that has a reply: a command, or none where the line is bad."""

    line: int
    command: Command
    lane: int = 0


@dataclass(frozen=True)
class Block:
    line: int
    asked: tuple


def read_command(words):
    """The command that the words of a line are."""
    word, rest = words[0], words[1:]
    shapes = {"put": 3, "read": 3, "get": 1, "del": 2, "url": 2, "flush": 2, "compact": 2, "begin": 2, "step": 3, "finish": 2}
    shapes |= {"drain": 1, "undrain": 1}
    if word == "restart" and len(rest) <= 1:
        return Command(word, number=number(rest[0], LONG) if rest else 0)
    if word == "fuse" and rest[:1] == ["dir"] and len(rest) == 2:
        return Command(word, number=number(rest[1], WORD))
    if word == "fuse" and len(rest) == 3:
        return Command(word, volume=number(rest[0], WORD), machine=number(rest[1], WORD), number=number(rest[2], WORD))
    if shapes.get(word) != len(rest):
        raise BadText("no command")
    if word in ("put", "read", "del", "url"):
        pair = (number(rest[0], LONG), number(rest[1], WORD))
        if word == "put":
            return Command(word, pair, data=photo_of(rest[2]))
        if word == "read":
            if not re.fullmatch(r"[0-9a-fA-F]{1,16}", rest[2]):
                raise BadText("no cookie")
            return Command(word, pair, cookie=int(rest[2], 16))
        return Command(word, pair)
    if word == "get":
        url = url_of(rest[0])
        return Command(word, url.pair, cookie=url.cookie, url=url)
    if word in ("drain", "undrain"):
        return Command(word, machine=number(rest[0], WORD))
    examined = number(rest[2], WORD) if word == "step" else None
    if examined == 0:
        raise BadText("no step of no cells")
    return Command(word, volume=number(rest[0], WORD), machine=number(rest[1], WORD), number=examined)


def words_of(line):
    """The words of a line's bytes; none where it is skipped."""
    if line.endswith(b"\r\n"):
        plain = line[:-2] + b" "
    else:
        plain = line.removesuffix(b"\n")
    bare = plain.strip(b" \t")
    if not bare or bare.startswith(b"#"):
        return []
    if len(line.removesuffix(b"\n")) > MAX_LINE or re.search(rb"[^\t -~]", plain):
        raise BadText("no line")
    return plain.decode("ascii").split()


def read_lane_line(line, words, lanes):
    if len(words) < 2 or words[1] in ALONE:
        raise BadText("no line of a lane")
    lane = number(words[0], WORD)
    if lane >= lanes:
        raise BadText("no such lane")
    return Asked(line, read_command(words[1:]), lane)


def lanes_of(words):
    lanes = number(words[1], 8) if len(words) == 2 else 0
    if lanes == 0:
        raise BadText("no number of lanes")
    return lanes


def items_of(script):
    """The plain lines and the blocks of a script."""
    items, lanes = [], None
    for line, text in enumerate(re.findall(rb"[^\n]*\n|[^\n]+", script), 1):
        try:
            words = words_of(text)
            if not words:
                continue
            if lanes is None and words[0] == "lanes":
                lanes = lanes_of(words)
                items.append(Block(line, ()))
                continue
            if lanes is not None and words == ["end"]:
                lanes = None
                continue
            asked = Asked(line, read_command(words)) if lanes is None else read_lane_line(line, words, lanes)
            if lanes is not None and sum(one.command is not None for one in items[-1].asked) == MAX_COMMANDS:
                raise BadText("a block is full")
        except BadText:
            asked = Asked(line, None)
        if lanes is None:
            items.append(asked)
        else:
            items[-1] = Block(items[-1].line, items[-1].asked + (asked,))
    return items


# REPLIES


@dataclass(frozen=True)
class Group:
    """A try of a refused put: closed by the machine, or, with an end, without room there."""

    volume: int
    machine: int
    end: int = None
    need: int = None


@dataclass(frozen=True)
class Cause:
    machine: int
    of: str
    number: int


@dataclass(frozen=True)
class Reply:
    """`front` is a volume's front or position, `rows` the Directory's, `count` any other number."""

    word: str
    volume: int = None
    machine: int = None
    front: int = None
    rows: int = None
    count: int = None
    cookie: int = None
    data: bytes = None
    url: Url = None
    groups: tuple = ()
    causes: tuple = ()

    def is_of(self, volume, machine):
        return (self.volume, self.machine) == (volume, machine)


SHAPES = (
    (rf"stored {N} {N} {N} ([0-9a-f]{{16}})", "stored", ("volume", "front", "rows", "cookie")),
    (rf"deleted {N} {N} {N}", "deleted", ("volume", "front", "rows")),
    (rf"photo {N} {N} {N} {N} (\S+)", "photo", ("volume", "machine", "front", "rows", "data")),
    (rf"gone {N} {N} {N} {N}", "gone", ("volume", "machine", "front", "rows")),
    (rf"gone {N} {N} {N}", "absent", ("volume", "front", "rows")),
    (rf"wrong cookie {N} {N} {N} {N}", "wrong cookie", ("volume", "machine", "front", "rows")),
    (rf"unknown {N}", "unknown", ("rows",)),
    (rf"moved {N} {N}", "moved", ("volume", "rows")),
    (rf"url {N} (\S+)", "url", ("rows", "url")),
    (r"full((?: \S+)*)", "full", ("groups",)),
    (r"readonly dir", "readonly dir", ()),
    (r"readonly((?: \S+)*)", "readonly", ("groups",)),
    (rf"failed dir {N}", "failed dir", ("count",)),
    (rf"(failed|flushed|begun|stepped|compacted|busy|fused|damaged) {N}:{N} {N}", None, ("volume", "machine", "count")),
    (rf"(idle|worn) {N}:{N}", None, ("volume", "machine")),
    (rf"(drained|undrained) {N}", None, ("machine",)),
    (rf"unreadable {N} {N} {N}((?: \S+)*)", "unreadable", ("volume", "front", "rows", "causes")),
    (rf"fused dir {N}", "fused dir", ("count",)),
    (rf"restarted {N}", "restarted", ("rows",)),
    (r"(nowhere|bad line|nomem)", None, ()),
)


def group_of(text):
    if found := re.fullmatch(rf"{N}:{N}:{N}:{N}", text):
        return Group(*(int(part) for part in found.groups()))
    if found := re.fullmatch(rf"{N}:{N}(?::ro)?", text):
        return Group(int(found[1]), int(found[2]))
    raise BadText(f"no group: {text!r}")


def cause_of(text):
    found = re.fullmatch(rf"{N}:(arm|disk|damage):{N}", text)
    if found is None:
        raise BadText(f"no cause: {text!r}")
    return Cause(int(found[1]), found[2], int(found[3]))


def shown_bytes(text):
    data = photo_of(text)
    if photo_text(data) != text:
        raise BadText("not the one text of a photo")
    return data


def field_of(name, text):
    if name == "cookie":
        return int(text, 16)
    if name == "data":
        return shown_bytes(text)
    if name == "url":
        return url_of(text)
    if name == "groups":
        return tuple(group_of(word) for word in text.split())
    if name == "causes":
        return tuple(cause_of(word) for word in text.split())
    return number(text, LONG)


def reply_of(text):
    for shape, word, names in SHAPES:
        found = re.fullmatch(shape, text)
        if found is None:
            continue
        parts = list(found.groups())
        word = word or parts.pop(0)
        reply = Reply(word, **{name: field_of(name, part) for name, part in zip(names, parts, strict=True)})
        if word in ("full", "readonly") and [text_of_group(word, group) for group in reply.groups] != text.split()[1:]:
            raise BadText(f"no reply: {text[:80]!r}")
        return reply
    raise BadText(f"no reply: {text[:80]!r}")


def text_of_group(word, group):
    if group.end is not None and word == "full":
        return f"{group.volume}:{group.machine}:{group.end}:{group.need}"
    return f"{group.volume}:{group.machine}" + (":ro" if word == "full" else "")


# TRANSCRIPTS


@dataclass(frozen=True)
class Line:
    """A line of a script with its reply."""

    line: int
    lane: int
    command: Command
    reply: Reply


@dataclass(frozen=True)
class LogNote:
    """The lines of a volume's new entries, behind those that it had."""

    volume: int
    start: int
    lines: tuple


@dataclass(frozen=True)
class RowNote:
    """The line and the volume of each new row, behind those that there were."""

    start: int
    rows: tuple


@dataclass(frozen=True)
class Kept:
    """A note behind a restart; the Directory's has no volume."""

    kept: bool
    volume: int
    machine: int
    line: int


@dataclass(frozen=True)
class Turn:
    """What stands behind one item: its lines, the notes of a block, or those of a restart."""

    lines: tuple
    block: Block = None
    logs: tuple = ()
    rows: tuple = None
    notes: tuple = ()


class Lines:
    """The lines of a transcript, taken one by one."""

    def __init__(self, text):
        self.lines = text.split("\n")
        self.at = 0
        self.open_end = self.lines.pop() != ""

    def next(self):
        return self.lines[self.at] if self.at < len(self.lines) else ""

    def take(self):
        line = self.next()
        self.at += 1
        return line

    def take_reply(self, asked):
        text = self.next()
        if not text.startswith(f"{asked.line} "):
            raise BadText(f"line {asked.line} has no reply where {text[:80]!r} stands")
        self.at += 1
        return Line(asked.line, asked.lane, asked.command, reply_of(text.partition(" ")[2]))

    def take_all(self, shape):
        while found := re.fullmatch(shape, self.next()):
            self.at += 1
            yield found


def notes_of_block(lines):
    logs = tuple(LogNote(int(found[1]), int(found[2]), numbers(found[3])) for found in lines.take_all(rf"log {N} {N}((?: {N})+)"))
    rows = list(lines.take_all(rf"rows {N}((?: {N}:{N})+)"))
    if len(rows) > 1:
        raise BadText("two notes of rows")
    return logs, row_note_of(rows[0]) if rows else None


def row_note_of(found):
    return RowNote(int(found[1]), tuple(numbers(word, ":") for word in found[2].split()))


def numbers(words, between=None):
    return tuple(int(word) for word in words.split(between))


def notes_of_restart(lines):
    notes = []
    for found in lines.take_all(rf"(kept|lost) (?:{N}:{N}|dir) {N}"):
        volume, machine = (int(part) if part is not None else None for part in found.group(2, 3))
        notes.append(Kept(found[1] == "kept", volume, machine, int(found[4])))
    return tuple(notes)


def take_turn(item, lines):
    if isinstance(item, Block):
        replies = tuple(lines.take_reply(asked) for asked in item.asked)
        logs, rows = notes_of_block(lines)
        return Turn(replies, item, logs, rows)
    reply = lines.take_reply(item)
    restarted = item.command is not None and item.command.word == "restart"
    return Turn((reply,), notes=notes_of_restart(lines) if restarted else ())
