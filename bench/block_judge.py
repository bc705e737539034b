"""The judge of bench/blocks.py: whether the turns of a transcript are lawful, and why one is not. The head of bench/blocks.py says which
rule each function holds."""

import graphlib
import itertools
from dataclasses import dataclass, field, replace
from typing import NamedTuple

import block_text as text
import block_volume as volumes
from block_text import LONG, total_of
from block_volume import Pending, Replica, Scene, Side, TooMany, Volume, flagged, last_of, orders, rises

KINDS = {
    "put": ("stored", "full", "readonly", "readonly dir", "failed", "failed dir"),
    "read": ("photo", "gone", "wrong cookie", "unknown", "unreadable"),
    "get": ("photo", "gone", "wrong cookie", "unknown", "unreadable", "moved", "nowhere"),
    "del": ("deleted", "absent", "unknown", "readonly", "failed"),
    "url": ("url", "unknown"),
    "flush": ("flushed", "readonly", "failed", "nowhere"),
    "compact": ("compacted", "busy", "worn", "readonly", "failed", "nowhere"),
    "begin": ("begun", "busy", "worn", "readonly", "failed", "nowhere"),
    "step": ("stepped", "idle", "readonly", "failed", "nowhere"),
    "finish": ("compacted", "idle", "readonly", "failed", "nowhere"),
    "drain": ("drained", "nowhere"),
    "undrain": ("undrained", "nowhere"),
    "fuse": ("fused", "fused dir", "nowhere"),
    "restart": ("restarted",),
}
REPLICA_WORK = ("flush", "compact", "begin", "step", "finish")
SHOWS = ("photo", "gone", "wrong cookie")
LANES = 8


class Unlawful(Exception):
    """Why a turn is not lawful: the reasons."""


class Undecided(Exception):
    """Why a turn is not judged."""


# WHAT IS KNOWN BETWEEN TURNS


class Entry(NamedTuple):
    line: int
    pair: tuple
    photo: tuple


class Row(NamedTuple):
    pair: tuple
    volume: int


class PendingRow(NamedTuple):
    line: int
    row: Row


@dataclass(frozen=True)
class Directory:
    rows: tuple = ()
    frozen: bool = False
    pending: PendingRow = None
    count: int = 0


@dataclass(frozen=True)
class World:
    """What the store may stand at. Of each volume the log and each replica's table at the session's beginning are known, and all else
    is one of a set."""

    stands: tuple
    logs: tuple
    bases: tuple
    directory: Directory = Directory()
    drained: frozenset = frozenset()
    arms: tuple = (0,) * LANES


def void_world(settings):
    each = range(settings.volumes)
    void = Volume(tuple(frozenset({Replica()}) for _ in range(settings.replicas)))
    tables = tuple({} for _ in range(settings.replicas))
    return World(tuple(frozenset({void}) for _ in each), tuple(() for _ in each), tuple(tables for _ in each))


def applied(table, entry):
    table = dict(table)
    if entry.photo is None:
        table.pop(entry.pair, None)
    else:
        table[entry.pair] = entry.photo
    return table


def home_in(rows, pair):
    return next((row.volume for row in rows if row.pair == pair), None)


# A TURN


@dataclass
class Case:
    """A turn of commands, from a world: its lines, the new entries of each volume, and the lines of the new rows."""

    settings: text.Settings
    world: World
    lines: tuple
    in_block: bool
    entries: list
    new_rows: list
    sure: bool = False
    rows: tuple = ()
    row_of: dict = field(default_factory=dict)
    tables: dict = field(default_factory=dict)

    def __post_init__(self):
        self.rows = self.world.directory.rows + tuple(row for _, row in self.new_rows)
        self.row_of = {line: number for number, (line, _) in enumerate(self.new_rows, len(self.world.directory.rows) + 1)}

    def lane_lines(self, lane):
        return [line for line in self.lines if line.lane == lane]

    def home(self, pair, rows=None):
        """The pair's home among the first so many rows, or none."""
        return home_in(self.rows[:rows], pair)

    def home_before(self, pair):
        return home_in(self.world.directory.rows, pair)

    def number_of_row(self, pair):
        return next((number for number, row in enumerate(self.rows, 1) if row.pair == pair), None)

    def before(self, volume):
        return len(self.world.logs[volume])

    def behind(self, volume):
        return self.before(volume) + len(self.entries[volume])

    def table(self, volume, replica, front):
        """What a replica has behind so many entries; the turn's fronts alone are asked for."""
        found = self.tables.get((volume, replica, front))
        if found is None:
            if front == self.before(volume):
                found = self.world.bases[volume][replica]
                for entry in self.world.logs[volume]:
                    found = applied(found, entry)
            else:
                found = applied(self.table(volume, replica, front - 1), self.entries[volume][front - 1 - self.before(volume)])
            self.tables[volume, replica, front] = found
        return found

    def photo_of(self, command):
        return (text.cookie_of(self.settings.secret, command.pair[0]), command.data)

    def sides(self, volume, replica):
        """What a replica may stand at before the turn."""
        return [side for stand in self.world.stands[volume] for side in stand.replicas[replica]]

    def start_of(self, line):
        """The replica that a read, a get or a url begins with."""
        if line.command.word == "get":
            return self.settings.replica_on(line.command.url.volume, line.command.url.machine)
        return line.line % self.settings.replicas

    def replica_of(self, line):
        """The replica that a line's work or its `failed` names, or none."""
        return self.settings.replica_on(line.reply.volume, line.reply.machine)

    def is_nowhere(self, command):
        if command.word == "get":
            return self.settings.replica_on(command.url.volume, command.url.machine) is None
        if command.word in REPLICA_WORK or (command.word == "fuse" and command.volume is not None):
            return self.settings.replica_on(command.volume, command.machine) is None
        return command.word in ("drain", "undrain") and command.machine >= self.settings.machines


def told(line, reason):
    return f"line {line.line} ({line.reply.word}): {reason}"


# KINDS OF REPLIES, PLACES, AND GROUPS


def kinds(case):
    """Each reply is one that its command may have, and names a place that there is."""
    for line in case.lines:
        command, reply = line.command, line.reply
        if reply.word == "nomem" and command is not None:
            continue
        if command is None or reply.word not in KINDS[command.word]:
            if command is not None or reply.word != "bad line":
                yield told(line, "no reply of this line")
        elif (reply.word == "nowhere") != case.is_nowhere(command):
            yield told(line, "nowhere comes exactly where there is no such replica or machine")
        elif command.word in REPLICA_WORK and reply.word != "nowhere":
            yield from own_place(case, line)
        elif reply.word == "failed" and case.replica_of(line) is None:
            yield told(line, "the volume has no replica on this machine")
        elif command.word in ("drain", "undrain") and reply.word != "nowhere" and reply.machine != command.machine:
            yield told(line, "another machine")
        elif command.word == "fuse" and reply.word != "nowhere" and not is_fuse(command, reply):
            yield told(line, "another fuse")


def is_fuse(command, reply):
    return reply.is_of(command.volume, command.machine) and reply.count == command.number


def own_place(case, line):
    command, reply = line.command, line.reply
    if reply.word == "readonly":
        machines = [case.settings.machine_of(command.volume, j) for j in range(case.settings.replicas)]
        if [group.volume for group in reply.groups] != [command.volume] or reply.groups[0].machine not in machines:
            yield told(line, "not the line's volume, or no machine of it")
    elif not reply.is_of(command.volume, command.machine):
        yield told(line, "not the line's replica")


def groups(case):
    """A refused put or delete has the tries of its pair in order, or its home alone, each with a machine of that volume."""
    for line in case.lines:
        command, reply = line.command, line.reply
        if command is None or command.word not in ("put", "del") or reply.word not in ("full", "readonly"):
            continue
        named = [group.volume for group in reply.groups]
        alone = len(named) == 1 and case.settings.volumes > 1
        if alone or command.word == "del":
            if named != [case.home(command.pair)]:
                yield told(line, "a lone volume is the pair's home")
                continue
        elif named != case.settings.tries_of(command.pair):
            yield told(line, "not the tries of the pair in order")
            continue
        elif len(named) > 1 and (case.home_before(command.pair) is not None or line.line in case.row_of):
            yield told(line, "the pair has a home before the block, or a row of this line")
        if any(case.settings.replica_on(group.volume, group.machine) is None for group in reply.groups):
            yield told(line, "a volume has no replica on the machine")
        if reply.word == "full":
            yield from needs(case, line)


def needs(case, line):
    """NEED is the photo's total, and END, NEED and 8 are above the capacity."""
    lacking = [group for group in line.reply.groups if group.end is not None]
    if not lacking:
        yield told(line, "no try lacks room")
    for group in lacking:
        if group.need != total_of(len(line.command.data)):
            yield told(line, f"the needle takes {total_of(len(line.command.data))} bytes")
        if group.end + group.need + 8 <= case.settings.capacity:
            yield told(line, f"{group.end}, {group.need} and 8 are not above the capacity")


# THE LOG AND THE ROWS


def new_entries(settings, world, turn):
    """The log notes have each acknowledged line once, at its printed position. Answers the new entries of each volume."""
    named = [note.volume for note in turn.logs]
    if named != sorted(set(named)) or any(volume >= settings.volumes for volume in named):
        raise Unlawful("log: the notes of logs are not one for each volume upwards")
    said = {(line.line, line.reply.volume, line.reply.front) for line in turn.lines if line.reply.word in ("stored", "deleted")}
    noted = {(line, note.volume, position) for note in turn.logs for position, line in enumerate(note.lines, note.start + 1)}
    for line, volume, position in sorted(said ^ noted):
        which = "is answered so, but not noted" if (line, volume, position) in said else "is noted so, but not answered"
        raise Unlawful(f"log: line {line}: entry {position} of volume {volume} {which}")
    entries, by_line = [[] for _ in range(settings.volumes)], {line.line: line for line in turn.lines}
    for note in turn.logs:
        if note.start != len(world.logs[note.volume]) or len(set(note.lines)) != len(note.lines):
            raise Unlawful(f"log: log {note.volume} {note.start}: its log had another length, or a line is noted twice")
        entries[note.volume] = [entry_of(settings, by_line[line]) for line in note.lines]
    return entries


def entry_of(settings, line):
    command = line.command
    if command is None or command.word not in ("put", "del"):
        raise Unlawful(f"log: line {line.line} is no put or delete")
    photo = (text.cookie_of(settings.secret, command.pair[0]), command.data) if command.word == "put" else None
    return Entry(line.line, command.pair, photo)


def new_rows(settings, world, turn):
    """Each new row is that of one put line, for a pair that had none, at one of its tries. Answers the lines and rows."""
    if turn.rows is None:
        return []
    if turn.rows.start != len(world.directory.rows):
        raise Unlawful(f"rows: rows {turn.rows.start}: the Directory had {len(world.directory.rows)}")
    if world.directory.frozen:
        raise Unlawful("rows: the Directory was frozen before")
    by_line, rows = {line.line: line for line in turn.lines}, []
    for number, volume in turn.rows.rows:
        line = by_line.get(number)
        if line is None or line.command is None or line.command.word != "put":
            raise Unlawful(f"rows: line {number} has a row, and is no put of the block")
        pair = line.command.pair
        if home_in(world.directory.rows, pair) is not None or any(row.pair == pair for _, row in rows):
            raise Unlawful(f"rows: line {number}: its pair has a row already")
        if volume >= settings.volumes:
            raise Unlawful(f"rows: line {number}: there is no volume {volume}")
        lone = [group.volume for group in line.reply.groups] == [volume]
        if line.reply.volume != volume and not lone and line.reply.word != "nomem":
            raise Unlawful(f"rows: line {number} has a row for volume {volume}, of which its reply does not tell")
        rows.append((number, Row(pair, volume)))
    return rows


def notes_of_plain(settings, world, line):
    """The notes that a plain line can have as a block of one lane."""
    reply, command = line.reply, line.command
    logs, tries = (), [None]
    if reply.word in ("stored", "deleted") and reply.volume < settings.volumes:
        logs = (text.LogNote(reply.volume, len(world.logs[reply.volume]), (line.line,)),)
    if command is not None and command.word == "put" and home_in(world.directory.rows, command.pair) is None:
        if reply.word in ("stored", "failed"):
            tries = [reply.volume]
        elif reply.word == "nomem" and not world.directory.frozen:
            tries += settings.tries_of(command.pair)
    rows = len(world.directory.rows)
    return [(logs, None if volume is None else text.RowNote(rows, ((line.line, volume),))) for volume in tries]


# THE FRONTS OF EACH LANE


def fronts(case):
    """In each lane printed fronts do not fall, and a position, and the number of an own row, is above all that was printed before."""
    for lane in range(LANES):
        seen, rows = [case.before(volume) for volume in range(case.settings.volumes)], len(case.world.directory.rows)
        for line in case.lane_lines(lane):
            reply, own = line.reply, case.row_of.get(line.line)
            if own is not None:
                if own <= rows:
                    yield told(line, f"fronts: its row is number {own}, and the lane had been told of {rows}")
                rows = max(rows, own)
            if reply.rows is not None:
                if not rows <= reply.rows <= len(case.rows):
                    yield told(line, f"fronts: {reply.rows} rows, where the lane had been told of {rows}, and there are {len(case.rows)}")
                rows = max(rows, reply.rows)
            if reply.front is None or reply.volume >= case.settings.volumes:
                continue
            least = seen[reply.volume] + (reply.word in ("stored", "deleted"))
            if not least <= reply.front <= case.behind(reply.volume):
                most = case.behind(reply.volume)
                yield told(line, f"fronts: front {reply.front} of volume {reply.volume}, where {least} to {most} may be told")
            seen[reply.volume] = max(seen[reply.volume], reply.front)


# ANSWERS AT THEIR FRONTS


def answers(case):
    """Each read, get, delete and url answers by the log and the rows at its printed fronts; a put by its cookie and its home."""
    for line in case.lines:
        command, reply = line.command, line.reply
        if command is None or command.pair is None:
            continue
        if reply.word == "unknown" and case.home(command.pair, reply.rows) is not None:
            yield told(line, f"answers: the pair has a home among the first {reply.rows} rows")
        elif reply.word == "moved" and (case.home(command.pair, reply.rows) != reply.volume or reply.volume == command.url.volume):
            yield told(line, "answers: not the pair's home, or the URL's volume")
        elif reply.word == "url":
            yield from right_url(case, line)
        elif reply.front is not None:
            yield from at_home(case, line)
        if reply.word == "failed" and command.word in ("put", "del") and reply.volume != case.home(command.pair):
            yield told(line, "answers: not the pair's home")


def at_home(case, line):
    command, reply = line.command, line.reply
    if case.home(command.pair, reply.rows) != reply.volume:
        yield told(line, f"answers: the pair's home among the first {reply.rows} rows is {case.home(command.pair, reply.rows)}")
    elif command.word == "get" and reply.volume != command.url.volume:
        yield told(line, "answers: not the URL's volume")
    elif reply.word == "stored" and reply.cookie != text.cookie_of(case.settings.secret, command.pair[0]):
        yield told(line, "answers: not the cookie of the key")
    elif not case.before(reply.volume) <= reply.front <= case.behind(reply.volume):
        yield told(line, "fronts: no front of the block")
    elif reply.word == "unreadable":
        yield from right_causes(case, line)
    elif reply.word in SHOWS:
        yield from right_photo(case, line)
    elif reply.word in ("deleted", "absent"):
        front = reply.front - (reply.word == "deleted")
        has = any(command.pair in case.table(reply.volume, j, front) for j in range(case.settings.replicas))
        if has != (reply.word == "deleted"):
            yield told(line, f"answers: {'a' if has else 'no'} replica has a photo behind {front} entries")


def right_photo(case, line):
    command, reply = line.command, line.reply
    replica = case.settings.replica_on(reply.volume, reply.machine)
    if replica is None:
        yield told(line, "answers: the volume has no replica on this machine")
        return
    photo = case.table(reply.volume, replica, reply.front).get(command.pair)
    if photo is None:
        due = ("gone", None)
    else:
        due = ("photo", photo[1]) if photo[0] == command.cookie else ("wrong cookie", None)
    if due != (reply.word, reply.data):
        shown = "" if due[1] is None else " " + text.photo_text(due[1])[:40]
        yield told(line, f"answers: behind {reply.front} entries the replica on {reply.machine} shows: {due[0]}{shown}")


def right_url(case, line):
    home = case.home(line.command.pair, line.reply.rows)
    if home is None:
        yield told(line, f"answers: the pair has no home among the first {line.reply.rows} rows")
        return
    machine = case.settings.machine_of(home, case.start_of(line))
    due = text.Url(machine, home, line.command.pair, text.cookie_of(case.settings.secret, line.command.pair[0]))
    if line.reply.url != due:
        yield told(line, f"answers: the URL is {due.text()}")


def right_causes(case, line):
    order = [case.settings.machine_of(line.reply.volume, j) for j in case.settings.order_from(case.start_of(line))]
    if [cause.machine for cause in line.reply.causes] != order:
        yield told(line, "answers: not one group for each replica, in the order of tries")
    if any(cause.of == "damage" for cause in line.reply.causes):
        yield told(line, "answers: no replica is damaged")


# COUNTS


def counts(case):
    """Printed counts of failures are above those before, and those of one disk differ."""
    found = set()
    for line, disk, count in [(line, *one) for line in case.lines for one in disk_counts(case, line)]:
        if (disk, count) in found and count != LONG:
            yield told(line, f"counts: the count {count} of one disk is told twice")
        found.add((disk, count))
        if not rises(count, least_count(case, disk)):
            yield told(line, f"counts: the disk's count stood at {least_count(case, disk)} before the block")


def arm_counts(case):
    """Printed counts of an arm rise in line order."""
    arms = list(case.world.arms)
    for line, count in [(line, cause.number) for line in case.lines for cause in line.reply.causes if cause.of == "arm"]:
        if not rises(count, arms[line.lane]):
            yield told(line, f"counts: the arm's count stood at {arms[line.lane]}, so it did not rise to {count}")
        arms[line.lane] = max(arms[line.lane], count)


def disk_counts(case, line):
    """The disks and counts that a reply tells: of a disk (volume, replica), or none for the Directory's."""
    if line.reply.word == "failed dir":
        yield None, line.reply.count
    if line.reply.word == "failed":
        yield (line.reply.volume, case.replica_of(line)), line.reply.count
    for cause in line.reply.causes:
        if cause.of == "disk":
            yield (line.reply.volume, case.settings.replica_on(line.reply.volume, cause.machine)), cause.number


def least_count(case, disk):
    if disk is None:
        return case.world.directory.count
    return min(side.count for side in case.sides(*disk))


def arms_behind(case):
    arms = list(case.world.arms)
    for line in case.lines:
        for cause in line.reply.causes:
            if cause.of == "arm":
                arms[line.lane] = max(arms[line.lane], cause.number)
    return tuple(arms)


# REFUSALS FOR ROOM, FREEZES AND COMPACTIONS, BY WHAT THE BLOCK HAS


def ends_in_range(case):
    """A printed END is between the end before the block, or 64 where the block has a compact there, and that end with all puts."""
    for line in case.lines:
        for group in line.reply.groups:
            if line.reply.word != "full" or group.end is None:
                continue
            replica = case.settings.replica_on(group.volume, group.machine)
            least = least_end(case, group.volume, replica)
            most = most_end(case, group.volume, replica)
            if not least <= group.end <= most:
                yield told(line, f"room: the end is from {least} to {most}")


def put_totals(case, volume):
    return [total_of(len(entry.photo[1])) for entry in case.entries[volume] if entry.photo]


def most_end(case, volume, replica):
    return max(side.end() for side in case.sides(volume, replica)) + sum(put_totals(case, volume))


def least_end(case, volume, replica):
    return 64 if has_compact(case, volume, replica) else min(side.end() for side in case.sides(volume, replica))


def has_compact(case, volume, replica):
    machine = case.settings.machine_of(volume, replica)
    compacts = [line.command for line in case.lines if line.command and line.command.word == "compact"]
    return any((command.volume, command.machine) == (volume, machine) for command in compacts)


def closings(case):
    """A volume is closed by a machine only by a freeze or drain of before, or by a `failed` of the block."""
    for line in case.lines:
        if line.reply.word not in ("full", "readonly"):
            continue
        for group in line.reply.groups:
            if group.end is None and not may_close(case, line, group):
                yield told(line, f"refusals: nothing closed volume {group.volume} by machine {group.machine}")


def may_close(case, line, group):
    replica = case.settings.replica_on(group.volume, group.machine)
    freezing = ("put", "del", "compact", "finish")
    if line.command.word == "flush":
        freezing += ("flush",)
        if any(side.stuck is not None for side in case.sides(group.volume, replica)):
            return True
    changes = line.command.word in ("put", "del")
    drained = scene_of(case, group.volume, replica).drained_by() if changes else None
    if any(group.machine == (drained if stand.frozen is None else stand.frozen) for stand in case.world.stands[group.volume]):
        return True
    if replica == 0 and any(other.reply.word == "nomem" for other in case.lines):
        return True
    failed = [other for other in case.lines if other.reply.word == "failed" and other.command.word in freezing]
    return any(other.reply.is_of(group.volume, group.machine) for other in failed)


def generations(case):
    """The generations that `compacted` tells of a replica are those behind the one before the block, each once."""
    for volume, replica in itertools.product(range(case.settings.volumes), range(case.settings.replicas)):
        machine = case.settings.machine_of(volume, replica)
        made = sorted(replica_counts(case, "compacted", volume, machine))
        before = {side.generation for side in case.sides(volume, replica)}
        if made and not any(made == list(range(start + 1, start + 1 + len(made))) for start in before):
            yield f"refusals: compacted {volume}:{machine} tells {made}, where the generation was {sorted(before)}"


def replica_counts(case, word, volume, machine):
    """The numbers that replies of a kind tell of a replica."""
    return [line.reply.count for line in case.lines if line.reply.word == word and line.reply.is_of(volume, machine)]


def directory_in_order(case):
    """`readonly dir` comes where the Directory is frozen, to a pair without a home; what a lane was told of a home it keeps."""
    failed = [line for line in case.lines if line.reply.word == "failed dir"]
    if len(failed) > 1 or (failed and case.world.directory.frozen):
        yield told(failed[-1], "refusals: the Directory was frozen already")
    may_freeze = case.world.directory.frozen or any(may_freeze_directory(case, line) for line in case.lines)
    for line in case.lines:
        if line.reply.word == "readonly dir" and not may_freeze:
            yield told(line, "refusals: nothing froze the Directory")
        if line.reply.word in ("readonly dir", "failed dir"):
            yield from met_frozen(case, line)
    for lane in range(LANES):
        yield from homes_in_order(case, case.lane_lines(lane))


def may_freeze_directory(case, line):
    """Whether a line may have left the Directory frozen, with its row pending."""
    if line.reply.word != "nomem":
        return line.reply.word == "failed dir"
    return line.command.word == "put" and line.line not in case.row_of and case.home(line.command.pair) is None


def met_frozen(case, line):
    """A line that froze the Directory or met it so: the rows are all that there are, and none is its pair's."""
    if case.home(line.command.pair) is not None:
        yield told(line, "refusals: the pair has a home")
    if not any(may_take(case, volume, len(line.command.data)) for volume in range(case.settings.volumes)):
        yield told(line, "refusals: no try can have taken the photo")
    for later in case.lane_lines(line.lane):
        if later.line > line.line and (later.line in case.row_of or later.reply.rows not in (None, len(case.rows))):
            yield told(later, "refusals: the lane had met the Directory frozen, so its rows are all that there are")


def may_take(case, volume, size):
    """Whether a volume that was open before the turn can have had room in it."""
    room = case.settings.capacity - total_of(size) - 8
    is_open = any(scene_of(case, volume, 0).closed(stand) is None for stand in case.world.stands[volume])
    return is_open and all(least_end(case, volume, j) <= room for j in range(case.settings.replicas))


def homes_in_order(case, lines):
    rows = len(case.world.directory.rows)
    for line in lines:
        rows = max(rows, line.reply.rows or 0, case.row_of.get(line.line, 0))
        if line.reply.word in ("full", "readonly") and len(line.reply.groups) > 1 and case.home(line.command.pair, rows) is not None:
            yield told(line, "refusals: the lane had been told of the pair's home")
        if told_of_home(case, line):
            rows = max(rows, case.number_of_row(line.command.pair))


def told_of_home(case, line):
    """Whether a refusal tells the lane the home of its pair."""
    command, reply = line.command, line.reply
    if command is None or command.word not in ("put", "del") or case.home(command.pair) is None:
        return False
    lone = reply.word in ("full", "readonly") and len(reply.groups) == 1
    return reply.word == "failed" or lone and (case.settings.volumes > 1 or command.word == "del")


# ONE ORDER OVER ALL VOLUMES AND THE DIRECTORY


def one_order(case):
    """There is an order of all lines that fits the order in each lane, the positions, the numbers of rows, and what was shown."""
    sorter = graphlib.TopologicalSorter()
    for first, second in itertools.chain(lane_steps(case), log_steps(case), *(line_steps(case, line) for line in case.lines)):
        sorter.add(second, first)
    try:
        sorter.prepare()
    except graphlib.CycleError:
        yield "order: the lines' positions, rows and fronts stand in no one order"


def lane_steps(case):
    for lane in range(LANES):
        for one, other in itertools.pairwise(case.lane_lines(lane)):
            yield ("end", one.line), ("begin", other.line)


def log_steps(case):
    """What comes behind what in each log, and among the rows."""
    for volume in range(case.settings.volumes):
        positions = range(case.before(volume) + 1, case.behind(volume) + 1)
        yield from itertools.pairwise(("entry", volume, position) for position in positions)
    yield from itertools.pairwise(("row", number) for number in range(len(case.world.directory.rows) + 1, len(case.rows) + 1))


def line_steps(case, line):
    """A line's own row and entry come within it, and what it was shown comes before its end."""
    begin, end, reply, own = ("begin", line.line), ("end", line.line), line.reply, case.row_of.get(line.line)
    yield begin, end
    if own is not None:
        yield begin, ("row", own)
        yield ("row", own), end
    if reply.rows is not None:
        yield ("row", reply.rows), end
    if reply.front is not None:
        yield ("entry", reply.volume, reply.front), end
    if reply.word in ("stored", "deleted"):
        yield begin if own is None else ("row", own), ("entry", reply.volume, reply.front)
        yield begin, ("entry", reply.volume, reply.front)


# THE PARTS OF A LINE AT EACH VOLUME


def choices_of(case, line):
    """The parts of a line: for each way in which it may have gone, a list of (volume, part), and the try of a row that failed."""
    command, reply = line.command, line.reply
    if command is None or reply.word == "nowhere":
        return [([], None)]
    if reply.word == "nomem":
        return wanted_choices(case, line)
    if command.word == "put":
        return put_choices(case, line)
    if command.word == "del":
        return [(delete_parts(case, line), None)]
    if reply.front is not None:
        looks = tuple((case.settings.replica_on(reply.volume, cause.machine), cause.number) for cause in reply.causes if cause.of == "disk")
        return [([(reply.volume, volumes.Shown(reply.front, looks))], None)]
    if command.word in REPLICA_WORK:
        return [([(command.volume, work_part(case, line))], None)]
    return [([], None)]


def wanted_choices(case, line):
    """The parts of a line that wanted memory: the first choice leaves the Directory as it is."""
    command = line.command
    if command.word in ("compact", "step", "finish") and not case.is_nowhere(command):
        return [([(command.volume, work_part(case, line))], None)]
    if command.word not in ("put", "del", "read", "get") or case.is_nowhere(command):
        return [([], None)]
    home, change = case.home(command.pair), Pending(line.line, command.pair, None, None)
    if home is None:
        tries = case.settings.tries_of(command.pair) if may_freeze_directory(case, line) and not case.world.directory.frozen else []
        return [([], None)] + [(decision(tries, volume, len(command.data)), volume) for volume in tries]
    if command.word == "put":
        size = len(command.data)
        own = decision(case.settings.tries_of(command.pair), home, size) if line.line in case.row_of else []
        return [(own + [(home, volumes.Wanted((change._replace(photo=case.photo_of(command)),), size))], None)]
    return [([(home, volumes.Wanted((None, change) if command.word == "del" else (None,)))], None)]


def work_part(case, line):
    command, reply = line.command, line.reply
    replica = case.settings.replica_on(command.volume, command.machine)
    if command.word == "flush":
        return volumes.Flush(replica, reply)
    kind = {"compact": volumes.Compact, "begin": volumes.Begin, "step": volumes.Step, "finish": volumes.Finish}[command.word]
    return kind(line.line, replica, reply, command.number or 0)


def put_choices(case, line):
    command, reply = line.command, line.reply
    size, tries = len(command.data), case.settings.tries_of(command.pair)
    if reply.word == "failed dir" or (reply.word == "readonly dir" and not case.in_block):
        pending = reply.word == "failed dir"
        return [(decision(tries, volume, size), volume if pending else None) for volume in tries]
    if reply.word == "readonly dir":
        return [([], None)]
    if reply.word in ("full", "readonly"):
        parts = [(group.volume, refusal(group, size)) for group in reply.groups]
    elif reply.word == "stored":
        parts = [(reply.volume, volumes.Stored(reply.front, command.pair, size))]
    else:
        pending = Pending(line.line, command.pair, case.photo_of(command), reply.machine)
        parts = [(reply.volume, volumes.PutFailed(pending, size, reply.count))]
    if line.line in case.row_of:
        parts = decision(tries, case.home(command.pair), size) + parts
    return [(parts, None)]


def decision(tries, volume, size):
    """The parts of a put that chose a try."""
    if volume not in tries:
        return []
    return [(other, volumes.Passed(size)) for other in tries[: tries.index(volume)]] + [(volume, volumes.Takes(size))]


def refusal(group, size):
    return volumes.ClosedBy(group.machine) if group.end is None else volumes.NoRoom(group.machine, group.end, size)


def delete_parts(case, line):
    command, reply = line.command, line.reply
    if reply.word == "deleted":
        return [(reply.volume, volumes.Deleted(reply.front, command.pair))]
    if reply.word == "absent":
        return [(reply.volume, volumes.Absent(reply.front, command.pair))]
    if reply.word == "readonly":
        return [(reply.groups[0].volume, volumes.ClosedBy(reply.groups[0].machine))]
    if reply.word == "failed":
        pending = Pending(line.line, command.pair, None, reply.machine)
        return [(reply.volume, volumes.DeleteFailed(pending, reply.count, not case.sure))]
    return []


# WHAT STANDS BEHIND A TURN


def scene_of(case, volume, replica):
    ended = {
        line.line: line.reply.count
        for line in case.lines
        if line.command and line.command.word == "compact" and line.reply.word == "failed" and line.reply.volume == volume
    }
    ends = tuple(most_end(case, volume, j) for j in range(case.settings.replicas))
    return Scene(case.settings, volume, replica, case.world.drained, lambda j, front: case.table(volume, j, front), ended, ends)


def stands_behind(case, volume, parts):
    """All that a volume may stand at behind the parts that concern it."""
    lanes = [[(line, part) for line, lane, at, part in parts if (lane, at) == (number, volume)] for number in range(LANES)]
    lanes = [lane for lane in lanes if lane]
    if not lanes:
        return case.world.stands[volume]
    behind, refused = set(), None
    for stand in case.world.stands[volume]:
        try:
            behind |= set(stand_behind(case, volume, stand, lanes))
        except Unlawful as reason:
            refused = refused or reason
    if not behind:
        raise refused
    return frozenset(behind)


def stand_behind(case, volume, stand, lanes):
    """What one volume may stand at behind the lanes' parts: for each freeze and pending change all that each replica may be."""
    ways = [sides_behind(case, volume, stand, j, lanes) for j in range(case.settings.replicas)]
    common = [key for key in ways[0] if all(key in found for found in ways)]
    if not common:
        raise Unlawful(f"order: the lines have none that fits all replicas of volume {volume}")
    return [Volume(tuple(frozenset(found[key]) for found in ways), *key) for key in common]


def sides_behind(case, volume, stand, j, lanes):
    """What a replica may be behind the parts, by the freeze and the pending change of the volume then."""
    scene, furthest, found = scene_of(case, volume, j), volumes.Furthest(), {}
    for replica in stand.replicas[j]:
        for side in orders(scene, Side(replica, case.before(volume), stand.frozen, stand.pending), lanes, furthest):
            stays_in_range(case, volume, j, replica, side.replica)
            found.setdefault((side.frozen, side.pending), set()).add(side.replica)
    if not found:
        raise Unlawful(f"order: the lines have none at replica {j} of volume {volume}: " + "; or ".join(furthest.reasons))
    return found


def stays_in_range(case, volume, j, old, new):
    """What the rules say of numbers before and behind: this judge is at fault where that does not hold."""
    puts = put_totals(case, volume)
    flushed = sum(replica_counts(case, "flushed", volume, case.settings.machine_of(volume, j)))
    live = [total_of(len(photo[1])) for photo in case.table(volume, j, case.behind(volume)).values()]
    if new.generation == old.generation:
        right = new.end() == old.end() + sum(puts) and flushed + new.bare == old.bare + len(puts)
    else:
        right = 64 + sum(live) <= new.end() <= old.end() + sum(puts) and len(live) <= len(new.cells) <= len(old.cells) + len(puts)
        right = right and flushed + new.bare <= old.bare + len(puts) and new.bare <= len(puts)
    if not right or new.count < old.count or (puts and new.end() + 8 > case.settings.capacity):
        raise AssertionError(f"replica {j} of volume {volume} went from {old} to {new}")


def directory_behind(case, line, volume):
    """The Directory behind the turn, which a line may have frozen with its row for a volume pending."""
    directory = replace(case.world.directory, rows=case.rows)
    if line is None:
        return directory
    row = PendingRow(line.line, Row(line.command.pair, volume))
    return replace(directory, frozen=True, pending=row, count=max(directory.count, line.reply.count or 0))


def drained_behind(case):
    drained = case.world.drained
    for line in case.lines:
        if line.reply.word == "drained":
            drained |= {line.reply.machine}
        if line.reply.word == "undrained":
            drained -= {line.reply.machine}
    return drained


def start_replicas(case):
    """Where nothing that is read can fail, each read shows its start replica."""
    for line in case.lines if case.sure else ():
        reply = line.reply
        if reply.word == "unreadable":
            yield told(line, "nothing that is read can fail here")
        elif reply.word in SHOWS and case.settings.replica_on(reply.volume, reply.machine) != case.start_of(line):
            yield told(line, "not the replica that the line begins with, and nothing that is read can fail here")


RULES = (kinds, groups, start_replicas, fronts, answers, counts, arm_counts)
RULES += (ends_in_range, closings, generations, directory_in_order, one_order)


def worlds_behind(settings, world, turn, sure):
    """The worlds that may stand behind a turn of commands, or Unlawful with the reasons of the first rule that it breaks."""
    noted = [(turn.logs, turn.rows)] if turn.block else notes_of_plain(settings, world, turn.lines[0])
    found, refused = [], None
    for logs, rows in noted:
        try:
            found += noted_worlds(settings, world, replace(turn, logs=logs, rows=rows), sure)
        except Unlawful as reason:
            refused = refused or reason
    if not found:
        raise refused
    return found


def noted_worlds(settings, world, turn, sure):
    entries, rows = new_entries(settings, world, turn), new_rows(settings, world, turn)
    case = Case(settings, world, turn.lines, turn.block is not None, entries, rows, sure)
    for rule in RULES:
        if reasons := list(rule(case)):
            raise Unlawful(*reasons)
    return list(case_worlds(case))


def ways_of(case):
    """For each way in which the lines may have gone their parts, and the line and the try of a row that is pending. One line at most has
    more than one way, since one row at most gets pending."""
    choices = [choices_of(case, line) for line in case.lines]
    # where a row failed it is the one that is pending, and else one of a line that wanted memory may be
    fixed = ("nomem",) if any(line.reply.word == "failed dir" for line in case.lines) else ()
    free = [i for i, line in enumerate(case.lines) if line.reply.word not in fixed]
    picks = [{}] + [{i: way} for i in free for way in range(1, len(choices[i]))]
    for pick in picks:
        ways = [(line, *choice[pick.get(i, 0)]) for i, (line, choice) in enumerate(zip(case.lines, choices))]
        parts = [(line.line, line.lane, at, part) for line, own, _ in ways for at, part in own]
        yield parts, *next(((line, volume) for line, _, volume in ways if volume is not None), (None, None))


def case_worlds(case):
    """The worlds that may stand behind a turn that no rule refuses, by the orders of its lines' parts at each volume."""
    refused, found = Unlawful("refusals: nothing froze the Directory"), False
    met = any(line.reply.word == "readonly dir" for line in case.lines) and not case.world.directory.frozen
    for parts, froze, volume in ways_of(case):
        try:
            if met and froze is None or froze and list(met_frozen(case, froze)):
                continue
            stands = tuple(stands_behind(case, number, parts) for number in range(case.settings.volumes))
        except Unlawful as reason:
            refused = reason
            continue
        logs = tuple(log + tuple(new) for log, new in zip(case.world.logs, case.entries))
        found = True
        directory = directory_behind(case, froze, volume)
        yield replace(case.world, stands=stands, logs=logs, directory=directory, drained=drained_behind(case), arms=arms_behind(case))
    if not found:
        raise refused


# RESTARTS


def worlds_restarted(settings, world, turn, sure):
    """The worlds that may stand behind a restart with these notes, whatever is sure."""
    line, directory = turn.lines[0], world.directory
    notes = [note for note in turn.notes if note.volume is not None]
    row_notes = [note for note in turn.notes if note.volume is None]
    if line.reply.word == "nomem":
        raise Undecided("a restart is answered nomem")
    if line.reply.word != "restarted" or list(turn.notes) != sorted(notes, key=lambda note: note.volume) + row_notes:
        raise Unlawful("restart: no such reply, or the notes are not in order")
    if directory.pending is None and row_notes or directory.pending and [note.line for note in row_notes] != [directory.pending.line]:
        raise Unlawful("restart: not the note of the row that was pending")
    rows = directory.rows + tuple(directory.pending.row for note in row_notes if note.kept)
    if line.reply.rows != len(rows):
        raise Unlawful(f"restart: {line.reply.rows} rows, where there are {len(rows)}")
    own_notes = [[note for note in notes if note.volume == volume] for volume in range(settings.volumes)]
    stands, bases = zip(*(reopened_volume(settings, world, volume, own) for volume, own in enumerate(own_notes)))
    return [World(stands, tuple(() for _ in stands), bases, Directory(rows, count=directory.count), arms=world.arms)]


def reopened_volume(settings, world, volume, notes):
    """What a volume may stand at behind a restart, and each replica's table there."""
    tables = [table_now(world, volume, j) for j in range(settings.replicas)]
    stands, entry = set(), None
    for stand in world.stands[volume]:
        pending = stand.pending
        if pending is None and notes or pending and not notes_fit(settings, volume, pending, notes, tables):
            continue
        if pending:
            entry = Entry(pending.line, pending.pair, pending.photo)
        kept = [note.kept for note in notes] or [False] * settings.replicas
        sides = [
            frozenset(after for replica in replicas for after in reopened(replica, pending if keeps else None))
            for replicas, keeps in zip(stand.replicas, kept)
        ]
        stands.add(Volume(tuple(sides)))
    if not stands:
        raise Unlawful(f"restart: the notes of volume {volume} are not those of a change that can be pending")
    if entry:
        tables = [applied(table, entry) if note.kept else table for table, note in zip(tables, notes)]
    return frozenset(stands), tuple(tables)


def table_now(world, volume, replica):
    table = world.bases[volume][replica]
    for entry in world.logs[volume]:
        table = applied(table, entry)
    return table


def notes_fit(settings, volume, pending, notes, tables):
    """Whether there is a note for each replica, and each says what the pending change may have left there."""
    machines = [settings.machine_of(volume, j) for j in range(settings.replicas)]
    if [(note.machine, note.line) for note in notes] != [(machine, pending.line) for machine in machines]:
        return False
    kept = [note.kept for note in notes]
    if pending.machine is None:
        return kept == sorted(kept, reverse=True) and (pending.photo is not None or all(kept))
    failed = settings.replica_on(volume, pending.machine)
    for j, note in enumerate(notes):
        empty = pending.photo is None and pending.pair not in tables[j]
        if not note.kept and (j < failed or empty) or note.kept and j > failed and not empty:
            return False
    return True


def reopened(replica, kept):
    """What a replica may stand at behind a restart that kept this change, or none."""
    if replica.poised is not None:
        switched = replace(replica, cells=replica.poised, bare=0, generation=replica.generation + 1, stuck=None)
        choices = [replica, switched]
    else:
        choices = [replica]
    for choice in choices:
        recorded = {0} if choice.stuck is None else {0, choice.stuck}
        cells, bare = choice.cells, choice.bare
        if kept and kept.photo is None:
            cells = flagged(cells, kept.pair) if last_of(cells, kept.pair) is not None else cells
        elif kept:
            cells, bare = cells + (volumes.Cell(kept.pair, total_of(len(kept.photo[1])), False),), bare + 1
        for records in sorted(recorded):
            yield Replica(cells, bare - records, choice.generation, choice.count)


# A WHOLE TRANSCRIPT


@dataclass(frozen=True)
class Verdict:
    """Of one item, by its line; `lanes` is how many lanes of a block have lines."""

    line: int
    is_block: bool = False
    lanes: int = 0
    word: str = "lawful"
    reasons: tuple = ()

    def told(self):
        item = f"the block at line {self.line}" if self.is_block else f"line {self.line}"
        return f"{item}: {self.word}" + "".join(f"; {reason}" for reason in self.reasons)


class Judge:
    """Judges turn by turn, from the state of void disks. `sure` says that no read of a disk or by an arm fails."""

    def __init__(self, settings, sure=False):
        self.settings, self.sure = settings, sure
        self.worlds = [void_world(settings)]

    def judge(self, turn):
        """Goes on behind a turn, or raises Unlawful or Undecided."""
        command, found, refused = turn.lines[0].command if turn.lines else None, [], None
        step = worlds_restarted if not turn.block and command and command.word == "restart" else worlds_behind
        for world in self.worlds:
            try:
                found += [after for after in step(self.settings, world, turn, self.sure) if after not in found]
            except Unlawful as reason:
                refused = refused or reason
            except TooMany as reason:
                raise Undecided(str(reason)) from reason
        if not found:
            raise refused
        self.worlds = found


def verdict_of(judge, item, lines):
    base = Verdict(item.line)
    if isinstance(item, text.Block):
        base = Verdict(item.line, True, len({asked.lane for asked in item.asked if asked.command}))
    try:
        judge.judge(text.take_turn(item, lines))
    except text.BadText as reason:
        return replace(base, word="unlawful", reasons=(f"text: {reason}",))
    except Unlawful as reason:
        return replace(base, word="unlawful", reasons=reason.args)
    except Undecided as reason:
        return replace(base, word="undecided", reasons=reason.args)
    return base


def verdicts(script, transcript, secret=bytes(32), sure=False):
    """A verdict for each item of a script, up to the first that is not lawful."""
    return judged(script, transcript, secret, sure)[0]


def judged(script, transcript, secret, sure):
    """The verdicts, and the worlds that the store may stand at behind the last of them that is lawful."""
    lines = text.Lines(transcript)
    try:
        settings = text.settings_of(lines.take(), secret)
    except text.BadText as reason:
        return [Verdict(0, word="unlawful", reasons=(str(reason),))], []
    judge, found = Judge(settings, sure), []
    for item in text.items_of(script):
        if lines.next().startswith("open "):
            return found + [Verdict(item.line, word="undecided", reasons=(lines.next(),))], judge.worlds
        found.append(verdict_of(judge, item, lines))
        if found[-1].word != "lawful":
            return found, judge.worlds
    if lines.next() or lines.open_end:
        found.append(Verdict(0, word="unlawful", reasons=(f"text: a line of no item: {lines.next()[:80]!r}",)))
    return found, judge.worlds
