"""One logical volume for bench/blocks.py: what is known of it between two lines, the parts of lines that meet it, and the
orders in which these can have come.

A part is what one line does to a volume, or finds there, in one holding of its lock, or in one look. A change is a part, each try
that a put passes over is one, and a compaction is several. Orders are looked for replica by replica: a `Side` is one replica with
what its volume has in common. `steps` tells what may stand behind a part, and raises `NotNow` where it cannot have come at this
moment. Cells are kept one by one, so a swap leaves just what the order of the parts makes of it; the rule on blocks has a range
there, within which this lies (`stays_in_range` of block_judge.py).
"""

from dataclasses import dataclass, replace
from typing import NamedTuple

from block_text import LONG, total_of

LAST_GENERATION = 65_535
EXAMINED_AT_ONCE = 64
MOST_MOMENTS = 600_000


class NotNow(Exception):
    """Why a part cannot have come at a moment."""


class TooMany(Exception):
    """More orders than this judge looks at."""


# WHAT IS KNOWN


class Cell(NamedTuple):
    pair: tuple
    total: int
    deleted: bool


class Copy(NamedTuple):
    """A compaction that stands: its generation, how many cells it examined, the new file's cells, and the line that began it."""

    goal: int
    examined: int
    cells: tuple
    owner: int


class Pending(NamedTuple):
    """A change that was broken off, with the machine whose disk failed, or none where memory was wanting."""

    line: int
    pair: tuple
    photo: tuple
    machine: int


@dataclass(frozen=True)
class Replica:
    """`count` is the least that its disk's count of faults can be; `stuck` the records of a flush that failed; `poised` the cells of
    the new file where a switch to it failed."""

    cells: tuple = ()
    bare: int = 0
    generation: int = 0
    count: int = 0
    stuck: int = None
    copy: Copy = None
    poised: tuple = None

    def end(self):
        return 64 + sum(cell.total for cell in self.cells)

    def last_of(self, pair):
        return last_of(self.cells, pair)


@dataclass(frozen=True)
class Volume:
    """What a volume may stand at: each replica is one of a set. `frozen` is the machine by which it is frozen, or none."""

    replicas: tuple
    frozen: int = None
    pending: Pending = None


@dataclass(frozen=True)
class Side:
    """A replica at a moment, with the entries, the freeze and the pending change of its volume."""

    replica: Replica
    front: int
    frozen: int = None
    pending: Pending = None

    def with_replica(self, **changes):
        return replace(self, replica=replace(self.replica, **changes))

    def froze(self, machine, pending=None):
        """Frozen by a machine: no compaction stands any more."""
        return replace(self.with_replica(copy=None), frozen=machine, pending=pending)


def last_of(cells, pair):
    """The place among the cells of the last one of a pair, or none."""
    return next((i for i in reversed(range(len(cells))) if cells[i].pair == pair), None)


def flagged(cells, pair):
    i = last_of(cells, pair)
    return cells if i is None else cells[:i] + (cells[i]._replace(deleted=True),) + cells[i + 1 :]


def examined_to(replica, upto):
    """The copy behind the examination of the old file's first so many cells."""
    cells, copy = replica.cells, replica.copy
    copied = tuple(cells[i] for i in range(copy.examined, upto) if not cells[i].deleted and replica.last_of(cells[i].pair) == i)
    return copy._replace(examined=upto, cells=copy.cells + copied)


def finished(replica):
    """The cells of the new file when all of the old one's are examined."""
    return examined_to(replica, len(replica.cells)).cells


def swapped(side):
    return side.with_replica(cells=finished(side.replica), bare=0, generation=side.replica.copy.goal, stuck=None, copy=None)


# WHERE A PART STANDS


@dataclass(frozen=True)
class Scene:
    """Which replica of which volume is looked at, the drained machines, the replicas' tables at each front of the turn, the count with
    which a compaction that found itself ended says that it was, and how far each replica's end may come."""

    settings: object
    volume: int
    own: int
    drained: frozenset
    tables: object
    ended: dict
    most_ends: tuple

    def machine(self, j):
        return self.settings.machine_of(self.volume, j)

    def replica(self, machine):
        return self.settings.replica_on(self.volume, machine)

    def drained_by(self):
        return next((self.machine(j) for j in range(self.settings.replicas) if self.machine(j) in self.drained), None)

    def closed(self, side):
        """The machine by which the volume is closed to changes, or none."""
        return self.drained_by() if side.frozen is None else side.frozen

    def lacks(self, end, size):
        return end + total_of(size) + 8 > self.settings.capacity

    def others_may_lack(self, size):
        return any(self.lacks(end, size) for j, end in enumerate(self.most_ends) if j != self.own)

    def must_be_open(self, side):
        if (machine := self.closed(side)) is not None:
            raise NotNow(f"volume {self.volume} is closed by machine {machine}")

    def must_have_room(self, side, size):
        if self.lacks(side.replica.end(), size):
            raise NotNow(f"volume {self.volume} has no room on machine {self.machine(self.own)}: it ends at {side.replica.end()}")

    def must_not_be_frozen(self, side):
        if side.frozen is not None:
            raise NotNow(f"volume {self.volume} is frozen by machine {side.frozen}")

    def holders(self, side, pair):
        """The replicas that have a photo of the pair."""
        return [j for j in range(self.settings.replicas) if pair in self.tables(j, side.front)]

    def counted(self, side, j, count):
        """The side behind a failed call of a replica's disk, whose count rose to this."""
        if j != self.own:
            return side
        if not rises(count, side.replica.count):
            raise NotNow(f"the disk's count stood at {side.replica.count} already, so it did not rise to {count}")
        return side.with_replica(count=count)


def rises(count, least):
    return count > least or count == LONG


class Part:
    """What a line meets under the volume's lock: behind it the lane has seen all that the volume published. `waits` says that more may
    come of it at a later moment."""

    waits = False

    def fits_freeze(self, machine):
        """Whether the part can come where the volume is frozen by this machine."""
        return False

    def steps(self, scene, side, seen):
        """The sides and the next parts of the line that may stand behind this part, and what the lane has seen then."""
        return [(after, following, after.front) for after, following in self.held(scene, side)]

    def held(self, scene, side):
        raise NotImplementedError


# PUTS AND DELETES


def must_be_next(scene, side, position):
    if side.front + 1 != position:
        raise NotNow(f"volume {scene.volume} has {side.front} entries, and the line's is {position}")


@dataclass(frozen=True)
class Stored(Part):
    position: int
    pair: tuple
    size: int

    def held(self, scene, side):
        scene.must_be_open(side)
        scene.must_have_room(side, self.size)
        must_be_next(scene, side, self.position)
        cells = side.replica.cells + (Cell(self.pair, total_of(self.size), False),)
        return [(replace(side.with_replica(cells=cells, bare=side.replica.bare + 1), front=self.position), None)]


@dataclass(frozen=True)
class Deleted(Part):
    position: int
    pair: tuple

    def held(self, scene, side):
        scene.must_be_open(side)
        must_be_next(scene, side, self.position)
        holders = scene.holders(side, self.pair)
        if not holders:
            raise NotNow(f"no replica of volume {scene.volume} has the photo")
        after = replace(side, front=self.position)
        if scene.own not in holders:
            return [(after, None)]
        return [(replace(after, replica=replica), None) for replica in self.flags(scene, side.replica)]

    def flags(self, scene, replica):
        """The replica behind the flag in its file, which is repeated in a compaction or, where that fails, ends it."""
        flag = replace(replica, cells=flagged(replica.cells, self.pair))
        if replica.copy is None or last_of(replica.copy.cells, self.pair) is None:
            return [flag]
        repeated = replace(flag, copy=replica.copy._replace(cells=flagged(replica.copy.cells, self.pair)))
        count = scene.ended.get(replica.copy.owner, min(replica.count + 1, LONG))
        return [repeated, replace(flag, copy=None, count=count)] if rises(count, replica.count) else [repeated]


@dataclass(frozen=True)
class PutFailed(Part):
    pending: Pending
    size: int
    count: int

    def held(self, scene, side):
        scene.must_be_open(side)
        scene.must_have_room(side, self.size)
        after = scene.counted(side, scene.replica(self.pending.machine), self.count)
        return [(after.froze(self.pending.machine, self.pending), None)]


@dataclass(frozen=True)
class DeleteFailed(Part):
    """A flag failed, which freezes the volume, or a look at the photo, where one can, which changes nothing."""

    pending: Pending
    count: int
    can_look: bool
    waits = True

    def held(self, scene, side):
        scene.must_be_open(side)
        after = scene.counted(side, scene.replica(self.pending.machine), self.count)
        froze = [(after.froze(self.pending.machine, self.pending), None)] if scene.holders(side, self.pending.pair) else []
        return ([(after, None)] if self.can_look else []) + froze


@dataclass(frozen=True)
class Wanted(Part):
    """A put, delete or read that wanted memory: it changed nothing, or froze the volume with one of these pending."""

    pendings: tuple
    size: int = None
    waits = True

    def held(self, scene, side):
        is_change = self.pendings != (None,)
        if side.frozen is not None or is_change and scene.closed(side) is not None:
            return [(side, None)]
        if self.size is not None and scene.lacks(side.replica.end(), self.size):
            return [(side, None)]
        pendings = [pending for pending in self.pendings if self.may_be(scene, side, pending)]
        return [(side, None)] + [(side.froze(scene.machine(0), pending), None) for pending in pendings]

    def fits_freeze(self, machine):
        return True

    def may_be(self, scene, side, pending):
        """A deletion is pending only of a photo that stands."""
        return pending is None or pending.photo is not None or scene.holders(side, pending.pair) != []


@dataclass(frozen=True)
class Absent(Part):
    """A delete of a photo that no replica has."""

    front: int
    pair: tuple

    def held(self, scene, side):
        scene.must_be_open(side)
        if side.front != self.front:
            raise NotNow(f"volume {scene.volume} has {side.front} entries, and the line tells {self.front}")
        if scene.holders(side, self.pair):
            raise NotNow(f"a replica of volume {scene.volume} has the photo")
        return [(side, None)]


@dataclass(frozen=True)
class NoRoom(Part):
    """A put that the replica on this machine has no room for, and each lower one has."""

    machine: int
    end: int
    size: int

    def held(self, scene, side):
        scene.must_be_open(side)
        lowest = scene.replica(self.machine)
        if scene.own < lowest:
            scene.must_have_room(side, self.size)
        if scene.own == lowest and side.replica.end() != self.end:
            raise NotNow(f"the replica on machine {self.machine} ends at {side.replica.end()}, and the line tells {self.end}")
        return [(side, None)]


@dataclass(frozen=True)
class ClosedBy(Part):
    machine: int

    def fits_freeze(self, machine):
        return machine == self.machine

    def held(self, scene, side):
        if (machine := scene.closed(side)) != self.machine:
            raise NotNow(f"volume {scene.volume} is " + ("closed by no machine" if machine is None else f"closed by machine {machine}"))
        return [(side, None)]


@dataclass(frozen=True)
class Passed(Part):
    """A try of which the put tells nothing, and that did not take it."""

    size: int

    def fits_freeze(self, machine):
        return True

    def held(self, scene, side):
        lacks = scene.lacks(side.replica.end(), self.size) or scene.others_may_lack(self.size)
        if scene.closed(side) is None and not lacks:
            raise NotNow(f"volume {scene.volume} is an earlier try, open and with room")
        return [(side, None)]


@dataclass(frozen=True)
class Takes(Part):
    """The try that the put has its row for."""

    size: int

    def held(self, scene, side):
        scene.must_be_open(side)
        scene.must_have_room(side, self.size)
        return [(side, None)]


# READS


@dataclass(frozen=True)
class Shown(Part):
    """A look without the lock, at a front that the lane may be shown; and the looks at disks that failed."""

    front: int
    disks: tuple = ()

    def fits_freeze(self, machine):
        return True

    def steps(self, scene, side, seen):
        if not seen <= self.front <= side.front:
            raise NotNow(f"the lane had seen {seen} of the {side.front} entries of volume {scene.volume}, and the line tells {self.front}")
        for j, count in self.disks:
            side = scene.counted(side, j, count)
        return [(side, None, self.front)]


# FLUSHES


@dataclass(frozen=True)
class Flush(Part):
    replica: int
    reply: object

    def fits_freeze(self, machine):
        return self.reply.word == "readonly" and self.reply.groups[0].machine == machine

    def held(self, scene, side):
        refused = self.reply.groups[0].machine if self.reply.word == "readonly" else None
        if side.frozen is not None and refused != side.frozen:
            raise NotNow(f"volume {scene.volume} is frozen by machine {side.frozen}")
        if side.frozen is None and refused not in (None, scene.machine(self.replica)):
            raise NotNow(f"volume {scene.volume} is not frozen")
        if side.frozen is not None or scene.own != self.replica:
            return [(side, None)]
        return self.open(scene, side)

    def open(self, scene, side):
        """The flush of this replica, in a volume that is not frozen."""
        stuck, bare = side.replica.stuck is not None, side.replica.bare
        if stuck != (self.reply.word == "readonly"):
            raise NotNow("the index is stuck" if stuck else "the index is not stuck")
        if stuck:
            return [(side, None)]
        if self.reply.word == "failed":
            return [(scene.counted(side, self.replica, self.reply.count).with_replica(stuck=bare), None)]
        if self.reply.count != bare:
            raise NotNow(f"{bare} cells have no record")
        return [(side.with_replica(bare=0), None)]


# COMPACTIONS


@dataclass(frozen=True)
class Work(Part):
    """A line's work on the compaction of a replica."""

    line: int
    replica: int
    reply: object
    target: int = 0

    @property
    def waits(self):
        return self.reply.word == "nomem"

    def fits_freeze(self, machine):
        return self.waits or self.reply.word == "readonly" and self.reply.groups[0].machine == machine

    def held(self, scene, side):
        if self.reply.word == "nomem":
            return [(side, None)] + (self.wanted(scene, side) if side.frozen is None else [])
        if side.frozen is not None:
            if self.reply.word != "readonly" or self.reply.groups[0].machine != side.frozen:
                raise NotNow(f"volume {scene.volume} is frozen by machine {side.frozen}")
            return [(side, None)]
        return self.open(scene, side) if scene.own == self.replica else self.beside(scene, side)

    def beside(self, scene, side):
        """What another replica of the volume sees of the work: that it was not frozen, or froze in it."""
        if self.reply.word == "readonly":
            raise NotNow(f"volume {scene.volume} is not frozen")
        if self.reply.word != "failed" or isinstance(self, Step) or type(self) is Begin:
            return [(side, None)]
        return [(side, None), (side.froze(scene.machine(self.replica)), None)]

    def wanted(self, scene, side):
        """What may stand behind work that wanted memory, besides what stood before."""
        if scene.own != self.replica:
            return [(side.froze(scene.machine(0)), None)]
        return self.wanted_here(scene, side)

    def ended(self, scene, side):
        """The run is none, or memory was wanting to publish the swap, and the volume is frozen by replica 0's machine."""
        return [(side.with_replica(copy=None), None), (swapped(side).froze(scene.machine(0)), None)]

    def fails(self, side, **changes):
        """The replica behind a failed call of its disk, where the line may have met one."""
        if self.reply.word != "failed" or not rises(self.reply.count, side.replica.count):
            return []
        return [(side.with_replica(count=self.reply.count, **changes), None)]

    def fails_to_switch(self, scene, side):
        return [(after.froze(scene.machine(self.replica)), None) for after, _ in self.fails(side, poised=finished(side.replica))]

    def needs(self, word, reason):
        if self.reply.word != word:
            raise NotNow(reason)


class Begin(Work):
    """A `begin`, or the first part of a `compact`."""

    def open(self, scene, side):
        replica = side.replica
        if replica.copy is not None:
            self.needs("busy", "a compaction of the replica stands")
            if replica.copy.goal != self.reply.count:
                raise NotNow(f"the compaction that stands makes generation {replica.copy.goal}")
            return [(side, None)]
        if replica.generation == LAST_GENERATION:
            self.needs("worn", "the generation is the last one")
            return [(side, None)]
        if self.reply.word in ("busy", "worn"):
            raise NotNow("no compaction of the replica stands, and its generation is not the last one")
        if self.reply.word in ("begun", "compacted") and self.reply.count != replica.generation + 1:
            raise NotNow(f"the generation is {replica.generation}")
        began = side.with_replica(copy=Copy(replica.generation + 1, 0, (), self.line))
        return self.began(began) + self.fails(side)

    def began(self, side):
        return [(side, None)] if self.reply.word == "begun" else []


class Compact(Begin):
    def wanted_here(self, scene, side):
        if side.replica.copy is not None or side.replica.generation == LAST_GENERATION:
            return []
        return self.began(side.with_replica(copy=Copy(side.replica.generation + 1, 0, (), self.line)))

    def began(self, side):
        return [(side, Examine(self.line, self.replica, self.reply, len(side.replica.cells)))]


class Examine(Work):
    """A `compact` behind its beginning: up to 64 cells at once until `target` are examined, and then the end."""

    def open(self, scene, side):
        if not self.stands(side):
            self.needs("failed", "the line's compaction does not stand any more")
            return [(side, None)]
        failed = self.fails(side, copy=None)
        if side.replica.copy.examined >= self.target:
            return failed + self.ends(scene, side)
        return failed + self.goes_on(side)

    def stands(self, side):
        return side.replica.copy is not None and side.replica.copy.owner == self.line

    def goes_on(self, side):
        most = side.replica.copy.examined + EXAMINED_AT_ONCE
        ends = {min(most, self.target), min(most, len(side.replica.cells))}
        return [(side.with_replica(copy=examined_to(side.replica, upto)), self) for upto in sorted(ends)]

    def held(self, scene, side):
        if self.reply.word != "nomem" or side.frozen is not None or not self.stands(side):
            return super().held(scene, side)
        if side.replica.copy.examined >= self.target:
            return self.ended(scene, side)
        return [(side.with_replica(copy=None), None)] + self.goes_on(side)

    def wanted_here(self, scene, side):
        """Another line ended the compaction."""
        return []

    def ends(self, scene, side):
        if self.reply.word == "compacted":
            return [(swapped(side), None)]
        return self.fails_to_switch(scene, side)


class Idle(Work):
    def open(self, scene, side):
        if side.replica.copy is None:
            self.needs("idle", "no compaction of the replica stands")
            return [(side, None)]
        return self.standing(scene, side)


class Step(Idle):
    """A `step` of up to `target` cells."""

    def wanted(self, scene, side):
        return super().wanted(scene, side) if scene.own == self.replica else []

    def wanted_here(self, scene, side):
        if side.replica.copy is None:
            return []
        examined = side.replica.copy.examined
        upto = range(examined + 1, min(len(side.replica.cells), examined + self.target) + 1)
        return [(side.with_replica(copy=examined_to(side.replica, cells)), None) for cells in upto]

    def standing(self, scene, side):
        if self.reply.word == "failed":
            return self.fails(side, copy=None)
        self.needs("stepped", "a compaction of the replica stands")
        copy = side.replica.copy
        upto = min(len(side.replica.cells), copy.examined + self.target)
        if self.reply.count != upto - copy.examined:
            raise NotNow(f"{upto - copy.examined} cells are examined by the line")
        return [(side.with_replica(copy=examined_to(side.replica, upto)), None)]


class Finish(Idle):
    def wanted_here(self, scene, side):
        return [] if side.replica.copy is None else self.ended(scene, side)

    def standing(self, scene, side):
        if self.reply.word == "failed":
            return self.fails(side, copy=None) + self.fails_to_switch(scene, side)
        self.needs("compacted", "a compaction of the replica stands")
        if self.reply.count != side.replica.copy.goal:
            raise NotNow(f"the compaction that stands makes generation {side.replica.copy.goal}")
        return [(swapped(side), None)]


# ORDERS


class Course(NamedTuple):
    """How far a lane is: the number of parts behind it, the part that its line is in, and the front that it has seen."""

    done: int
    within: object
    seen: int


@dataclass
class Furthest:
    """The moment of all orders at which the most parts were done, and why no further one could come."""

    done: int = -1
    reasons: tuple = ()

    def meet(self, done, reasons):
        if reasons and done > self.done:
            self.done, self.reasons = done, tuple(reasons)


def moves_of(scene, side, courses, lanes):
    """What may come next: (lane, side, course). A part that changes nothing comes at once, since it stands in no other's way."""
    moves, reasons = [], []
    for lane, course in enumerate(courses):
        if course.done == len(lanes[lane]):
            continue
        line, part = lanes[lane][course.done]
        try:
            steps = (course.within or part).steps(scene, side, course.seen)
        except NotNow as reason:
            reasons.append(f"line {line}: {reason}")
            continue
        if not steps:
            reasons.append(f"line {line}: the count that it tells does not fit")
        found = [
            (lane, after, Course(course.done, following, seen) if following else Course(course.done + 1, None, seen))
            for after, following, seen in steps
        ]
        if not part.waits and len(steps) == 1 and steps[0][1] is None and steps[0][0] == side:
            return found, reasons
        moves += found
    return moves, reasons


def stuck_line(side, courses, lanes):
    """A line that is still to come and cannot, since the volume is frozen, or none."""
    if side.frozen is None:
        return None
    left = ((line, part) for course, lane in zip(courses, lanes) for line, part in lane[course.done :])
    return next((line for line, part in left if not part.fits_freeze(side.frozen)), None)


def orders(scene, side, lanes, furthest):
    """All that may stand behind the parts of some lanes, each a list of (line, part), whatever their order."""
    first = (side, tuple(Course(0, None, side.front) for _ in lanes))
    found, open_moments, ends = {first}, [first], set()
    parts = sum(len(lane) for lane in lanes)
    while open_moments:
        side, courses = open_moments.pop()
        done = sum(course.done for course in courses)
        if done == parts:
            ends.add(side)
            continue
        moves, reasons = moves_of(scene, side, courses, lanes)
        for lane, after, course in moves:
            moment = (after, courses[:lane] + (course,) + courses[lane + 1 :])
            if moment in found:
                continue
            if (line := stuck_line(*moment, lanes)) is not None:
                reasons.append(f"line {line}: volume {scene.volume} would be frozen by then")
                continue
            found.add(moment)
            open_moments.append(moment)
        furthest.meet(done, reasons)
        if len(found) > MOST_MOMENTS:
            raise TooMany(f"more than {MOST_MOMENTS} moments of volume {scene.volume}")
    return ends
