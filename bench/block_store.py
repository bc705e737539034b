"""An honest store for bench/blocks.py, which runs a script and prints its transcript: it makes what the judge is to find lawful.

Volumes and the Directory stand behind a lock each. A lane is a generator that gives the others their turn before each holding of a
lock and each look; a scheduler draws which lane goes on. Each publish leaves a view, and a lane that looks is shown any one from the
last that it has seen on. A disk counts its changing calls, so a fuse fails the right one, and what its failed sync leaves in doubt is
drawn at the restart. Nothing here is taken from the judge but the grammar, and the sizes and places of block_text.py.
"""

import random
from dataclasses import dataclass, field

import block_text as text
from block_text import total_of


class DiskFailed(Exception):
    """A call of a disk failed, and its count rose to this."""

    def __init__(self, count):
        super().__init__(count)
        self.count = count


class SwitchFailed(DiskFailed):
    """It failed while the head was switched to new files."""


class NoMemory(Exception):
    """Memory was wanting."""


class Memory:
    """Memory that is wanting at times."""

    def __init__(self, draw, scarce):
        self.draw, self.scarce = draw, scarce

    def take(self):
        if self.scarce and self.draw.random() < self.scarce:
            raise NoMemory


class Disk:
    def __init__(self):
        self.count, self.fuse, self.doubts = 0, None, []

    def fail(self):
        self.count += 1
        raise DiskFailed(self.count)

    def change(self, doubt=None):
        """A changing call; where it fails, a stop may leave the doubt done or not."""
        if self.fuse is None:
            return
        if self.fuse == 0:
            if doubt:
                self.doubts.append(doubt)
            self.fail()
        self.fuse -= 1

    def gate(self, doubt):
        """A gated append: body, sync, magic, sync. A magic that was written and not synced is in doubt."""
        for _ in range(3):
            self.change()
        self.change(doubt)

    def power_cycle(self, pick):
        draw = random.Random(pick)
        for doubt in self.doubts:
            if pick == 1 or (pick > 1 and draw.random() < 0.5):
                doubt()
        self.fuse, self.doubts = None, []


@dataclass
class Cell:
    pair: tuple
    photo: tuple
    deleted: bool = False

    def total(self):
        return total_of(len(self.photo[1]))


@dataclass
class Run:
    """A compaction that stands."""

    line: int
    goal: int
    examined: int = 0


@dataclass
class Place:
    """Where a photo stands, with the bytes that were there when it was published."""

    generation: int
    index: int
    photo: tuple


class Replica:
    def __init__(self, machine):
        self.machine, self.disk = machine, Disk()
        self.files, self.generation, self.records = {0: []}, 0, 0
        self.stuck, self.run, self.ended = False, None, {}

    def cells(self):
        return self.files[self.generation]

    def end(self):
        return 64 + sum(cell.total() for cell in self.cells())

    def last_of(self, cells, pair):
        return next((cell for cell in reversed(cells) if cell.pair == pair), None)

    def place_of(self, index):
        return Place(self.generation, index, self.cells()[index].photo)

    def places(self):
        """The places of the photos that stand."""
        cells = self.cells()
        return {cell.pair: self.place_of(i) for i, cell in enumerate(cells) if self.last_of(cells, cell.pair) is cell and not cell.deleted}

    def put(self, pair, photo):
        cells, cell = self.cells(), Cell(pair, photo)
        self.disk.gate(lambda: cells.append(cell))
        cells.append(cell)
        return self.place_of(len(cells) - 1)

    def delete(self, pair):
        cell = self.last_of(self.cells(), pair)
        self.disk.change()
        self.disk.change(lambda: self.flag(cell))
        self.flag(cell)
        if self.run:
            self.repeat(pair)

    def flag(self, cell):
        cell.deleted = True

    def repeat(self, pair):
        """The delete again in the new file of the compaction that stands; a fault there ends the compaction alone."""
        cell = self.last_of(self.files[self.run.goal], pair)
        if cell is None:
            return
        try:
            self.disk.change()
            self.flag(cell)
        except DiskFailed as fault:
            self.ended[self.run.line] = fault.count
            self.run = None

    def unrecorded(self):
        return len(self.cells()) - self.records

    def flush(self):
        count, upto = self.unrecorded(), len(self.cells())
        if count == 0:
            return 0
        try:
            self.disk.gate(lambda: self.record(upto))
        except DiskFailed:
            self.stuck = True
            raise
        self.record(upto)
        return count

    def record(self, upto):
        self.records = upto

    def begin(self, line):
        for _ in range(4):
            self.disk.change()
        self.run = Run(line, self.next_generation())
        self.files[self.run.goal] = []

    def next_generation(self):
        return self.generation + 1

    def step(self, number):
        """Examines cells, and answers how many."""
        upto = min(len(self.cells()), self.run.examined + number)
        examined = upto - self.run.examined
        try:
            while self.run.examined < upto:
                self.examine(self.cells()[self.run.examined])
                self.run.examined += 1
        except DiskFailed:
            self.run = None
            raise
        return examined

    def examine(self, cell):
        if self.last_of(self.cells(), cell.pair) is cell and not cell.deleted:
            self.disk.change()
            self.files[self.run.goal].append(Cell(cell.pair, cell.photo))

    def examine_rest(self):
        self.step(len(self.cells()))

    def finish(self):
        self.examine_rest()
        goal, self.run = self.run.goal, None
        for _ in range(2 + bool(self.files[goal])):
            self.disk.change()
        try:
            self.disk.gate(lambda: self.switch(goal))
        except DiskFailed as fault:
            raise SwitchFailed(fault.count) from fault
        self.switch(goal)
        for _ in range(2):
            self.remove()
        return goal

    def switch(self, goal):
        self.generation, self.records, self.stuck = goal, len(self.files[goal]), False

    def remove(self):
        try:
            self.disk.change()
        except DiskFailed:
            pass

    def power_cycle(self, pick):
        self.disk.power_cycle(pick)
        self.stuck, self.run, self.ended = False, None, {}


@dataclass
class Pending:
    line: int
    pair: tuple
    is_put: bool
    places: list


class View:
    """What a publish leaves: the number of entries, and each pair's places."""

    def __init__(self, front, rows):
        self.front, self.rows = front, rows


class Views:
    """The views that were published, and the last one that each lane has seen."""

    def __init__(self, draw, first):
        self.draw, self.views, self.seen = draw, [first], [0] * 8

    def now(self):
        return self.views[-1]

    def publish(self, view):
        self.views.append(view)

    def earliest(self, lane):
        return self.seen[lane]

    def look(self, lane):
        self.seen[lane] = max(self.seen[lane], self.draw.randint(self.earliest(lane), len(self.views) - 1))
        return self.views[self.seen[lane]]

    def show_all(self, lane):
        self.seen[lane] = len(self.views) - 1


class Volume:
    replica_kind, views_kind = Replica, Views

    def __init__(self, settings, number, draw, memory):
        self.settings, self.number, self.draw, self.memory = settings, number, draw, memory
        self.replicas = [self.replica_kind(settings.machine_of(number, j)) for j in range(settings.replicas)]
        self.open()

    def open(self):
        """What is known behind an opening: places of cells with a record were not read yet."""
        self.log, self.frozen, self.pending = [], None, None
        rows, self.unseen = {}, set()
        for j, replica in enumerate(self.replicas):
            for pair, place in replica.places().items():
                rows.setdefault(pair, [None] * len(self.replicas))[j] = place
                if place.index < replica.records:
                    self.unseen.add((j, pair))
        self.views = self.views_kind(self.draw, View(0, rows))

    def front(self):
        return len(self.log)

    def freeze(self, machine):
        self.frozen = machine
        for replica in self.replicas:
            replica.run = None

    def closed(self, drained):
        if self.frozen is not None:
            return self.frozen
        return next((replica.machine for replica in self.replicas if replica.machine in drained), None)

    def lacking(self, size):
        """The lowest replica without room, or none."""
        return next((replica for replica in self.replicas if replica.end() + total_of(size) + 8 > self.settings.capacity), None)

    def refusal(self, drained, size):
        """The group of a put that this volume refuses, or none."""
        if (machine := self.closed(drained)) is not None:
            return "ro", f"{self.number}:{machine}"
        if (replica := self.lacking(size)) is not None:
            return "full", f"{self.number}:{replica.machine}:{replica.end()}:{total_of(size)}"
        return None

    def publish(self, pair, places):
        rows = dict(self.views.now().rows)
        rows[pair] = places
        self.views.publish(View(self.front(), rows))

    def put(self, line, pair, photo):
        """A put on all replicas; answers its position."""
        pending = Pending(line, pair, True, [len(replica.cells()) for replica in self.replicas])
        places = [self.on_disk(replica, pending, lambda replica: replica.put(pair, photo)) for replica in self.replicas]
        self.unseen -= {(j, pair) for j in range(len(self.replicas))}
        self.log.append(line)
        self.publish(pair, places)
        return self.front()

    def delete(self, line, pair):
        pending = Pending(line, pair, False, [])
        for j in self.holders(pair):
            self.on_disk(self.replicas[j], pending, lambda replica: replica.delete(pair))
        self.take_for_publish(pending)
        self.log.append(line)
        self.publish(pair, [None] * len(self.replicas))
        return self.front()

    def holders(self, pair):
        return [j for j, place in enumerate(self.views.now().rows.get(pair, ())) if place is not None]

    def on_disk(self, replica, pending, change):
        """A change of a replica; a fault freezes the volume, and so does want of memory behind a put's change."""
        try:
            done = change(replica)
            if pending.is_put:
                self.memory.take()
            return done
        except DiskFailed as fault:
            self.freeze(replica.machine)
            self.leave_pending(pending)
            fault.machine = replica.machine
            raise
        except NoMemory:
            self.want_memory(pending)
            raise

    def want_memory(self, pending):
        self.freeze(self.replicas[0].machine)
        self.leave_pending(pending)

    def take_for_publish(self, pending):
        try:
            self.memory.take()
        except NoMemory:
            self.want_memory(pending)
            raise

    def leave_pending(self, pending):
        self.pending = pending

    def swap(self, j):
        """Publishes the places of a replica's new files."""
        self.take_for_publish(None)
        places, old = self.replicas[j].places(), self.views.now()
        rows = {pair: list(row) for pair, row in old.rows.items()}
        for pair, row in rows.items():
            row[j] = places.get(pair)
        self.unseen -= {(j, pair) for pair in rows}
        self.views.publish(View(self.front(), rows))

    def power_cycle(self, pick):
        for j, replica in enumerate(self.replicas):
            replica.power_cycle(pick if pick < 2 else pick + 64 * self.number + j)

    def kept(self, j):
        """Whether a replica that was opened again has the change that was pending."""
        cells = self.replicas[j].cells()
        if self.pending.is_put:
            return len(cells) > self.pending.places[j]
        return self.pending.pair not in self.replicas[j].places()

    def notes(self):
        if self.pending is None:
            return []
        words = ["kept" if self.kept(j) else "lost" for j in range(len(self.replicas))]
        return [f"{word} {self.number}:{replica.machine} {self.pending.line}" for word, replica in zip(words, self.replicas)]


class Directory:
    views_kind = Views

    def __init__(self, draw, memory):
        self.disk, self.rows, self.draw, self.drained, self.memory = Disk(), [], draw, set(), memory
        self.open()

    def open(self):
        self.new, self.frozen, self.pending, self.unpublished = [], False, None, []
        self.drained.clear()
        self.views = self.views_kind(self.draw, len(self.rows))

    def home(self, pair, front=None):
        return next((volume for owner, volume in self.rows[:front] if owner == pair), None)

    def settle(self, line, pair, volume):
        """The pair's home, which is the volume where it has none; none where the Directory takes no row."""
        if (home := self.home(pair)) is not None:
            return home
        if self.frozen:
            return None
        try:
            self.disk.gate(lambda: self.rows.append((pair, volume)))
        except DiskFailed:
            self.frozen, self.pending = True, line
            raise
        self.take_for_publish(line, pair, volume)
        self.rows.append((pair, volume))
        self.new.append((line, volume))
        self.views.publish(len(self.rows))
        return volume

    def take_for_publish(self, line, pair, volume):
        try:
            self.memory.take()
        except NoMemory:
            self.frozen, self.pending, self.unpublished = True, line, [(pair, volume)]
            raise

    def power_cycle(self, pick):
        self.disk.power_cycle(pick)
        self.rows += self.unpublished

    def notes(self, rows_before):
        if self.pending is None:
            return []
        return [f"{'kept' if len(self.rows) > rows_before else 'lost'} dir {self.pending}"]


@dataclass
class Seen:
    """What a command of a lane goes on with."""

    lane: int
    line: int
    command: text.Command


@dataclass
class Store:
    settings: text.Settings
    seed: int = 0
    flaky: float = 0.0
    scarce: float = 0.0
    replies: dict = field(default_factory=dict)
    volume_kind, directory_kind = Volume, Directory

    def __post_init__(self):
        self.draw = random.Random(self.seed)
        self.memory = Memory(self.draw, self.scarce)
        self.volumes = [self.volume_kind(self.settings, number, self.draw, self.memory) for number in range(self.settings.volumes)]
        self.directory = self.directory_kind(self.draw, self.memory)
        self.arms = [0] * 8

    # SCRIPTS

    def run(self, script):
        """The transcript of a script."""
        lines = [self.settings.header()]
        for item in text.items_of(script):
            if isinstance(item, text.Block):
                lines += self.run_block(item)
            elif item.command is not None and item.command.word == "restart":
                lines += self.restart(item)
            else:
                lines += self.run_plain(item)
            self.round()
        return "".join(line + "\n" for line in lines)

    def round(self):
        """Behind a turn each lane has seen all."""
        for lane in range(8):
            for shared in (*self.volumes, self.directory):
                shared.views.show_all(lane)

    def run_plain(self, asked):
        self.finish_lanes([self.lane_of([asked])])
        return [f"{asked.line} {self.replies[asked.line]}"]

    def run_block(self, block):
        fronts, rows = [volume.front() for volume in self.volumes], len(self.directory.rows)
        new = len(self.directory.new)
        lanes = {}
        for asked in block.asked:
            lanes.setdefault(asked.lane, []).append(asked)
        self.finish_lanes([self.lane_of(own) for own in lanes.values()])
        replies = [f"{asked.line} {self.replies[asked.line]}" for asked in block.asked]
        return replies + self.log_notes(fronts) + self.row_notes(rows, self.directory.new[new:])

    def log_notes(self, fronts):
        return [
            f"log {volume.number} {front} " + " ".join(str(line) for line in volume.log[front:])
            for volume, front in zip(self.volumes, fronts)
            if volume.front() > front
        ]

    def row_notes(self, rows, new):
        return [f"rows {rows} " + " ".join(f"{line}:{volume}" for line, volume in new)] if new else []

    def finish_lanes(self, lanes):
        """Lets lanes go on in a drawn order, some of them faster, until all are done."""
        speeds = {lane: self.draw.choice((1, 1, 3, 10)) for lane in lanes}
        while speeds:
            lane = self.draw.choices(list(speeds), list(speeds.values()))[0]
            if next(lane, "done") == "done":
                del speeds[lane]

    def lane_of(self, lines):
        for asked in lines:
            self.replies[asked.line] = yield from self.answer(Seen(asked.lane, asked.line, asked.command))
            yield

    def answer(self, asked):
        if asked.command is None:
            return "bad line"
        try:
            self.memory.take()
            return (yield from getattr(self, "delete" if asked.command.word == "del" else asked.command.word)(asked))
        except NoMemory:
            return "nomem"

    # PUTS

    def home_of(self, asked):
        """The rows that the lane is shown, and the pair's home among them."""
        rows = self.directory.views.look(asked.lane)
        return rows, self.directory.home(asked.command.pair, rows)

    def put(self, asked):
        yield
        rows, home = self.home_of(asked)
        if home is None:
            chosen = yield from self.choose(asked)
            if isinstance(chosen, str):
                return chosen
            yield
            self.directory.views.show_all(asked.lane)
            try:
                home = self.directory.settle(asked.line, asked.command.pair, chosen)
            except DiskFailed as fault:
                return f"failed dir {fault.count}"
            self.directory.views.show_all(asked.lane)
            if home is None:
                return "readonly dir"
            rows = len(self.directory.rows)
        yield
        return self.put_home(asked, self.volumes[home], rows)

    def choose(self, asked):
        """The first try that takes the photo, or the reply where none does."""
        groups = []
        for number in self.settings.tries_of(asked.command.pair):
            yield
            self.volumes[number].views.show_all(asked.lane)
            refused = self.volumes[number].refusal(self.directory.drained, len(asked.command.data))
            if refused is None:
                return number
            groups.append(refused)
        if all(kind == "ro" for kind, _ in groups):
            return "readonly " + " ".join(group for _, group in groups)
        return "full " + " ".join(group + (":ro" if kind == "ro" else "") for kind, group in groups)

    def put_home(self, asked, volume, rows):
        command = asked.command
        self.memory.take()
        volume.views.show_all(asked.lane)
        if (refused := volume.refusal(self.directory.drained, len(command.data))) is not None:
            return ("readonly " if refused[0] == "ro" else "full ") + refused[1]
        cookie = text.cookie_of(self.settings.secret, command.pair[0])
        try:
            position = volume.put(asked.line, command.pair, (cookie, command.data))
        except DiskFailed as fault:
            return f"failed {volume.number}:{fault.machine} {fault.count}"
        volume.views.show_all(asked.lane)
        return f"stored {volume.number} {position} {rows} {cookie:016x}"

    # DELETES AND URLS

    def delete(self, asked):
        yield
        rows, home = self.home_of(asked)
        if home is None:
            return f"unknown {rows}"
        yield
        return self.delete_home(asked, self.volumes[home], rows)

    def delete_home(self, asked, volume, rows):
        pair = asked.command.pair
        volume.views.show_all(asked.lane)
        if (machine := volume.closed(self.directory.drained)) is not None:
            return f"readonly {volume.number}:{machine}"
        try:
            for j in volume.holders(pair):
                self.see(volume, j, pair)
            if not self.deletes(volume, pair):
                return f"gone {volume.number} {volume.front()} {rows}"
            position = volume.delete(asked.line, pair)
        except DiskFailed as fault:
            return f"failed {volume.number}:{fault.machine} {fault.count}"
        volume.views.show_all(asked.lane)
        return f"deleted {volume.number} {position} {rows}"

    def deletes(self, volume, pair):
        """Whether there is a photo to delete."""
        return volume.holders(pair) != []

    def see(self, volume, j, pair):
        """Reads a cell that was not read since the opening."""
        if (j, pair) not in volume.unseen:
            return
        if self.draw.random() < self.flaky:
            try:
                volume.replicas[j].disk.fail()
            except DiskFailed as fault:
                fault.machine = volume.replicas[j].machine
                raise
        volume.unseen.discard((j, pair))

    def url(self, asked):
        yield
        rows, home = self.home_of(asked)
        if home is None:
            return f"unknown {rows}"
        pair = asked.command.pair
        machine = self.settings.machine_of(home, self.start_of(asked))
        return f"url {rows} " + text.Url(machine, home, pair, text.cookie_of(self.settings.secret, pair[0])).text()

    def start_of(self, asked):
        return asked.line % self.settings.replicas

    # READS

    def read(self, asked):
        yield
        rows, home = self.home_of(asked)
        if home is None:
            return f"unknown {rows}"
        return (yield from self.show(asked, self.volumes[home], rows, self.start_of(asked)))

    def get(self, asked):
        url = asked.command.url
        start = self.settings.replica_on(url.volume, url.machine)
        if start is None:
            return "nowhere"
        yield
        rows, home = self.home_of(asked)
        if home is None:
            return f"unknown {rows}"
        if home != url.volume:
            return f"moved {home} {rows}"
        return (yield from self.show(asked, self.volumes[home], rows, start))

    def show(self, asked, volume, rows, start):
        pair = asked.command.pair
        yield
        view = volume.views.look(asked.lane)
        yield
        causes = []
        for j in self.settings.order_from(start):
            replica = volume.replicas[j]
            if view.rows.get(pair, {j: None})[j] is not None and (j, pair) in volume.unseen:
                yield
                volume.views.show_all(asked.lane)
                view = volume.views.now()
                try:
                    self.see(volume, j, pair)
                except DiskFailed as fault:
                    causes.append(f"{replica.machine}:disk:{fault.count}")
                    continue
            told = f"{volume.number} {replica.machine} {view.front} {rows}"
            place = view.rows.get(pair, {j: None})[j]
            if place is None:
                return f"gone {told}"
            photo = self.fetch(asked.lane, replica, place)
            if photo is None:
                causes.append(f"{replica.machine}:arm:{self.arms[asked.lane]}")
                continue
            return self.shown(asked.command, photo, told)
        return f"unreadable {volume.number} {view.front} {rows} " + " ".join(causes)

    def fetch(self, lane, replica, place):
        """The photo of a place, as it was when the place was published; none where the arm failed."""
        if self.draw.random() < self.flaky:
            self.arms[lane] += 1
            return None
        return place.photo

    def shown(self, command, photo, told):
        cookie, data = photo
        if cookie != command.cookie:
            return f"wrong cookie {told}"
        return f"photo {told} {text.photo_text(data)}"

    # FLUSHES AND COMPACTIONS

    def replica_at(self, asked):
        """The volume, the number of its replica, and their names, or none where there is no such replica."""
        command = asked.command
        j = self.settings.replica_on(command.volume, command.machine)
        return None if j is None else (self.volumes[command.volume], j, f"{command.volume}:{command.machine}")

    def held_replica(self, asked):
        """Takes a replica's lock."""
        found = self.replica_at(asked)
        if found is not None:
            yield
            found[0].views.show_all(asked.lane)
        return found

    def flush(self, asked):
        found = yield from self.held_replica(asked)
        if found is None:
            return "nowhere"
        volume, j, name = found
        replica = volume.replicas[j]
        if volume.frozen is not None:
            return f"readonly {volume.number}:{volume.frozen}"
        if replica.stuck:
            return f"readonly {name}"
        try:
            return f"flushed {name} {replica.flush()}"
        except DiskFailed as fault:
            return f"failed {name} {fault.count}"

    def refused_begin(self, volume, j, name):
        run = volume.replicas[j].run
        if volume.frozen is not None:
            return f"readonly {volume.number}:{volume.frozen}"
        return f"busy {name} {run.goal}" if run else None

    def begin(self, asked):
        found = yield from self.held_replica(asked)
        if found is None:
            return "nowhere"
        volume, j, name = found
        if (refused := self.refused_begin(*found)) is not None:
            return refused
        try:
            volume.replicas[j].begin(asked.line)
        except DiskFailed as fault:
            return f"failed {name} {fault.count}"
        return f"begun {name} {volume.replicas[j].run.goal}"

    def refused_work(self, volume, j, name):
        if volume.frozen is not None:
            return f"readonly {volume.number}:{volume.frozen}"
        return None if volume.replicas[j].run else f"idle {name}"

    def step(self, asked):
        found = yield from self.held_replica(asked)
        if found is None:
            return "nowhere"
        volume, j, name = found
        if (refused := self.refused_work(*found)) is not None:
            return refused
        try:
            return f"stepped {name} {volume.replicas[j].step(asked.command.number)}"
        except DiskFailed as fault:
            return f"failed {name} {fault.count}"

    def finish(self, asked):
        found = yield from self.held_replica(asked)
        if found is None:
            return "nowhere"
        return self.refused_work(*found) or self.finish_run(*found)

    def finish_run(self, volume, j, name):
        replica = volume.replicas[j]
        try:
            goal = replica.finish()
        except SwitchFailed as fault:
            volume.freeze(replica.machine)
            return f"failed {name} {fault.count}"
        except DiskFailed as fault:
            return f"failed {name} {fault.count}"
        volume.swap(j)
        return f"compacted {name} {goal}"

    def compact(self, asked):
        found = yield from self.held_replica(asked)
        if found is None:
            return "nowhere"
        volume, j, name = found
        if (refused := self.refused_begin(*found)) is not None:
            return refused
        replica = volume.replicas[j]
        target = len(replica.cells())
        try:
            replica.begin(asked.line)
            examined = 0
            while examined < target:
                yield
                if (refused := self.refused_run(asked, *found)) is not None:
                    return refused
                examined += replica.step(64)
                self.take_or_drop(asked, replica)
        except DiskFailed as fault:
            return f"failed {name} {fault.count}"
        yield
        return self.refused_run(asked, *found) or self.finish_run(*found)

    def take_or_drop(self, asked, replica):
        """Want of memory ends the line's own compaction."""
        try:
            self.memory.take()
        except NoMemory:
            replica.run = None
            raise

    def refused_run(self, asked, volume, j, name):
        """The reply where the line's own compaction does not stand any more."""
        volume.views.show_all(asked.lane)
        run = volume.replicas[j].run
        if volume.frozen is not None:
            return f"readonly {volume.number}:{volume.frozen}"
        if run is None or run.line != asked.line:
            return f"failed {name} {volume.replicas[j].ended[asked.line]}"
        return None

    # DRAINS, FUSES AND RESTARTS

    def drain(self, asked):
        yield
        if asked.command.machine >= self.settings.machines:
            return "nowhere"
        self.directory.drained.add(asked.command.machine)
        return f"drained {asked.command.machine}"

    def undrain(self, asked):
        yield
        if asked.command.machine >= self.settings.machines:
            return "nowhere"
        self.directory.drained.discard(asked.command.machine)
        return f"undrained {asked.command.machine}"

    def fuse(self, asked):
        yield
        if asked.command.volume is None:
            self.directory.disk.fuse = asked.command.number
            return f"fused dir {asked.command.number}"
        found = self.replica_at(asked)
        if found is None:
            return "nowhere"
        volume, j, name = found
        volume.replicas[j].disk.fuse = asked.command.number
        return f"fused {name} {asked.command.number}"

    def restart(self, asked):
        rows, pick = len(self.directory.rows), asked.command.number
        self.directory.power_cycle(pick)
        for volume in self.volumes:
            volume.power_cycle(pick)
        notes = [note for volume in self.volumes for note in volume.notes()] + self.directory.notes(rows)
        for opened in (*self.volumes, self.directory):
            opened.open()
        return [f"{asked.line} restarted {len(self.directory.rows)}", *notes]
