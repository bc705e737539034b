"""Stores with one planted fault each, for bench/blocks.py: the store of block_store.py with one of its methods changed."""

import block_text as text
from block_store import Directory, Disk, DiskFailed, Place, Replica, Store, View, Views, Volume


def store_with(**parts):
    """A kind of store with these methods."""
    return type("FaultyStore", (Store,), parts)


def of_volume(**parts):
    return store_with(volume_kind=type("FaultyVolume", (Volume,), parts))


def of_replica(**parts):
    return of_volume(replica_kind=type("FaultyReplica", (Replica,), parts))


def of_views(**parts):
    return of_volume(views_kind=type("FaultyViews", (Views,), parts))


def of_directory(**parts):
    return store_with(directory_kind=type("FaultyDirectory", (Directory,), parts))


def of_disk(**parts):
    kind = type("FaultyDisk", (Disk,), parts)

    def made(self, machine):
        Replica.__init__(self, machine)
        self.disk = kind()

    return of_replica(__init__=made)


# READS


def older_view(self, lane):
    view = Views.look(self, lane)
    return self.views[max(0, self.seen[lane] - 1)] if self.draw.random() < 0.1 else view


def rows_of_another_front(self, lane):
    view = Views.look(self, lane)
    return View(view.front, self.draw.choice(self.views).rows) if self.draw.random() < 0.1 else view


def own_put_unseen(self, asked, volume, rows):
    seen = volume.views.seen[asked.lane]
    reply = Store.put_home(self, asked, volume, rows)
    volume.views.seen[asked.lane] = seen
    return reply


def place_in_new_file(self, lane, replica, place):
    photo, cells = Store.fetch(self, lane, replica, place), replica.cells()
    return cells[place.index].photo if photo and place.index < len(cells) else photo


def any_cookie(self, command, photo, told):
    return f"photo {told} {text.photo_text(photo[1])}"


def falling_arm(self, lane, replica, place):
    photo = Store.fetch(self, lane, replica, place)
    if photo is None and self.arms[lane] > 1:
        self.arms[lane] -= 2
    return photo


def next_start(self, asked):
    return (asked.line + 1) % self.settings.replicas if asked.command.word == "url" else Store.start_of(self, asked)


# PUTS AND DELETES


def position_before(self, line, pair, photo):
    position = Volume.put(self, line, pair, photo)
    return position - 1 if position > 1 and self.draw.random() < 0.3 else position


def refusal_unfrozen(self, drained, size):
    frozen, self.frozen = self.frozen, None
    try:
        return Volume.refusal(self, drained, size)
    finally:
        self.frozen = frozen


def on_disk_frozen(self, replica, pending, change):
    try:
        return change(replica)
    except DiskFailed:
        if self.frozen is None or not pending.is_put:
            return Volume.on_disk(self, replica, pending, change)
        return Place(replica.generation, 0, None)


def first_disk_alone(self, replica, pending, change):
    if not pending.is_put and replica.last_of(replica.cells(), pending.pair) is None:
        return None
    if replica is self.replicas[0] or not pending.is_put:
        return Volume.on_disk(self, replica, pending, change)
    first = self.replicas[0].cells()[-1]
    return Place(replica.generation, len(replica.cells()), first.photo)


def second_try(self, asked):
    tries = self.settings.tries_of(asked.command.pair)
    yield
    if len(tries) > 1 and self.volumes[tries[1]].refusal(self.directory.drained, len(asked.command.data)) is None:
        return tries[1]
    return (yield from Store.choose(self, asked))


def less_room(self, size):
    return next((replica for replica in self.replicas if replica.end() + text.total_of(size) + 264 > self.settings.capacity), None)


def highest_lacking(self, size):
    return next((replica for replica in reversed(self.replicas) if replica.end() + text.total_of(size) + 8 > self.settings.capacity), None)


def closed_at_times(self, drained):
    closed = Volume.closed(self, drained)
    return self.replicas[0].machine if closed is None and self.draw.random() < 0.1 else closed


def undrained(self, drained):
    return Volume.closed(self, set())


def nothing_pending(self, pending):
    pass


def unpublished_delete(self, line, pair):
    rows = self.views.now().rows
    position = Volume.delete(self, line, pair)
    self.views.now().rows = rows
    return position


def deletes_nothing(self, volume, pair):
    return True


def deletes_at_times(self, volume, pair):
    return Store.deletes(self, volume, pair) and self.draw.random() < 0.8


# DISKS, FLUSHES AND COMPACTIONS


def unrisen(self):
    if self.count == 0:
        self.count = 1
    raise DiskFailed(self.count)


def unrepeated(self, pair):
    pass


def one_more(self):
    count = Replica.unrecorded(self)
    return count + 1 if count else 0


def unstuck(self):
    try:
        return Replica.flush(self)
    finally:
        self.stuck = False


def two_further(self):
    return self.generation + 2


def rest_unexamined(self):
    pass


def unflagged(self, cell):
    """A flag that reads of this session give, and a stop takes away."""
    cell.deleted = True
    self.flags = getattr(self, "flags", []) + [cell]


def flags_lost(self, pick):
    Replica.power_cycle(self, pick)
    for cell in getattr(self, "flags", []):
        cell.deleted = False
    self.flags = []


def orphans_lost(self, pick):
    Replica.power_cycle(self, pick)
    self.files[self.generation] = self.cells()[: self.records]


def freeze_beside_runs(self, machine):
    self.frozen = machine


def unfrozen_run(self, asked, volume, j, name):
    frozen, volume.frozen = volume.frozen, None
    try:
        return Store.refused_run(self, asked, volume, j, name)
    finally:
        volume.frozen = frozen


def end_further(self, drained, size):
    refused = Volume.refusal(self, drained, size)
    if refused is None or refused[0] == "ro":
        return refused
    volume, machine, end, need = refused[1].split(":")
    return "full", f"{volume}:{machine}:{int(end) + 8}:{need}"


def end_of_before(self, drained, size):
    """The end from before the last put, where that leaves no room either."""
    refused, replica = Volume.refusal(self, drained, size), self.lacking(size)
    if refused is None or refused[0] == "ro" or not replica.cells():
        return refused
    end = replica.end() - replica.cells()[-1].total()
    if end + text.total_of(size) + 8 <= self.settings.capacity:
        return refused
    return "full", f"{self.number}:{replica.machine}:{end}:{text.total_of(size)}"


def other_machine(self, drained):
    closed = Volume.closed(self, drained)
    return next((replica.machine for replica in self.replicas if replica.machine != closed), closed) if self.frozen is not None else closed


def first_flag_alone(self, pair):
    return Volume.holders(self, pair)[:1]


def one_less(self):
    return max(0, Replica.unrecorded(self) - 1)


def rows_before(self, asked, volume, rows):
    own = any(line == asked.line for line, _ in self.directory.new)
    return Store.put_home(self, asked, volume, rows - 1 if own else rows)


def no_row_note(self, rows_before):
    return []


def rows_exchanged(self, rows, new):
    return Store.row_notes(self, rows, new[1::-1] + new[2:])


def open_behind_failure(self, machine):
    pass


def open_behind_want(self, pending):
    pass


def older_rows(self, lane):
    rows = Views.look(self, lane)
    return self.views[max(0, self.seen[lane] - 1)] if self.draw.random() < 0.1 else rows


def last_cell_lost(self, pick):
    Replica.power_cycle(self, pick)
    self.files[self.generation] = self.cells()[:-1]
    self.records = min(self.records, len(self.cells()))


def busy_at_times(self, volume, j, name):
    refused = Store.refused_begin(self, volume, j, name)
    return f"busy {name} {volume.replicas[j].generation + 1}" if refused is None and self.draw.random() < 0.2 else refused


def kept_or_lost(self, j):
    return not Volume.kept(self, j)


# THE DIRECTORY AND THE NOTES


def row_again(self, line, pair, volume):
    rows, self.rows = self.rows, [row for row in self.rows if row[0] != pair]
    missing = len(rows) - len(self.rows)
    try:
        home = Directory.settle(self, line, pair, volume)
    finally:
        new = self.rows[len(rows) - missing :]
        self.rows = rows + new
    self.views.publish(len(self.rows))
    return home


def no_row_at_times(self, line, pair, volume):
    return None if self.draw.random() < 0.2 else Directory.settle(self, line, pair, volume)


def last_row_lost(self):
    self.rows = self.rows[:-1]
    Directory.open(self)


def drains_stay(self):
    drained = set(self.drained)
    Directory.open(self)
    self.drained |= drained


def line_left_out(self, fronts):
    notes = [note.rpartition(" ")[0] for note in Store.log_notes(self, fronts)]
    return [note for note in notes if len(note.split()) > 3]


def lines_exchanged(self, fronts):
    notes = []
    for note in Store.log_notes(self, fronts):
        words = note.split()
        notes.append(" ".join(words[:-2] + words[:-3:-1]) if len(words) > 4 else note)
    return notes


def row_left_out(self, rows, new):
    return Store.row_notes(self, rows, new[:-1])


def replies_exchanged(self, block):
    notes = Store.run_block(self, block)
    puts = [asked.line for asked in block.asked if asked.command and asked.command.word == "put"]
    if len(puts) < 2:
        return notes
    first, last = self.replies[puts[0]], self.replies[puts[-1]]
    told = {f"{puts[0]} {first}": f"{puts[0]} {last}", f"{puts[-1]} {last}": f"{puts[-1]} {first}"}
    return [told.get(note, note) for note in notes]


FAULTS = {
    "a read shows an older front than its lane was told": of_views(look=older_view),
    "a read shows the photo of another front": of_views(look=rows_of_another_front),
    "a lane does not see its own put": store_with(put_home=own_put_unseen),
    "an old place is read in the new file after a swap": store_with(fetch=place_in_new_file),
    "a wrong cookie is not refused": store_with(shown=any_cookie),
    "an arm's count falls": store_with(fetch=falling_arm),
    "a URL names another machine": store_with(start_of=next_start),
    "two puts are stored at one position": of_volume(put=position_before),
    "a put is acknowledged on a volume that froze": of_volume(refusal=refusal_unfrozen, on_disk=on_disk_frozen),
    "a put is acknowledged behind the first replica": of_volume(on_disk=first_disk_alone),
    "a row for the second try though the first takes it": store_with(choose=second_try),
    "full where there is room": of_volume(lacking=less_room),
    "full names the highest replica without room": of_volume(lacking=highest_lacking),
    "readonly without a freeze or drain": of_volume(closed=closed_at_times),
    "a drained machine takes changes": of_volume(closed=undrained),
    "a failed change is not pending": of_volume(leave_pending=nothing_pending),
    "a deletion is not published": of_volume(delete=unpublished_delete),
    "a photo that is not there is deleted": store_with(deletes=deletes_nothing),
    "a photo that is there is gone for a delete": store_with(deletes=deletes_at_times),
    "failed without a risen count": of_disk(fail=unrisen),
    "a delete is not repeated in a standing copy": of_replica(repeat=unrepeated),
    "a flush tells one record too many": of_replica(unrecorded=one_more),
    "a flush goes on behind one that failed": of_replica(flush=unstuck),
    "a compaction leaves a generation out": of_replica(next_generation=two_further),
    "a compaction drops the cells that came meanwhile": of_replica(examine_rest=rest_unexamined),
    "busy where no compaction stands": store_with(refused_begin=busy_at_times),
    "a compaction goes on in a frozen volume": store_with(
        refused_run=unfrozen_run, volume_kind=type("FaultyVolume", (Volume,), {"freeze": freeze_beside_runs})
    ),
    "a failed change does not freeze the volume": of_volume(freeze=open_behind_failure),
    "want of memory behind a change leaves the volume open": of_volume(want_memory=open_behind_want),
    "full tells an end eight bytes further": of_volume(refusal=end_further),
    "full tells the end of before the last put": of_volume(refusal=end_of_before),
    "a freeze names another machine": of_volume(closed=other_machine),
    "a delete is acknowledged behind the first replica": of_volume(holders=first_flag_alone),
    "a flush tells one record too few": of_replica(unrecorded=one_less),
    "stored tells fewer rows than with its own": store_with(put_home=rows_before),
    "a row that failed is not pending": of_directory(notes=no_row_note),
    "two rows of the notes are exchanged": store_with(row_notes=rows_exchanged),
    "a lane is shown fewer rows than before": of_directory(views_kind=type("FaultyViews", (Views,), {"look": older_rows})),
    "a restart loses the last cell": of_replica(power_cycle=last_cell_lost),
    "a restart brings deleted photos back": of_replica(flag=unflagged, power_cycle=flags_lost),
    "an opening passes over cells without a record": of_replica(power_cycle=orphans_lost),
    "kept and lost are exchanged": of_volume(kept=kept_or_lost),
    "a pair gets a second row": of_directory(settle=row_again),
    "readonly dir without a freeze": of_directory(settle=no_row_at_times),
    "a restart loses a row": of_directory(open=last_row_lost),
    "drains stay over a restart": of_directory(open=drains_stay),
    "a line is left out of the notes": store_with(log_notes=line_left_out),
    "two lines of a log are exchanged": store_with(log_notes=lines_exchanged),
    "a row is left out of the notes": store_with(row_notes=row_left_out),
    "the replies of two puts are exchanged": store_with(run_block=replies_exchanged),
}
