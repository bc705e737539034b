"""Whether what a store of block_store.py stands at is among the states that the judge of bench/blocks.py keeps of it."""


def is_kept(store, worlds):
    return any(is_world(store, world) for world in worlds)


def is_world(store, world):
    if not is_directory(store.directory, world.directory) or world.drained != store.directory.drained:
        return False
    if [len(log) for log in world.logs] != [volume.front() for volume in store.volumes]:
        return False
    return all(any(is_volume(volume, stand) for stand in stands) for volume, stands in zip(store.volumes, world.stands))


def is_directory(directory, kept):
    pending = kept.pending and kept.pending.line
    return (directory.rows, directory.frozen, directory.pending) == ([tuple(row) for row in kept.rows], kept.frozen, pending)


def is_volume(volume, stand):
    pending = (volume.pending and volume.pending.line, stand.pending and stand.pending.line)
    if volume.frozen != stand.frozen or pending[0] != pending[1]:
        return False
    kinds = zip(volume.replicas, stand.replicas)
    return all(any(is_replica(replica, kept, volume.frozen is not None) for kept in choices) for replica, choices in kinds)


def is_replica(replica, kept, is_frozen):
    """A frozen volume's replica may have a change on its disk that is not known of yet."""
    if (kept.generation, kept.stuck is not None) != (replica.generation, replica.stuck) or kept.count > replica.disk.count:
        return False
    return is_frozen or (cells_of(replica.cells()), replica.unrecorded(), run_of(replica)) == (list(kept.cells), kept.bare, copy_of(kept))


def cells_of(cells):
    return [(cell.pair, cell.total(), cell.deleted) for cell in cells]


def run_of(replica):
    run = replica.run
    return run and (run.goal, run.examined, cells_of(replica.files[run.goal]))


def copy_of(kept):
    copy = kept.copy
    return copy and (copy.goal, copy.examined, list(copy.cells))
