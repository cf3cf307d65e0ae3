"""Places the entries of a trace: a lane for each partition, and columns in which no entry stands left of one before it."""

from dataclasses import dataclass


@dataclass(frozen=True)
class Spot:
    """An entry with its column, from 0."""

    entry: object
    column: int


def predecessors(entries):
    """For each entry the one before it in its partition, and the one that its session asked for before it."""
    before = {entry: [] for entry in entries}
    in_part = lambda entry: (entry.part, entry.place)
    in_session = lambda entry: (entry.session, entry.sync)
    for order in (in_part, in_session):
        ordered = sorted(entries, key=order)
        for first, second in zip(ordered, ordered[1:]):
            if order(first)[0] == order(second)[0]:
                before[second].append(first)
    return before


def spots(entries):
    """Each entry at the first column behind all that came before it, column by column.

    A trace tells the order within each partition, and each session asks for one thing after the other. Entries of
    different partitions and sessions may have come in any order, and may share a column.
    """
    before = predecessors(entries)
    waiting = {entry: len(firsts) for entry, firsts in before.items()}
    behind = {entry: [] for entry in entries}
    for entry, firsts in before.items():
        for first in firsts:
            behind[first].append(entry)
    columns = {entry: 0 for entry in entries}
    ready = [entry for entry in entries if waiting[entry] == 0]
    placed = []
    while ready:
        entry = ready.pop()
        placed.append(Spot(entry, columns[entry]))
        for later in behind[entry]:
            columns[later] = max(columns[later], columns[entry] + 1)
            waiting[later] -= 1
            if waiting[later] == 0:
                ready.append(later)
    return sorted(placed, key=lambda spot: (spot.column, spot.entry.part))


def lanes(entries):
    """How many partitions have to be shown."""
    return max((entry.part for entry in entries), default=-1) + 1


def bands(placed, width):
    """The spots in bands of so many columns, each a list of spots with columns from 0."""
    count = max((spot.column for spot in placed), default=-1) // width + 1
    cut = [[] for _ in range(count)]
    for spot in placed:
        cut[spot.column // width].append(Spot(spot.entry, spot.column % width))
    return cut
