"""Recordings: the writes of a disk in their order, and the disk as a cut leaves it between any two of them."""
import collections
import itertools
import struct

# A disk as it was after some writes, and how many replies were given before.
Moment = collections.namedtuple("Moment", "name disk replies")


def entries_of(log):
    """What dm-log-writes kept: the place, the bytes, the flags and the mark of each entry, in order."""
    _, _, count, unit = struct.unpack_from("<QQQI", log)
    place = unit
    for _ in range(count):
        sector, sectors, flags, length = struct.unpack_from("<QQQQ", log, place)
        mark = log[place + 32 : place + 32 + length].decode() if flags & 8 else ""
        size = 0 if flags & 4 else sectors * 512
        yield sector * 512, log[place + unit : place + unit + size], flags, mark
        place += unit + size


def moments(disk, log, order):
    """Each moment of a recording at which the disk has changed; in any order also choices of what waits for a flush."""
    now, replies, number, firm, waiting = bytearray(disk), 0, 0, disk, []
    yield Moment("0", disk, 0)
    for place, data, flags, mark in entries_of(log):
        replies += mark.startswith("reply-")
        number += bool(data)
        changes = now[place : place + len(data)] != data
        now[place : place + len(data)] = data
        waiting += [(place, data)] if changes else []
        if changes or mark.startswith("reply-"):
            yield Moment(f"{number}", bytes(now), replies)
        if flags & 3 and order == "any":
            yield from choices(number, firm, waiting, replies)
        if flags & 3:
            firm, waiting = bytes(now), []


def choices(number, firm, writes, replies):
    """The disk with any choice of the writes between two flushes, of which there are few, that is no first part."""
    for chosen in itertools.product([False, True], repeat=len(writes) if len(writes) <= 5 else 0):
        if sorted(chosen, reverse=True) != list(chosen):
            disk = bytearray(firm)
            for (place, data), is_there in zip(writes, chosen):
                if is_there:
                    disk[place : place + len(data)] = data
            yield Moment(f"{number}-{''.join(str(int(it)) for it in chosen)}", bytes(disk), replies)
