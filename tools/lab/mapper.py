"""Mapper: the kernel's device mapper, by its ioctls. A table's lines are as `dmsetup` takes them."""
import fcntl
import os
import struct

CONTROL = "/dev/mapper/control"
# struct dm_ioctl: version, size, start of the data, targets, opens, flags, event, padding, device, name, uuid.
HEAD = struct.Struct("=3I2IIiIIIQ128s129s7x")
TARGET = struct.Struct("=QQiI16s")  # struct dm_target_spec: start, length, status, offset of the next one, kind
CREATE, REMOVE, SUSPEND, LOAD, MESSAGE = 3, 4, 6, 9, 14
SKIP_LOCKFS, NO_FLUSH = 1 << 10, 1 << 11
VERSION = (4, 0, 0)


def ask(command, name, data=b"", targets=0, flags=0):
    """Asks the kernel for something of a device."""
    size = HEAD.size + len(data)
    head = HEAD.pack(*VERSION, size, HEAD.size, targets, 0, flags, 0, 0, 0, name.encode(), b"")
    control = os.open(CONTROL, os.O_RDWR)
    try:
        fcntl.ioctl(control, 0xC000FD00 | HEAD.size << 16 | command, bytearray(head + data))
    finally:
        os.close(control)


def targets_of(table):
    """A table's lines as the kernel takes them: start, length, kind, and the words for the kind."""
    data = b""
    for line in table:
        start, length, kind, *words = line.split(" ", 3)
        words = "".join(words).encode() + b"\0"
        words += bytes(-len(words) % 8)
        data += TARGET.pack(int(start), int(length), 0, TARGET.size + len(words), kind.encode()) + words
    return data


def create(name, table):
    """Makes a device of these parts. Its node is `/dev/dm-N` with the first free number."""
    ask(CREATE, name)
    ask(LOAD, name, targets_of(table), len(table))
    ask(SUSPEND, name)


def replace(name, table):
    """Gives a device other parts. Without these flags the file system would be synced first."""
    ask(LOAD, name, targets_of(table), len(table))
    ask(SUSPEND, name, flags=NO_FLUSH | SKIP_LOCKFS)


def tell(name, message):
    """Tells the device's first target something."""
    ask(MESSAGE, name, struct.pack("=Q", 0) + message.encode() + b"\0")


def remove(name):
    ask(REMOVE, name)
