"""The slots of a FAT disk, and edits of them as a cut or another program leaves them."""
import struct


class Name:
    """A name in a folder: its text, and the places of its long-name slots and of its short one."""

    def __init__(self, fat, long, short):
        self.fat, self.long, self.short = fat, long, short

    def text(self):
        slots = [self.fat.slot(place) for place in reversed(self.long)]
        units = b"".join(slot[1:11] + slot[14:26] + slot[28:32] for slot in slots).decode("utf-16-le")
        return units.split("\0")[0] or self.alias()

    def alias(self):
        stem, suffix = (part.decode("cp437").rstrip() for part in (self.field(0, 8), self.field(8, 11)))
        return f"{stem}.{suffix}" if suffix else stem

    def field(self, start, end):
        return self.fat.slot(self.short)[start:end]

    def set(self, start, data):
        self.fat.disk[self.short + start : self.short + start + len(data)] = data

    def take_alias(self, other):
        """Gives it the short alias of another name, and its long-name slots the checksum of that."""
        self.set(0, other.field(0, 11))
        check = 0
        for byte in self.field(0, 11):
            check = ((check >> 1 | check << 7) + byte) & 0xFF
        for place in self.long:
            self.fat.disk[place + 13] = check


class Fat:
    """A FAT32 disk whose sectors and clusters have 512 bytes. Its edits are what a cut between two sectors leaves."""

    def __init__(self, disk):
        self.disk = disk
        reserved, copies = struct.unpack_from("<HB", disk, 14)
        (sectors,) = struct.unpack_from("<I", disk, 36)
        (self.root,) = struct.unpack_from("<I", disk, 44)
        self.table, self.data = 512 * reserved, 512 * (reserved + copies * sectors)

    def slot(self, place):
        return bytes(self.disk[place : place + 32])

    def places(self, cluster):
        """The places of a folder's slots, in their order."""
        while 2 <= cluster < 0x0FFFFFF8:
            start = self.data + 512 * (cluster - 2)
            yield from range(start, start + 512, 32)
            cluster = struct.unpack_from("<I", self.disk, self.table + 4 * cluster)[0] & 0x0FFFFFFF

    def names(self, cluster):
        long = []
        for place in self.places(cluster):
            first, kind = self.disk[place], self.disk[place + 11]
            if first == 0:
                return
            if first != 0xE5 and kind != 0x0F:
                yield Name(self, long, place)
            long = [*long, place] if first != 0xE5 and kind == 0x0F else []

    def find(self, path):
        cluster = self.root
        for part in path.split("/"):
            name = next(name for name in self.names(cluster) if name.text().lower() == part.lower())
            high, low = struct.unpack("<H", name.field(20, 22)) + struct.unpack("<H", name.field(26, 28))
            cluster = high << 16 | low
        return name

    # Edits.

    def share(self, first, second):
        """The second name gets the clusters, the length and the time of the first."""
        self.find(second).set(20, self.find(first).field(20, 32))

    def share_all(self, first, second):
        """The second name gets the clusters, the length, the time and the short alias of the first."""
        self.share(first, second)
        self.find(second).take_alias(self.find(first))

    def take_time(self, first, second):
        self.find(second).set(22, self.find(first).field(22, 26))

    def empty(self, path):
        """The name has no bytes; the clusters stay marked."""
        name = self.find(path)
        name.set(20, bytes(2))
        name.set(26, bytes(6))

    def bare(self, path):
        """The short alias alone is left, in capitals."""
        name = self.find(path)
        for place in name.long:
            self.disk[place] = 0xE5
        name.set(12, bytes(1))

    def remove(self, path):
        """No name is left; the clusters stay marked."""
        name = self.find(path)
        for place in [*name.long, name.short]:
            self.disk[place] = 0xE5
