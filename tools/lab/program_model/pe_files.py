"""PE32+ files: what their headers say, and the bytes of their sections."""
import struct

from lab.program_model.refusals import LIMIT


class NotPe(Exception):
    """A file is no PE32+ file, and why."""


class Section:
    """A section by its header, and the place of that."""

    def __init__(self, header, place):
        self.padded = header[:8]
        self.name = self.padded.split(b"\0")[0].decode("latin-1")
        self.size, self.address, self.raw_size, self.raw_place = struct.unpack_from("<4I", header, 8)
        self.place = place

    def loaded(self, image):
        raw = image[self.raw_place:self.raw_place + min(self.size, self.raw_size)] if self.raw_size else b""
        return raw + bytes(self.size - len(raw))

    def end(self):
        return self.address + self.size


class Pe:
    """What the headers of a file say. The first check that fails is told with its place."""

    def __init__(self, image):
        self.image, n = image, len(image)

        def check(well, reason, place):
            if not well:
                raise NotPe(f"not a PE32+ file: {reason} at {place}")

        def number(place, kind="I"):
            return struct.unpack_from("<" + kind, image, place)[0]

        def is_power(value):
            return 1 <= value <= 65_536 and value & (value - 1) == 0

        check(n >= 64, "short file", n)
        check(image[:2] == b"MZ", "no MZ", 0)
        p = self.head = number(60)
        check(p >= 64, "PE place", 60)
        check(p + 24 <= n, "short headers", n)
        check(image[p:p + 4] == b"PE\0\0", "no PE signature", p)
        count, optional, o = number(p + 6, "H"), number(p + 20, "H"), p + 24
        check(count <= 96, "too many sections", p + 6)
        check(optional >= 112, "short optional header", p + 20)
        t = self.table = o + optional
        check(t <= n, "short headers", n)
        check(number(o, "H") != 0x10B, "PE32", o)
        check(number(o, "H") == 0x20B, "unknown magic", o)
        self.alignment, self.file_alignment = number(o + 32), number(o + 36)
        check(is_power(self.alignment), "section alignment", o + 32)
        check(is_power(self.file_alignment) and self.file_alignment <= self.alignment, "file alignment", o + 36)
        directories = number(o + 108)
        check(112 + 8 * directories <= optional, "directories", o + 108)
        check(t + 40 * count <= n, "short headers", n)
        self.headers = number(o + 60)
        check(t + 40 * count <= self.headers <= n, "header size", o + 60)
        self.certificates = number(o + 148) if directories >= 5 else 0
        self.initialized = number(o + 8)
        self.sections = []
        for e in range(t, t + 40 * count, 40):
            one = Section(image[e:e + 40], e)
            check(one.size <= LIMIT, "virtual size", e + 8)
            check(one.end() <= 1 << 32, "address", e + 12)
            end = one.raw_place + one.raw_size
            check(not one.raw_size or self.headers <= one.raw_place and end <= n, "raw data", e + 20)
            apart = all(end <= it.raw_place or it.raw_place + it.raw_size <= one.raw_place for it in self.sections if it.raw_size)
            check(not one.raw_size or apart, "overlap", e + 20)
            self.sections.append(one)

    def loaded(self, name):
        """The loaded bytes of the first section of that name, none where there is none."""
        return next((one.loaded(self.image) for one in self.sections if one.name == name), b"")


def shown(name):
    return "".join(c if "!" <= c <= "~" else f"\\x{ord(c):02x}" for c in name)


def up(number, unit):
    return -(-number // unit) * unit
