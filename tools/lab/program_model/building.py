"""Building: the image of a stub and its parts."""
import struct

from lab.program_model.pe_files import NotPe, Pe, shown, up
from lab.program_model.refusals import LIMIT, Refused


def sbat_entries(text):
    lines = text.split(b"\0")[0].split(b"\n")
    return [line for line in lines[1:] if line] if lines[0].startswith(b"sbat,") else []


def merged_sbat(stub, kernel, given):
    try:
        of_kernel = Pe(kernel).loaded(".sbat")
    except NotPe:
        of_kernel = b""
    entries = sbat_entries(stub) + sbat_entries(of_kernel) + sbat_entries(given)
    first = b"sbat,1,SBAT Version,sbat,1,https://github.com/rhboot/shim/blob/main/SBAT.md\n"
    return first + b"".join(entry + b"\n" for entry in entries) + b"\0" if entries else b""


def joined_initrds(files):
    return files[0] if len(files) == 1 else b"".join(one + bytes(-len(one) % 4) for one in files)


def image_of(stub, parts, sbat, output):
    """The image of a stub, parts with their names in append order, and a new `.sbat`; or the first refusal."""
    pe = Pe(stub)
    old = next((one for one in pe.sections if one.name == ".sbat"), None)
    if sbat and not old:
        parts = [*parts[:-1], (".sbat", sbat), parts[-1]]
    parts = [(name, content) for name, content in parts if content]
    if pe.certificates:
        raise Refused(5, "the stub has a certificate table")
    names = [one.name for one in pe.sections]
    for name, _ in parts:
        if name in names:
            raise Refused(7, f"section {shown(name)} is there twice")
        names.append(name)
    if sbat and old and len(sbat) > old.raw_size:
        raise Refused(9, f".sbat has {len(sbat)} bytes and room for {old.raw_size}")
    count = len(pe.sections)
    need, have = pe.table + 40 * (count + len(parts)), min(pe.headers, pe.table + 3840)
    if need > have:
        raise Refused(6, f"headers need {need} bytes and have {have}")
    ends = [one.address + (len(sbat) if sbat and one is old else one.size) for one in pe.sections]
    end, length, rows = max([pe.headers, *ends]), len(stub), []
    for name, content in parts:
        address, place = up(end, pe.alignment), up(length, pe.file_alignment)
        rows.append((name, content, address, place))
        end, length = address + len(content), place + up(len(content), pe.file_alignment)
    size, initialized = up(end, pe.alignment), pe.initialized + sum(len(content) for _, content in parts)
    for number in (size, initialized):
        if number >= 1 << 32:
            raise Refused(10, f"the image ends at {number}")
    if length > LIMIT:
        raise Refused(3, f"/{output} has {length} bytes")
    image, o = bytearray(length), pe.head + 24
    image[:len(stub)] = stub
    struct.pack_into("<H", image, pe.head + 6, count + len(parts))
    for place, number in ((o + 8, initialized), (o + 56, size), (o + 64, 0)):
        struct.pack_into("<I", image, place, number)
    if sbat and old:
        struct.pack_into("<I", image, old.place + 8, len(sbat))
        image[old.raw_place:old.raw_place + old.raw_size] = sbat + bytes(old.raw_size - len(sbat))
    for index, (name, content, address, place) in enumerate(rows):
        raw_size, flags = up(len(content), pe.file_alignment), 0x40000020 if name == ".linux" else 0x40000040
        struct.pack_into("<8s4I12xI", image, pe.table + 40 * (count + index), name.encode("latin-1"), len(content), address, raw_size,
                         place, flags)
        image[place:place + len(content)] = content
    return bytes(image)
