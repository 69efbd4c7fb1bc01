"""Images: small PE32+ files, for stubs and for entries."""
import random
import struct


def pe_file(sections):
    """A PE32+ file with sections of these names and bytes."""
    rounded = lambda size, unit: -(-size // unit) * unit
    head = rounded(200 + 40 * len(sections), 512)
    file = bytearray(head)

    def put(place, form, *values):
        struct.pack_into("<" + form, file, place, *values)

    put(0, "2s", b"MZ")
    put(60, "I", 64)
    put(64, "4sHH", b"PE\0\0", 0x8664, len(sections))
    put(84, "HHH", 112, 0x22, 0x20B)
    put(104, "I", 4096)
    put(120, "II", 4096, 512)
    address = 4096
    for number, (name, data) in enumerate(sections):
        put(200 + 40 * number, "8sIIII", name, len(data), address, rounded(len(data), 512), len(file))
        put(236 + 40 * number, "I", 0x60000020)
        file += data.ljust(rounded(len(data), 512), b"\0")
        address += rounded(len(data), 4096)
    put(144, "II", address, head)
    put(156, "H", 10)
    return bytes(file)


def small_stub():
    """A PE32+ stub with one section."""
    return pe_file([(b".text", bytes(32))])


def small_image(number, size):
    """An image with a kernel of that size that no other number's image equals."""
    release = b'ID=demo\nVERSION_ID=%d\nPRETTY_NAME="Demo %d"\n' % (number, number)
    return pe_file([(b".osrel", release), (b".linux", random.Random(number).randbytes(size))])
