"""Samples: the files that stories begin with."""
import struct

from lab.program_model.pe_files import up


def headers(directories=0, **fields):
    """Headers of 512 bytes for x86-64, without a section."""
    image = bytearray(512)
    numbers = {0: 0x5A4D, 60: 64, 64: 0x4550, 68: 0x8664, 84: 112 + 8 * directories, 88: 0x20B, 104: 4096, 120: 4096, 124: 512, 148: 512,
               156: 10, 196: directories}
    for place, number in numbers.items():
        struct.pack_into("<I" if place not in (0, 68, 84, 88, 156) else "<H", image, place, number)
    struct.pack_into("<H", image, 86, 0x22)
    return image


def with_section(image, name, size, address, raw_size, raw_place, flags, content=b""):
    image = bytearray(image)
    count = struct.unpack_from("<H", image, 70)[0]
    at = 88 + struct.unpack_from("<H", image, 84)[0] + 40 * count
    end = raw_place + raw_size
    image += bytes(max(0, end - len(image)) if raw_size else 0)
    struct.pack_into("<8s4I12xI", image, at, name, size, address, raw_size, raw_place, flags)
    struct.pack_into("<H", image, 70, count + 1)
    struct.pack_into("<I", image, 144, up(address + max(size, 1), 4096))
    if raw_size:
        image[raw_place:raw_place + len(content)] = content
    return image


def changed(image, *changes):
    image = bytearray(image)
    for place, number in changes:
        struct.pack_into("<I", image, place, number & 0xFFFFFFFF)
    return bytes(image)


CODE, DATA, KERNEL = 0x60000020, 0x40000040, 0x40000020
OSREL = b'ID=demo\nPRETTY_NAME="Demo"\n'
FIRST = b"sbat,1,SBAT Version,sbat,1,https://github.com/rhboot/shim/blob/main/SBAT.md\n"


def stub(directories=0):
    return with_section(headers(directories), b".text", 32, 0x1000, 512, 512, CODE)


def stub_with(name, size, content):
    return with_section(stub(), name, size, 0x2000, 512, 1024, DATA, content)


def image_of_two(name, content):
    image = with_section(stub_with(name, len(content), content), b".linux", 3, 0x3000, 512, 1536, KERNEL, b"abc")
    return changed(image, (96, len(content) + 3))


def kernel_image():
    return changed(with_section(stub(), b".linux", 3, 0x2000, 512, 1024, KERNEL, b"abc"), (96, 3))


def titled(osrel):
    return bytes(with_section(kernel_image(), b".osrel", min(len(osrel), 512), 0x3000, 512, 1536, DATA, osrel))


def usual_stub():
    image = changed(headers(16), (96, 0x105), (148, 1024), (152, 0x04030201))
    image = with_section(image, b".text", 32, 0x1000, 512, 1024, CODE, b"code")
    for index, name in enumerate((b".rodata", b".data", b".sdmagic", b".reloc"), 2):
        image = with_section(image, name, 0, 0x1000 * index, 0, 0, 0)
    return bytes(image) + b"x"


def samples(parts):
    """The files of a new machine."""
    two = image_of_two(b".osrel", OSREL)
    common = {"k": b"abc", "stub": bytes(stub()), "u.efi": two}
    if not parts:
        return {**common, "v.efi": image_of_two(b".osrel", b'ID=demo\nPRETTY_NAME="Next"\n'), "out.efi": kernel_image(),
                "untitled.efi": image_of_two(b".osrel", b"ID=\n")}
    plain = {"e": b"", "osr": OSREL, "c": b"quiet", "c2": b"  a\tb \n", "i": b"i", "a": b"aaaaa", "b": b"bbb", "w": b"w", "d": b"d",
             "v": b"6.8", "s": b"s", "t": FIRST + b"local,1,Local,local,1,https://example.org/\n", "p": b"p", "sig": b"1234567"}
    s2 = bytes(stub_with(b".sbat", 116, FIRST + b"stub,1,Stub,stub,1,https://example.org/\n"))
    kernel = bytearray(changed(s2, (248, 18)))
    kernel[1024:1043] = b"sbat,1\nkernel,1,K\n\0"
    high = changed(stub(), (212, 0xFFFFE000))
    signed = bytearray(stub(5))
    struct.pack_into("<I", signed, 236, 8)
    odd = bytearray(stub())
    odd[200:208] = b"a\x7f \xff\0\0\0\0"
    image = titled(b"PRETTY_NAME=A\n")
    return {**common, **plain, "s2": s2, "s280": changed(s2, (148, 280)), "kernel.efi": bytes(kernel),
            "osrelstub": bytes(stub_with(b".osrel", 600, b"ID=stub\n")), "head288": changed(stub(), (148, 288)),
            "head240": changed(stub(), (148, 240)), "high": high, "high240": changed(high, (148, 240)), "signed": bytes(signed),
            "signedcut": changed(signed, (256, 1024)), "usual": usual_stub(), "odd": bytes(odd), "pe32": changed(stub(), (88, 0x10B)),
            "image.efi": kernel_image(), "cut.efi": kernel_image()[:1535], "sig.efi": image_of_two(b".pcrsig", b"1234567"),
            "empty.efi": changed(two, (288, 0)), "fitting.efi": changed(image, (288, 65_536)), "overlong.efi": changed(image, (288, 65_537)),
            "bare.efi": changed(image, (248, 0))}
