"""Rows of crates/format_rows: what each of them comes to, by hashlib and by the numbers' places in the PE/COFF specification."""
import hashlib
import re
import struct

from lab.program_model.building import image_of, joined_initrds, merged_sbat
from lab.program_model.json_text import json_line
from lab.program_model.pcr_values import BANKS, MEASURED, value_lines
from lab.program_model.pe_files import NotPe, Pe, shown, up
from lab.program_model.refusals import LIMIT
from lab.program_model.rows import unclear
from lab.program_model.samples import headers, image_of_two, kernel_image, stub, stub_with, with_section

# The places of the numbers in the headers of a file whose PE signature stands at 64, with their sizes (PE/COFF).
FIELDS = {"DosSignature": (0, "H"), "SignaturePlace": (60, "I"), "Signature": (64, "I"), "NumberOfSections": (70, "H"),
          "SizeOfOptionalHeader": (84, "H"), "Magic": (88, "H"), "SizeOfInitializedData": (96, "I"), "SectionAlignment": (120, "I"),
          "FileAlignment": (124, "I"), "SizeOfImage": (144, "I"), "SizeOfHeaders": (148, "I"), "CheckSum": (152, "I"),
          "NumberOfRvaAndSizes": (196, "I")}
OF_SECTIONS = {"VirtualSize": 8, "VirtualAddress": 12, "SizeOfRawData": 16, "PointerToRawData": 20, "Characteristics": 36}


def read_bytes(text):
    """The bytes that a text of these rows stands for."""
    letters = {"0": 0, "a": 7, "s": 32, "t": 9, "n": 10, "v": 11, "f": 12, "r": 13}
    content = b""
    for piece in text.split("+"):
        piece, star, count = piece.partition("*")
        first, *rest = piece.split("\\")
        unclear(any(it[:1] not in letters for it in rest))
        content += (first.encode() + b"".join(bytes([letters[it[0]]]) + it[1:].encode() for it in rest)) * (int(count) if star else 1)
    return content


def quoted(content):
    """The bytes as a text in quotes, as Rust prints one."""
    named = {"\0": "\\0", "\t": "\\t", "\n": "\\n", "\r": "\\r", '"': '\\"', "\\": "\\\\"}
    return '"' + "".join(named.get(c) or (c if c == " " or c.isprintable() else f"\\u{{{ord(c):x}}}") for c in content.decode()) + '"'


def field_place(file, word):
    name, dot, index = word.partition(".")
    unclear(name not in (OF_SECTIONS if dot else FIELDS))
    if not dot:
        return FIELDS[name]
    return 88 + struct.unpack_from("<H", file, 84)[0] + 40 * int(index) + OF_SECTIONS[name], "I"


SAMPLES = {"headers": lambda: bytes(headers(16)), "stub": lambda: bytes(stub()), "signed_stub": lambda: signed_stub(),
           "stub_with_sbat": lambda: bytes(stub_with(b".sbat", 116, b"")), "kernel_image": kernel_image,
           "image_of_two": lambda: image_of_two(b".osrel", b"ID=")}


def signed_stub():
    image = bytearray(stub(5))
    struct.pack_into("<I", image, 236, 8)
    return bytes(image)


def extend(bank, value, content):
    return hashlib.new(bank, value + hashlib.new(bank, content).digest()).digest()


class Format:
    """The rows' file, and what comes of each row."""

    def __init__(self):
        self.file, self.sbat, self.fails = b"", b"", None

    def image(self, sample, *changes):
        unclear(sample not in SAMPLES)
        file = bytearray(SAMPLES[sample]())
        for change in changes:
            word, _, value = change.partition("=")
            verb, _, place = word.partition(".")
            if verb == "length":
                file = file[:int(value)] + bytes(max(0, int(value) - len(file)))
            elif verb == "name":
                at = 88 + struct.unpack_from("<H", file, 84)[0] + 40 * int(place)
                file[at:at + 8] = value.encode().ljust(8, b"\0")
            elif verb == "put":
                content = read_bytes(value)
                file[int(place):int(place) + len(content)] = content
            elif verb == "empty":
                file += bytes(40)
                file = with_section(file, value.encode(), 0, int(place, 16), 0, 0, 0)
            else:
                at, kind = field_place(file, word)
                struct.pack_into("<" + kind, file, at, int(value, 0))
        self.file = bytes(file)
        return ""

    def headers_read(self):
        """What the headers say, and the reads of them."""
        length, reads = len(self.file), []

        def read(place, count):
            reads.append((place, min(count, length - place)))
            return reads[-1][1] == count
        try:
            told = f"sections: {len(Pe(self.file).sections)}"
        except NotPe as fault:
            told = str(fault)
        if read(0, 64) and read(64, 24) and read(88, struct.unpack_from("<H", self.file, 84)[0]):
            read(88 + struct.unpack_from("<H", self.file, 84)[0], 40 * struct.unpack_from("<H", self.file, 70)[0])
        return told, reads

    def by_machine(self, told, reads):
        """What a row by reads of a machine tells: the size is asked for by one call before."""
        fails, self.fails = self.fails, None
        if fails is not None:
            told, reads = "disk fault", reads[:max(0, fails - 2)]
        return f"{told}\n" + " ".join(["reads", *(f"{place}+{count}" for place, count in reads)])

    def refused(self, parts):
        """The first reason why there is no image of the file and these parts, given by their lengths; or None."""
        pe = Pe(self.file)
        old = next((one for one in pe.sections if one.name == ".sbat"), None)
        new = len(self.sbat) if self.sbat and old else None
        if pe.certificates:
            return "the stub has a certificate table"
        names = [one.name for one in pe.sections]
        for name, _ in parts:
            if name in names:
                return f"a section is there twice: {quoted(name.encode())}"
            names.append(name)
        if new is not None and new > old.raw_size:
            return f".sbat has {new} bytes and room for {old.raw_size}"
        need, have = pe.table + 40 * len(names), min(pe.headers, pe.table + 3840)
        if need > have:
            return f"headers need {need} bytes and have {have}"
        end = max([pe.headers, *(one.address + (new if one is old and new is not None else one.size) for one in pe.sections)])
        length = len(self.file)
        for _, count in parts:
            end, length = up(end, pe.alignment) + count, up(length, pe.file_alignment) + up(count, pe.file_alignment)
        for number in (up(end, pe.alignment), pe.initialized + sum(count for _, count in parts)):
            if number >= 1 << 32:
                return f"the image ends at {number}"
        return f"the image has {length} bytes" if length > LIMIT else None

    def build(self, words):
        parts = [(name, read_bytes(content)) for name, _, content in (word.partition("=") for word in words)]
        why = self.refused([(name, len(content)) for name, content in parts])
        if why:
            return why
        self.file = image_of(self.file, parts, self.sbat, "")
        return f"{len(self.file)} bytes are planned, {len(self.file)} are made"

    def replay(self, bank):
        pe = Pe(self.file)
        return value_lines(pe.loaded, [bank], [""]).rpartition("=")[2].strip()

    def replay_reads(self):
        _, reads = self.headers_read()
        pe = Pe(self.file)
        for name in MEASURED:
            one = next((it for it in pe.sections if it.name == name), None)
            count = min(one.size, one.raw_size) if one else 0
            reads += [(one.raw_place + at, min(65_536, count - at)) for at in range(0, count, 65_536)]
        return reads

    def answer(self, row):
        """What a row comes to, None where the model doesn't say."""
        verb, _, rest = row.partition(" ")
        if verb in ("digest", "pieces", "extend", "extend_digest"):
            return digest_answer(verb, rest)
        if verb in ("heading", "name", "cmdline", "initrds", "merge", "sections", "scan"):
            return content_answer(verb, rest)
        if verb in ("image", "fill", "demo", "sbat", "fail"):
            return self.image(*rest.split()) if verb == "image" else self.change(verb, rest)
        if verb in ("fields", "bytes", "sha256", "range"):
            return self.part(verb, rest)
        if verb == "refusal":
            return self.refused([(name, int(count)) for name, _, count in (word.partition(":") for word in rest.split())]) or "none"
        if verb == "build":
            return self.build(rest.split())
        if verb == "read" and not rest:
            return self.headers_read()[0]
        if verb == "head":
            return self.by_machine(*self.headers_read())
        if verb == "replay":
            return self.replay(rest)
        if verb == "replay_file":
            return self.by_machine(self.replay("sha256"), self.replay_reads())
        unclear(verb != "headers")
        return None

    def change(self, verb, rest):
        """Makes another file, or sets what the next rows take."""
        if verb == "fill":
            count, byte = rest.split()[:2]
            self.file += bytes([int(byte)]) * int(count)
        elif verb == "demo":
            text = f'ID=demo\nPRETTY_NAME="Demo {int(rest)}"\nVERSION_ID={int(rest)}\n'
            self.file = image_of(bytes(stub()), [(".osrel", text.encode()), (".linux", b"abc")], b"", "")
        elif verb == "sbat":
            self.sbat = read_bytes(rest)
        else:
            self.fails = int(rest)
        return ""

    def part(self, verb, rest):
        """What a row tells of a part of the file."""
        if verb == "fields":
            places = [(word, *field_place(self.file, word)) for word in rest.split()]
            return "\n".join(f"{word}={struct.unpack_from('<' + kind, self.file, at)[0]}" for word, at, kind in places)
        if verb == "range":
            one = next((it for it in Pe(self.file).sections if it.name == rest), None)
            return "none" if one is None else f"{min(one.size, one.raw_size)} bytes at {one.raw_place}, and {max(0, one.size - one.raw_size)} zeros"
        place, count = map(int, rest.split())
        unclear(place + count > len(self.file))
        content = self.file[place:place + count]
        return quoted(content) if verb == "bytes" else hashlib.sha256(content).hexdigest()


def digest_answer(verb, rest):
    """What a row of digests comes to."""
    bank, _, text = rest.partition(":")
    unclear(bank not in BANKS)
    texts = [read_bytes(it) for it in text.split("|")]
    value = bytes(hashlib.new(bank).digest_size)
    if verb in ("digest", "pieces"):
        return hashlib.new(bank, b"".join(texts)).hexdigest()
    if verb == "extend_digest":
        return hashlib.new(bank, value + texts[0]).hexdigest()
    for text in texts:
        value = extend(bank, value, text)
    return value.hex()


def content_answer(verb, rest):
    """What a row comes to that is of contents alone, and not of the file."""
    if verb == "heading":
        return quoted(value_lines(lambda name: b"", ["sha1"], [rest]).split("11:")[0].encode())
    if verb == "name":
        return quoted(rest.encode()) if re.fullmatch(r"[!-9;-~]{1,8}", rest) and rest != ".sbat" else "none"
    if verb == "cmdline":
        return quoted(b" ".join(read_bytes(rest).split()))
    if verb == "initrds":
        joined = joined_initrds([b"f" * int(it) for it in rest.split()]) if rest.split() else b""
        return f"{len(joined)} bytes: {quoted(joined)}"
    if verb == "merge":
        first, _, given = rest.partition("|")
        merged = merged_sbat(read_bytes(first), b"", read_bytes(given))
        return f"{len(merged)} bytes: {quoted(merged)}"
    if verb == "sections":
        sections = [word.split(":", 2) for word in rest.split()]
        return quoted(json_line([{"name": shown(read_bytes(name).decode("latin-1")), "size": int(size),
                                        "sha256": hashlib.sha256(read_bytes(content)).hexdigest()} for name, size, content in sections]).encode("latin-1"))
    esp = read_bytes(rest).decode()
    if max(len(f"{esp}/loader/entries"), len(f"{esp}/EFI/Linux")) > 1024:
        return "LongEsp"
    return "efi/loader/entries/a.conf" if esp == "efi" else "no entries"
