"""The values of PCR 11."""
import hashlib

from lab.program_model.json_text import decoded, json_line

MEASURED = [".linux", ".osrel", ".cmdline", ".initrd", ".ucode", ".splash", ".dtb", ".uname", ".sbat", ".pcrpkey"]
BANKS = ["sha1", "sha256", "sha384", "sha512"]
PHASES = ["enter-initrd", "enter-initrd:leave-initrd", "enter-initrd:leave-initrd:sysinit",
          "enter-initrd:leave-initrd:sysinit:ready"]


def bank_values(part, banks, phases):
    """The values that a stub comes to which loads these bytes of each name: for each path its text, and its value in each bank."""
    banks = list(dict.fromkeys(banks or BANKS))
    paths = list(dict.fromkeys(tuple(filter(None, text.split(":"))) for text in (phases or PHASES)))
    rows = []
    for words in paths:
        values = {}
        for bank in banks:
            def digest(data):
                return hashlib.new(bank, data).digest()
            value = bytes(len(digest(b"")))
            items = [item for name in MEASURED if part(name) for item in (name.encode() + b"\0", part(name))]
            for item in [*items, *(word.encode("latin-1") for word in words)]:
                value = digest(value + digest(item))
            values[bank] = value.hex()
        rows.append((":".join(words) or ":", values))
    return rows


def value_lines(part, banks, phases):
    """The lines of these values."""
    rows = bank_values(part, banks, phases)
    return "".join(f"# PCR[11] Phase <{text}>\n" + "".join(f"11:{bank}={value}\n" for bank, value in values.items()) for text, values in rows)


def told_values(part, options):
    """The values in lines, or as JSON where that is asked for."""
    banks, phases = options.get("--bank"), options.get("--phase")
    if "--json" not in options:
        return value_lines(part, banks, phases)
    told = {}
    for text, values in bank_values(part, banks, phases):
        for bank, value in values.items():
            told.setdefault(bank, []).append({"phase": decoded(text), "pcr": 11, "hash": value})
    return json_line(told)
