"""States of FAT disks: their files, what happens to their slots, and the commands that are run there."""
import os

from lab.cases import LINUX, build
from lab.images import small_image, small_stub

WAYS = ["as it is", "fsck first"]


def image(number, size=2500):
    return small_image(number, size)


def in_linux(*names):
    return tuple(f"{LINUX}/{name}" for name in names)


def builds(*names):
    return [build(7, path) for path in in_linux(*names)]


SOURCES = {"in/stub": small_stub(), "in/new.efi": image(8, 3100), "in/kernel": b"k" * 900}
SOURCES |= {"in/initrd": b"i" * 1300, "in/release": b"ID=demo\n"}
OTHER = f"{LINUX}/other-1.efi"
CALCULATE = "measure calculate --linux=in/kernel --bank=sha256 --phase="


class State:
    """A disk: its boot files in the order in which they are made, and what then happens to its slots.

    An intent is an old and a new path. If `listed` is the path of one of the files, the menu must have it in the end by
    that name and with its bytes; or it may be a pair of the path and of the file whose bytes it has.
    """

    def __init__(self, files, edits, commands, intent=None, listed=None, ways=WAYS):
        self.files, self.edits, self.intent, self.listed = {OTHER: image(1, 1500)} | files, edits, intent, listed
        self.commands = [words if isinstance(words, list) else words.split() for words in commands]
        self.ways = ways


def each_name(*paths):
    """The commands that name an entry, for each of these."""
    for path in paths:
        name = os.path.basename(path)
        yield f"bootctl unlink {name}"
        yield from (f"bless {verb} {path.removeprefix('efi/')}" for verb in ("good", "bad", "indeterminate"))
        if path.startswith(LINUX):
            yield build(7, path)


WHOLE = ["bootctl list", "boot", "keep 1", "keep 2", "tidy"]

# Spellings, on disks that are whole.

DEBIAN_13, DEBIAN_14, FEDORA, ARCH = in_linux("debian-6.1.0-13.efi", "debian-6.1.0-14.efi", "fedora.efi", "ARCH.EFI")
SPELLED = {DEBIAN_13: image(3), DEBIAN_14: image(4), FEDORA: image(5), ARCH: image(6), f"{LINUX}/b.efi.tmp": b"left"}
SPELLED_COUNTED = f"{LINUX}/debian~1+3.efi"
SPELLED |= {"efi/loader/LOADER.CONF": b"timeout 3\n", "efi/loader/entries/demo.conf": b"linux /in/kernel\n"}
SPELLINGS = [
    *(f"install in/new.efi {name}" for name in ("debian~1", "FEDORA", "Fedora", "arch", "debian-6.1.0-13", "new")),
    *(f"bootctl unlink {name}.efi" for name in ("debian~2", "FEDORA", "arch", "debian~1", "fedora", "debian-6.1.0-14")),
    *builds("b.efi.TMP", "FEDORA.EFI", "debian~1.efi", "fedora.efi"),
    *builds("fedora.efi.", "fedora.efi..", "new.efi."),
    *(f"bless {verb} EFI/Linux/debian~1+3.efi" for verb in ("good", "bad", "status")),
    "bless good EFI/Linux/FEDORA+3.efi",
    "loader set-default fedora*",
    "type1 install DEMO --linux=in/kernel",
    "bootctl unlink DEMO.conf",
    *WHOLE,
]

IN_CAPITALS = ["install in/new.efi debian~1", "bootctl unlink debian~2.efi", "install in/new.efi fedora --tries=3"]
IN_CAPITALS += ["install in/new.efi fedora", "bootctl unlink fedora.efi", build(7, FEDORA), *WHOLE]

# An entry that fits 8.3. Its alias in capitals is the same name for the driver.

ZLINUX, ZLINUX_OLD, ZLINUX_TEMP = in_linux("zlinux.efi", "zlinux+2-1.efi", "zlinux.efi.tmp")
SHORT = [*WHOLE, f"bless good EFI/Linux/{os.path.basename(ZLINUX_OLD)}", "install in/new.efi zlinux"]
SHORT += ["bootctl unlink zlinux.efi"]
SHORT_STATES = {
    "alone": ({ZLINUX: image(9)}, [("bare", ZLINUX)]),
    "new name empty": (
        {ZLINUX_OLD: image(9), ZLINUX: b""},
        [("share", ZLINUX_OLD, ZLINUX), ("empty", ZLINUX), ("bare", ZLINUX)],
    ),
    "old name empty": (
        {ZLINUX_OLD: image(9), ZLINUX: b""},
        [("share", ZLINUX_OLD, ZLINUX), ("empty", ZLINUX_OLD), ("bare", ZLINUX)],
    ),
    "both": ({ZLINUX_OLD: image(9), ZLINUX: b""}, [("share", ZLINUX_OLD, ZLINUX), ("bare", ZLINUX)]),
    "both, new first": ({ZLINUX: image(9), ZLINUX_OLD: b""}, [("share", ZLINUX, ZLINUX_OLD), ("bare", ZLINUX)]),
}

# A rename that was torn, with no intent.

CLOUD = "zdebian-6.1.0-57-cloud-amd64"
CLOUD_3, CLOUD_2, CLOUD_GOOD = in_linux(f"{CLOUD}+3.efi", f"{CLOUD}+2-1.efi", f"{CLOUD}.efi")
INSTALLS = [f"install in/new.efi {CLOUD} --tries=3", f"install in/new.efi {CLOUD}"]


def torn(old, new, edit):
    """Two names over the same clusters, the first or the second of which stands first in the folder."""
    commands = [*WHOLE, *each_name(old, new), *INSTALLS]
    return State({old: image(9), new: b""}, [(edit, old, new)], commands)


def torn_states():
    kinds = {"aliases differ": "share", "one alias": "share_all"}
    for pair in ((CLOUD_3, CLOUD_2), (CLOUD_2, CLOUD_GOOD)):
        for kind, edit in kinds.items():
            for names in (pair, pair[::-1]):
                told = " and ".join(path.removeprefix(f"{LINUX}/{CLOUD}") for path in names)
                yield f"torn, {told}, {kind}", torn(*names, edit)
        name, commands = os.path.basename(pair[1]), ["keep 1", "keep 2", "boot", "loader show"]
        files = {f"{LINUX}/first.efi": image(50), pair[0]: image(9), pair[1]: b""}
        yield f"torn, {name} is second", State(files, [("share", *pair)], commands)
    entry, moved = (f"efi/loader/entries/{CLOUD}{counter}.conf" for counter in ("+3", "+2-1"))
    commands = [*WHOLE, *each_name(entry, moved), "type1 cleanup", f"type1 install {CLOUD} --linux=in/kernel"]
    files = {entry: b"title Nine\nversion 9\nlinux /EFI/nine\n", moved: b""}
    yield "torn, type 1", State(files, [("share", entry, moved)], commands)
    commands = [*WHOLE, *each_name(CLOUD_3, CLOUD_2), *INSTALLS]
    yield "torn, no name", State({CLOUD_3: image(9)}, [("remove", CLOUD_3)], commands)
    yield "torn, alias alone", State({CLOUD_3: image(9)}, [("bare", CLOUD_3)], commands)


# An alias beside its own entry, or alone: the option `lower` shows it in small letters.

TEN, TEN_LOST = in_linux("zfedora-6.10+3.efi", "zfedora-6.8+3.efi")
STRAY = [*WHOLE, "bootctl unlink zfedor~1.efi", "bootctl unlink zfedor~2.efi", "install in/new.efi zfedor~2"]
STRAY += [*each_name(TEN), "install in/new.efi zfedora-6.10 --tries=3"]

# An intent, with other things beside it than its names.

ENTRY_OLD, ENTRY, SETUP = in_linux("zfedora-6.9.1+2-1.efi", "zfedora-6.9.1.efi", "SETUP~1.EFI")
ENTRY_3 = f"{LINUX}/zfedora-6.9.1+3.efi"
MOVE = (ENTRY_OLD, ENTRY)
HELD = [*WHOLE, "bless good EFI/Linux/zfedora-6.9.1+2-1.efi", "install in/new.efi other-1"]
HELD += ["bootctl unlink other-1.efi", CALCULATE, "loader set-timeout 7"]

# Two alike files, by a kill or since they were made together: they share nothing, but have one length and one time.

TWIN, TWIN_TEMP, TWIN_3 = in_linux("x.efi", "x.efi.tmp", "x+3.efi")


def all_states():
    yield "spelled", State(SPELLED, [], SPELLINGS, ways=WAYS[:1])
    commands = [*WHOLE, "bless good EFI/Linux/debian~1+3.efi", "bootctl unlink debian~1+3.efi", build(7, SPELLED_COUNTED)]
    yield "spelled, folder in capitals", State(SPELLED, [("bare", LINUX)], IN_CAPITALS, ways=WAYS[:1])
    yield "spelled, counted", State({DEBIAN_13: image(9), SPELLED_COUNTED: image(10)}, [], commands, ways=WAYS[:1])
    for name, (files, edits) in SHORT_STATES.items():
        yield f"short, {name}, no intent", State(files, edits, SHORT)
        yield f"short, {name}, intent", State(files, edits, SHORT, (ZLINUX_OLD, ZLINUX), (ZLINUX, next(iter(files))))
    files, edits = {ZLINUX_TEMP: image(9), ZLINUX: b""}, [("share", ZLINUX_TEMP, ZLINUX), ("bare", ZLINUX)]
    yield "short, and its temporary file", State(files, edits, SHORT)
    yield from torn_states()
    files, edits = {TEN_LOST: image(9), TEN: b""}, [("share", TEN_LOST, TEN), ("bare", TEN_LOST)]
    yield "alias beside its entry", State(files, edits, STRAY)
    yield "alias alone", State({TEN_LOST: image(9)}, [("bare", TEN_LOST)], STRAY)
    yield "intent, alias alone", State({ENTRY_OLD: image(9)}, [("bare", ENTRY_OLD)], HELD, MOVE, (ENTRY, ENTRY_OLD))
    lost = f"{LINUX}/zfedora-6.8.efi"
    files, edits = {ENTRY_OLD: image(9), lost: image(7)}, [("bare", ENTRY_OLD), ("bare", lost)]
    yield "intent, two aliases", State(files, edits, HELD[:2], MOVE)
    yield "intent, a stranger's alias", State({SETUP: image(9)}, [], HELD, MOVE)
    yield "intent, neither name", State({}, [], HELD, MOVE)
    yield "intent, old name new", State({ENTRY_OLD: image(7)}, [], HELD, MOVE)
    yield "intent, new name new", State({ENTRY: image(7)}, [], HELD, MOVE)
    commands = ["install in/new.efi x", "tidy", "bootctl unlink x.efi", "bless bad EFI/Linux/x.efi", build(7, TWIN)]
    yield "alike", State({TWIN: image(3), TWIN_TEMP: image(4)}, [("take_time", TWIN, TWIN_TEMP)], commands)
    commands = [*WHOLE, *each_name(TWIN, TWIN_3), "install in/new.efi x", "install in/new.efi x --tries=3"]
    yield "alike, names of one entry", State(
        {TWIN: image(3), TWIN_3: image(4)}, [("take_time", TWIN, TWIN_3)], commands, ways=WAYS[:1]
    )
    words = [f"{it} --esp-path=boot/efi" for it in [*WHOLE, *HELD[5:8], "loader set-timeout 7"]]
    moved = tuple(f"boot/{path}" for path in (ENTRY_3, ENTRY_OLD))
    files, edits = {ENTRY_3: image(9), ENTRY_OLD: b""}, [("share", ENTRY_3, ENTRY_OLD)]
    commands = [*words, CALCULATE, build(7, "out.efi")]
    yield "not mounted", State(files, edits, commands, moved, (moved[1], ENTRY_3), ways=WAYS[:1])


STATES = dict(all_states())


def told(words):
    """A command in few words."""
    return f"build {words[-1].removeprefix('--output=')}" if words[0] == "ukify" else " ".join(words)


def rows_of(name):
    """The rows of a disk: their names, each with the words and the way."""
    return {f"{name}: {told(it)}, {way}": (it, way) for way in STATES[name].ways for it in STATES[name].commands}
