"""Cases: the files in the order in which they are made, and the commands."""
import copy
import os
import random
import re

from lab.images import small_image, small_stub

LINUX, LOADER, TEXTS, PAYLOADS = "efi/EFI/Linux", "efi/loader", "efi/loader/entries", "efi/boot_tools"
# What an entry is called without its counter and its suffix, by the number of letters. Two are short enough for FAT to
# keep them without a number, and so have an alias such as `ZLINUX.EFI`.
BASES = {1: "z", 6: "zlinux", 13: "zfedora-6.9.1", 28: "zfedora-6.9.1-20.fc42.x86_64"}
BASES[44] = f"{BASES[28]}-123456789012345"
IMAGES = ("in/new.efi", "in/other.efi")
LIST = ["bootctl", "list"]
# A command that needs nothing of the partition.
READ = ["measure", "calculate", "--linux=in/kernel", "--bank=sha256", "--phase="]


def build(number, output, folder="in"):
    """The words of a build that no other number's build equals."""
    inputs = [f"--stub={folder}/stub", f"--linux={folder}/kernel", f"--initrd={folder}/initrd"]
    inputs.append(f"--os-release=@{folder}/release")
    return ["ukify", "build", *inputs, f"--cmdline=number={number}", f"--output={output}"]


class Case:
    """An entry's name, the words of the commands, and by folder the names that the first command makes there, up to the
    one whose last part tells most in a new cluster. `BASE` stands for a name without a counter and a suffix. If the
    commands need no entry, there may be no folder either."""

    def __init__(self, entry, *commands, makes=None, may_be_new=False):
        self.entry, self.makes, self.may_be_new = entry, makes or {}, may_be_new
        self.commands = [words if isinstance(words, list) else words.split() for words in commands]

    def named(self, letters):
        """The case with a name of so many letters."""
        named = copy.copy(self)
        named.entry = self.entry.replace("BASE", BASES[letters])
        named.commands = [[word.replace("BASE", BASES[letters]) for word in words] for words in self.commands]
        named.makes = {
            folder: [name.replace("BASE", BASES[letters]) for name in names] for folder, names in self.makes.items()
        }
        return named


CASES = {
    "boot": Case("BASE+200.efi", "boot", "boot", makes={LINUX: ["BASE+199-1.efi"]}),
    "bless": Case("BASE+2-1.efi", "bless good EFI/Linux/BASE+2-1.efi", makes={LINUX: ["BASE.efi"]}),
    "bless-again": Case(
        "BASE+2-1.efi",
        "bless bad EFI/Linux/BASE+2-1.efi",
        "bless good EFI/Linux/BASE+0-1.efi",
        makes={LINUX: ["BASE+0-1.efi"]},
    ),
    "install": Case(
        "afedora-6.8.efi",
        "install in/new.efi BASE",
        "install in/other.efi BASE",
        makes={LINUX: ["BASE.efi.tmp", "BASE.efi"]},
        may_be_new=True,
    ),
    "install-tries": Case(
        "afedora-6.8.efi",
        "install in/new.efi BASE --tries=3",
        "install in/other.efi BASE --tries=3",
        makes={LINUX: ["BASE+3.efi.tmp", "BASE+3.efi"]},
        may_be_new=True,
    ),
    "build": Case("BASE.efi", build(7, f"{LINUX}/BASE.efi"), makes={LINUX: ["BASE.efi.tmp"]}, may_be_new=True),
    "unlink": Case("BASE.efi", "bootctl unlink BASE.efi"),
    "set-default": Case("BASE.efi", "loader set-default BASE*", makes={LOADER: ["loader.conf.tmp"]}, may_be_new=True),
    "type1": Case(
        "afedora-6.8.efi",
        "type1 install BASE --linux=in/kernel --initrd=in/initrd",
        "type1 install BASE --linux=in/initrd",
        "type1 cleanup",
        makes={TEXTS: ["BASE.conf.tmp", "BASE.conf"], PAYLOADS: ["0" * 64 + ".tmp", "0" * 64]},
        may_be_new=True,
    ),
    "keep": Case("BASE.efi", "keep 1"),
}


def slots(name):
    """How many of a folder's entries of 32 bytes a name takes on FAT."""
    return 1 if re.fullmatch(r"[A-Z0-9]{1,8}", name) else 1 - (-len(name) // 13)


def fillers(used, left, unit):
    """The names that leave so many entries of the last cluster free, where so many are used."""
    wanted = (-left - used) % unit
    return [f"{n:0240}" for n in range(wanted // 20)] + [f"P{n}" for n in range(wanted % 20)]


def start_files(case, position, fs):
    """A case's files, with some small ones before the entry."""
    some, unit = random.Random(1), fs.cluster // 32
    number = int(position) if position.isdigit() else 0
    if position == "edge" and not case.makes:
        number = (15 - slots(case.entry)) % 16
    files = {f"R{n}": f"r{n}".encode() for n in range((number * 5 + 3) % 16)}
    files |= {"in/stub": small_stub(), "in/kernel": some.randbytes(900), "in/initrd": some.randbytes(1300)}
    files |= {"in/release": b"ID=demo\n", "efi/startup.nsh": b"exit\n"}
    files |= {path: small_image(number, 700 * number) for number, path in enumerate(IMAGES, 3)}
    ballast = {"in/ballast": some.randbytes(fs.ballast * fs.cluster)}
    if position == "new":
        return files | ballast
    entries = {f"{LOADER}/loader.conf": b"timeout 3\n", f"{LINUX}/{case.entry}": small_image(9, 2500)}
    entries |= {f"{LINUX}/other-1.efi": small_image(1, 1500)}
    files |= {f"{LINUX}/P{n}": f"p{n}".encode() for n in range(number)}
    for folder, names in case.makes.items() if position.startswith(("full", "edge")) else ():
        used = 2 + sum(slots(os.path.basename(path)) for path in entries if os.path.dirname(path) == folder)
        left = sum(map(slots, names)) - 1 if position == "edge" else int(position.removeprefix("full"))
        paths = [f"{folder}/{name}" for name in fillers(used, left, unit)]
        files |= {path: path.encode() for path in paths}
    # So that a folder that grows gets a cluster whose entry in the FAT is in another sector than the folder's last.
    return files | entries | ballast
