"""Files of runs side by side: those at the start, and those that count behind the runs."""
import hashlib
import os
import re

from lab.images import small_image, small_stub
from lab.intents import INTENT
from lab.pair_tables import LEFT


def start_files(size):
    """Six entries, four of them images; of the files in boot_tools two are named, and one is the initrd's copy."""
    files = {"efi/loader/loader.conf": b"timeout 3\n", "in/kernel": b"k" * size, "in/initrd": b"i" * size}
    files |= {"in/stub.efi": small_stub(), "in/os-release": b"ID=demo\n"}
    files["efi/EFI/Linux/gone.efi.tmp"] = b"gone"
    payloads = [b"p" * 50, b"q" * 50, b"r" * 50, files["in/initrd"]]
    names = [hashlib.sha256(it).hexdigest() for it in payloads]
    files |= {f"efi/boot_tools/{name}": it for name, it in zip(names, payloads)}
    files["efi/loader/entries/old+2-1.conf"] = f"linux /boot_tools/{names[0]}\n".encode()
    files["efi/loader/entries/two.conf"] = f"linux /boot_tools/{names[0]}\ninitrd /boot_tools/{names[1]}\n".encode()
    entries = [f"efi/EFI/Linux/{name}.efi" for name in ("one+2-1", "four", "two+1-2", "five")]
    for number, path in enumerate(["in/top.efi", *entries, "in/new.efi", "in/other.efi", "out.efi"]):
        files[path] = small_image(9 - number, size)  # from the first of the menu on
    return files


def leftovers(files):
    """A temporary file beside each path at which a command of LEFTOVER writes."""
    payload = hashlib.sha256(files["in/kernel"]).hexdigest()
    return {f"{path}.tmp": b"left" for path in [*LEFT, f"efi/boot_tools/{payload}"]}


def names_in_entries(tree):
    """The names in boot_tools that entries have."""
    texts = [data.decode(errors="replace") for path, data in tree.items() if path.endswith(".conf")]
    return {name for text in texts for name in re.findall(r"/boot_tools/(\w+)", text)}


def files_of(folder):
    """The bytes of each file below a folder, but for intents and temporary files."""
    found = {}
    for above, _, names in os.walk(folder):
        for name in names:
            if name != INTENT and not name.endswith(".tmp"):
                with open(f"{above}/{name}", "rb") as file:
                    found[f"{above}/{name}"[len(folder) + 1 :]] = file.read()
    return found


def left_in(folder):
    """The intents and temporary files below a folder."""
    paths = [f"{above}/{name}" for above, _, names in os.walk(folder) for name in names]
    return {it for it in paths if os.path.basename(it) == INTENT or it.endswith(".tmp")}


def boot_files(tree):
    """The files but for temporary ones and those in boot_tools that no entry names."""
    named = names_in_entries(tree)
    counts = lambda path: "/boot_tools/" not in path or os.path.basename(path) in named
    return {path: it for path, it in tree.items() if counts(path) and not path.endswith(".tmp")}
