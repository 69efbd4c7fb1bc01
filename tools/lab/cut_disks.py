"""Disks of cuts: how they are made, what is read from them after a cut, and what must be there.

What must be there is found by running the same commands here on a folder."""
import glob
import hashlib
import os
import subprocess

from lab.host import tool
from lab.intents import INTENT, names_moved

DISK_SIZE = 128 << 20


def tree_of(folder):
    """Length and checksum of each file below a folder that isn't a temporary one or an intent. Of the two names of
    an intent that are both there the new one counts, or the one that has bytes."""
    found = {}
    for above, _, names in os.walk(folder):
        for name in names:
            path = os.path.join(above, name)
            passes = name.endswith(".tmp") or name == INTENT or name.startswith("BOOT_T~")
            if not passes and os.path.isfile(path):
                with open(path, "rb") as file:
                    data = file.read()
                found[os.path.relpath(path, folder)] = (len(data), hashlib.sha256(data).hexdigest())
    old, new = (names_moved(folder) + ["", ""])[:2]
    if old in found and new in found:
        del found[old if found[new][0] else new]
    return {name: it for name, it in found.items() if not name.startswith("lost+found")}


class Wanted:
    """The files after each number of commands, by running them here. They are run as they are asked for."""

    def __init__(self, case, program, folder):
        self.case, self.program, self.folder = case, program, folder
        self.trees = [tree_of(folder)]

    def after(self, count):
        while len(self.trees) <= min(count, self.case.limit):
            words = self.case.words(len(self.trees))
            subprocess.run([self.program, *words], cwd=self.folder, capture_output=True, check=False)
            self.trees.append(tree_of(self.folder))
        return self.trees[min(count, self.case.limit)]

    def which(self, tree, last):
        """The numbers of commands after which the files are these."""
        return [n for n in range(last + 1) if self.after(n) == tree]


def differences(tree, wanted):
    """How files differ from those that are wanted."""
    seen = []
    for name in sorted(tree.keys() | wanted.keys()):
        if name not in tree:
            seen.append(f"{name} is missing")
        elif name not in wanted:
            seen.append(f"{name} is there, {tree[name][0]} bytes")
        elif tree[name] != wanted[name]:
            length, right = tree[name][0], wanted[name][0]
            seen.append(f"{name} has {length} bytes, {'others' if length == right else f'not {right}'}")
    return seen


def make_disk(fs, folder, disk):
    """A new disk with a folder's files."""
    with open(disk, "wb") as file:
        file.truncate(DISK_SIZE)
    if fs == "ext4":
        tool("mkfs.ext4", "-q", "-d", folder, disk)
        return
    tool("mkfs.vfat", "-F", "16" if fs == "fat16" else "32", disk)
    tool("mcopy", "-i", disk, "-s", *sorted(glob.glob(f"{folder}/*")), "::")


def read_disk(fs, disk, folder):
    """Copies the disk's files into a folder, and gives what is wrong with its structure."""
    os.makedirs(folder)
    if fs == "ext4":
        # The journal is replayed as the next mount would. 1: something was mended, which a replay counts as.
        tool("e2fsck", "-p", disk, allowed=(0, 1))
        tool("debugfs", "-R", f"rdump / {folder}", disk)
        return []
    wrong = []
    for line in tool("mdir", "-i", disk, "-/", "-b", "::").splitlines():
        path = line.removeprefix("::/").rstrip("/")
        target = os.path.join(folder, path)
        if line.endswith("/"):
            os.makedirs(target, exist_ok=True)
        elif not path.endswith(".tmp"):
            os.makedirs(os.path.dirname(target), exist_ok=True)
            said = tool("mcopy", "-i", disk, "-n", f"::/{path}", target, allowed=())
            wrong += [f"mcopy: {path}: {it}" for it in said.splitlines() if it.strip()]
    moved = names_moved(folder)
    return wrong + fat_faults(tool("fsck.fat", "-n", "-v", disk, allowed=(0, 1)), {f"/{name}" for name in moved})


def fat_faults(text, moved):
    """What fsck.fat says against a file that isn't a temporary one. Clusters that no name has are no fault, nor are
    those that the two names of an intent share.

    Its complaints are a line with the path, or two that share clusters, and indented lines."""
    faults, paths = [], []
    for line in text.splitlines():
        if line.startswith("/"):
            paths = [*paths, line.strip()] if line.endswith(" and") or paths and paths[-1].endswith(" and") else [line]
        elif line.startswith("  ") and paths:
            names = {it.removesuffix(" and").strip() for it in paths}
            is_left = paths[0].rstrip().lower().endswith(".tmp") and "share" not in line
            if names != moved and not is_left:
                faults.append(f"fsck: {' '.join(paths)}: {line.strip()}")
        else:
            paths = []
    return faults
