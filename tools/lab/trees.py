"""Trees: the digest of each file's bytes by its path. A tree in a set is the frozenset of its items."""
import collections
import functools
import hashlib
import os
import re

from lab.cases import LINUX, PAYLOADS, TEXTS
from lab.intents import INTENT


def digest(data):
    return hashlib.sha256(data).hexdigest()[:16]


EMPTY = digest(b"")
UNREADABLE = "unreadable"
# What is no file of a tree: a temporary one, an intent (each with its short alias), and what fsck found without a name.
PASSING = re.compile(r".*\.tmp|boot_tools\.intent|boot_t~\d\.int|FSCK\d+\.REC", re.I)
# A name that is short enough has an alias without a number. No case gives a name of that form.
ALIAS = re.compile(r"[^a-z]{1,6}~\d(\.[^a-z]{1,3})?|[^a-z.]{1,8}\.EFI")
# What fsck makes of a name that can't be one, and what no case calls a file: the bytes of a free cluster as a name.
JUNK = re.compile(r"FSCK\d+\.\d+|.*[^\w.+~-].*", re.A | re.I | re.S)
# What fsck.vfat says of a short alias whose clusters the FAT calls free.
UNMARKED = re.compile(r"(~\d(\.[^a-z\s]{1,3})?|/[^a-z\s/.]{1,8}\.EFI)\s*\n  Contains a free cluster")


@functools.cache
def is_alias(path):
    return bool(ALIAS.fullmatch(os.path.basename(path)))


def is_boot_file(path):
    return path.startswith((LINUX, TEXTS, PAYLOADS))


def digests_of(tree):
    """What the boot files hold."""
    return {it for path, it in tree if is_boot_file(path)}


def steps_between(before, after, said):
    """The trees that a command may leave that gives these replies: before it, after each of them, and after it."""
    trees, now = [before], dict(before)
    for verb, path in re.findall(r"^(placed|installed|unlinked) /(\S+)$", said, re.M):
        if verb == "unlinked":
            now.pop(path, None)
        else:
            now[path] = dict(after)[path]
        trees.append(frozenset(now.items()))
    return [*trees, after]


class View:
    """The files below a folder as they read, whether some folder doesn't, and what else is there. Some folders may be
    passed over by their names."""

    def __init__(self, folder, passed=frozenset()):
        self.tree, self.is_away, self.has_intent, self.has_alias, self.has_junk = {}, False, False, False, False
        for above, folders, names in os.walk(folder, onerror=self.miss):
            folders[:] = [it for it in folders if it not in passed and self.is_of_a_run(it)]
            for name in filter(self.is_of_a_run, names):
                path = f"{above}/{name}"[len(folder) + 1 :]
                self.has_intent |= name == INTENT
                self.has_alias |= is_alias(path)
                if not PASSING.fullmatch(name):
                    self.tree[path] = self.read(f"{above}/{name}")

    def miss(self, _):
        self.is_away = True

    def is_of_a_run(self, name):
        is_junk = bool(JUNK.fullmatch(name))
        self.has_junk |= is_junk
        return not is_junk

    @staticmethod
    def read(path):
        try:
            with open(path, "rb") as file:
                return digest(file.read())
        except OSError:
            return UNREADABLE

    def named(self):
        """The tree of the files that have a name of their own."""
        return frozenset((path, it) for path, it in self.tree.items() if not is_alias(path))

    def by_bytes(self):
        """The paths of the boot files by what they hold."""
        paths = collections.defaultdict(list)
        for path, it in sorted(self.tree.items()):
            if is_boot_file(path) and it not in (EMPTY, UNREADABLE):
                paths[it].append(path)
        return paths


def told(it):
    return {None: "isn't there", EMPTY: "has no bytes", UNREADABLE: "can't be read"}.get(it, f"has {it}")
