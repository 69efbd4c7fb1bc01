"""The menu: counters in names, versions, and the entries in their order."""
import re

from lab.program_model.json_text import decoded
from lab.program_model.pe_files import Pe
from lab.program_model.refusals import Refused
from lab.program_model.texts import first_of, key_lines, os_release


def counter_of(name):
    """The base, suffix, tries left and tries done of a name with a boot counter, or None."""
    found = re.fullmatch(r"(.+)\+([0-9]{1,9})(?:-([0-9]{1,9}))?(\.conf|\.efi)", name, re.S)
    return (found[1], found[4], int(found[2]), int(found[3] or 0)) if found and "+" not in name[found.end(1) + 1:] else None


def counted(base, suffix, left, done):
    return f"{base}+{left}-{done}{suffix}" if done else f"{base}+{left}{suffix}"


def tokens(text):
    """What a version is compared by: each token with its rank, the end of the list between `~` and `-`."""
    found = []
    for token in re.findall(r"[~^.\-]|[A-Za-z]+|[0-9]+", text):
        rank = "~ -^.".find(token) if len(token) == 1 and token in "~-^." else 5 if token.isalpha() else 6
        found.append((rank, int(token) if rank == 6 else 0, token if rank == 5 else ""))
    return [*found, (1, 0, "")]


def down(key):
    """A key that sorts the other way round."""
    class Down:
        def __lt__(self, other):
            return other.key < key

        def __eq__(self, other):
            return other.key == key
    one = Down()
    one.key = key
    return one


class Entry:
    """An entry of the menu: what its name says, and what its text or image does."""

    def __init__(self, place, kind):
        self.path, self.kind, self.name = place, kind, place.rpartition("/")[2]
        self.counter = counter_of(self.name)
        self.base = self.counter[0] if self.counter else self.name.removesuffix(".conf" if kind == 1 else ".efi")
        self.id = self.base + (".conf" if kind == 1 else ".efi")
        self.title = self.sort_key = self.machine = self.version = None
        self.fields = {}

    def order(self):
        left = self.counter[2] if self.counter else None
        keyed = self.sort_key is not None
        by_key = (self.sort_key, self.machine is not None, self.machine or "", self.version is None, down(tokens(self.version or ""))) if keyed else ()
        tries = (0,) if left is None else (1, -left, self.counter[3])
        return left == 0, not keyed, by_key, down(tokens(self.base)), tries, self.path

    def record(self):
        """The lines of the list."""
        rows = [("type", "type1 (.conf)" if self.kind == 1 else "type2 (.efi)"), ("title", self.title if self.title is not None else self.base),
                ("id", self.id), ("source", "/" + self.path), ("sort-key", self.sort_key), ("machine-id", self.machine), ("version", self.version)]
        if self.counter:
            rows.append(("tries", f"{self.counter[2]} left, {self.counter[3]} done"))
        rows.append(("status", "good" if not self.counter else "bad" if self.counter[2] == 0 else "indeterminate"))
        rows += [(key, self.fields.get(key)) for key in ("linux", "efi")] + [("initrd", it) for it in self.fields.get("initrd", [])]
        rows.append(("options", " ".join(self.fields["options"]) if "options" in self.fields else None))
        return "".join(f"{label:>12}: {value}\n" for label, value in rows if value is not None)

    def value(self):
        """What JSON tells of it: what it has, each under its key."""
        left, done = self.counter[2:] if self.counter else (None, None)
        texts = {"type": f"type{self.kind}", "id": self.id, "source": "/" + self.path, "title": self.title if self.title is not None else self.base,
                 "sortKey": self.sort_key, "machineId": self.machine, "version": self.version, "linux": self.fields.get("linux"),
                 "efi": self.fields.get("efi"), "options": " ".join(self.fields["options"]) if "options" in self.fields else None,
                 "status": "good" if left is None else "bad" if left == 0 else "indeterminate"}
        try:
            initrds = [decoded(it) for it in self.fields.get("initrd", [])]
            told = {key: decoded(it) for key, it in texts.items() if it is not None}
        except UnicodeDecodeError:
            raise Refused(24, f"/{self.path} has a value that is not UTF-8")
        numbers = {} if left is None else {"triesLeft": left, "triesDone": done}
        return {**told, **numbers, **({"initrd": initrds} if initrds else {})}


def text_entry(place, data):
    if len(data) > 65_536:
        return None
    entry = Entry(place, 1)
    for key, value in key_lines(data):
        if key in ("initrd", "options"):
            entry.fields.setdefault(key, []).append(value)
        else:
            entry.fields[key] = value
    if "linux" not in entry.fields and "efi" not in entry.fields:
        return None
    entry.title, entry.sort_key = entry.fields.get("title"), entry.fields.get("sort-key")
    entry.machine, entry.version = entry.fields.get("machine-id"), entry.fields.get("version")
    return entry


def image_entry(place, data):
    """The entry of an image, or what it lacks."""
    pe = Pe(data)
    if not pe.loaded(".linux"):
        return ".linux"
    text = pe.loaded(".osrel")
    if not 1 <= len(text) <= 65_536:
        return ".osrel"
    values, entry = os_release(text), Entry(place, 2)
    entry.title = first_of(values, "PRETTY_NAME", "IMAGE_ID", "NAME", "ID")
    entry.version = first_of(values, "IMAGE_VERSION", "VERSION", "VERSION_ID", "BUILD_ID")
    entry.sort_key = first_of(values, "IMAGE_ID", "ID")
    return entry if entry.title is not None else "title"
