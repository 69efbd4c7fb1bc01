"""The demo: a model of its commands apart from the other ones.

It knows names of entry files and the number of the image in each, and nothing of bytes, disks or paths."""
import hashlib
import re


def split(name):
    """The base, the tries left and the tries done of a name with a boot counter, or None."""
    found = re.fullmatch(r"(.+)\+([0-9]{1,9})(?:-([0-9]{1,9}))?\.efi", name)
    return (found[1], int(found[2]), int(found[3] or 0)) if found else None


def joined(base, left, done):
    return f"{base}+{left}-{done}.efi" if done else f"{base}+{left}.efi"


class Machine:
    """The names of the entries, each with the number of its image."""

    def __init__(self):
        self.entries = {}

    def install(self, image, name, tries):
        self.entries[joined(name, tries, 0)] = image
        return True

    def unlink(self, name):
        return self.entries.pop(name, None) is not None

    def place(self, name):
        """What an entry is sorted by. All have one sort-key, versions of one digit, and bases of one digit behind `demo-`."""
        counter = split(name)
        base, left, done = counter or (name.removesuffix(".efi"), None, 0)
        tried = (0, 0, 0) if left is None else (1, -left, done)
        return left == 0, -self.entries[name], -int(base.removeprefix("demo-")), tried, name

    def menu(self):
        return sorted(self.entries, key=self.place)

    def boot(self):
        """The name after the boot of the first entry, or None."""
        if not self.entries:
            return None
        name = self.menu()[0]
        counter = split(name)
        if not counter or counter[1] == 0:
            return name
        base, left, done = counter
        booted = joined(base, left - 1, done + 1)
        if booted in self.entries:
            return None
        self.entries[booted] = self.entries.pop(name)
        return booted

    def bless(self, verb, name):
        counter = split(name)
        if not counter or split(f"{counter[0]}.efi"):
            return False
        good, bad = f"{counter[0]}.efi", joined(counter[0], 0, counter[2])
        target, sources = (good, [name, bad]) if verb == "good" else (bad, [name, good])
        if target in self.entries:
            return True
        for source in sources:
            if source in self.entries:
                self.entries[target] = self.entries.pop(source)
                return True
        return False

    def list(self):
        return "\n".join(map(self.record, self.menu()))

    def record(self, name):
        """The lines of an entry in the list."""
        counter, image = split(name), self.entries[name]
        base = counter[0] if counter else name.removesuffix(".efi")
        rows = [("type", "type2 (.efi)"), ("title", f"Demo {image}"), ("id", f"{base}.efi"), ("source", f"/efi/EFI/Linux/{name}")]
        rows += [("sort-key", "demo"), ("version", str(image))]
        if counter:
            rows.append(("tries", f"{counter[1]} left, {counter[2]} done"))
        rows.append(("status", "good" if not counter else "bad" if counter[1] == 0 else "indeterminate"))
        return "".join(f"{label:>12}: {value}\n" for label, value in rows)


def draws(seed):
    """The numbers that a seed comes to."""
    number = seed
    while True:
        number = (number * 6364136223846793005 + 1442695040888963407) % 2**64
        yield number >> 33


def run(machine, entry, kind, image, name):
    """Carries out a drawn command: whether it was done, and the entry that is blessed from then on."""
    if kind < 3:
        return machine.install(image, f"demo-{name}", 3), entry
    if kind < 5:
        booted = machine.boot()
        return booted is not None, booted or entry
    if kind < 7:
        return machine.bless("good" if kind == 5 else "bad", entry), entry
    return machine.unlink(f"demo-{name}.efi"), entry


def demo(seed, count):
    """What `demo SEED N` prints."""
    machine, entry, done, draw = Machine(), "none+1.efi", 0, draws(seed)
    for _ in range(count):
        kind, image, name = next(draw) % 8, next(draw) % 4, next(draw) % 4
        was_done, entry = run(machine, entry, kind, image, name)
        done += was_done
    counts = f"demo {seed} {count}\nok {done}\nrefused {count - done}\nfiles {4 + len(machine.entries)}\n"
    return f"{counts}list {hashlib.sha256(machine.list().encode()).hexdigest()}\n"
