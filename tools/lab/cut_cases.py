"""Cases of cuts: what is on the disk at the start, and what is run."""
import random

from lab.images import small_image, small_stub


def parts():
    """The files that a build takes, the same in each run."""
    some = random.Random(1)
    return {"stub.efi": small_stub(), "kernel": some.randbytes(1 << 20), "initrd": some.randbytes(2 << 20)}


def with_old(names):
    """The files that a build takes, and old files of other lengths."""
    some = random.Random(2)
    return parts() | {name: some.randbytes(5 << 19) for name in names}


def entries(names):
    """Entries of these names, the first of the menu, and forty small ones."""
    images = {f"other-{n}.efi": small_image(n, 1 << 10) for n in range(40)}
    images |= {name: small_image(100 - n, 1 << 18) for n, name in enumerate(names)}
    return {f"efi/EFI/Linux/{name}": image for name, image in sorted(images.items())}


def build_to(number, output):
    """The words of a build that no other number's build equals."""
    inputs = ["--stub=stub.efi", "--linux=kernel", "--initrd=initrd"]
    return ["ukify", "build", *inputs, f"--cmdline=number={number}", f"--output={output}"]


class Case:
    """The files at the start, the words of the command with a number from 1 on, and how many there are."""

    def __init__(self, files, words, limit):
        self.files, self.words, self.limit = files, words, limit


CASES = {
    "build": Case(lambda: with_old(["out.efi"]), lambda n: build_to(n, "out.efi"), 200),
    "build-new": Case(parts, lambda n: build_to(n, f"out-{n}.efi"), 20),
    # The folder has so many names that those of the output and its temporary file aren't in one sector. On FAT some
    # moments leave both names on the same clusters, which is called broken: who truncates one breaks the other.
    "build-crowded": Case(
        lambda: with_old(["EFI/out.efi"]) | {f"EFI/one-of-many-long-names-{n}": b"x" for n in range(60)},
        lambda n: build_to(n, "EFI/out.efi"),
        200,
    ),
    "build-below": Case(parts, lambda n: build_to(n, f"EFI/Linux/image-{n}.efi"), 20),
    "unlink": Case(
        lambda: with_old([f"efi/EFI/Linux/old-{n}.efi" for n in range(1, 21)]),
        lambda n: ["bootctl", "unlink", f"old-{n}.efi"],
        20,
    ),
    # The two that rename an entry, among so many that its names aren't always in one sector.
    "boot": Case(lambda: entries(["demo-6.9.1+200.efi"]), lambda n: ["boot"], 50),
    "bless": Case(
        lambda: entries([f"demo-6.9.{n}+2-1.efi" for n in range(1, 21)]),
        lambda n: ["bless", "good", f"EFI/Linux/demo-6.9.{n}+2-1.efi"],
        20,
    ),
}
