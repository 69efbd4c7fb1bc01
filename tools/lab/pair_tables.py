"""Tables of two runs at once: the commands, and which of them run at the same time."""
import collections

from lab.intents import INTENT

Case = collections.namedtuple("Case", "first second kind")
# The commands, by short names. Further lines are a script's.
BUILD = "ukify build --stub=in/stub.efi --os-release=@in/os-release"
COMMANDS = {
    "boot": "boot",
    "good": "bless good EFI/Linux/one+2-1.efi",
    "bad": "bless bad EFI/Linux/one+2-1.efi",
    "status": "bless status EFI/Linux/one+2-1.efi",
    "indeterminate": "bless indeterminate EFI/Linux/one+2-1.efi",
    "good two": "bless good EFI/Linux/two+1-2.efi",
    "good old": "bless good loader/entries/old+2-1.conf",
    "list": "bootctl list",
    "identify": "bootctl kernel-identify out.efi",
    "unlink one": "bootctl unlink one+2-1.efi",
    "unlink five": "bootctl unlink five.efi",
    "unlink conf": "bootctl unlink two.conf",
    "inspect": "ukify inspect out.efi",
    "image": "measure image out.efi --bank=sha256 --phase=",
    "image one": "measure image efi/EFI/Linux/one+2-1.efi --bank=sha256 --phase=",
    "calculate": "measure calculate --linux=in/kernel --bank=sha256 --phase=",
    "build": f"{BUILD} --linux=in/kernel --output=out.efi",
    "build again": f"{BUILD} --linux=in/initrd --output=out.efi",
    "build second": f"{BUILD} --linux=in/initrd --output=second.efi",
    "build kernel": f"{BUILD} --linux=in/initrd --output=in/kernel",
    "build of out": f"{BUILD} --linux=out.efi --output=second.efi",
    "build measured": f"{BUILD} --linux=in/kernel --measure --output=out.efi",
    "build new": f"{BUILD} --linux=in/kernel --output=in/new.efi",
    "build entry": f"{BUILD} --linux=in/kernel --output=efi/EFI/Linux/six.efi",
    "install": "install in/new.efi three --tries=3",
    "install again": "install in/other.efi three --tries=3",
    "install one": "install in/new.efi one",
    "install five": "install in/new.efi five",
    "install top": "install in/top.efi five",
    "five to four": "install efi/EFI/Linux/five.efi four",
    "four to five": "install efi/EFI/Linux/four.efi five",
    "type1": "type1 install new --linux=in/kernel --initrd=in/initrd",
    "type1 other": "type1 install other --linux=in/kernel --initrd=in/new.efi",
    "type1 again": "type1 install old --linux=in/initrd",
    "type1 of five": "type1 install other --linux=efi/EFI/Linux/five.efi",
    "type1 of new": "type1 install other --linux=in/new.efi",
    "cleanup": "type1 cleanup",
    "keep": "keep 1",
    "keep all": "keep 6",
    "dry run": "keep 1 --dry-run",
    "show": "loader show",
    "default": "loader set-default one*",
    "default four": "loader set-default four*",
    "timeout": "loader set-timeout 7",
    "tidy": "tidy",
    "script": "script\nbootctl unlink five.efi\nloader set-timeout 9\ninstall in/other.efi six\n",
    "script of boots": "script\nboot\nbootctl list\nboot\n",
}
LOOKS = {"status", "list", "identify", "inspect", "image", "image one", "calculate", "dry run", "show"}
BEGINS_ANEW = LOOKS - {"dry run"}  # if what one of these reads is changed under it
MANY = {"keep", "keep all", "cleanup", "type1", "type1 other", "type1 again", "type1 of five", "type1 of new"}
NEVER_HELD = {("build", "build second"), ("build second", "build"), ("calculate", "build")}
# For each first run the second ones.
EVERY = {
    "boot": "boot/good/bad/status/indeterminate/good two/list/unlink one/unlink five/keep/install/build entry/default/"
    "show/tidy/type1/cleanup/image one/script",
    "good": "good/bad/boot/good two/list/status/unlink one/install one/keep/script",
    "bad": "good/list/boot",
    "status": "good/boot",
    "indeterminate": "boot/good",
    "good old": "good old/cleanup/type1 again/list/keep",
    "list": "boot/good/keep/install/type1/cleanup/unlink five/build entry/script",
    "unlink one": "boot/good",
    "unlink five": "unlink five/boot/list/cleanup/keep/install five/install top/five to four/type1 of five/script",
    "unlink conf": "cleanup/list",
    "identify": "build",
    "inspect": "build",
    "image": "build",
    "image one": "boot",
    "calculate": "build/build kernel",
    "build": "build again/build second/build kernel/build of out/tidy/calculate/inspect",
    "build second": "build",
    "build kernel": "build measured/calculate/type1",
    "build of out": "build",
    "build measured": "build kernel",
    "build new": "install/type1 of new",
    "build entry": "tidy/list/boot/keep/keep all",
    "install": "install again/boot/list/tidy/build new/unlink five/keep/keep all/script/calculate",
    "install one": "good/boot",
    "install five": "keep/unlink five/four to five",
    "install top": "keep/boot/list/keep all",
    "five to four": "four to five/unlink five",
    "four to five": "five to four",
    "type1": "type1/type1 other/cleanup/keep/list/build kernel/tidy/boot",
    "type1 again": "cleanup/good old",
    "type1 of five": "unlink five/keep",
    "type1 of new": "build new",
    "cleanup": "type1/type1 again/type1 other/unlink conf/cleanup/keep/list/good old",
    "keep": "boot/good/keep/type1/list/install/install five/install top/unlink five/cleanup/script",
    "keep all": "type1/install/unlink five/build entry",
    "dry run": "boot/keep",
    "show": "default/timeout/boot",
    "default": "timeout/default four/show/list",
    "timeout": "default",
    "tidy": "build entry/install/type1/tidy/boot",
    "script": "boot/list/script/keep/good",
    "script of boots": "good/list/keep",
}
# Here the first run starts in the folder above that of the second.
APART = {
    "boot": "boot/good/keep",
    "good": "good/list/boot",
    "list": "boot",
    "cleanup": "type1",
    "type1": "cleanup",
    "keep": "type1/install",
    "install": "install again",
    "unlink five": "keep",
    "default": "timeout",
    "tidy": "build entry",
}
# Here nothing is left over at the start: neither a temporary file nor a file in boot_tools that no entry names.
TIDIED = {
    "cleanup": "unlink conf/keep/type1/cleanup/list",
    "type1": "cleanup",
    "tidy": "build entry/install",
}
# Here a stopped run has left a file at each temporary path of the two, and whoever ends with 3 must say that it has met another run.
LEFTOVER = {
    "tidy": "tidy/build entry/install",
    "build entry": "build entry/tidy",
    "build": "build again",
    "install": "install again/tidy",
    "default": "timeout",
    "good": "good/boot",
    "type1": "type1/cleanup",
    "cleanup": "cleanup/type1",
}
LEFT = ["out.efi", "efi/EFI/Linux/six.efi", "efi/EFI/Linux/three+3.efi", "efi/EFI/Linux/one.efi", "efi/loader/loader.conf"]
LEFT += ["efi/loader/entries/new.conf", INTENT]
AT_RANDOM = {
    "boot": "boot/good/list/calculate/unlink five",
    "good": "good/bad/good two/list/calculate",
    "default": "timeout/list/calculate",
    "install": "install again/list/calculate/tidy",
    "type1": "cleanup/type1 other",
    "type1 again": "cleanup",
    "cleanup": "cleanup",
    "good old": "cleanup",
    "keep": "list/type1/boot",
    "unlink five": "unlink five",
    "tidy": "build entry",
}


def is_one_command(name):
    """Whether nothing may come between two parts of it."""
    return name not in MANY and not name.startswith("script")


def cases(table, kind=""):
    """The pairs of a table with their names."""
    return {
        f"{first}, {second} {kind}".strip(): Case(first, second, kind)
        for first, seconds in table.items()
        for second in seconds.split("/")
    }
