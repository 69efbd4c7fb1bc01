"""Words: the grammar of commands."""
import re

from lab.program_model.pcr_values import BANKS
from lab.program_model.refusals import Usage

# The sections by the order in which a builder appends them, with their options of `ukify build` and `measure calculate`.
PARTS = [(".osrel", "--os-release", "--osrel"), (".cmdline", "--cmdline", "--cmdline"), (".dtb", "--devicetree", "--dtb"),
         (".uname", "--uname", "--uname"), (".splash", "--splash", "--splash"), (".pcrpkey", "--pcrpkey", "--pcrpkey"),
         (".initrd", "--initrd", "--initrd"), (".ucode", "--microcode", "--ucode"), (None, "--section", None),
         (".sbat", "--sbat", "--sbat"), (".linux", "--linux", "--linux")]
ESP = ["--esp-path"]
# Each command with the number of its operands, its options (required ones behind `!`, repeatable ones behind `*`, flags behind `?`).
GRAMMAR = {
    ("ukify", "build"): (0, ["!--stub", "!--linux", "!--output", "--os-release", "--cmdline", "--devicetree", "--uname", "--splash",
                             "--pcrpkey", "*--initrd", "--microcode", "*--section", "--sbat", "?--measure"]),
    ("ukify", "inspect"): (1, ["?--json"]),
    ("measure", "calculate"): (0, ["!--linux", *(row[2] for row in PARTS if row[2] and row[0] != ".linux"), "*--bank", "*--phase", "?--json"]),
    ("measure", "image"): (1, ["*--bank", "*--phase", "?--json"]),
    ("bootctl", "list"): (0, [*ESP, "?--json"]), ("bootctl", "unlink"): (1, ESP), ("bootctl", "kernel-identify"): (1, []),
    ("tidy",): (0, ESP), ("install",): (2, ["--tries", *ESP]), ("boot",): (0, ESP),
    **{("bless", verb): (1, ESP) for verb in ("good", "bad", "indeterminate", "status")},
    ("loader", "show"): (0, ESP), ("loader", "set-default"): (1, ESP), ("loader", "set-timeout"): (1, ESP),
    ("type1", "install"): (1, ["!--linux", "*--initrd", "--title", "--version", "--machine-id", "--sort-key", "--options", *ESP]),
    ("type1", "cleanup"): (0, ESP), ("keep",): (1, ["?--per-key", "?--dry-run", *ESP]),
    ("script",): (0, []), ("demo",): (2, []),
}
# Those that stand for others.
SEVERAL = [("type1", "install"), ("type1", "cleanup"), ("keep",)]


def split_line(line):
    """The words of a script's line, or None where a quote is left open."""
    if line.count("'") % 2:
        return None
    pieces = re.findall(r"(?:[^ \t']|'[^']*')+", line)
    return [piece.replace("'", "") for piece in pieces]


def read_words(words):
    """The command, its operands and its options, or a usage reason."""
    if len(words) > 16_777_216 or any(len(word) > 1_048_576 for word in words):
        raise Usage("too long")
    if not words:
        raise Usage("no command")
    if words[0] not in {row[0] for row in GRAMMAR}:
        raise Usage(f"unknown command {words[0]}")
    command, rest = (words[0],), words[1:]
    if command not in GRAMMAR:
        if not rest:
            raise Usage("no verb")
        command, rest = (words[0], rest[0]), rest[1:]
        if command not in GRAMMAR:
            raise Usage(f"unknown verb {command[1]}")
    wanted, rows = GRAMMAR[command]
    kinds = {row.lstrip("!*?"): row[0] for row in rows}
    operands, options, at = [], {}, 0
    while at < len(rest):
        word, at = rest[at], at + 1
        if word == "--":
            operands += rest[at:]
            break
        if word.startswith("--"):
            name, equals, value = word.partition("=")
            if name not in kinds:
                raise Usage(f"unknown option {name}")
            if kinds[name] == "?":
                if equals:
                    raise Usage(f"{name} takes no value")
            elif not equals:
                if at == len(rest):
                    raise Usage(f"{name} needs a value")
                value, at = rest[at], at + 1
            if name == "--bank" and value not in BANKS:
                raise Usage(f"unknown bank {value}")
            options.setdefault(name, []).append(value)
        elif word.startswith("-") and len(word) > 1:
            raise Usage(f"unknown option {word}")
        else:
            operands.append(word)
    if len(operands) != wanted:
        raise Usage("too few operands" if len(operands) < wanted else "too many operands")
    for row in rows:
        if row[0] == "!" and row[1:] not in options:
            raise Usage(f"{row[1:]} is required")
    return command, operands, options
