"""The tables of words, read from the sources: for the tools that write the completions and the manual's synopsis.

A command is its name with its verb, how many operands it takes, and its options in the table's order. The tables are those
of crates/word_grammar/src/grammar.rt. What isn't read there as expected ends the tool with a line that says so. What the values of an
option and the operands of a command are stands here. One that has no kind is any text."""
import pathlib
import re
import sys
import typing

from lab.program_model.words import GRAMMAR as MODEL

GRAMMAR = pathlib.Path("crates/word_grammar/src/grammar.rt")
BANKS = pathlib.Path("crates/pcr_values/src/bank.rt")
PHASES = pathlib.Path("crates/pcr_values/src/phase_path.rt")
REFUSALS = pathlib.Path("docs/REFUSALS.md")
STORIES = pathlib.Path("crates/boot_stories/stdin")

OPTION = re.compile(r'option!\("(--[a-z0-9-]+)", (Required|Once|Repeated|Flag)(?:, (\w+))?\)')
OPTIONS = re.compile(r"static (\w+): &\[OptionRow\] = &\[(.*?)\];", re.S)
ROW = re.compile(r'CommandName::(\w+) => row_with(?:out)?_verb\("([a-z0-9-]+)"(?:, "([a-z0-9-]+)")?, (\d+), (\w+)\)')
LISTED = re.compile(r"static COMMANDS: &\[CommandName\] = &\[(.*?)\];", re.S)


# What the values of an option are; behind a command's words, only there.
VALUES = {
    **dict.fromkeys(("--stub", "--linux", "--output", "--initrd", "--devicetree", "--splash", "--pcrpkey", "--microcode"), "file"),
    **dict.fromkeys(("--osrel", "--ucode", "--dtb"), "file"),
    **dict.fromkeys(("measure calculate --cmdline", "measure calculate --uname", "measure calculate --sbat"), "file"),
    **dict.fromkeys(("--os-release", "--cmdline", "--sbat"), "text-or-file"),
    "--section": "section",
    "--bank": "bank",
    "--phase": "phase",
    "--tries": "number",
    "--esp-path": "folder",
}

# What the operands of a command are, in order.
OPERANDS = {
    "ukify inspect": ("file",),
    "measure image": ("file",),
    "bootctl kernel-identify": ("file",),
    "bootctl unlink": ("entry",),
    "install": ("file", "image-name"),
    "bless good": ("counted-path",),
    "bless bad": ("counted-path",),
    "bless indeterminate": ("counted-path",),
    "bless status": ("counted-path",),
    "loader set-default": ("id",),
    "loader set-timeout": ("timeout",),
    "type1 install": ("entry-name",),
    "keep": ("number",),
    "demo": ("seed", "number"),
}


class Option(typing.NamedTuple):
    """An option: as it is written, how it is taken (required, once, repeated, flag), and the kind of its values."""

    text: str
    takes: str
    value: str


class Command(typing.NamedTuple):
    """A command: its name, its verb or nothing, the number of its operands, and its options."""

    name: str
    verb: str
    operands: int
    options: tuple

    @property
    def words(self):
        return f"{self.name} {self.verb}".strip()


def fail(file, what):
    sys.exit(f"{file}: {what}")


def option_tables(source):
    """Each table of options by its name."""
    tables = {}
    for name, text in OPTIONS.findall(source):
        found = OPTION.findall(text)
        if len(found) != text.count("option!"):
            fail(GRAMMAR, f"an option of {name} isn't understood")
        tables[name] = tuple(Option(text, takes.lower(), value.lower() or "any") for text, takes, value in found)
    return tables


def commands():
    """All commands, in the table's order."""
    source = GRAMMAR.read_text()
    tables = option_tables(source)
    rows = {key: Command(name, verb, int(operands), tables[table]) for key, name, verb, operands, table in ROW.findall(source)}
    listed = LISTED.search(source)
    order = re.findall(r"CommandName::(\w+)", listed[1]) if listed else []
    if not order or sorted(order) != sorted(rows):
        fail(GRAMMAR, "the rows of the commands aren't understood, or aren't those that are listed")
    return [rows[key] for key in order]


def quoted(file, pattern, what):
    """The texts of a file that match."""
    found = re.findall(pattern, file.read_text())
    return found or fail(file, f"no {what} found")


def banks():
    """The names of the banks."""
    return quoted(BANKS, r'Bank::\w+ => "([a-z0-9]+)"', "bank")


def phase_paths():
    """The phase paths of which values are told if none is named."""
    return quoted(PHASES, r'paths\.push\(PhasePath::read\(alloc, "([a-z:-]+)"\)', "phase path")


def refusals():
    """The number and the text of each refusal of docs/REFUSALS.md."""
    found = re.findall(r"^\| (\d+) \| `([^`]+)` \|", REFUSALS.read_text(), re.M)
    return [(int(number), text) for number, text in found] or fail(REFUSALS, "no refusal found")


def value_kind(command, option):
    """What the values of an option of the command are."""
    if option.takes == "flag":
        return ""
    return VALUES.get(f"{command.words} {option.text}", VALUES.get(option.text, "text"))


def operand_kinds(command):
    """What the operands of a command are, in order."""
    given = OPERANDS.get(command.words, ())
    return [*given, *["text"] * (command.operands - len(given))]


def without_story():
    """The options that no line of the stories has, and the commands that the model's grammar knows otherwise."""
    lines = STORIES.read_text(encoding="latin-1").splitlines()
    marks = {"required": "!", "repeated": "*", "flag": "?", "once": ""}
    for command in commands():
        own = [line.split() for line in lines if f" {command.words} " in f"{line} "]
        for option in command.options:
            if not any(word.partition("=")[0] == option.text for words in own for word in words):
                yield f"{STORIES}: {command.words} {option.text} stands in no line"
        known = {marks[option.takes] + option.text for option in command.options}
        if known != set(MODEL.get(tuple(command.words.split()), (0, ()))[1]):
            yield f"tools/lab/program_model/words.py: {command.words} has other options"


def kinds_of_nothing():
    """The words that have a kind and stand in no table, each with a line that says so."""
    them = commands()
    words = {command.words for command in them}
    texts = {form for command in them for option in command.options for form in (option.text, f"{command.words} {option.text}")}
    yield from (f"tools/word_tables.py: {word} is no command" for word in OPERANDS if word not in words)
    yield from (f"tools/word_tables.py: {word} is no option" for word in VALUES if word not in texts)
