"""Rows of crates/text_rows: what each call on texts comes to."""
import re

from lab.intents import INTENT
from lab.program_model.menu import counted, counter_of, text_entry, tokens
from lab.program_model.paths import path_of
from lab.program_model.refusals import Usage
from lab.program_model.rows import Unclear, unclear
from lab.program_model.texts import first_of, is_timeout, loader_values, os_release, pattern_of, settings, with_key
from lab.program_model.words import read_words, split_line

NO_PATH = "BadPath"


def read_argument(text):
    """The text that an argument writes."""
    def piece(found):
        count, star, repeated = found[1].partition("*")
        unclear(not star or not count.isdigit())
        return repeated * int(count)
    text = re.sub(r"\{(.*?)\}", piece, text)

    def escape(found):
        unclear(found[0][1:2] not in ("n", "r", "t", "\\") and not re.fullmatch(r"\\x[0-9a-fA-F]{2}", found[0]))
        return {"n": "\n", "r": "\r", "t": "\t", "\\": "\\"}.get(found[0][1]) or chr(int(found[0][2:], 16))
    return re.sub(r"\\(?:x.{0,2}|.|$)", escape, text, flags=re.S)


def write_text(text):
    """The text as it is told: long runs of one byte once."""
    def byte(c):
        return {"\n": "\\n", "\r": "\\r", "\t": "\\t", "\\": "\\\\"}.get(c) or (c if " " <= c <= "~" else f"\\x{ord(c):02x}")
    runs = re.finditer(r"(.)\1*", text, re.S)
    return "".join(f"{{{len(run[0])}*{byte(run[1])}}}" if len(run[0]) > 40 else byte(run[1]) * len(run[0]) for run in runs)


def is_name(text):
    return text not in ("", ".", "..") and "/" not in text and "\0" not in text and len(text) <= 255


def beside(path, name):
    return None if name in ("", ".") or "/" in name else path_of(path[:len(path) - len(path.rpartition("/")[2])] + name)


def below(folder, rest):
    return path_of(f"{folder}/{rest}") if [part for part in rest.split("/") if part not in ("", ".")] else None


def counter_text(found):
    if found is None:
        return "None"
    base, suffix, left, done = found
    kind = {".efi": "Efi", ".conf": "Conf"}[suffix]
    return f"Some(Counted {{ base_length: {len(base)}, left: {left}, done: {done}, suffix: {kind} }})"


def boot_of(found):
    base, suffix, left, done = found
    return (base, suffix, left - 1, min(done + 1, 999_999_999)) if left else None


def choice(verb, there):
    """What a blessing renames, of the names that are there."""
    target, sources = {"good": ("good", ["counted", "bad"]), "bad": ("bad", ["counted", "good"]), "indeterminate": ("counted", ["good", "bad"])}[verb]
    kinds = {"good": "FromGood", "counted": "FromCounted", "bad": "FromBad"}
    return "Nothing" if target in there else next((kinds[it] for it in sources if it in there), "NoSource")


def compare(one, other):
    a, b = tokens(one), tokens(other)
    return "Less, Greater" if a < b else "Equal, Equal" if a == b else "Greater, Less"


def by_keys(pairs):
    return "".join(f"{key}={value};" if value is not None else f"{key} is absent;" for key, value in pairs)


def entry_text(text):
    if len(text) > 65_536:
        return "TooLong"
    entry = text_entry("efi/loader/entries/a.conf", text.encode("latin-1"))
    if entry is None:
        return "NothingToBoot"
    order = ["title", "version", "machine-id", "sort-key", "linux", "efi", "initrd", "options", "devicetree", "devicetree-overlay", "architecture"]
    rows = [(key, value) for key in order for value in ([entry.fields[key]] if isinstance(entry.fields.get(key), str) else entry.fields.get(key, []))]
    return "".join(f"{key}={value};" for key, value in rows)


REFUSALS = {
    "NotFound": (1, "{} is not there"), "BadPath": (2, "{} is not a path"), "TooLarge": (3, "{} has {} bytes"),
    "NotPe": (4, "not a PE32+ file: {} at {}"), "SignedStub": (5, "the stub has a certificate table"),
    "NoHeaderSpace": (6, "headers need {} bytes and have {}"), "SectionTwice": (7, "section {} is there twice"),
    "BadSectionName": (8, "{} is not a section name"), "SbatDoesNotFit": (9, ".sbat has {} bytes and room for {}"),
    "AddressSpace": (10, "the image ends at {}"), "NotUki": (11, "no {}"), "BadName": (12, "{} is not a name"), "NoEntries": (13, "no entries"),
    "TargetExists": (14, "{} is there already"), "NoCounter": (15, "{} has no counter"), "NoSource": (16, "nothing to bless at {}"),
    "BadScript": (17, "line {} is not a command"), "TooMany": (18, "{} entries"), "BadNumber": (19, "{} is not a number here"),
    "BadPattern": (20, "{} is not a pattern"), "BadField": (21, "{} is not a value"), "PayloadSource": (22, "{} is a payload"),
    "TooManyFiles": (23, "{} initrds"), "NotText": (24, "{} has a value that is not UTF-8"),
}


def refusal(kind, *fields):
    unclear(kind not in REFUSALS)
    number, text = REFUSALS[kind]
    unclear(len(fields) < text.count("{}") or kind in ("TooMany", "BadScript", "AddressSpace", "TooManyFiles") and not fields[0].isdigit())
    fields = [str(int(fields[0]) + 1)] if kind == "AddressSpace" else fields
    return number, text.format(*fields)


def is_value(key, value):
    if key == "timeout":
        return is_timeout(value)
    return bool(re.fullmatch(r"[!-~]{1,255}", value)) and value[0] != "@" and pattern_of(value) is not None


def matches(pattern, text):
    """Whether the pattern matches, by the reach of its items: the places of the text where a match of the first so many may end."""
    if pattern_of(pattern) is None:
        return False
    ends, rest = {0}, pattern
    while rest and ends:
        if rest[0] == "*":
            ends, rest = set(range(min(ends), len(text) + 1)), rest.lstrip("*")
            continue
        size = 2 if rest[0] == "\\" else rest.index("]") + 1 if rest[0] == "[" else 1
        members = {c for c in set(text) if re.fullmatch(pattern_of(rest[:size]), c, re.S)}
        ends, rest = {end + 1 for end in ends if end < len(text) and text[end] in members}, rest[size:]
    return len(text) in ends


def chosen(text, ids):
    ids = [it for it in ids.split("\n") if it]
    default, _ = loader_values(text.encode("latin-1"))
    found = next((place for place, it in enumerate(ids) if default is not None and matches(default, it)), 0)
    return str(found) if ids else "none"


# The calls whose arguments are bytes, and not texts of UTF-8.
OF_BYTES = "compare compare-keys lines values release entry matches pattern value settings change chosen".split()


def is_text(word):
    try:
        return word.encode("latin-1").decode() is not None
    except UnicodeDecodeError:
        return False

# The calls that take two arguments, or more.
OF_TWO = "sibling under leftover compare compare-keys values matches value change chosen".split()


def path_row(call, one, other):
    """What a call on paths and names comes to."""
    path = path_of(one)
    if call in ("path", "printed", "file-name", "target"):
        forms = {"path": "{0}", "printed": "/{0}", "file-name": "{1}", "target": "{0}; {0}.tmp"}
        return NO_PATH if path is None else forms[call].format(path, path.rpartition("/")[2])
    if call == "intent":
        return INTENT
    if call == "named":
        return one if path == one else "none"
    if call in ("sibling", "under"):
        return (beside if call == "sibling" else below)(path, other) or NO_PATH
    if call == "name":
        return one if is_name(one) else NO_PATH
    if call == "leftover":
        return f"{path}/{other}" if other.endswith(".tmp") else "none"
    raise Unclear


def counter_row(call, one, *more):
    """What a call on counters in names comes to."""
    if call == "counter":
        return counter_text(counter_of(one))
    if call == "booted":
        unclear(counter_of(one) is None)
        return counter_text(boot_of(counter_of(one)))
    if call in ("good", "bad"):
        found = counter_of(one)
        return "none" if found is None else found[0] + found[1] if call == "good" else counted(found[0], found[1], 0, found[3])
    if call == "joined":
        left, done, suffix = more[:3]
        unclear(not one or max(int(left), int(done)) > 999_999_999 or suffix not in (".efi", ".conf"))
        return counted(one, suffix, int(left), int(done))
    if call == "choices":
        return "; ".join(choice(verb, one.split()) for verb in ("good", "bad", "indeterminate"))
    raise Unclear


def settings_row(call, one, other, *more):
    """What a call on texts of settings and on versions comes to."""
    if call in ("compare", "compare-keys"):
        return compare(one, other)
    if call == "lines":
        return "".join(line + ";" for line in settings(one.encode("latin-1")))
    if call == "values":
        values = os_release(other.encode("latin-1"), True)
        return by_keys([(key, values.get(key)) for key in one.split(",")])
    if call == "release":
        values = os_release(one.encode("latin-1"))
        keys = [("title", "PRETTY_NAME IMAGE_ID NAME ID"), ("version", "IMAGE_VERSION VERSION VERSION_ID BUILD_ID"), ("sort key", "IMAGE_ID ID")]
        return by_keys([(key, first_of(values, *names.split())) for key, names in keys])
    if call == "entry":
        return entry_text(one)
    if call == "settings":
        return by_keys(zip(("default", "timeout"), loader_values(one.encode("latin-1"))))
    if call == "change":
        return with_key(more[0].encode("latin-1"), one, other).decode("latin-1")
    raise Unclear


def pattern_row(call, one, other):
    """What a call on patterns and on the values of settings comes to."""
    if call == "chosen":
        return chosen(one, other)
    is_so = {"matches": lambda: matches(one, other), "pattern": lambda: pattern_of(one) is not None, "value": lambda: is_value(one, other)}
    return "yes" if is_so[call]() else "no"


def word_row(call, one):
    """What a call on a line of words comes to, None where the model doesn't say."""
    split = split_line(one)
    if split is None:
        return "OpenQuote"
    if call == "split":
        return "|".join(split)
    try:
        read_words(split)
    except Usage as reason:
        return f"usage: {reason}"
    return None


def text_row(call, *words):
    """What the row comes to, None where the model doesn't say."""
    unclear(call not in OF_BYTES and not all(map(is_text, words)))
    if call in ("refusal", "refusal-line"):
        number, text = refusal(*words)
        return text if call == "refusal" else f"refusal {number}: {text}\n"
    one, other = [*words, None, None][:2]
    unclear(other is None and call in OF_TWO)
    if call in ("counter", "booted", "good", "bad", "joined", "choices"):
        return counter_row(call, *words)
    if call in ("compare", "compare-keys", "lines", "values", "release", "entry", "settings", "change"):
        return settings_row(call, one, other, *words[2:])
    if call in ("matches", "pattern", "value", "chosen"):
        return pattern_row(call, one, other)
    return word_row(call, one) if call in ("split", "words") else path_row(call, one, other)


def text_answer(row):
    call, _, rest = row.partition(" ")
    answer = text_row(call, *(read_argument(part) for part in (rest.split("|") if "|" in rest or rest else [""])))
    return None if answer is None else write_text(answer) + "\n"
