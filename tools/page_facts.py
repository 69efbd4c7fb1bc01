"""What pages say of the code, looked up in it, for tools/definitions: the names in brackets of docs/CLAIMS.md, and each clause at the
function that it is said to be of; the numbers of docs/DECISIONS.md on lines and on wrong bodies, the groups of crates, and the text of each
refusal at each of its places.

Each function gives a line for each thing that is wrong."""
import pathlib
import re

CLAIMS, DECISIONS = pathlib.Path("docs/CLAIMS.md"), pathlib.Path("docs/DECISIONS.md")
ARCHITECTURE, REFUSALS = pathlib.Path("docs/ARCHITECTURE.md"), pathlib.Path("docs/REFUSALS.md")
GROUPS, MANUAL = pathlib.Path("crates.txt"), pathlib.Path("share/man/boot_tools.1")
STORIES = pathlib.Path("crates/boot_stories/stdout")
MODEL = pathlib.Path("tools/lab/program_model")
ROWS = MODEL / "text_rows.py"
IN_CODE, IN_SPEC = pathlib.Path("crates/boot_base/src/refusal.rt"), pathlib.Path("crates/boot_base/specs/Refusals.antt")

NUMBERS = "none one two three four five six seven eight nine ten".split()
NAME = re.compile(r"^[A-Za-z_]\w*(?:::\w+)*$")
NAMED = re.compile(
    r"\b(?:ensures|requires) (\w+) (?=\{)|\bghost (\w+)\b|\bfn (\w+)|\b(?:struct|enum|trait|type|const|static) (\w+)"
    r"|^ *(?:pub(?:\(\w+\))? )?(\w+): |^    (\w+)(?:,| \{|\()",
    re.MULTILINE,
)
DEFINED = re.compile(r"^ *(?:abbrev |unfoldable )?(?:pub )?(?:record |data )?([^\s:({]+) (?=[:({])", re.MULTILINE)


def sources(crate):
    """The code of a crate."""
    return sorted((pathlib.Path("crates") / crate / "src").glob("**/*.rt"))


def names_of(crate):
    """The clauses, functions, fields and types of a crate, and the fields of its definitions."""
    found = {crate}
    for file in sources(crate):
        found |= {name for at in NAMED.findall(file.read_text()) for name in at if name}
    for file in sorted((pathlib.Path("crates") / crate / "specs").glob("**/*.antt")):
        found |= set(DEFINED.findall(file.read_text()))
    return found


def crates():
    """The names of all crates."""
    return {it.name for it in pathlib.Path("crates").iterdir() if (it / "src").is_dir()}


def rows(page):
    """The rows of the tables of CLAIMS: the crates that each is about, and what it names."""
    every, now, homes, section = crates(), [], [], ""
    for line in page.splitlines():
        section = line[3:] if line.startswith("## ") else section
        heads = re.findall(r"\*\*`(\w+)`", line)
        now = heads[-1:] or now
        cells = [it.strip() for it in line.strip("|").split(" | ")] if line.startswith("| ") else []
        if section == "Claim by claim" and len(cells) == 2:
            homes = [it for it in re.findall(r"`(\w+)`", cells[1]) if it in every] or homes
            yield homes, cells[1]
        elif section.startswith("From the headline") and len(cells) == 4:
            homes = [it for it in re.findall(r"\w+", cells[1]) if it in every] or homes
            yield homes, f"{cells[0]}, {cells[2]}"
        elif section == "Crate by crate" and len(cells) > 1:
            yield now, cells[0]


def claims(page):
    """Each text of CLAIMS that names clauses, calls or fields, and the crates that it may be about."""
    yield from rows(page)
    body = page.partition("## Crate by crate")[2]
    text = " ".join(line for line in body.splitlines() if not line.startswith("|"))
    for home, said in re.findall(r"\*\*`(\w+)`[^*]*\*\*(.*?)(?=\*\*|$)", text):
        for inner in re.findall(r"\(([^()]*(?:\([^()]*\)[^()]*)*)\)", said):
            yield [home], inner


def wrong_claims():
    """A name in brackets or in a table that no clause, function or field of its crate has."""
    every, known = crates(), {}
    for homes, text in claims(CLAIMS.read_text()):
        named = [it for it in re.findall(r"`([^`]*)`", text) if NAME.match(it)]
        homes = [it for it in named if it in every] or homes
        there = set().union(*(known.setdefault(it, names_of(it)) for it in homes))
        for name in named:
            if name not in every and not set(name.split("::")) <= there:
                yield f"{CLAIMS}: `{name}` is no clause, function or field of {' or '.join(homes)}"


SIGNATURE = re.compile(r"^ *(?:pub(?:\(\w+\))? )?(?:unsafe )?(?:ghost )?fn (\w+)", re.MULTILINE)
CLAUSE = re.compile(r"\b(?:ensures|requires) (?:(\w+) )?\{([^\n]*(?:\n(?! *(?:ensures|requires)\b)[^\n]*)*)")
FIELDS = re.compile(r"^ *pub (\S+) :", re.MULTILINE)
RECORD = re.compile(r"^(?:pub )?record (?:pub )?(\S+) .*where\n((?:  .*\n|\n)+)", re.MULTILINE)
LISTED = r"(?:`\w+`(?:, | and ))*`\w+`"
OF = re.compile(rf"({LISTED}) of (?=({LISTED}))")


def records():
    """The fields of each record of the definitions."""
    found = {}
    for file in sorted(pathlib.Path("crates").glob("*/specs/**/*.antt")):
        for name, body in RECORD.findall(file.read_text()):
            found.setdefault(name, set()).update(FIELDS.findall(body))
    return found


def clauses_of(crate, known):
    """For each function of a crate its clauses, with the fields of the records that they name."""
    found = {}
    for file in sources(crate):
        text = file.read_text()
        heads = [*SIGNATURE.finditer(text)]
        for at, head in enumerate(heads):
            end = heads[at + 1].start() if at + 1 < len(heads) else len(text)
            for name, body in CLAUSE.findall(text[head.end() : end]):
                fields = set().union(*(known.get(word, ()) for word in re.findall(r"\w+", body.partition("\n    {")[0])))
                found.setdefault(head[1], set()).update({name} - {""}, fields)
    return found


def cited_clauses(page):
    """Each `CLAUSE, .. of FUNCTION, ..` of CLAIMS, with the crates that it may be about."""
    every = crates()
    for homes, text in claims(page):
        named = [it for it in re.findall(r"`(\w+)`", text) if it in every]
        for clauses, functions in OF.findall(text):
            yield named or homes, re.findall(r"`(\w+)`", clauses), re.findall(r"`(\w+)`", functions)
    for function, body in re.findall(r"^\| Clause of `(\w+)` .*\n\|[-|]*\n((?:\|.*\n)+)", page, re.MULTILINE):
        for row in body.splitlines():
            yield sorted(every), re.findall(r"`(\w+)`", row.split(" | ")[0]), [function]


def wrong_clauses():
    """A clause that CLAIMS gives to a function which has none of that name."""
    fields, known = records(), {}
    for homes, clauses, functions in cited_clauses(CLAIMS.read_text()):
        found = {}
        for home in homes:
            for function, names in known.setdefault(home, clauses_of(home, fields)).items():
                found.setdefault(function, set()).update(names)
        functions = [it for it in functions if it in found]
        clauses = [it for it in clauses if it not in found]
        for function in functions:
            yield from (f"{CLAIMS}: `{it}` is no clause of `{function}`" for it in clauses if it not in found[function])


def line_count(crate):
    """The lines of a crate's code, without empty lines and comments."""
    lines = (line.strip() for file in sources(crate) for line in file.read_text().splitlines())
    return sum(1 for line in lines if line and not line.startswith("//"))


def edit_count(crate):
    """The wrong bodies of a crate."""
    return len(list((pathlib.Path("crates") / crate / "must-fail").glob("*.edit")))


def decided(before, after):
    """What stands in DECISIONS between two texts, on one line."""
    page = " ".join(DECISIONS.read_text().split())
    start = page.find(before)
    end = page.find(after, start)
    return page[start + len(before) : end] if start >= 0 and end >= 0 else None


def number(word):
    return NUMBERS.index(word) if word in NUMBERS else int(word.replace(",", ""))


def counts_said(text):
    """Of `a` has seven, `b` and `c` have four: the number of each crate."""
    found = {}
    for names, word in re.findall(r"((?:`\w+`(?:, | and )?)+) (?:has |have )?(?:up to )?([\w,]+)", text):
        found |= {name: number(word.rstrip(",")) for name in re.findall(r"`(\w+)`", names) if word.rstrip(",") in NUMBERS or word[0].isdigit()}
    return found


def wrong_counts():
    """A crate with more lines, or with more or fewer wrong bodies, than DECISIONS says."""
    lines, edits = decided("A crate's code stays within ", "."), decided("A crate has five to eight wrong bodies", "Each is refused")
    if lines is None or edits is None:
        yield f"{DECISIONS}: it doesn't say how many lines or wrong bodies a crate has"
        return
    limit, more = number(lines.split()[0]), counts_said(lines)
    for crate in sorted(crates()):
        count, most = line_count(crate), more.get(crate, limit)
        if count > most:
            yield f"{DECISIONS}: {crate} has {count} lines, and at most {most} are said"
        elif crate in more and count <= limit:
            yield f"{DECISIONS}: {crate} is named for its lines, and has {count}"
    other = counts_said(edits)
    for crate in sorted(crates()):
        count = edit_count(crate)
        if count != other[crate] if crate in other else not 5 <= count <= 8:
            yield f"{DECISIONS}: {crate} has {count} wrong bodies, and {other.get(crate, 'five to eight')} are said"


def groups_of(text, head, row):
    """For each crate the group that it stands in, by the lines that begin a group and those of a crate."""
    group, found = None, {}
    for line in text.splitlines():
        if head.match(line):
            group = head.match(line)[1]
        elif row.match(line) and group:
            found.setdefault(row.match(line)[1], group)
    return found


def wrong_groups():
    """A crate that stands in one group in crates.txt and in another in ARCHITECTURE."""
    listed = groups_of(GROUPS.read_text(), re.compile(r"^# (.*?)\.?$"), re.compile(r"^(\w+):"))
    shown = groups_of(ARCHITECTURE.read_text(), re.compile(r"^\*\*(.*)\*\*$"), re.compile(r"^\| `(\w+)` \|"))
    for crate in sorted({*listed, *shown}):
        if listed.get(crate) != shown.get(crate):
            yield f"{ARCHITECTURE}: {crate} is of the group {shown.get(crate)}, and in {GROUPS} of {listed.get(crate)}"


# Texts of refusals: `{}` stands for what a field has.


def form(text):
    """A text with `{}` for each field: what is between braces, or a word of capitals."""
    return re.sub(r"\{[^{}]*\}", "{}", text)


def capitals(text):
    """A text of a page, in which a word of capitals is a field, or one capital letter that isn't the first word of it."""
    return re.sub(r"\b(?:(?:PATH|WORD|NAME|TEXT|REASON|OFFSET|MISSING)|[NMK])\b", "{}", text)


def in_code():
    source = IN_CODE.read_text()
    numbers = dict(re.findall(r"Refusal::(\w+)(?: \{ \.\. \})? => (\d+),", source))
    for name, text in re.findall(r"Refusal::(\w+)(?: \{[^}]*\})? => (?:\{\s*)?(?:f\.write_str\(|write!\(\s*f,\s*)\"([^\"]*)\"", source):
        yield int(numbers[name]), form(text)


def in_spec():
    source = IN_SPEC.read_text()
    numbers = dict(re.findall(r"^number_of \(?refusals\.(\w+)[^=]*= (\d+)$", source, re.MULTILINE))
    for name, body in re.findall(r"^text_of \(?refusals\.(\w+)[^=]*=\s*(.*)$", source, re.MULTILINE):
        parts = re.findall(r'codes "([^"]*)"|(decimal \w+|\b\w+\b)', body.replace("(", " ").replace(")", " "))
        yield int(numbers[name]), "".join(said if not field else "{}" for said, field in parts)


def in_rows():
    source = ROWS.read_text().partition("REFUSALS = {")[2].partition("\n}")[0]
    yield from ((int(at), form(text)) for at, text in re.findall(r'"\w+": \((\d+), "([^"]*)"\)', source))


def in_model():
    """Each refusal in the model of the program: its file, its number and its text."""
    for file in sorted(MODEL.glob("*.py")):
        yield from ((file, int(at), form(text)) for at, text in re.findall(r'Refused\((\d+), f?"([^"]*)"\)', file.read_text()))


def in_page():
    rows = re.findall(r"^\| (\d+) \| `([^`]*)` \|", REFUSALS.read_text(), re.MULTILINE)
    yield from ((int(at), capitals(text)) for at, text in rows)


def in_manual():
    rows = re.findall(r"^\.It (\d+) Qq (.*)$", MANUAL.read_text(), re.MULTILINE)
    yield from ((int(at), capitals(text.replace(" : ", ": ").replace('"', ""))) for at, text in rows)


def wrong_refusals():
    """A text of a refusal that isn't that of the code, a place that lacks one, and a printed line that has no such text."""
    code = dict(in_code())
    whole = (IN_SPEC, in_spec), (ROWS, in_rows), (REFUSALS, in_page), (MANUAL, in_manual)
    for place, read in whole:
        found = dict(read())
        yield from (f"{place}: refusal {at} is `{found.get(at)}`, and in the code `{text}`" for at, text in code.items() if found.get(at) != text)
        yield from (f"{place}: refusal {at} isn't in the code" for at in found if at not in code)
    like = {at: re.compile(re.escape(text).replace(r"\{\}", ".*") + "$") for at, text in code.items()}
    for place, at, text in in_model():
        if not (at in like and like[at].match(text)):
            yield f"{place}: refusal {at} is `{text}`, and in the code `{code.get(at)}`"
    for at, text in re.findall(r"^refusal (\d+): (.*)$", STORIES.read_text(), re.MULTILINE):
        if not (int(at) in like and like[int(at)].match(text)):
            yield f"{STORIES}: `{text}` isn't what refusal {at} prints"


def wrong_uses():
    """A refusal that no command makes, no row or story prints or no command of the manual names, and a wrong number of all."""
    told = re.findall(r"^refusal (\d+): ", STORIES.read_text(), re.MULTILINE)
    of_commands = MANUAL.read_text().partition(".Sh COMMANDS")[2].partition("\n.Sh ")[0]
    lists = re.findall(r"^Refusals?\b(.*?)(?=^\.Ss |\Z)", of_commands, re.MULTILINE | re.DOTALL)
    listed = re.findall(r"\d+", " ".join(lists))
    made = "".join(file.read_text() for crate in sorted(crates() - {"boot_base", "text_rows"}) for file in sources(crate))
    specs = sorted(pathlib.Path("crates").glob("*/specs/**/*.antt"))
    meant = "".join(file.read_text() for file in specs if file != IN_SPEC)
    asked = pathlib.Path("crates/text_rows/stdin").read_text(encoding="latin-1")
    numbers = re.findall(r"Refusal::(\w+)(?: \{ \.\. \})? => (\d+),", IN_CODE.read_text())
    for name, at in numbers:
        there = {
            "made by a command": re.search(rf"Refusal::{name}\b", made),
            "in a definition of a command": re.search(rf"\b\w+\.{name}\b", meant),
            "in a row of text_rows": re.search(rf"^refusal-line {name}\b", asked, re.MULTILINE),
            "in a story": at in told,
            "among the refusals of a command of the manual": at in listed,
        }
        yield from (f"{IN_CODE}: refusal {at}, {name}, isn't {place}" for place, found in there.items() if not found)
    for file, form in (IN_CODE, r"from 1 to (\d+)\."), (pathlib.Path("docs/TASKS.md"), r"each of the (\d+) comes"):
        for it in re.findall(form, file.read_text()):
            if int(it) != len(numbers):
                yield f"{file}: {it} refusals, and there are {len(numbers)}"


def wrong():
    """All of it."""
    for check in wrong_claims, wrong_clauses, wrong_counts, wrong_groups, wrong_refusals, wrong_uses:
        yield from check()
