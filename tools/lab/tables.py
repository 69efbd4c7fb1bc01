"""Tables of counts. A row has its statuses, what is broken as pairs of a kind and words, and the driver's own words."""
import collections


def counts_of(rows, kinds, own):
    """The counts of some rows."""
    well = [it for it in rows if not it["broken"]]
    later = sum(3 in it["statuses"] for it in well)
    yield from (len(rows), len(well) - later, later, len(rows) - len(well))
    yield from (sum(kind in dict(it["broken"]) for it in rows) for kind in kinds)
    yield from (sum(word in it["own"] for it in rows) for word in own)


def table(rows, by, kinds, own, noun="looks"):
    """The counts of the rows that have the same of these. A row may count in several columns behind `broken`."""
    heads = [noun, "right", "3, then right", "broken", *kinds, *own]
    wide = {word: max([len(word), *(len(str(it[word])) for it in rows)]) for word in by}
    yield ""
    yield " ".join(f"{word:{wide[word]}}" for word in by) + " " + " ".join(f"{head:>5}" for head in heads)
    groups = collections.defaultdict(list)
    for it in rows:
        groups[tuple(str(it[word]) for word in by)].append(it)
    for names, them in [*groups.items(), (("all", *[""] * (len(by) - 1)), rows)]:
        row = " ".join(f"{name:<{wide[word]}}" for word, name in zip(by, names))
        counts = counts_of(them, kinds, own)
        yield row + " " + " ".join(f"{it:{max(5, len(head))}}" for it, head in zip(counts, heads))


def sums(rows, kinds, own):
    """The lines behind the tables."""
    others = sorted({word for it in rows for word in it["own"]} - set(own))
    for title, words in (("broken: ", kinds), ("counted apart: ", [*own, *others])):
        counts = (sum(word in dict(it["broken"]) or word in it["own"] for it in rows) for word in words)
        yield title + ", ".join(f"{word} {count}" for word, count in zip(words, counts))


def tell(it, where, is_told_always):
    """Prints a row that is broken, or any."""
    statuses = " ".join(map(str, it["statuses"]))
    if it["broken"]:
        kinds = list(dict.fromkeys(kind for kind, _ in it["broken"]))
        first = {kind: [words for other, words in it["broken"] if other == kind][:3] for kind in kinds}
        what = "; ".join(f"{kind}: {' | '.join(first[kind])}" for kind in kinds)
        logs = "".join(f" [{log}]" for log in it.get("log", ()))
        print(f"broken {where}, statuses {statuses}: {what}{logs}", flush=True)
    elif is_told_always:
        print(f"ok {where}, statuses {statuses} {' '.join(it['own'])}", flush=True)
