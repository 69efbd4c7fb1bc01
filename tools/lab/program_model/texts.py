"""Texts: settings, os-release and loader.conf."""
import re


def settings(data):
    """The lines of a text that count, without the blanks at their ends."""
    lines = (line.strip(" \t\r") for line in data.decode("latin-1").split("\n"))
    return [line for line in lines if line and not line.startswith("#")]


def os_release(data, with_empty=False):
    """The values of the keys, of those that aren't empty where nothing else is asked."""
    values = {}
    for line in settings(data.split(b"\0")[0]):
        found = re.fullmatch(r"([A-Za-z_][A-Za-z0-9_]*)=(?:([^ \t'\"\\$`]*)|'([^']*)'|\"((?:[^\"\\]|\\[\"$\\`]|\\(?![\"$\\`]))*)\")", line, re.S)
        if found:
            quoted = found[4] if found[4] is None else re.sub(r"\\([\"$\\`])", r"\1", found[4])
            values[found[1]] = next(it for it in (found[2], found[3], quoted) if it is not None)
    return {key: value for key, value in values.items() if value or with_empty}


def first_of(values, *keys):
    return next((values[key] for key in keys if key in values), None)


def key_lines(data):
    """Pairs of key and value of a text of keys."""
    for line in settings(data):
        found = re.fullmatch(r"([^ \t]+)[ \t]+(.+)", line, re.S)
        if found:
            yield found[1], found[2]


def pattern_of(text):
    """The pattern as a regular expression, or None where it is none."""
    expression, rest = "", text
    while rest:
        item, rest = first_item(rest)
        if item is None:
            return None
        expression += item
    return expression


def first_item(text):
    """The first item of a pattern as a regular expression, or None where it is none; and the rest of the pattern."""
    first, rest = text[0], text[1:]
    if first in "*?":
        return {"*": ".*", "?": "."}[first], rest
    if first == "\\":
        return (re.escape(rest[0]), rest[1:]) if rest else (None, "")
    if first == "[":
        between, closing, behind = rest.partition("]")
        if not closing or not between:
            return None, ""
        members = members_of(between)
        return "(?:" + "|".join(map(re.escape, members)) + ")" if members else "(?!)", behind
    return re.escape(first), rest


def members_of(between):
    """The characters that a pattern has between brackets."""
    members = []
    while between:
        if len(between) > 2 and between[1] == "-":
            members += [chr(it) for it in range(ord(between[0]), ord(between[2]) + 1)]
            between = between[3:]
        else:
            members.append(between[0])
            between = between[1:]
    return members


def is_timeout(text):
    return bool(re.fullmatch(r"[0-9]{1,9}", text)) or text in ("menu-force", "menu-hidden")


def loader_values(data):
    """The values of `default` and `timeout` that count."""
    values = dict(key_lines(data))
    default, timeout = values.get("default"), values.get("timeout")
    return (None if default is None or default.startswith("@") else default), (timeout if timeout is not None and is_timeout(timeout) else None)


def with_key(data, key, value):
    """The text with the key's line at its end, and without other lines of the key that have a value."""
    lines = data.decode("latin-1").split("\n")
    lines = lines[:-1] if lines[-1] == "" else lines
    kept = [line for line in lines if key not in dict(key_lines(line.encode("latin-1")))]
    return "".join(line + "\n" for line in [*kept, f"{key} {value}"]).encode("latin-1")
