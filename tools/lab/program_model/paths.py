"""Paths: which words are one, and the folders of entries."""
from lab.intents import INTENT
from lab.program_model.refusals import Refused


def path_of(word):
    """The path that a word reads as, or None."""
    parts = [part for part in word.split("/") if part not in ("", ".")]
    path = "/".join(parts)
    bad = ".." in parts or "\0" in word or any(len(part) > 251 for part in parts)
    return None if bad or not path or len(path) > 1024 or path.endswith(".tmp") or path == INTENT else path


def path(word):
    found = path_of(word)
    if found is None:
        raise Refused(2, f"{word} is not a path")
    return found


def folders(esp):
    base = path(esp)
    return path(f"{base}/loader/entries"), path(f"{base}/EFI/Linux")
