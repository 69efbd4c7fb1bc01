"""Intents: the file that says which rename is under way, and the two names in it."""
import os

INTENT = "boot_tools.intent"


def names_moved(folder):
    """The old and the new name in an intent that is there."""
    path = os.path.join(folder, INTENT)
    if not os.path.isfile(path):
        return []
    with open(path, "rb") as file:
        return [it.decode(errors="replace").lstrip("/") for it in file.read().split(b"\0")[:2]]
