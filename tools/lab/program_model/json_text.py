"""Answers as JSON."""
import json


def decoded(text):
    """The characters that bytes are in UTF-8, or the error that they are none."""
    return text.encode("latin-1").decode("utf-8")


def json_line(value):
    """The value on one line, without spaces, and the keys of its objects in the order of their bytes."""
    text = json.dumps(value, sort_keys=True, separators=(",", ":"), ensure_ascii=False)
    return text.encode("utf-8").decode("latin-1") + "\n"
