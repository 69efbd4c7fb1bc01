"""Rows: each of them with what it comes to."""


class Unclear(Exception):
    """The row isn't understood."""


def unclear(condition):
    if condition:
        raise Unclear


def told(rows, answer_of):
    """Each row, and what it comes to: None where the model doesn't say."""
    for row in rows:
        if not row or row.startswith("#"):
            yield row, ""
            continue
        try:
            yield f"> {row}", answer_of(row)
        except Unclear:
            yield f"? {row}", ""
