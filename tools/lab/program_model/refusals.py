"""Refusals, words that are no command, and the limit of a file's length."""

LIMIT = 268_435_456


class Refused(Exception):
    """A refusal, with its number and its text."""

    def __init__(self, number, text):
        super().__init__(f"refusal {number}: {text}\n")
        self.number = number


class Usage(Exception):
    """Words that are no command, and why."""
