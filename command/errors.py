"""An error of a source: where it is, what it is, and the word that might have been meant."""

import difflib
from dataclasses import dataclass


@dataclass(frozen=True, order=True)
class Error:
    line: int
    column: int
    what: str


def nearest(word, words):
    """The word that might have been meant, or None."""
    near = difflib.get_close_matches(word, words, 1)
    return near[0] if near else None


def meant(word, words):
    near = nearest(word, words)
    return f"; did you mean '{near}'?" if near else ""
