"""The colours of a terminal, and where they may be used. They only repeat what signs say."""

import os

RED, GREEN, DIM, PLAIN = "\033[1;31m", "\033[32m", "\033[2m", "\033[0m"


def allowed(stream):
    """Whether a stream, which may be closed, is a terminal that is to have colours."""
    return bool(stream and stream.isatty()) and "NO_COLOR" not in os.environ and os.environ.get("TERM") != "dumb"
