"""Colours, for a terminal alone, and not where NO_COLOR is set."""
import os
import sys
from collections.abc import Mapping

RED, GREEN, YELLOW, CYAN, BOLD, PLAIN = "\x1b[31m", "\x1b[32m", "\x1b[33m", "\x1b[36m", "\x1b[1m", "\x1b[0m"


def shows_colours() -> bool:
    """Whether standard output is a terminal that may show colours."""
    return sys.stdout is not None and sys.stdout.isatty() and not os.environ.get("NO_COLOR") and os.environ.get("TERM") != "dumb"


def coloured(line: str, colours: Mapping[str, str]) -> str:
    """A line in the colour of the first of these texts that it begins with."""
    colour = next((colour for front, colour in colours.items() if line.startswith(front)), "")
    return f"{colour}{line}{PLAIN}" if colour else line
