"""Small parts of what the tools tell."""
from collections.abc import Sequence
from typing import Optional


def plural(number: int, what: str) -> str:
    """So many of something."""
    return f"{number} {what}" if number == 1 else f"{number} {what}s"


def some(names: Sequence[str], most: Optional[int]) -> str:
    """Names, at most so many of them."""
    if most is None or len(names) <= most:
        return ", ".join(names)
    return f"{', '.join(names[:most])} and {len(names) - most} more"
