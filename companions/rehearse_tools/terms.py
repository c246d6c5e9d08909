"""The Erlang terms of a cluster file that the program accepts: terms_of(text) gives them as Python values.

It is written from docs/CLUSTER_FILES.md and finds no faults: what the program refuses never comes here. The tests' model and the
companion `live` read by it.
"""
import re
from typing import Any

TOKEN = re.compile(r"""\s+|%[^\n]*|(?P<atom>[a-z][A-Za-z0-9_@]*)|'(?P<quoted>(?:[^'\\]|\\.)*)'|"(?P<text>(?:[^"\\]|\\.)*)"
    |(?P<number>-?[0-9]+)|(?P<mark>[\[\]{},.])""", re.VERBOSE | re.DOTALL)
ESCAPE = re.compile(r"\\(.)", re.DOTALL)
ESCAPES = {"n": "\n", "t": "\t", "r": "\r", "s": " "}


class Text(str):
    """A text in double quotes: it isn't an atom."""


def terms_of(text: str) -> list[Any]:
    """The terms of a text: atoms are str, lists are list, tuples are tuple."""
    tokens, place = [], 0
    while place < len(text):
        found = TOKEN.match(text, place)
        assert found is not None
        kind = found.lastgroup
        if kind is not None:
            tokens.append((kind, value_of(kind, found[kind])))
        place = found.end()
    terms, place = [], 0
    while place < len(tokens):
        term, place = term_at(tokens, place)
        assert tokens[place] == ("mark", ".")
        terms.append(term)
        place += 1
    return terms


def value_of(kind: str, written: str) -> Any:
    """What a token stands for."""
    if kind == "number":
        return int(written)
    if kind in ("quoted", "text"):
        return ESCAPE.sub(lambda escape: ESCAPES.get(escape[1], escape[1]), written)
    return written


def term_at(tokens: list[tuple[str, Any]], place: int) -> tuple[Any, int]:
    """The term that begins at a token, and the place behind it."""
    kind, value = tokens[place]
    if kind != "mark":
        return Text(value) if kind == "text" else value, place + 1
    end, items = {"[": "]", "{": "}"}[value], []
    place += 1
    while tokens[place] != ("mark", end):
        item, place = term_at(tokens, place)
        items.append(item)
        if tokens[place] == ("mark", ","):
            place += 1
    return items if end == "]" else tuple(items), place + 1


def section(node: tuple[str, str, list[Any]], name: str) -> dict[str, Any]:
    """The parameters of a section of a node's term, which may be missing."""
    return dict(next((values for key, values in node[2] if key == name), []))
