"""The pages that are made from the sources: docs/CONTRACTS.md and docs/DEFINITIONS.md. Each begins with a part that is written by
hand, docs/parts/NAME.md."""
import re
from collections.abc import Iterable, Iterator
from pathlib import Path

from definitions import Definition, File, files_of
from sources import Seen, exports, seen_in
from tree import TOP, BadSource, Crate, head_of, proved_crates, read, shown

PARTS = TOP / "docs" / "parts"
NOTES = PARTS / "notes.md"
MADE = "<!-- `docs/make` writes this page: its first part is docs/parts/{}, all else stands in the sources. -->"


def plain(text: str) -> str:
    """A line of a doc comment as it stands in a document: a link to an item is its name, and a heading is a bold word."""
    text = re.sub(r"\[(`[^`]+`)\](?:\((?!http)[^)]*\))?", r"\1", text)
    return re.sub(r"^#+ (.*)$", r"**\1.**", text)


def paragraphs(told: Iterable[str]) -> Iterator[str]:
    """A doc comment's lines: each paragraph on a line of its own, code blocks and lists as they stand."""
    words: list[str] = []
    is_code = False
    for line in told:
        is_fence = line.startswith("```")
        if is_code or is_fence or not line or line.startswith(("#", "- ", "* ", "  ")):
            if words:
                yield " ".join(words)
                words = []
            yield line if is_code or is_fence else plain(line)
            is_code = is_code != is_fence
        else:
            words.append(plain(line))
    if words:
        yield " ".join(words)


def told_of(seen: Seen) -> list[str]:
    """A call's name and doc comment."""
    told = list(paragraphs(seen.item.told))
    return [" ".join([f"**`{seen.name}`**", *told[:1]]), *told[1:], ""]


def contracts_of_file(path: Path, every: list[Seen]) -> Iterator[str]:
    """What callers see of a file. A trait's impl stands in the block of the type before it, or in one of its own."""
    yield from (f"### [{shown(path).split('/src/')[1]}](../{shown(path)})", "")
    before = ""
    for seen in every:
        is_apart = bool(seen.item.told) or before in ("", "fn", "const", "type")
        if is_apart and before:
            yield from ("```", "")
        if seen.item.told:
            yield from told_of(seen)
        yield from ["```rust"] if is_apart else [""]
        yield from seen.item.lines
        before = seen.item.kind
    yield from ("```", "")


def others_of(crate: Crate) -> Iterator[str]:
    """What a crate gives out of other crates."""
    given = [f"{', '.join(f'`{name}`' for name in names)} of `{other}`" for other, names in exports(crate.front).others]
    if given:
        yield from (f"Given out again: {'; '.join(given)}.", "")


def names_of(every: Iterable[Seen]) -> str:
    """The names of what callers see: those of a type or a module behind it, in brackets."""
    inside: dict[str, list[str]] = {}
    for seen in every:
        if seen.item.kind != "impl":
            whole, _, part = seen.name.partition("::")
            inside.setdefault(whole, []).extend([part] if part else [])
    named = (f"`{whole}`" + (f" ({', '.join(f'`{part}`' for part in parts)})" if parts else "") for whole, parts in inside.items())
    return ", ".join(named)


def contracts_of(crate: Crate) -> Iterator[str]:
    """What callers see of a crate."""
    files = seen_in(crate)
    yield from (f"## `{crate.name}`", "", *paragraphs(head_of(crate)), "")
    yield from (f"Given out: {names_of(seen for _, every in files for seen in every)}.", "", *others_of(crate))
    for path, every in files:
        yield from contracts_of_file(path, every)


def contracts() -> str:
    """The page of contracts."""
    crates = proved_crates()
    links = ", ".join(f"[`{crate.name}`](#{crate.name})" for crate in crates)
    head = read(PARTS / "contracts.md").replace("CRATES", links)
    lines = [line for crate in crates for line in contracts_of(crate)]
    return "\n".join([MADE.format("contracts.md"), head, *lines]).rstrip("\n") + "\n"


def notes() -> dict[tuple[str, str], str]:
    """What is said by hand of definitions: their crate and file, the name, and the text."""
    found: dict[tuple[str, str], str] = {}
    place = ""
    for line in read(NOTES).splitlines():
        named = re.fullmatch(r"- `(\S+)`: (.*)", line)
        if line.startswith("## "):
            place = line.removeprefix("## ")
        elif named:
            found[place, named[1]] = named[2]
        elif line.startswith("  ") and found:
            found[next(reversed(found))] += " " + line.strip()
    return found


def parts_told(definition: Definition) -> str:
    """The fields or cases of a definition, with what is said of them."""
    if not definition.parts:
        return ""
    if not any(part.told for part in definition.parts):
        return "Parts: " + ", ".join(f"`{part.name}`" for part in definition.parts)
    return "Parts: " + "; ".join(f"`{part.name}`" + (f": {part.told}" if part.told else "") for part in definition.parts)


def definition_line(definition: Definition, note: str) -> str:
    """A definition with all that is said of it."""
    told = [text.rstrip(".") for text in (definition.told, note, parts_told(definition)) if text]
    return f"- `{definition.head}`" + (": " + ". ".join(told) if told else "")


def definitions_of_file(file: File, said: dict[tuple[str, str], str], place: str) -> Iterator[str]:
    """The definitions of a file."""
    yield from (f"### [{file.path.stem}](../{shown(file.path)})", "", file.told, "")
    is_list = False
    for entry in file.entries:
        if isinstance(entry, str):
            yield from [""] * is_list + [f"*{entry[:1].upper()}{entry[1:]}:*", ""]
            is_list = False
        else:
            yield definition_line(entry, said.pop((place, entry.name), ""))
            is_list = True
    yield ""


def definitions_of(crate: Crate, said: dict[tuple[str, str], str]) -> Iterator[str]:
    """The definitions of a crate."""
    yield from (f"## `{crate.name}`", "")
    for file in files_of(crate):
        yield from definitions_of_file(file, said, f"{crate.name}/{file.path.stem}")


def definitions() -> str:
    """The page of definitions."""
    said = notes()
    crates = proved_crates()
    links = ", ".join(f"[`{crate.name}`](#{crate.name})" for crate in crates)
    head = read(PARTS / "definitions.md").replace("CRATES", links)
    lines = [line for crate in crates for line in definitions_of(crate, said)]
    if said:
        raise BadSource(f"{shown(NOTES)} tells of definitions that aren't there: {sorted(said)}")
    return "\n".join([MADE.format("definitions.md"), head, *lines]).rstrip("\n") + "\n"
