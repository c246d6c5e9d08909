"""What callers see of a crate: the items that its lib.rt gives out, each with its doc comment, and with its clauses as they
stand. The sources are read line by line, in the form that `rt fmt` gives them: an item ends by a brace below its first word."""
import re
from collections.abc import Iterator
from dataclasses import dataclass
from pathlib import Path

from tree import BadSource, Crate, read

ITEM = re.compile(r"(?:pub(?:\([^)]*\))? )?(?:unsafe )?(fn|struct|enum|trait|const|static|type) (\w+)")
IMPL = re.compile(r"impl(?:<.*?>)? (?:(?P<trait>[\w:<>', ]+?) for )?(?P<type>&?[\w:]+)")
CLAUSE = ("requires", "ensures", "decreases")


@dataclass(frozen=True)
class Item:
    """An item of a source: its kind and name, whether it is `pub`, its doc comment, and its lines without bodies."""

    kind: str
    name: str
    is_public: bool
    told: tuple[str, ...]
    lines: tuple[str, ...]
    # Of an impl: the trait, if there is one, and the items inside.
    of_trait: str = ""
    inside: tuple["Item", ...] = ()


def first_word_at(line: str) -> int:
    """How far a line is indented."""
    return len(line) - len(line.lstrip(" "))


def is_clause(line: str) -> bool:
    """Whether a clause begins on a line."""
    return line.lstrip().startswith(CLAUSE)


def is_ghost(line: str) -> bool:
    """Whether what contracts see is said on a line."""
    return line.lstrip().startswith("ghost ")


def end_of_block(lines: list[str], begin: int) -> int:
    """The line of the brace that closes what was opened at the line `begin` or behind it, at the same indentation."""
    closing = " " * first_word_at(lines[begin]) + "}"
    for number in range(begin, len(lines)):
        if lines[number] == closing or lines[number] in (closing + ";", closing + ","):
            return number
    raise BadSource(f"nothing closes {lines[begin]!r}")


def is_closed(lines: list[str]) -> bool:
    """Whether each brace that is opened on these lines is closed."""
    text = "".join(lines)
    return text.count("{") == text.count("}")


def signature(lines: list[str], begin: int) -> tuple[list[str], int]:
    """The lines of a function without its body, and the line behind it."""
    kept: list[str] = []
    has_clause = False
    for number in range(begin, len(lines)):
        line = lines[number]
        has_clause = has_clause or is_clause(line)
        if line.strip() == "{}" or not has_clause and line.endswith(" {}"):
            return kept + [line[:-3]] * (line.strip() != "{}"), number + 1
        if line.strip() == "{" or not has_clause and line.endswith(" {"):
            body = line.strip() != "{"
            return kept + [line[:-2]] * body, end_of_block(lines, begin if body else number) + 1
        kept.append(line)
        if line.endswith(";") and is_closed(kept):
            return kept, number + 1
    raise BadSource(f"{lines[begin]!r} doesn't end")


def attribute_end(lines: list[str], begin: int) -> int:
    """The line behind an attribute."""
    depth = 0
    for number in range(begin, len(lines)):
        depth += lines[number].count("[") - lines[number].count("]")
        if depth == 0:
            return number + 1
    raise BadSource(f"{lines[begin]!r} doesn't end")


def without_bodies(lines: list[str], is_impl: bool = False) -> list[str]:
    """The lines of a trait or an impl, without bodies, attributes and what only names other modules; of an impl without the
    functions that have no clause of their own, since those of the trait are theirs."""
    kept, number = [lines[0]], 1
    while number < len(lines):
        bare = lines[number].strip()
        if bare.startswith("#["):
            number = attribute_end(lines, number)
        elif bare.startswith("ghost use"):
            number += 1
        elif re.match(r"(pub )?(unsafe )?fn ", bare):
            part, number = signature(lines, number)
            if is_impl and not any(map(is_clause, part)):
                kept = without_comment(kept)
            else:
                kept += part
        else:
            kept.append(lines[number])
            number += 1
    return one_blank(kept)


def without_comment(lines: list[str]) -> list[str]:
    """The lines without a comment at their end."""
    while lines[-1].lstrip().startswith("//"):
        lines = lines[:-1]
    return lines


def one_blank(lines: list[str]) -> list[str]:
    """The lines with no blank one behind a brace, before one, behind a blank one, or between what contracts see."""
    kept: list[str] = []
    for line in lines:
        if not line and (not kept or not kept[-1] or kept[-1].endswith("{")):
            continue
        if is_ghost(line) and len(kept) > 1 and not kept[-1] and is_ghost(kept[-2]):
            kept.pop()
        if line.strip() == "}" and kept and not kept[-1]:
            kept.pop()
        kept.append(line)
    return kept


def seen_of_struct(lines: list[str]) -> list[str]:
    """A struct's lines without its private fields."""
    kept, waiting = [lines[0]], []
    for line in lines[1:-1]:
        if line.strip().startswith("//"):
            waiting.append(line)
        elif line.strip().startswith("pub "):
            kept += [text for text in waiting if text.strip().startswith("///")] + [line]
            waiting = []
        else:
            waiting = []
    if len(kept) == 1:
        return [lines[0] + " .. }"]
    return kept + [lines[-1]]


def lines_of(kind: str, lines: list[str], begin: int) -> tuple[list[str], int]:
    """The lines of an item as they are shown, and the line behind it."""
    if kind == "fn":
        return signature(lines, begin)
    if kind in ("const", "static", "type"):
        end = next(number for number in range(begin, len(lines)) if lines[number].endswith(";"))
        return lines[begin : end + 1], end + 1
    if lines[begin].endswith((";", "}")):
        return [lines[begin]], begin + 1
    end = end_of_block(lines, begin)
    whole = lines[begin : end + 1]
    if kind == "struct":
        return seen_of_struct(whole), end + 1
    return (without_bodies(whole) if kind == "trait" else whole), end + 1


def impl_at(lines: list[str], begin: int) -> tuple[Item, int]:
    """An impl, and the line behind it."""
    found = IMPL.match(lines[begin])
    if found is None:
        raise BadSource(f"{lines[begin]!r} is no impl")
    end = begin if lines[begin].endswith("}") else end_of_block(lines, begin)
    whole = lines[begin : end + 1]
    inside = () if found["trait"] else tuple(items_in(whole[1:-1], 4))
    name = found["type"].rpartition("::")[2].lstrip("&")
    return Item("impl", name, True, (), tuple(without_bodies(whole, True)), found["trait"] or "", inside), end + 1


def items_in(lines: list[str], indent: int = 0) -> Iterator[Item]:
    """The items that begin at this indentation."""
    told: list[str] = []
    number = 0
    while number < len(lines):
        line = lines[number]
        bare = line[indent:] if first_word_at(line) == indent else ""
        item = ITEM.match(bare)
        if bare.startswith("///"):
            told.append(bare.removeprefix("///").removeprefix(" "))
            number += 1
        elif bare.startswith("#["):
            number = attribute_end(lines, number)
        elif bare.startswith("impl"):
            found, number = impl_at(lines, number)
            yield found
            told = []
        elif item:
            kept, number = lines_of(item[1], lines, number)
            yield Item(item[1], item[2], bare.startswith("pub "), tuple(told), tuple(text[indent:] for text in kept))
            told = []
        else:
            told = []
            number += 1


@dataclass(frozen=True)
class Exports:
    """What a lib.rt gives out: names of its own, whole modules, and what other crates have."""

    names: frozenset[str]
    modules: tuple[str, ...]
    others: tuple[tuple[str, tuple[str, ...]], ...]


def exports(front: Path) -> Exports:
    """What the first file of a crate gives out."""
    text = read(front)
    names, others = [], []
    for path, many, one in re.findall(r"(?m)^pub use ([\w:]+)::(?:\{([^}]*)\}|(\w+));", text):
        found = tuple(re.findall(r"\w+", many or one))
        if path.startswith("rh_"):
            others.append((path, found))
        else:
            names += found
    return Exports(frozenset(names), tuple(re.findall(r"(?m)^pub mod (\w+);", text)), tuple(others))


@dataclass(frozen=True)
class Seen:
    """An item that callers see, with the name by which they call it."""

    name: str
    item: Item


def says_something(item: Item) -> bool:
    """Whether an impl of a trait has a contract: a clause, or something that contracts see."""
    return any(is_clause(line) or is_ghost(line) for line in item.lines)


def seen_of_impl(item: Item, types: set[str], hidden: set[str]) -> Iterator[Seen]:
    """What callers see of an impl."""
    if not item.of_trait and item.name in types:
        for one in item.inside:
            if one.is_public:
                yield Seen(f"{item.name}::{one.name}", one)
    elif item.of_trait and item.name not in hidden and item.of_trait not in hidden and says_something(item):
        yield Seen(f"{item.name}: {item.of_trait}", item)


def seen_in(crate: Crate) -> list[tuple[Path, list[Seen]]]:
    """What callers see of a crate, file by file. Of a program, which has no callers, all that is `pub` and has a contract."""
    given = exports(crate.front)
    is_program = crate.front.name == "main.rt"
    files = [(path, list(items_in(read(path).splitlines()))) for path in crate.sources()]
    declared = {item.name for _, items in files for item in items if item.kind in ("struct", "enum", "trait")}
    types = {item.name for _, items in files for item in items if item.is_public} if is_program else set(given.names)
    hidden = declared - types
    found: list[tuple[Path, list[Seen]]] = []
    for path, items in files:
        module = path.stem if path.stem in given.modules else ""
        seen: list[Seen] = []
        for item in items:
            if item.kind == "impl":
                seen += seen_of_impl(item, types, hidden)
            elif item.is_public and (module or item.name in types) and not (is_program and item.kind == "static"):
                seen.append(Seen(f"{module}::{item.name}" if module else item.name, item))
        if is_program:
            seen = [one for one in seen if one.item.kind != "fn" or says_something(one.item)]
        if seen:
            found.append((path, seen))
    return found
