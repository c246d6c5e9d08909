"""Texts that are no terms, or are only just, and what `check` answers for each: term_faults(program) gives pairs of a name and of
what is wrong, or None. A text that is read but holds no node is C10 (no shape of a cluster file) or C2 (no term at all)."""
from support import fault_of, run

READ, NOTHING = "C10 bad_value", "C2 no_nodes"
INT_RANGE, TOO_DEEP, NOT_UTF8 = "C1 T5 int_range", "C1 T4 too_deep", "C1 T3 not_utf8"


def syntax(line):
    return f"C1 T1 syntax line {line}"


def unsupported(line):
    return f"C1 T2 unsupported line {line}"


TEXTS = [
    # Integers are those of 64 bits; the digit that makes one too great comes before the `.` of a float.
    ("9223372036854775807.", READ), ("9223372036854775808.", INT_RANGE), ("-9223372036854775808.", READ),
    ("-9223372036854775809.", INT_RANGE), ("9223372036854775808.5", INT_RANGE), ("-07.", READ), ("- 1.", syntax(1)),
    # Digits inside an atom are no integer.
    ("a1.5", syntax(1)), ("1.5.", unsupported(1)), ("1.a", syntax(1)),
    # A text ends with a dot, and a dot is followed by white space, a comment or the end.
    ("a", syntax(1)), ("a.b", syntax(1)), ("a.%", READ), ("{a,\nB}.", syntax(2)), ("[a,].", syntax(1)), ("[a,\n\n", syntax(3)),
    # At one byte what isn't supported comes first.
    ("a.$", unsupported(1)), ("a.#", unsupported(1)), ("a.\u00e9", unsupported(1)), ("$", unsupported(1)), ("B$", syntax(1)),
    # White space and comments may stand before the first term and behind the last dot, and hold anything.
    ("% only a comment", NOTHING), (" \t\n\r\x0b\x0c% one\n a. % last", READ), ("% caf\u00e9 $\na.", READ),
    # The line of a `|` is its own, and it is one of a list alone, behind an element.
    ("[a\n\n|b].", unsupported(3)), ("{a|b}.", syntax(1)), ("[|b].", syntax(1)),
    # The byte that decides: `#`, `_`, `.` or `"` behind digits or a text.
    ("1\n#", unsupported(2)), ("16#ff.", unsupported(1)), ("1_5.", unsupported(1)), ("1_a.", syntax(1)),
    ("\"a\" %x\n\n\"b\".", unsupported(3)),
    # Quotes: the seven escapes, raw line ends; any other escape, at the line of its backslash.
    ("'q \\\\\\'\\\"\\n\\t\\r\\s\u00e9\n'.", READ), ("'it\n\\q\n'", unsupported(2)), ("'it\n\\\n'", unsupported(2)),
    ("'it\n", syntax(2)), ("'it\\", syntax(1)),
    # Other constructs of Erlang.
    ("a.\r\nb.\r\n<<>>.", unsupported(3)), ("#{}.", unsupported(1)), ("~s\"a\".", unsupported(1)), ("+5.", unsupported(1)),
    # At most 64 lists and tuples inside each other.
    ("[" * 64 + "]" * 64 + ".", READ), ("[" * 65 + "]" * 65 + ".", TOO_DEEP), ("[" * 65, TOO_DEEP), ("{[{[", syntax(1)),
]


def term_faults(program):
    for text, want in [(text.encode(), want) for text, want in TEXTS] + [(b"\xff", NOT_UTF8), (b"$\xff", NOT_UTF8)]:
        done = run(program, ["check"], input=text)
        yield f"check of {text[:40]!r}", fault_of(done, 2, f"cluster refused {want}\n".encode())
