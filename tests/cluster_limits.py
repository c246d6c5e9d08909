"""Cluster files at each limit and one beyond it, and what `check` answers: cluster_limits(program) gives pairs of a name and of
what is wrong, or None. How many nodes and applications there may be is what the page on cluster files promises."""
import os
import re

from support import TOP, fault_of, read, run

NODE = b"{node, z, []}.\n"
TOO_MANY, BAD_NAME, UNKNOWN = b"C3 too_many", b"C11 bad_name", b"C5 unknown_name"


def numbered(letter, count):
    """So many different names."""
    return [b"%s%d" % (letter, number) for number in range(count)]


def listing(names):
    return b"[" + b", ".join(names) + b"]"


def nodes(count):
    return b"".join(b"{node, %s, []}.\n" % name for name in numbered(b"n", count))


def apps(count):
    return b"".join(b"{application, %s, []}.\n" % name for name in numbered(b"a", count))


def platform(*lists):
    """A node for each list of platform names. An application needs the last of them, which is known in any case."""
    each = b"".join(b"{node, n%d, [{rehearse, [{platform, %s}]}]}.\n" % (place, listing(names)) for place, names in enumerate(lists))
    return each + b"{application, a, [{applications, [%s]}]}.\n" % lists[-1][-1]


def accepted(node_count, app_count):
    return 0, b"ok %d nodes %d applications\n" % (node_count, app_count)


def refused(words):
    return 2, b"cluster refused %s\n" % words


def long_names(length):
    """Texts with a name of so many bytes: its letters take one byte each, or two but for the first."""
    for letters, name in [("plain", b"x" * length), ("of two bytes", b"x" * (length % 2) + "\u00e9".encode() * (length // 2))]:
        name = b"'%s'" % name
        yield f"a node {letters}", b"{node, %s, []}.\n" % name, accepted(1, 0)
        yield f"an application {letters}", NODE + b"{application, %s, []}.\n" % name, accepted(1, 1)
        yield f"a platform name {letters}", platform([name]), accepted(1, 1)
        yield f"an unknown node {letters}", b"{node, z, [{kernel, [{sync_nodes_optional, [%s]}]}]}.\n" % name, refused(UNKNOWN)
        # No name, so it may be as long as it likes.
        yield f"a module {letters}", NODE + b"{application, a, [{mod, {%s, []}}]}.\n" % name, None


def most(front, node_count, app_count):
    """As many nodes and applications as a profile has, and one more. The front says which profile it is."""
    yield f"{node_count} nodes", front + nodes(node_count), accepted(node_count, 0)
    yield f"{node_count + 1} nodes", front + nodes(node_count + 1), refused(TOO_MANY)
    again = front + nodes(node_count) + b"{node, n0, []}.\n"
    yield "one node too many that is there already", again, refused(b"C4 duplicate_name")
    yield "one node too many with a bad name", front + nodes(node_count) + b"{node, 'a b', []}.\n", refused(BAD_NAME)
    yield f"{app_count} applications", front + NODE + apps(app_count), accepted(1, app_count)
    yield f"{app_count + 1} applications", front + NODE + apps(app_count + 1), refused(TOO_MANY)
    again = front + NODE + apps(app_count) + b"{application, a0, []}.\n"
    yield "one application too many that is there already", again, refused(b"C4 duplicate_name")
    yield f"{app_count + 1} applications and no node", front + apps(app_count + 1), refused(TOO_MANY)
    both = front + apps(app_count) + nodes(node_count)
    yield f"{node_count} nodes and {app_count} applications", both, accepted(node_count, app_count)
    yield "one node more than both", both + NODE, refused(TOO_MANY)
    yield "one application more than both", both + b"{application, b, []}.\n", refused(TOO_MANY)


def platforms(front):
    """As many platform names as there may be, in every profile. `kernel` and `stdlib` are among the 256."""
    for what, lists, want in [
            ("256 platform names", [numbered(b"p", 254)], accepted(1, 1)),
            ("257 platform names", [numbered(b"p", 255)], refused(TOO_MANY)),
            ("256 platform names that name kernel and stdlib", [[b"kernel", b"stdlib"] + numbered(b"p", 254)], accepted(1, 1)),
            ("257 platform names that name kernel", [[b"kernel"] + numbered(b"p", 255)], refused(TOO_MANY)),
            ("256 platform names of two nodes", [numbered(b"p", 254), numbered(b"p", 254)], accepted(2, 1)),
            ("257 platform names of two nodes", [numbered(b"p", 254), [b"p0", b"q"]], refused(TOO_MANY)),
            ("257 platform names and one of them twice", [numbered(b"p", 255) + [b"p0"]], refused(TOO_MANY)),
            ("256 platform names and one of them twice", [numbered(b"p", 254) + [b"p0"]], refused(b"C6 duplicate_in_list"))]:
        yield what, front + platform(*lists), want


def cases(front, node_count, app_count):
    """The limits of a profile. The front says which it is."""
    yield from most(front, node_count, app_count)
    yield from platforms(front)
    for what, text, want in long_names(255):
        yield f"{what}, 255 bytes", front + text, want or accepted(1, 1)
    for what, text, want in long_names(256):
        yield f"{what}, 256 bytes", front + text, accepted(1, 1) if want is None else refused(BAD_NAME)


def promised():
    """The most nodes and applications of each profile: two pairs. They are what the page on cluster files says, and the help of
    `check` has to say the same."""
    page = read(os.path.join(TOP, "docs", "CLUSTER_FILES.md")).decode()
    rows = dict(re.findall(r"(?m)^\| (nodes|applications) \| (\d+; in \[profile 2\]\([^)]*\) \d+) \|$", page))
    (first_nodes, nodes_), (first_apps, apps_) = ((row.split(";")[0], row.split()[-1]) for row in (rows["nodes"], rows["applications"]))
    told = " ".join(read(os.path.join(TOP, "docs", "help", "check.txt")).decode().split())
    helped = re.findall(r"At most (\d+) nodes and (\d+) applications; in profile 2, [^.]*, (\d+) and (\d+)\.", told)
    assert helped == [(first_nodes, first_apps, nodes_, apps_)], helped
    return (int(first_nodes), int(first_apps)), (int(nodes_), int(apps_))


def cluster_limits(program):
    first, second = promised()
    for front, (node_count, app_count) in (b"", first), (b"{profile, 1}. ", first), (b"{profile, 2}. ", second):
        for name, text, (status, output) in cases(front, node_count, app_count):
            found = fault_of(run(program, ["check"], input=text), status, output)
            yield f"check of {front.decode()}{name}", found
