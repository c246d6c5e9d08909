"""What ./rehearse tells of files that are refused: the file, the line and its text, and what is wrong there.

The program tells a code, and a line where the text can't be read; the rest is found by asking it again (shipped/places.sh and
shipped/faults.sh). What is owed is written by hand from docs/SCRIPTS.md and docs/CLUSTER_FILES.md.
"""
import re

from front import ANSWERS, CLUSTER, SCRIPT, call, install, shell, write, wrong
from support import in_folder

FIRST = b"boot, crash, tick, .."
# A line of a script for a subcommand, and what is told of it.
BAD_LINES = [
    ("run", b"reboot a@x", b'"reboot a@x" is no command (%s)' % FIRST),
    ("run", b"CRASH a@x", b'"CRASH a@x" is no command (crash N, as crash a@x)'),
    ("run", b"tick 5s", b'"tick 5s" is no command (tick D, as tick 5000)'), ("run", b"show me", b'"show me" is no command (show)'),
    ("run", b"boot\ta@x", b'"boot\\ta@x" is no command (words stand apart by spaces, not by tabs)'),
    ("run", b" # x", b'" # x" is no command (the # of a comment is the first byte of its line)'),
    ("run", b"boot a@x # now", b'"boot a@x # now" is no command (a comment has a line of its own, of which # is the first byte)'),
    ("run", b"plan p", b'"plan p" is no command (plans are for sweep)'), ("run", b"===", b'"===" is no command (%s)' % FIRST),
    ("run", b"boot\r", b'"boot" is no command (boot N, as boot a@x)'),
    ("run", b"x\0y\x1b[1m", b'"x?y?[1m" is no command (%s)' % FIRST), ("run", b"x" * 40, b'"%s" is no command (%s)' % (b"x" * 40, FIRST)),
    ("run", b"x" * 41, b'"%s.." is no command (%s)' % (b"x" * 40, FIRST)),
    ("run", b"x" * 38 + "ä".encode(), b'"%s" is no command (%s)' % (b"x" * 38 + "ä".encode(), FIRST)),
    ("run", b"x" * 39 + "ä".encode(), b'"%s.." is no command (%s)' % (b"x" * 39, FIRST)),
    ("run", b"x" * 38 + "ää".encode(), b'"%s.." is no command (%s)' % (b"x" * 38 + "ä".encode(), FIRST)),
    ("sessions", b"boot a@x", b'"boot a@x" is no command (the number of a session, 1 to 8, stands before each command: 1 boot a@x)'),
    ("sessions", b"1 boot", b'"1 boot" is no command (boot N, as boot a@x)'),
    ("sweep", b"plan a b", b'"plan a b" is no command (plan NAME)'),
    ("sweep", b"plan p\nundo", b'"undo" is no command (a plan has events alone: %s)' % FIRST),
    ("sweep", b"plan p\nstart a@x web perm", b'"start a@x web perm" is no command (start N A T, as start a@x web permanent)')]


@in_folder
def bad_lines(program, folder):
    """A line that is no command is told by its file, its number there and its text, with what one would be."""
    install(folder, program)
    write(folder, "c.txt", CLUSTER)
    write(folder, "p.txt", b"# plan\n\n" + SCRIPT)
    write(folder, "q.txt", b"# One.\n")
    for word, text, owed in BAD_LINES:
        write(folder, "b d.txt", b"\n" + text + b"\nboot a@x\n")
        done = call(folder, [word, "c.txt", "q.txt", "b d.txt"])
        line = 2 + text.count(b"\n")
        yield f"{word}: {text[:20]!r}", wrong(done, 3, b"bad line %d\n" % (line + 1), b"b d.txt:%d: %s\n" % (line, owed))
    # The first file has a script of its own, and the whole input is as long as its lines.
    write(folder, "w.txt", b"% Cluster.\n" + CLUSTER + b"===\r\nboot a@x\nwat")
    told_of = b'w.txt:6: "wat" is no command (%s)\n' % FIRST
    yield "in the script of the first file", wrong(call(folder, ["run", "w.txt", "p.txt"]), 3, b"ok\nup a@x\nbad line 2\n", told_of)
    done = call(folder, ["run", "c.txt", "p.txt", "-"], input=b"undo\ngo")
    yield "in standard input", wrong(done, 3, ANSWERS + b"ok\nbad line 6\n", b'standard input:2: "go" is no command (%s)\n' % FIRST)
    done = shell(folder, '"$R" run c.txt p.txt - <<< go 2>&-')
    yield "where standard error is closed", wrong(done, 3, ANSWERS + b"bad line 5\n", b"")
    done = call(folder, ["sessions", "c.txt", "-"], input=b"1 undo\n" * 65_536)
    owed = b'standard input:65536: "1 undo" is no command (sessions make at most 65,535 commands)\n'
    yield "a command too many", wrong(done, 3, b"bad line 65536\n", owed)
    done = call(folder, ["run"], input=CLUSTER + b"===\ngo\n")
    yield "over standard input nothing is told", wrong(done, 3, b"bad line 1\n", b"")


@in_folder
def findings(program, folder):
    """What lint finds is told by the file and its line there."""
    install(folder, program)
    write(folder, "c.txt", b"{profile, 2}.\n" + CLUSTER)
    write(folder, "p.txt", b"# plan\nboot a@x\n")
    write(folder, "b d.txt", b"\ncrsh a@x\n")
    done = call(folder, ["lint", "c.txt", "p.txt", "b d.txt"])
    out = b"c.txt: warning no_distributed_application: no application is distributed, so none fails over\n"
    out += b"b d.txt:2: error unknown_command: crsh is no command; crash is near\n1 errors, 1 warnings, 0 hints\n"
    yield "lint", wrong(done, 9, out, b"")
    write(folder, 'q"\\.txt', b"\ncrsh a@x\n")
    out = b'{"file":"c.txt","kind":"warning","code":"no_distributed_application","words":"no application is distributed, so none fails over"}\n'
    out += b'{"file":"q\\"\\\\.txt","line":2,"kind":"error","code":"unknown_command","words":"crsh is no command; crash is near"}\n'
    out += b'{"errors":1,"warnings":1,"hints":0}\n'
    yield "lint --json", wrong(call(folder, ["lint", "--json", "c.txt", "p.txt", 'q"\\.txt']), 9, out, b"")
    write(folder, "r.txt", b"{profile, 2}.\n{node, a@x, [}.\n")
    out = b"r.txt:2: error T1: syntax: what stands here can't go on: a dot, a comma or a bracket may be missing, or quotes round a name"
    out += b": {node, a@x, [}.\n"
    yield "lint of a file that is refused", wrong(call(folder, ["lint", "r.txt"]), 9, out + b"1 errors, 0 warnings, 0 hints\n", b"")


@in_folder
def bad_clusters(program, folder):
    """A refused cluster file is told by its name, with the line where the program tells one, and what causes it."""
    install(folder, program)
    write(folder, "p.txt", SCRIPT)
    syntax = (b"C1 T1 syntax (on line %d stands the first byte that can't go on: a missing dot, comma or bracket, a variable; "
              b"..: rehearse help T1)\n")
    for name, text, out, owed in (
            ("a.txt", b"{node, a@x, []}.\n\n{node b@x, []}.\n", b"C1 T1 syntax line 3",
             b'a.txt:3: "{node b@x, []}." is refused: ' + syntax % 3),
            ("b.txt", b"{node, a@x, []}", b"C1 T1 syntax line 2",
             b"b.txt:2: the cluster file ends here, and is refused: C1 T1 syntax (line 1 ends without a dot; else: rehearse help T1)\n"),
            ("c.txt", b"{node, a@x, []}.\n=== \n", b"C1 T1 syntax line 2",
             b'c.txt:2: "=== " is refused: C1 T1 syntax (a line === with nothing else on it ends the cluster file)\n'),
            ("d.txt", b"{node, a@x, [{a, 1.5}]}.\n", b"C1 T2 unsupported line 1",
             b'd.txt:1: "{node, a@x, [{a, 1.5}]}." is refused: C1 T2 unsupported (a construct that Erlang reads and this project doesn\'t; '
             b"or a # of a script without a line === before it)\n"),
            ("e.txt", b"", b"C2 no_nodes", b"e.txt: refused: C2 no_nodes (the file is empty)\n"),
            ("f.txt", b"{node, a@x, [{rehearse, [{boot, [{web, permanent}]}]}]}.\n", b"C5 unknown_name",
             b'f.txt:1: "{node, a@x, [{rehearse, [{boot, [{web, p.." is refused: C5 unknown_name web (in boot or after it: ' + UNKNOWN),
            ("g.txt", b"{node, a@x, [{kernel, [{sync_nodes_timeout, -1}]}]}.\n", b"C10 bad_value",
             b'g.txt:1: "{node, a@x, [{kernel, [{sync_nodes_timeo.." is refused: C10 bad_value (in sync_nodes_timeout: rehearse help C10)\n'),
            ("h.txt", b"\xef\xbb\xbf{node, a@x, []}.\n", b"C1 T2 unsupported line 1",
             b'h.txt:1: "\xef\xbb\xbf{node, a@x, []}." is refused: C1 T2 unsupported (the file begins with a byte order mark)\n'),
            ("i.txt", b"{node, a@x, []}.\n% gr\xfcn\n", b"C1 T3 not_utf8",
             b'i.txt:2: "% gr\xfcn" is refused: C1 T3 not_utf8 (some byte isn\'t UTF-8, in a comment perhaps)\n')):
        write(folder, name, text)
        for words in (["check", name], ["run", name, "p.txt"], ["sweep", "--pick", "last", name, "p.txt"]):
            yield " ".join(words), wrong(call(folder, words), 2, b"cluster refused " + out + b"\n", owed)
        if name != "c.txt":
            done = call(folder, ["check"], input=text + b"\n===\n" * (name == "b.txt"))
            yield f"{name} over standard input", wrong(done, 2, b"cluster refused " + out + b"\n", b"")


# Lines of a cluster file, one of them wrong, and what is told of it: its line and text, the fault, and what is wrong.
TERMS = [b"{profile, 2}.", b"% A pair of nodes.", b"{node, 'a-1@x.org', [", b"  {kernel, [", b"    {distributed, [{web, 50, ['a-1@x.org', b@x]}]},",
         b"    {sync_nodes_optional, [b@x]},", b"    {sync_nodes_timeout, 10}]},", b"  {rehearse, [{boot, [{web, permanent}]}]}]}.",
         b"{node, b@x, [", b"  {kernel, [{distributed, [{web, 50, ['a-1@x.org', b@x]}]},", b"    {sync_nodes_timeout, 10}]}]}.",
         b"{application, web, [{applications, [kernel]},", b"  {mod, {web, []}}]}."]
UNKNOWN = b"a value names a node, an application or a dependency that the file hasn't)\n"
SLIP = b"C1 T1 syntax (%s; else: rehearse help T1)\n"
WRONG_LINES = [
    # A dot, a comma and a quote that are missing, and a name without any; told where they show.
    (8, b"  {rehearse, [{boot, [{web, permanent}]}]}]}", 9, SLIP % b"line 8 ends without a dot"),
    (8, b"  {rehearse, [{boot, [{web, permanent}]}]}]} % The end.", 9, SLIP % b"line 8 ends without a dot"),
    (6, b"    {sync_nodes_optional, [b@x]}", 7, SLIP % b"line 6 ends without a comma"),
    (5, b"    {distributed, [{web, 50, ['a-1@x.org, b@x]}]},", 10, SLIP % b"line 5 has an odd number of quotes"),
    (3, b"{node, a-1@x.org, [", 3, SLIP % b"a name with - or . needs quotes"),
    # What belongs behind the line ===, or should have been it.
    (13, b"  {mod, {web, []}}]}.\n====", 14, b"C1 T1 syntax (a line === with nothing else on it ends the cluster file)\n"),
    (13, b"  {mod, {web, []}}]}.\n---", 14, b"C1 T1 syntax (a line === with nothing else on it ends the cluster file)\n"),
    (13, b"  {mod, {web, []}}]}.\nboot b@x", 14, b"C1 T1 syntax (that is a command of a script, which comes after a line ===)\n"),
    # Names that aren't known.
    (5, b"    {distributed, [{web, 50, ['a-1@x.org', c@x]}]},", 5, b"C5 unknown_name c@x (in distributed: " + UNKNOWN),
    (10, b"  {kernel, [{distributed, [{wob, 50, ['a-1@x.org', b@x]}]},", 10, b"C5 unknown_name wob (in distributed: " + UNKNOWN),
    (6, b"    {sync_nodes_optional, ['b-1@x']},", 6, b"C5 unknown_name 'b-1@x' (in sync_nodes_optional: " + UNKNOWN),
    (8, b"  {rehearse, [{boot, [{wob, permanent}]}]}]}.", 8, b"C5 unknown_name wob (in boot or after it: " + UNKNOWN),
    (12, b"{application, web, [{applications, [kernel, ssl]},", 12, b"C5 unknown_name ssl (in applications: " + UNKNOWN),
    # Two of them in one value: neither is told.
    (12, b"{application, web, [{applications, [sasl, ssl]},", 12, b"C5 unknown_name (in applications: " + UNKNOWN),
    # Values, and terms of another shape.
    (7, b'    {sync_nodes_timeout, "10"}]},', 7, b"C10 bad_value (in sync_nodes_timeout: rehearse help C10)\n"),
    (11, b"    {sync_nodes_timeout, infinty}]}]}.", 11, b"C10 bad_value (in sync_nodes_timeout: rehearse help C10)\n"),
    (8, b"  {rehearse, [{boot, [{web, permament}]}]}]}.", 8, b"C10 bad_value (in boot or after it: rehearse help C10)\n"),
    (8, b"  {rehearse, [\n    {platform, [sasl]},\n    {boot, [{web, permament}]}]}]}.", 10,
     b"C10 bad_value (in boot or after it: rehearse help C10)\n"),
    (8, b"  {rehearse, [\n    {boot, [{web, permament}]},\n    {platform, [sasl]}]}]}.", 9,
     b"C10 bad_value (in boot or after it: rehearse help C10)\n"),
    (8, b"  {rehearse, [{boot, [{web, permanent}]}, {platform, [1]}]}]}.", 8,
     b"C10 bad_value (in platform or after it: rehearse help C10)\n"),
    (8, b"  {rehearse, [{boot, [{web, permanent}]},\n    {platfrom, [sasl]}]}]}.", 8,
     b"C10 bad_value (in boot or after it: rehearse help C10)\n"),
    (13, b"  {mod, web}]}.", 13, b"C10 bad_value (in mod: rehearse help C10)\n"),
    (9, b"{profile, 2}. {node, b@x, [", 9, b"C10 bad_value (the profile is 1 or 2, and its term is the first one)\n"),
    (1, b"{profile, 3}.", 1, b"C10 bad_value (the profile is 1 or 2, and its term is the first one)\n"),
    # What stands twice.
    (9, b"{node, 'a-1@x.org', [", 9,
     b"C4 duplicate_name (two nodes or two applications of one name; an application named kernel or stdlib; a platform name that an application has)\n"),
    (6, b"    {sync_nodes_optional, [b@x, b@x]},", 6, b"C6 duplicate_in_list (in sync_nodes_optional: rehearse help C6)\n"),
    (6, b"    {sync_nodes_timeout, 10},", 7, b"C7 duplicate_parameter (in sync_nodes_timeout: rehearse help C7)\n"),
    # Nodes that don't agree.
    (11, b"    {sync_nodes_timeout, 20}]}]}.", 11, b"C8 mismatch b@x (sync_nodes_timeout isn't that of the first node that takes part)\n"),
    (10, b"  {kernel, [{distributed, [{web, 60, ['a-1@x.org', b@x]}]},", 10,
     b"C8 mismatch b@x (distributed isn't that of the first node that takes part)\n"),
    (10, b"  {kernel, [{distribted, [{web, 50, ['a-1@x.org', b@x]}]},", 9,
     b"C8 mismatch b@x (it has no distributed, and the first node that takes part has)\n"),
]


@in_folder
def wrong_lines(program, folder):
    """What is wrong with a cluster file is told at its line, also where the program tells a code alone."""
    install(folder, program)
    write(folder, "right.txt", b"\n".join(TERMS) + b"\n")
    yield "nothing is wrong", wrong(call(folder, ["check", "right.txt"]), 0, b"ok 2 nodes 1 applications\n", b"")
    for number, line, place, owed in WRONG_LINES:
        lines = b"\n".join([*TERMS[:number - 1], line, *TERMS[number:]]).split(b"\n")
        for end in b"\n", b"\r\n":
            write(folder, "wrong.txt", end.join(lines) + end)
            done = call(folder, ["check", "wrong.txt"])
            text = lines[place - 1]
            shown = text if len(text) <= 40 else text[:40] + b".."
            yield f"{line[:50]!r} {end!r}", wrong(done, 2, None, b'wrong.txt:%d: "%s" is refused: ' % (place, shown) + owed)
    write(folder, "utf-16.txt", b"\xff\xfe" + b"\n".join(TERMS).decode().encode("utf-16-le"))
    told_of = call(folder, ["check", "utf-16.txt"]).stderr
    is_right = re.fullmatch(rb"utf-16\.txt:1: [^\n]*C1 T3 not_utf8 \(the file is in UTF-16: iconv -f UTF-16 -t UTF-8 makes it UTF-8\)\n",
                            told_of)
    yield "UTF-16", None if is_right else f"{told_of}"
    write(folder, "large.txt", b"% " + b"x" * 1_048_576 + b"\n" + b"\n".join(TERMS).replace(b"kernel]", b"ssl]") + b"\n")
    done = call(folder, ["check", "large.txt"])
    yield "a large file", wrong(done, 2, b"cluster refused C5 unknown_name\n", b"large.txt: refused: C5 unknown_name (" + UNKNOWN)


@in_folder
def expectations(program, folder):
    """Where an expectation of `verify` doesn't hold, its place in the file is told; the whole input has the lines of all files."""
    install(folder, script=b"cat > /dev/null; echo 'line 5: crash a@x'; echo '  wanted ok'; echo 'line 7: undo'; echo 'differs 2 of 2'; exit 9\n")
    write(folder, "c.txt", CLUSTER)
    write(folder, "p.txt", b"boot a@x\n  crash a@x\n")
    write(folder, "q.txt", b"\nundo\n")
    out = b"line 5: crash a@x\n  wanted ok\nline 7: undo\ndiffers 2 of 2\n"
    err = b'p.txt:2: "  crash a@x" differs from what is expected\nq.txt:2: "undo" differs from what is expected\n'
    yield "verify", wrong(call(folder, ["verify", "c.txt", "p.txt", "q.txt"]), 9, out, err)
    yield "run --strict", wrong(call(folder, ["run", "--strict", "c.txt", "p.txt"]), 9, out, b"")
    yield "verify over standard input", wrong(call(folder, ["verify"], input=CLUSTER), 9, out, b"")


@in_folder
def refused_steps(program, folder):
    """Where a step was refused and `run` is strict, the places of the first ten are told, with their reasons."""
    install(folder, program)
    write(folder, "c.txt", CLUSTER)
    write(folder, "p.txt", b"# One.\nboot a@y\nundo\nboot a@x\n")
    write(folder, "q.txt", b"boot a@x\n")
    out = b"refused S1 unknown_node\nrefused at_start\nok\nup a@x\nrefused S3 already_alive\n"
    err = (b'p.txt:2: "boot a@y" is refused: S1 unknown_node (the file has no node of this name)\n'
           b'q.txt:1: "boot a@x" is refused: S3 already_alive (boot of a node that waits or is up)\n')
    for words in ["run", "--strict", "c.txt", "p.txt", "q.txt"], ["run", "--pick", "last", "--strict", "c.txt", "p.txt", "q.txt"]:
        yield " ".join(words), wrong(call(folder, words), 9, out, err)
    echo = call(folder, ["run", "--strict", "--echo", "c.txt", "q.txt", "q.txt"])
    owed = b"> boot a@x\nok\nup a@x\n> boot a@x\nrefused S3 already_alive\n"
    yield "with --echo", wrong(echo, 9, owed, b'q.txt:1: "boot a@x" is refused: S3 already_alive (boot of a node that waits or is up)\n')
    yield "without --strict", wrong(call(folder, ["run", "c.txt", "p.txt", "q.txt"]), 0, out, b"")
    write(folder, "many.txt", b"boot a@y\n" * 12)
    done = call(folder, ["run", "--strict", "c.txt", "many.txt"])
    is_right = done.returncode == 9 and done.stderr.splitlines() == [
        b'many.txt:%d: "boot a@y" is refused: S1 unknown_node (the file has no node of this name)' % number for number in range(1, 11)]
    yield "twelve of them", None if is_right else f"{done}"
    done = call(folder, ["run", "--strict"], input=CLUSTER + b"===\nboot a@y\n")
    yield "over standard input nothing is told", wrong(done, 9, b"refused S1 unknown_node\n", b"")


TESTS = (bad_lines, bad_clusters, wrong_lines, expectations, refused_steps)
