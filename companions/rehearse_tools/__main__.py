"""The command rehearse-tools: it starts the tool that its first word names."""
from rehearse_tools.endings import run_main  # it stands first: by it Ctrl-C ends all that is imported below

import importlib
import sys
from typing import NoReturn

# Each tool is a module with a function `main` of the words behind its name.
TOOLS = {
    "gather": "writes a cluster file from a release's own files",
    "plans": "writes plans for a sweep: every failure of so many nodes, or rolling restarts",
    "survey": "sums up what a sweep printed, and gives a pipeline its status",
    "spread": "shares a sweep among processes or machines",
    "page": "draws a rehearsal as one HTML file",
    "shell": "a prompt on a cluster file",
    "replay": "makes a rehearsal on real OTP nodes of this machine",
    "live": "tells what live nodes would do otherwise, without any",
    "report": "from a release to one page that a team can read",
    "compare": "tells what the same failures come to on two cluster files",
    "case": "packs a rehearsal that told something else than a cluster did",
}
USAGE = "usage: rehearse-tools TOOL [WORD..]"
WRONG_LINE = 1


def help_text() -> str:
    """What the command is for, with all tools."""
    width = max(map(len, TOOLS))
    rows = "".join(f"  {name:{width}}  {does}\n" for name, does in TOOLS.items())
    return f"{USAGE}\n\nThe companions of rehearse. TOOL is one of these, and each of them has --help:\n\n{rows}"


def start_tool(name: str) -> NoReturn:
    """Runs a tool on the words of this process, and ends."""
    start_words(name, sys.argv[1:])


def start_words(name: str, words: list[str]) -> NoReturn:
    """Runs a tool on some words, and ends."""

    def main() -> None:
        importlib.import_module(f"rehearse_tools.{name}").main(words)

    run_main(name, main)


def tell_help() -> None:
    """Writes the help."""
    from rehearse_tools.inputs import write_out
    write_out(help_text())


def start() -> NoReturn:
    """Runs the tool that the first word names, and ends."""
    name, *words = sys.argv[1:] or [""]
    if name in TOOLS:
        start_words(name, words)
    if name in ("-h", "--help", "help"):
        run_main("rehearse-tools", tell_help)
    why = f"there is no tool {name}" if name else "which tool?"
    print(f"{USAGE}\nrehearse-tools: {why} (--help lists them)", file=sys.stderr)
    sys.exit(WRONG_LINE)


if __name__ == "__main__":
    start()
