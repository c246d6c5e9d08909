"""What is entered at the prompt of `shell`, kept from one time to the next."""
import os
import readline
from pathlib import Path

MOST_LINES = 1000


def history_file() -> Path:
    """Where it is kept."""
    return Path(os.environ.get("XDG_STATE_HOME") or os.path.expanduser("~/.local/state"), "rehearse", "shell-history")


class History:
    """The lines that were entered, of which so many are in the file. Each is written at once, so that none is lost where the terminal is
    closed. Where the file can't be written nothing is kept."""

    def __init__(self) -> None:
        self.file = history_file()
        readline.set_history_length(MOST_LINES)
        try:
            self.file.parent.mkdir(mode=0o700, parents=True, exist_ok=True)
            if self.file.exists():
                readline.read_history_file(self.file)
            # It is cut here, and made where it isn't there.
            readline.write_history_file(self.file)
        except OSError:
            pass
        self.count = readline.get_current_history_length()

    def keep(self) -> None:
        """Writes what was entered since it was written last."""
        more = readline.get_current_history_length() - self.count
        self.count += more
        try:
            if more > 0:
                readline.append_history_file(more, self.file)
        except OSError:
            pass
