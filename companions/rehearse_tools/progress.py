"""How far long work is: a bar on standard error, where that is a terminal."""
import sys

WIDTH = 40


class Bar:
    """So many things are to be done, and so many are done."""

    def __init__(self, count: int, what: str):
        self.count, self.what, self.done = count, what, 0
        self.is_shown = count > 0 and sys.stderr is not None and sys.stderr.isatty()

    def show(self, done: int) -> None:
        """So many are done."""
        is_over = self.done == self.count
        self.done = done
        if self.is_shown and not is_over:
            filled = WIDTH * done // self.count
            end = "\n" if done == self.count else ""
            print(f"\r[{'#' * filled}{'.' * (WIDTH - filled)}] {done} of {self.count} {self.what}", end=end, file=sys.stderr, flush=True)

    def go_on(self, more: int = 1) -> None:
        """More of them are done."""
        self.show(self.done + more)
