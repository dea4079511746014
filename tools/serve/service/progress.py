"""A bar on standard error while something takes longer than a second."""
import sys
import time

_SECONDS = 1.0
_WIDTH = 30


class Progress:
    """On a terminal a bar that grows in its line; elsewhere a line once a second."""

    def __init__(self, name: str) -> None:
        self._name, self._next, self._is_shown = name, time.monotonic() + _SECONDS, False

    def show(self, done: int, total: int) -> None:
        """Says how much was done, where a second is over since that was said."""
        if time.monotonic() < self._next:
            return
        terminal = sys.stderr.isatty()
        self._next, self._is_shown = time.monotonic() + (0.1 if terminal else _SECONDS), True
        full = _WIDTH * done // max(1, total)
        bar = f"[{'#' * full}{'.' * (_WIDTH - full)}] " if terminal else ""
        print(f"{self._name} {bar}{done} of {total} entries", end="\r" if terminal else "\n", file=sys.stderr, flush=True)

    def end(self) -> None:
        """Leaves the line of the bar."""
        if self._is_shown and sys.stderr.isatty():
            print(file=sys.stderr)
