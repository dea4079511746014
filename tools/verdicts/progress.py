"""What is shown of a long run on a terminal."""
import time
from typing import TextIO

_SECONDS_BETWEEN = 0.5
_ERASE_LINE = "\r\x1b[K"


class Progress:
    """A line with the counts so far, written anew every half second to a terminal and to nothing else."""

    def __init__(self, stream: TextIO, what: str) -> None:
        self._stream, self._what = stream, what
        self._is_terminal, self._is_shown = stream.isatty(), False
        self._texts, self._signatures = 0, 0
        self._next = time.monotonic() + _SECONDS_BETWEEN

    def step(self, signatures: int) -> None:
        """Counts one text more, with so many signatures."""
        self._texts += 1
        self._signatures += signatures
        if self._is_terminal and time.monotonic() >= self._next:
            self._show()

    def clear(self) -> None:
        """Takes the line off the terminal."""
        if self._is_shown:
            self._stream.write(_ERASE_LINE)
            self._stream.flush()
            self._is_shown = False

    def _show(self) -> None:
        self._stream.write(f"{_ERASE_LINE}verdicts: {self._texts} {self._what}, {self._signatures} signatures")
        self._stream.flush()
        self._is_shown, self._next = True, time.monotonic() + _SECONDS_BETWEEN
