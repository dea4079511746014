"""Where raw texts come from: files, folders and standard input, cut into blocks or documents one at a time."""
import sys
import tempfile
from collections.abc import Iterator
from dataclasses import dataclass
from pathlib import Path
from typing import BinaryIO

from library import REFUSALS, Block

LONGEST_BLOCK = 1_048_576
"""The bytes of the longest block; the node refuses a longer one without reading it."""

_PIECE = 65_536
_NUMBER_LINE = 3
STANDARD_INPUT = "-"


class NoInput(Exception):
    """A word of the command line names nothing that can be read."""


class RawText:
    """The bytes of one block or document, in memory as long as a block may be, and beyond that in a temporary file."""

    def __init__(self) -> None:
        self._file = tempfile.SpooledTemporaryFile(max_size=LONGEST_BLOCK)
        self.size = 0

    def append(self, piece: bytes) -> None:
        """Puts a piece behind the others."""
        self._file.write(piece)
        self.size += len(piece)

    def is_too_long(self) -> bool:
        """Whether it has more bytes than a block may have."""
        return self.size > LONGEST_BLOCK

    def pieces(self) -> Iterator[bytes]:
        """All bytes, in pieces."""
        self._file.seek(0)
        while piece := self._file.read(_PIECE):
            yield piece

    def content(self) -> bytes:
        """All bytes at once, for a text that is not too long."""
        return b"".join(self.pieces())


@dataclass(frozen=True)
class Source:
    """A file, or standard input where there is no path."""

    name: str
    path: Path | None = None

    def texts(self) -> Iterator[RawText]:
        """Its blocks or documents in their order. An empty file is one of no bytes; on standard input no bytes are none."""
        if self.path is None:
            yield from cut(sys.stdin.buffer)
            return
        with open_file(self.path) as stream:
            empty = True
            for text in cut(stream):
                empty = False
                yield text
            if empty:
                yield RawText()


def open_file(path: Path) -> BinaryIO:
    """The opened file. Raises NoInput where that is refused."""
    try:
        return path.open("rb")
    except OSError as error:
        raise NoInput(f"{path}: {error.strerror}") from error


def cut(stream: BinaryIO) -> Iterator[RawText]:
    """The texts that stand one behind another in a stream. Each begins with a line `Version: ..` that a line `Type: ..` follows, which two lines
    no block or document has further down; what stands before the first such lines is of the first text."""
    text, version, at_start, has_begun = RawText(), b"", True, False
    while piece := stream.readline(_PIECE):
        if version:
            if piece.startswith(b"Type: "):
                if has_begun:
                    yield text
                    text = RawText()
                has_begun = True
            text.append(version)
            version = b""
        if at_start and piece.startswith(b"Version: ") and piece.endswith(b"\n"):
            version = piece
        else:
            text.append(piece)
        at_start = piece.endswith(b"\n")
    text.append(version)
    if text.size:
        yield text


def sources(words: list[str]) -> list[Source]:
    """What the words name, in order; standard input where there are none. Raises NoInput."""
    return [source for word in words or [STANDARD_INPUT] for source in _named(word)]


def _named(word: str) -> list[Source]:
    if word == STANDARD_INPUT:
        return [Source("standard input")]
    path = Path(word)
    if path.is_dir():
        return [Source(str(file), file) for file in _files_in_order(path)]
    if not path.exists():
        raise NoInput(f"{word}: no such file or folder")
    return [Source(word, path)]


def _files_in_order(folder: Path) -> list[Path]:
    """The folder's own files that are not hidden, in order of the numbers of the blocks with which they begin, equal ones by name; behind them,
    by name, those that begin with no block."""
    try:
        files = sorted(path for path in folder.iterdir() if path.is_file() and not path.name.startswith("."))
    except OSError as error:
        raise NoInput(f"{folder}: {error.strerror}") from error
    numbers = {path: _first_number(path) for path in files}
    return sorted(files, key=lambda path: (numbers[path] is None, numbers[path] or 0))


def _first_number(path: Path) -> int | None:
    with open_file(path) as stream:
        lines = [stream.readline(_PIECE) for _ in range(_NUMBER_LINE + 1)]
    try:
        return int(Block.parse_field("Number", lines[_NUMBER_LINE].decode("ascii")))
    except REFUSALS:
        return None
