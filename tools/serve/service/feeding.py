"""Files of commands, as `dubp_node run` reads them: what of them changes the state, for tools that start from such a file."""
from collections.abc import Iterator
from pathlib import Path

from . import commands
from .commands import BadWord, Command

_FRAMED = (b"BLOCK", b"OFFER", b"PEND")


class NoCommands(ValueError):
    """The file cannot be read as commands."""


def changing(path: Path) -> Iterator[Command]:
    """The commands of a file that may change the state, in order; queries and lines that are no command are passed over. Raises NoCommands."""
    try:
        with path.open("rb") as stream:
            while line := stream.readline():
                words = line.rstrip(b"\n").split(b" ")
                frame = None
                if words[0] in _FRAMED and len(words) == 2 and words[1].isdigit():
                    frame = stream.read(int(words[1]))
                    stream.read(1)
                try:
                    command = commands.read_changing(line.rstrip(b"\n").decode("latin-1"), frame)
                except BadWord:
                    continue
                if not command.is_own:
                    yield command
    except OSError as error:
        raise NoCommands(f"{path} cannot be read: {error.strerror}") from error
