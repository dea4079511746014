"""The commands of the program, and the only place where they are put into bytes.

Each word is matched whole by its spelling, so no value brings a line feed or a second word with it."""
from collections.abc import Callable
from dataclasses import dataclass
from enum import Enum

from . import spelling

LONGEST_FRAME = 1_048_576
"""The bytes of the longest block or document that the program looks at."""


class BadWord(ValueError):
    """A word of a command is not spelled as it has to be."""


class Shape(Enum):
    """How the end of an answer is found."""

    LINE = "one line"
    LIST = "one line that is no list, or lines up to END"
    TEXT = "one line that is no text, or a block's text and lines up to END"
    OPEN = "some lines, of which the last is not marked"


@dataclass(frozen=True)
class Command:
    """A command: its line without LF, its frame where it has one, how its answer ends, and how the answer begins where the state changed."""

    line: str
    shape: Shape = Shape.LINE
    frame: bytes | None = None
    done: tuple[str, ...] = ()

    @property
    def word(self) -> str:
        """The first word."""
        return self.line.split(" ", 1)[0]

    @property
    def is_own(self) -> bool:
        """Whether it is one of the service itself, of which the program is not told."""
        return self.word in ("WAIT", "LEAVE")

    def encoded(self) -> bytes:
        """The bytes that the program reads."""
        line = self.line.encode("ascii") + b"\n"
        return line if self.frame is None else line + self.frame + b"\n"

    def has_changed(self, answer: str) -> bool:
        """Whether the first line of an answer says that the state changed."""
        return answer.split(" ", 1)[0] in self.done


def _checked(text: str, is_spelled: Callable[[str], bool], name: str) -> str:
    if not is_spelled(text):
        raise BadWord(f"a {name} is not spelled so: {text[:20]!r}")
    return text


def _number(value: int) -> str:
    return _checked(str(value), spelling.is_number, "number")


def _framed(word: str, content: bytes, shape: Shape, *done: str) -> Command:
    if len(content) > LONGEST_FRAME:
        raise BadWord(f"a text of {len(content)} bytes is longer than {LONGEST_FRAME}")
    return Command(f"{word} {len(content)}", shape, content, done)


def verdict(key: str, text_hash: str, signature: str) -> Command:
    """Says that the key's signature of the text with this hash is true."""
    words = [_checked(key, spelling.is_key, "key"), _checked(text_hash, spelling.is_hash, "hash")]
    words.append(_checked(signature, spelling.is_signature, "signature"))
    return Command(" ".join(["VERDICT", *words]), done=("NOTED",))


def block(raw: bytes) -> Command:
    """Submits a block."""
    return _framed("BLOCK", raw, Shape.LINE, "ACCEPTED")


def offer(raw: bytes) -> Command:
    """Stores a block of some branch."""
    return _framed("OFFER", raw, Shape.OPEN, "STORED")


def pend(text: bytes) -> Command:
    """Puts a document into the pool."""
    return _framed("PEND", text, Shape.LINE, "PENDING")


def unpend(text_hash: str) -> Command:
    """Takes a document out of the pool."""
    return Command(f"UNPEND {_checked(text_hash, spelling.is_hash, 'hash')}", done=("FORGOTTEN",))


def wait(text: bytes) -> Command:
    """Puts a document into the list of the service."""
    return _framed("WAIT", text, Shape.LINE, "WAITING")


def leave(text_hash: str) -> Command:
    """Takes a document out of the list of the service."""
    return Command(f"LEAVE {_checked(text_hash, spelling.is_hash, 'hash')}", done=("LEFT",))


def revert(count: int) -> Command:
    """Takes the last blocks off."""
    return Command(f"REVERT {_number(count)}", done=("REVERTED",))


def switch(stamp: str) -> Command:
    """Puts a stored branch in the place of the chain's last blocks."""
    return Command(f"SWITCH {_checked(stamp, spelling.is_stamp, 'stamp')}", done=("SWITCHED",))


def forget(stamp: str) -> Command:
    """Forgets a stored block."""
    return Command(f"FORGET {_checked(stamp, spelling.is_stamp, 'stamp')}", done=("FORGOTTEN",))


def auto(state: str) -> Command:
    """Puts the automatic choice of a branch `ON` or `OFF`."""
    return Command(f"AUTO {_checked(state, ('ON', 'OFF').__contains__, 'state')}", Shape.OPEN, done=("AUTO",))


def forge(key: str, time: int) -> Command:
    """Asks for a block by the key of the documents that wait."""
    return Command(f"FORGE {_checked(key, spelling.is_key, 'key')} {_number(time)}", Shape.TEXT)


def head() -> Command:
    """Asks for the last block's values."""
    return Command("HEAD")


def money() -> Command:
    """Asks for the sums of money."""
    return Command("MONEY")


def failures() -> Command:
    """Asks for the failures of the automatic choice."""
    return Command("FAILED", Shape.LIST)


def of_key(word: str, key: str) -> Command:
    """IDENTITY, CERTS, DISTANCE or DIFF of a key."""
    shape = Shape.LIST if word == "CERTS" else Shape.LINE
    _checked(word, ("IDENTITY", "CERTS", "DISTANCE", "DIFF").__contains__, "word")
    return Command(f"{word} {_checked(key, spelling.is_key, 'key')}", shape)


def uid(name: str) -> Command:
    """Asks for the identity with a name."""
    return Command(f"UID {_checked(name, spelling.is_uid, 'name')}")


def of_condition(word: str, condition: str) -> Command:
    """BALANCE, SOURCES or STATEMENT of a condition."""
    shape = Shape.LINE if word == "BALANCE" else Shape.LIST
    _checked(word, ("BALANCE", "SOURCES", "STATEMENT").__contains__, "word")
    return Command(f"{word} {_checked(condition, spelling.is_condition_like, 'condition')}", shape)


def records(number: int) -> Command:
    """Asks for what a block wrote."""
    return Command(f"RECORDS {_number(number)}", Shape.LIST)


def show(number: int) -> Command:
    """Asks for a block's text."""
    return Command(f"SHOW {_number(number)}", Shape.TEXT)


def read_changing(line: str, frame: bytes | None) -> Command:
    """The command that changes the state, from its line and frame as they stand in a log. Raises BadWord."""
    word, _, rest = line.partition(" ")
    words = rest.split(" ")
    framed = {"BLOCK": block, "OFFER": offer, "PEND": pend, "WAIT": wait}
    single = {"UNPEND": unpend, "LEAVE": leave, "SWITCH": switch, "FORGET": forget, "AUTO": auto}
    if word in framed and frame is not None:
        command = framed[word](frame)
    elif word in single:
        command = single[word](rest)
    elif word == "VERDICT" and len(words) == 3:
        command = verdict(*words)
    elif word == "REVERT" and spelling.is_number(rest):
        command = revert(int(rest))
    else:
        raise BadWord(f"no command that changes the state: {line[:40]!r}")
    if command.line != line:
        raise BadWord(f"the frame of {line[:40]!r} has another length")
    return command
