"""What a currency was behind each block: a program is given a log or a file of commands, and asked behind each command that changes the chain."""
import asyncio
import re
import sqlite3
from collections.abc import Callable, Iterator, Sequence
from dataclasses import dataclass, field
from pathlib import Path

from . import commands
from .blocks import BlockText, digest, joined
from .commands import Command, Shape
from .feeding import NoCommands, changing
from .program import Program

_OF_CHAIN = ("BLOCK", "REVERT", "SWITCH", "OFFER", "AUTO")
_AT_ONCE = 400
_SQLITE = b"SQLite format 3\0"
_IDENTITY = re.compile(rb"^([1-9A-HJ-NP-Za-km-z]{43,44}):[^:\n]+:[^:\n]+:[A-Za-z0-9_-]{2,100}$", re.MULTILINE)
_HEAD, _MONEY = commands.head(), commands.money()
Tell = Callable[[int, int], None]


@dataclass(frozen=True)
class Behind:
    """The answers behind a block: the words of HEAD and of MONEY, and the balances of the conditions that were asked for."""

    head: list[str]
    money: list[str]
    balances: list[int]

    @property
    def number(self) -> int:
        """The number of the block."""
        return int(self.head[1].split("-")[0])

    @property
    def hash(self) -> str:
        """The hash of the block."""
        return self.head[1].split("-")[1]

    def value(self, name: str) -> int:
        """One of the values of HEAD and MONEY; the dividend is in units."""
        if name == "dividend":
            units: int = int(self.head[5]) * 10 ** int(self.head[6])
            return units
        places = {"median_time": 2, "members": 3, "pow_min": 4, "mass": 7}
        return int(self.head[places[name]]) if name in places else int(self.money[("issued", "unspent", "cleared").index(name) + 1])


@dataclass
class History:
    """The answers behind the blocks of the chain, by number; everybody who took an identity in some block; of each block the one before, by hash.

    A block has no answers that a switch put on together with others, the last of them aside."""

    behind: dict[int, Behind] = field(default_factory=dict)
    keys: list[str] = field(default_factory=list)
    previous: dict[str, str | None] = field(default_factory=dict)

    @property
    def points(self) -> list[Behind]:
        """The answers in the order of the blocks."""
        return [self.behind[number] for number in sorted(self.behind)]

    def put(self, last: Behind) -> None:
        """Puts the answers behind the last block, and drops those of blocks that are not before it."""
        number, block_hash = last.number - 1, self.previous.get(last.hash)
        while number >= 0 and block_hash is not None and (number not in self.behind or self.behind[number].hash != block_hash):
            number, block_hash = number - 1, self.previous.get(block_hash)
        for each in [each for each in reversed(self.behind) if each > number]:
            del self.behind[each]
        self.behind[last.number] = last


def entries(path: Path) -> list[Command]:
    """The commands of a log, or of a file of commands. Raises NoCommands."""
    try:
        with path.open("rb") as stream:
            is_log = stream.read(len(_SQLITE)) == _SQLITE
    except OSError as error:
        raise NoCommands(f"{path} cannot be read: {error.strerror}") from error
    return list(_of_log(path)) if is_log else list(changing(path))


def _of_log(path: Path) -> Iterator[Command]:
    try:
        connection = sqlite3.connect(f"file:{path.resolve()}?mode=ro", uri=True, timeout=0.5)
        for line, frame in connection.execute("SELECT line, frame FROM log ORDER BY number"):
            command = commands.read_changing(line, frame)
            if not command.is_own:
                yield command
        connection.close()
    except (sqlite3.Error, commands.BadWord) as error:
        said = "it is in use by a running service: ask that, or take a copy" if "locked" in str(error) else str(error)
        raise NoCommands(f"{path} cannot be read as a log: {said}") from error


async def follow(program: Program, given: Sequence[Command], conditions: Sequence[str], tell: Tell) -> History:
    """Gives the commands to a program, and asks it behind each that changes the chain. `tell` is called with how many were given, of how many."""
    found, batch, asked = History(), list[Command](), [commands.of_condition("BALANCE", each) for each in conditions]
    for place, command in enumerate(given, 1):
        if command.shape is Shape.OPEN:
            # the end of such an answer is not marked: it is asked alone
            await _take(program, batch, found)
            batch = []
            await program.ask(command)
        else:
            batch.append(command)
        if command.word in _OF_CHAIN:
            batch += [_HEAD, _MONEY, *asked]
        _note(command, found)
        if len(batch) >= _AT_ONCE:
            await _take(program, batch, found)
            batch = []
            tell(place, len(given))
    await _take(program, batch, found)
    return found


def _note(command: Command, found: History) -> None:
    """Keeps whom a block names, and which block is before it."""
    if command.word in ("BLOCK", "OFFER") and command.frame is not None:
        lines = command.frame.decode("latin-1").split("\n")
        before = next((line.removeprefix("PreviousHash: ") for line in lines[:16] if line.startswith("PreviousHash: ")), None)
        found.previous[digest(joined(lines[-4:-1]))] = before
        part = command.frame.partition(b"\nIdentities:\n")[2].partition(b"\nJoiners:\n")[0]
        found.keys += [each.decode() for each in _IDENTITY.findall(part)]


async def _take(program: Program, batch: list[Command], found: History) -> None:
    """Asks a batch, and keeps what was answered to HEAD, MONEY and BALANCE."""
    answers = await program.ask_all(batch) if batch else []
    place = 0
    while place < len(batch):
        if batch[place] is not _HEAD:
            place += 1
            continue
        end = place + 2
        while end < len(batch) and batch[end].word == "BALANCE":
            end += 1
        head, money, *balances = [each[0].split(" ") for each in answers[place:end]]
        if head == ["NONE"]:
            found.behind.clear()
        else:
            found.put(Behind(head, money, [int(each[1]) for each in balances]))
        place = end


def run(program_path: Path, given: Sequence[Command], conditions: Sequence[str], tell: Tell) -> tuple[History, dict[str, list[list[str]]]]:
    """The history, and IDENTITY, DIFF and CERTS of everybody behind the last block."""

    async def work() -> tuple[History, dict[str, list[list[str]]]]:
        program = await Program.start(program_path)
        try:
            history = await follow(program, given, conditions, tell)
            keys = list(dict.fromkeys(history.keys))
            answers = {}
            for word in ("IDENTITY", "DIFF", "CERTS"):
                answers[word] = await program.ask_all([commands.of_key(word, key) for key in keys])
            return history, {key: [answers[word][place] for word in ("IDENTITY", "DIFF", "CERTS")] for place, key in enumerate(keys)}
        finally:
            await program.stop()

    return asyncio.run(work())


def steps_of(given: Sequence[Command]) -> int:
    """stepMax of the first block among the commands."""
    for command in given:
        if command.word == "BLOCK" and command.frame is not None and b"\nParameters: " in command.frame:
            return int(BlockText.of(command.frame.decode("latin-1")).parameters()["stepMax"])
    return 1
