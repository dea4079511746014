"""The program, the log and the index as one: what a turn changed is kept before it ends. A node that follows is given what another wrote."""
import asyncio
import time
from collections.abc import Awaitable, Callable
from pathlib import Path
from typing import TypeVar

from . import commands
from .commands import BadWord, Command
from .database import DATABASE_ERRORS, NoDatabase, Place, Server
from .index import Index
from .log import Entry, Log, LogRefused
from .opening import Role, copy_index, new_local, open_log
from .program import Program, ProgramEnded
from .progress import Progress
from .storage import Storage
from .turns import Lacking, OnlyReads, OutOfStep, Turn, Unavailable

__all__ = ["Lacking", "Ledger", "OnlyReads", "Role", "Turn", "Unavailable"]

T = TypeVar("T")
_BATCH = 500
_BROKEN = (ProgramEnded, OutOfStep, NoDatabase, OSError, *DATABASE_ERRORS)


class Ledger:
    """A program that is asked by many, with its log. Every use is one turn behind another."""

    def __init__(self, path: Path, storage: Storage, log: Log, program: Program) -> None:
        self._path, self._storage, self.log, self._program = path, storage, log, program
        self.index = Index(storage)
        self._turns = asyncio.Lock()
        self._listeners: list[Callable[[], None]] = []
        self.failure: asyncio.Future[str] = asyncio.get_running_loop().create_future()
        self.can_write = False
        self.away: str | None = None
        """Why nothing is answered now, where a node on a server has to begin again."""
        self.seconds_of_replay = 0.0
        self.has_chain_changed = True
        """Of the last change: whether it was one of chain or branches, and not of what waits alone."""

    @classmethod
    async def open(
        cls, program: Path, place: Place, *, role: Role = Role.WRITER, currency: str | None = None, rebuild: bool = False
    ) -> "Ledger":
        """Starts the program and replays the log into it. Raises LogRefused or ProgramEnded."""
        storage, log, is_old = await open_log(place, role)
        try:
            ledger = cls(program, storage, log, await Program.start(program))
            try:
                await ledger._load(rebuild or is_old)
                ledger._check_currency(currency)
                ledger._write(role is Role.WRITER)
            except BaseException:
                await ledger._program.stop()
                raise
        except (*DATABASE_ERRORS, NoDatabase) as error:
            await storage.close()
            raise LogRefused(f"{log.name} cannot be used: {error}") from error
        except BaseException:
            await storage.close()
            raise
        return ledger

    async def close(self) -> None:
        """Ends the program and closes the log."""
        async with self._turns:
            await self._program.stop()
            await self._storage.close()

    def listen(self, listener: Callable[[], None]) -> None:
        """Has a function called behind each turn that changed something."""
        self._listeners.append(listener)

    def lacks(self, word: str) -> bool:
        """Whether the program has no such command."""
        return word in self._program.lacks

    @property
    def server(self) -> Server | None:
        """The server that has the log, where it is no file."""
        return self._storage.server

    def _write(self, can_write: bool) -> None:
        self.can_write = self._storage.writes = can_write

    async def turn(self, work: Callable[[Turn], Awaitable[T]]) -> T:
        """Does some work as one turn, to its end even where who wanted it is gone. What it changed is on the disk behind it, also where the
        work raises. Raises Unavailable where the program ended or the database failed; then both begin again from the log."""
        return await asyncio.shield(asyncio.ensure_future(self._turn(work)))

    async def _turn(self, work: Callable[[Turn], Awaitable[T]]) -> T:
        async with self._turns:
            if self.away is not None:
                raise Unavailable(self.away)
            turn = Turn(self._program, self._storage, self.index, self.log if self.can_write else None)
            try:
                return await self._work(turn, work)
            except _BROKEN as error:
                await self._break(error)
                raise Unavailable(f"the service had to begin again: {error}") from error

    async def _work(self, turn: Turn, work: Callable[[Turn], Awaitable[T]]) -> T:
        try:
            done = await work(turn)
        except _BROKEN:
            raise
        except Exception:
            await self._finish(turn)
            raise
        await self._finish(turn)
        return done

    async def _finish(self, turn: Turn) -> None:
        if turn.has_changed:
            await self._storage.commit()
            self._tell(turn.has_chain_changed)

    def _tell(self, has_chain_changed: bool = True) -> None:
        self.has_chain_changed = has_chain_changed
        for listener in self._listeners:
            listener()

    async def _break(self, error: Exception) -> None:
        """Begins again from a file at once. Of a server that may not be there, so that it is left to who watches over it."""
        self._storage.roll_back()
        if self._storage.server is not None:
            self.away = f"this node begins again: {error}"
            return
        try:
            await self._begin_again()
        except (LogRefused, *_BROKEN) as failure:
            self.fail(str(failure))

    def fail(self, sentence: str) -> None:
        """Notes why the service cannot go on."""
        if not self.failure.done():
            self.failure.set_result(sentence)

    async def _begin_again(self) -> None:
        """Starts a fresh program and replays what is kept."""
        await self._program.stop()
        self._program = await Program.start(self._path)
        if self._storage.server is None:
            await self.log.find_last()
            await self._replay(False)
        else:
            self._storage.local.close()
            self._storage = Storage(new_local(), self._storage.server)
            self.index = Index(self._storage)
            await self._load(False)
        self._tell()

    async def begin_again(self, can_write: bool) -> None:
        """Replays what a server has, to which there is a connection again. Raises LogRefused and errors of the database."""
        async with self._turns:
            self._write(False)
            await self._begin_again()
            self._write(can_write)
            self.away = None

    # a log of others

    async def catch_up(self) -> int:
        """Gives the program what others wrote behind the last entry that it was given. Gives how many entries. Raises LogRefused where this program
        answers otherwise or comes to another head, and errors of the database."""
        count = 0
        while piece := await self.log.piece(self.log.last):
            async with self._turns:
                if self.away is None:
                    await self._take(piece)
            if self.away is not None:
                break
            count += len(piece)
        return count

    async def _take(self, piece: list[Entry]) -> None:
        turn = Turn(self._program, self._storage, self.index, None)
        self._storage.begin()
        try:
            for entry in piece:
                await self._take_one(turn, entry)
            await self._storage.commit()
        except (ProgramEnded, OutOfStep) as error:
            await self._break(error)
            return
        except LogRefused:
            self._storage.roll_back()
            raise
        self.log.pass_on_to((piece[-1].number, piece[-1].sum))
        self._tell()

    async def _take_one(self, turn: Turn, entry: Entry) -> None:
        command, lines = self._read(entry), entry.answer.split("\n")
        if not command.is_own:
            lines = (await self._program.again([(command, len(lines))]))[0]
            self._compare(entry, command, lines)
        await turn.keep(command, lines)
        if self.index.head_stamp() != entry.head:
            raise LogRefused(
                f"{self.log.name}: behind entry {entry.number} the chain ends with {self.index.head_stamp()} here, and with {entry.head} where it "
                "was written: this node and the one that writes do not agree"
            )

    async def is_still_that_log(self) -> bool:
        """Whether the log has the last entry that was taken, as it was."""
        number, last = self.log.last
        rows = await self._storage.home.rows("SELECT sum FROM log WHERE number = :number", number=number)
        return number == 0 or [row[0] for row in rows] == [last]

    async def become_writer(self) -> None:
        """Begins to write, once this node has the lock. Raises what `catch_up` does."""
        await self.catch_up()
        async with self._turns:
            self._write(self.away is None)
        self._tell()

    # replay

    def _check_currency(self, currency: str | None) -> None:
        first = self.index.block(0)
        if first is None or currency in (None, first[0].fields["Currency"]):
            return
        raise LogRefused(f"{self.log.name} is the log of the currency {first[0].fields['Currency']}, and not of {currency}")

    async def _load(self, rebuild: bool) -> None:
        """Replays the log, with the index that a server has where there is one."""
        begun = time.monotonic()
        if self._storage.server is not None:
            if rebuild:
                await self.log.find_last()
            else:
                await copy_index(self._storage.server, self.index, self.log)
        await self._replay(rebuild)
        self.seconds_of_replay = time.monotonic() - begun

    async def _replay(self, rebuild: bool) -> None:
        """Gives every entry up to the last to the program. Raises LogRefused where an answer is another than the one in the log."""
        progress, last = Progress("replayed"), self.log.number
        if rebuild:
            self._storage.writes = self._storage.server is None or self._storage.server.is_writer
            self._storage.begin()
            self.index.clear()
        batch: list[Entry] = []
        head = "NONE"
        async for entry in self.log.entries():
            if entry.number > last:
                break
            batch.append(entry)
            head = entry.head
            # the index is asked for behind each entry that may change it, and so is the program
            if len(batch) == _BATCH or (rebuild and not entry.line.startswith("VERDICT ")):
                await self._replay_batch(batch, rebuild)
                batch.clear()
            progress.show(entry.number, last)
        await self._replay_batch(batch, rebuild)
        progress.end()
        if rebuild:
            if self._storage.writes:
                self.log.note_form()
            await self._storage.commit()
        await self._compare_head(head)

    def _read(self, entry: Entry) -> Command:
        try:
            return commands.read_changing(entry.line, entry.frame)
        except BadWord as error:
            raise LogRefused(f"{self.log.name}: entry {entry.number} is {error}") from error

    async def _replay_batch(self, batch: list[Entry], rebuild: bool) -> None:
        given = [(self._read(entry), entry) for entry in batch]
        asked = [(command, entry.answer.count("\n") + 1) for command, entry in given if not command.is_own]
        answers = iter(await self._program.again(asked))
        for command, entry in given:
            lines = entry.answer.split("\n")
            if not command.is_own:
                lines = next(answers)
                self._compare(entry, command, lines)
            if rebuild:
                await Turn(self._program, self._storage, self.index, None).keep(command, lines)

    def _compare(self, entry: Entry, command: Command, lines: list[str]) -> None:
        if lines == ["NOMEM"]:
            raise LogRefused(f"{self.log.name}: the program has no memory for entry {entry.number} of {self.log.number}")
        if "\n".join(lines) != entry.answer:
            raise LogRefused(
                f"{self.log.name} is the log of another version of the program: {command.line[:60]!r}, entry {entry.number}, was answered "
                f"{entry.answer.splitlines()[0]!r}, and now {lines[0]!r}"
            )

    async def _compare_head(self, logged: str) -> None:
        words = (await self._program.ask(commands.head()))[0].split(" ")
        now = words[1] if words[0] == "HEAD" else "NONE"
        if now != logged or self.index.head_stamp() != logged:
            raise LogRefused(
                f"{self.log.name}: the chain ends with {now} now, by the log with {logged}, by the index with {self.index.head_stamp()}"
                " (the index is made anew by --rebuild)"
            )
