"""A turn: questions to the program with nobody else between them, and what they change in the index and the log."""
from collections.abc import Sequence

from . import commands
from .blocks import BlockText, digest
from .commands import Command
from .index import LISTED, Index
from .log import Log
from .program import Program
from .storage import Storage

_OF_WHAT_WAITS = ("VERDICT", "PEND", "UNPEND", "WAIT", "LEAVE")
_CHAIN_WORDS = ("ACCEPTED", "REVERTED", "SWITCHED")


class OutOfStep(Exception):
    """What is written does not fit what the program did."""


class Unavailable(Exception):
    """The question cannot be answered now; ask again."""


class OnlyReads(Unavailable):
    """This node follows another, and changes nothing."""

    def __init__(self) -> None:
        super().__init__("This node only reads: documents and blocks go to the node that writes")


class Lacking(Exception):
    """The program lacks a command that this needs; the message is the command."""


class Turn:
    """Questions to the program. What changes the state goes into the index, and into the log where there is one to write."""

    def __init__(self, program: Program, storage: Storage, index: Index, log: Log | None) -> None:
        self._program, self._storage, self._log, self.index = program, storage, log, index
        self.has_changed = self.has_chain_changed = False
        self.gone: list[BlockText] = []
        """The blocks that this turn took off the chain."""

    @property
    def can_write(self) -> bool:
        """Whether commands may change the state."""
        return self._log is not None

    def lacks(self, word: str) -> bool:
        """Whether the program has no such command."""
        return word in self._program.lacks

    async def ask(self, command: Command) -> list[str]:
        """The answer to a command. Raises Unavailable at NOMEM, Lacking where the program has no such command, OnlyReads where it might change
        the state and this node only reads."""
        if command.word in self._program.lacks:
            raise Lacking(command.word)
        if command.done and self._log is None:
            raise OnlyReads()
        answer = await self._program.ask(command)
        if answer == ["NOMEM"]:
            raise Unavailable("the program has no memory for this now")
        return answer

    async def ask_all(self, batch: Sequence[Command]) -> list[list[str]]:
        """The answers to several queries. Raises as `ask` does; none of them may be of a shape that is open."""
        for command in batch:
            if command.word in self._program.lacks:
                raise Lacking(command.word)
        answers = await self._program.ask_all(batch)
        if ["NOMEM"] in answers:
            raise Unavailable("the program has no memory for this now")
        return answers

    async def change(self, command: Command) -> list[str]:
        """The answer to a command that may change the state; where it did, it is in the log and the index."""
        answer = await self.ask(command)
        await self.keep(command, answer)
        return answer

    async def keep(self, command: Command, answer: list[str]) -> None:
        """Writes into log and index that a command got this answer, where it changed the state."""
        if not command.has_changed(answer[0] if answer else ""):
            return
        try:
            self._storage.begin()
            self.has_changed = True
            self.has_chain_changed = self.has_chain_changed or command.word not in _OF_WHAT_WAITS
            await self._note(command, answer)
            if self._log is not None:
                self._log.append(command.line, command.frame, "\n".join(answer), self.index.head_stamp())
        except (AssertionError, KeyError, ValueError, Unavailable) as error:
            raise OutOfStep(f"{command.line[:60]!r} could not be kept: {error!r}") from error

    async def _note(self, command: Command, answer: list[str]) -> None:
        words = [line.split(" ", 1)[0] for line in answer]
        text = "" if command.frame is None else command.frame.decode("ascii")
        if command.word == "PEND":
            self.index.pend(text)
        elif command.word == "WAIT":
            self.index.pend(text, LISTED)
        elif command.word in ("UNPEND", "LEAVE"):
            self.index.unpend(command.line.split(" ")[1])
        elif command.word == "FORGET":
            self.index.forget(command.line.split(" ")[1])
        elif command.word == "OFFER":
            self.index.store(BlockText.of(text))
        if any(word in _CHAIN_WORDS for word in words):
            await self._follow(are_stored="SWITCHED" in words)

    async def verdict(self, key: str, text_hash: str, signature: str) -> None:
        """Gives a verdict, where it was not given before."""
        command = commands.verdict(key, text_hash, signature)
        if self._log is None or not await self._log.has_verdict(command.line):
            await self.change(command)

    async def wait(self, text: str) -> None:
        """Puts a document into the list of the service. Raises OnlyReads."""
        await self._keep_own(commands.wait(text.encode("ascii")), f"WAITING {digest(text)}")

    async def leave(self, text_hash: str) -> None:
        """Takes a document out of the list of the service. Raises OnlyReads."""
        await self._keep_own(commands.leave(text_hash), "LEFT")

    async def _keep_own(self, command: Command, answer: str) -> None:
        if self._log is None:
            raise OnlyReads()
        await self.keep(command, [answer])

    async def _follow(self, are_stored: bool) -> None:
        """Takes off the index what is no longer in the chain, and puts on what is new."""
        words = (await self.ask(commands.head()))[0].split(" ")
        new: list[BlockText] = []
        number, wanted = -1, None
        if words[0] == "HEAD":
            number, wanted = int(words[1].split("-")[0]), words[1].split("-")[1]
        while number >= 0 and self.index.hash_of(number) != wanted:
            block = BlockText(await self.ask(commands.show(number)))
            assert block.hash == wanted, f"block {number} has another hash than the one behind it names"
            new.append(block)
            number, wanted = number - 1, block.previous
        taken_off = self.index.take_off(number + 1)
        self.gone += taken_off
        for gone in taken_off if are_stored else []:
            self.index.store(gone)
        for block in reversed(new):
            self.index.put_on(block, await self.ask(commands.records(block.number)))
            self.index.forget(block.stamp)
