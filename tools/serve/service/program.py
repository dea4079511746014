"""One `dubp_node run`: it is asked one command at a time."""
import asyncio
from collections.abc import Sequence
from pathlib import Path

from . import commands
from .commands import Command, Shape

_LONGEST_LINE = 1 << 20
_ALONE = ("NONE", "BAD", "NOMEM", "REFUSED")
_SECONDS_TO_END = 5.0
_AT_ONCE = 100
_SOME_HASH = "0" * 64
_SOME_KEY = "1" * 44


class ProgramEnded(Exception):
    """The program ended, or could not be started."""


class Program:
    """The process, and how its answers are read. A question is asked behind the answer to the one before."""

    def __init__(self, process: asyncio.subprocess.Process) -> None:
        assert process.stdin is not None and process.stdout is not None
        self._process, self._input, self._output = process, process.stdin, process.stdout
        self._turn = asyncio.Lock()
        self.lacks: frozenset[str] = frozenset()

    @classmethod
    async def start(cls, path: Path) -> "Program":
        """Starts the program and finds out which commands it lacks. Raises ProgramEnded."""
        try:
            process = await asyncio.create_subprocess_exec(
                path, "run", stdin=asyncio.subprocess.PIPE, stdout=asyncio.subprocess.PIPE, limit=_LONGEST_LINE, start_new_session=True
            )
        except OSError as error:
            raise ProgramEnded(f"{path} cannot be started: {error.strerror}") from error
        program = cls(process)
        try:
            first = await program.ask(commands.head())
            program.lacks = await program._lacking()
        except ProgramEnded as error:
            await program.stop()
            raise ProgramEnded(f"{path} does not answer as dubp_node: {error}") from error
        if first != ["NONE"]:
            await program.stop()
            raise ProgramEnded(f"{path} does not answer as dubp_node: HEAD of the empty chain is {first[0][:20]!r}")
        return program

    async def _lacking(self) -> frozenset[str]:
        """The commands that are answered BAD. PEND and UNPEND come together, as do OFFER, SWITCH and FORGET."""
        probes = {
            "OFFER": commands.forget(f"0-{_SOME_HASH}"),
            "PEND": commands.unpend(_SOME_HASH),
            "FORGE": commands.forge(_SOME_KEY, 0),
            "STATEMENT": commands.of_condition("STATEMENT", f"SIG({_SOME_KEY})"),
            "AUTO": Command("AUTO OFF"),
            "FAILED": commands.failures(),
        }
        return frozenset([word for word, probe in probes.items() if await self.ask(probe) == ["BAD"]])

    async def ask(self, command: Command) -> list[str]:
        """The lines of the answer, without END; NONE, BAD, NOMEM and a refusal are a line alone. A text comes as lines too. Raises ProgramEnded.

        The answer is read to its end even where who asked is gone."""
        return await asyncio.shield(asyncio.ensure_future(self._ask(command)))

    async def _ask(self, command: Command) -> list[str]:
        async with self._turn:
            probe = commands.head().encoded() if command.shape is Shape.OPEN else b""
            try:
                self._input.write(command.encoded() + probe)
                await self._input.drain()
            except (ConnectionError, RuntimeError) as error:
                raise ProgramEnded("the program ended") from error
            return await self._read(command.shape)

    async def ask_all(self, batch: Sequence[Command]) -> list[list[str]]:
        """The answers to several queries, of which some are written at once. Raises ProgramEnded."""
        return await asyncio.shield(asyncio.ensure_future(self._ask_all(batch)))

    async def _ask_all(self, batch: Sequence[Command]) -> list[list[str]]:
        answers = []
        async with self._turn:
            for start in range(0, len(batch), _AT_ONCE):
                piece = batch[start : start + _AT_ONCE]
                try:
                    self._input.write(b"".join(command.encoded() for command in piece))
                    await self._input.drain()
                except (ConnectionError, RuntimeError) as error:
                    raise ProgramEnded("the program ended") from error
                answers += [await self._read(command.shape) for command in piece]
        return answers

    async def again(self, batch: Sequence[tuple[Command, int]]) -> list[list[str]]:
        """The answers to several commands that are written at once, each with the number of its lines. Raises ProgramEnded."""
        async with self._turn:
            try:
                self._input.write(b"".join(command.encoded() for command, _ in batch))
                await self._input.drain()
            except (ConnectionError, RuntimeError) as error:
                raise ProgramEnded("the program ended") from error
            return [[await self._line() for _ in range(lines)] for _, lines in batch]

    async def stop(self) -> None:
        """Ends the process."""
        self._input.close()
        try:
            await asyncio.wait_for(self._process.wait(), _SECONDS_TO_END)
        except asyncio.TimeoutError:
            self._process.kill()
            await self._process.wait()

    async def _line(self) -> str:
        line = await self._output.readline()
        if not line.endswith(b"\n"):
            raise ProgramEnded("the program ended")
        return line[:-1].decode("latin-1")

    async def _read(self, shape: Shape) -> list[str]:
        first = await self._line()
        if shape is Shape.OPEN:
            return await self._up_to_head(first)
        if shape is Shape.LINE or first.split(" ", 1)[0] in _ALONE:
            return [first]
        lines = [first]
        if shape is Shape.LIST:
            while lines[-1] != "END":
                lines.append(await self._line())
        else:
            # a comment may be the line END: a block's text ends with a nonce, a signature and END
            while not (lines[-1] == "END" and len(lines) > 2 and _is_behind_text(lines)):
                lines.append(await self._line())
        return lines[:-1]

    async def _up_to_head(self, first: str) -> list[str]:
        lines = [first]
        while lines[-1] != "NONE" and not lines[-1].startswith("HEAD "):
            lines.append(await self._line())
        return lines[:-1]


def _is_behind_text(lines: list[str]) -> bool:
    """Whether the END that stands last is behind a block's whole text: behind nonce and signature, and then only lines LEFT."""
    place = len(lines) - 2
    while place > 1 and lines[place].startswith("LEFT "):
        place -= 1
    return lines[place - 1].startswith("Nonce: ") and lines[place].endswith("==")
