"""Why a block or a document is refused: a program of its own that is given the log says the rule, and the values of the case stand beside it."""
import asyncio
import contextlib
import time
from collections.abc import AsyncIterator, Sequence
from pathlib import Path
from typing import Any

from . import commands, people
from .branch import Branch
from .index import read_pending
from .ledger import Lacking, Ledger, Turn, Unavailable
from .log import Entry, LogRefused
from .program import Program
from .refusals import UNHANDLED, Refusal, chapter, sentence
from .shares import is_of_newcomer, listed_about, newcomer_of
from .verdicts import Claim, Unreadable, digest, document_claims, is_true, read_block
from .why_values import values_of
from .writes import forging_time, has_too_many_lines

MOST_WAITING = 8
"""Questions at once; one more is refused for now."""

_BATCH = 200
_SECONDS_KEPT = 120.0
_CLAIMS_AT_ONCE = 20


class Trial:
    """A second program with the same log, in which what is asked about is tried. It is ended when nobody asked for a while, and where what was
    tried changed it."""

    def __init__(self, ledger: Ledger, path: Path) -> None:
        self._ledger, self._path = ledger, path
        self._program: Program | None = None
        self._at = (0, "")
        self._lock, self._waiting = asyncio.Lock(), 0
        self._end: asyncio.TimerHandle | None = None

    async def block(self, claims: list[commands.Command], raw: bytes) -> list[str]:
        """The words of the answer to a block. Raises Unavailable where many wait."""
        async with self._place():
            program = await self._ready()
            try:
                await program.ask_all(claims)
                answer = (await program.ask(commands.block(raw)))[0].split(" ")
                if answer[0] == "ACCEPTED":
                    # what leads back is a fresh program: a reversal leaves one block less that can be reversed, and the store without this block
                    await self._stop()
                return answer
            except BaseException:
                await self._stop()
                raise

    async def document(
        self, claims: list[commands.Command], raw: bytes, key: str, second: int, beside: Sequence[bytes] = ()
    ) -> tuple[str | None, bool]:
        """The rule that refuses a document, or by which the block that the key would forge leaves it out; and whether that block has it.
        `beside` are documents of which the program knows nothing yet, with `claims` of them too. Raises Unavailable where many wait."""
        async with self._place():
            program = await self._ready()
            if program.lacks & {"PEND", "FORGE"}:
                raise Lacking("PEND" if "PEND" in program.lacks else "FORGE")
            try:
                await program.ask_all(claims)
                added = [text for text in beside if (await program.ask(commands.pend(text)))[0].startswith("PENDING ")]
                found = await self._tried(program, raw, key, second)
                for text in added:
                    await program.ask(commands.unpend(digest(text.decode("latin-1"))))
                return found
            except BaseException:
                await self._stop()
                raise

    async def _tried(self, program: Program, raw: bytes, key: str, second: int) -> tuple[str | None, bool]:
        answer = (await program.ask(commands.pend(raw)))[0].split(" ")
        if answer[0] == "REFUSED":
            return answer[1], False
        if answer[0] not in ("PENDING", "KNOWN"):
            raise Unavailable("no more documents can wait now")
        text_hash = digest(raw.decode("latin-1"))
        lines = await program.ask(commands.forge(key, second))
        if answer[0] == "PENDING":
            await program.ask(commands.unpend(text_hash))
        if lines[0].startswith("REFUSED "):
            return lines[0].split(" ")[1], False
        left = dict(line.split(" ")[1:3] for line in lines if line.startswith("LEFT "))
        return left.get(text_hash), text_hash not in left

    async def make_ready(self) -> None:
        """Has the program ready for a question, where nobody asks one now."""
        if not self._lock.locked():
            async with self._lock:
                await self._ready()

    @contextlib.asynccontextmanager
    async def _place(self) -> AsyncIterator[None]:
        if self._waiting >= MOST_WAITING:
            raise Unavailable("other blocks and documents are being looked at")
        self._waiting += 1
        try:
            async with self._lock:
                yield
        finally:
            self._waiting -= 1

    async def close(self) -> None:
        """Ends the program."""
        async with self._lock:
            await self._stop()

    async def _ready(self) -> Program:
        """The program, given what the log has by now."""
        for _ in range(2):
            program = self._program
            if program is None:
                program = self._program = await Program.start(self._path)
                self._at = (0, "")
            try:
                if await self._follow(program):
                    self._wait_for_end()
                    return program
            except BaseException:
                await self._stop()
                raise
            await self._stop()
        raise Unavailable("the log has changed meanwhile")

    async def _follow(self, program: Program) -> bool:
        """Gives the program what the log has behind what it was given, a piece at a time, so that others are answered meanwhile. Says whether
        the answers are those of the log."""

        async def read(_: Turn) -> list[Entry]:
            return await self._ledger.log.piece(self._at, _BATCH)

        try:
            while piece := await self._ledger.turn(read):
                batch = [(commands.read_changing(entry.line, entry.frame), entry.answer) for entry in piece]
                told = [(command, answer) for command, answer in batch if not command.is_own]
                answers = await program.again([(command, answer.count("\n") + 1) for command, answer in told])
                if ["\n".join(lines) for lines in answers] != [answer for _, answer in told]:
                    return False
                self._at = (piece[-1].number, piece[-1].sum)
        except LogRefused:
            return False
        return True

    def _wait_for_end(self) -> None:
        if self._end is not None:
            self._end.cancel()
        self._end = asyncio.get_running_loop().call_later(_SECONDS_KEPT, lambda: asyncio.ensure_future(self.close()))

    async def _stop(self) -> None:
        program, self._program = self._program, None
        if program is not None:
            await program.stop()


async def why(ledger: Ledger, trial: Trial, raw: bytes) -> dict[str, Any]:
    """What the chain would answer to a block or a document, with the rule, its chapter, and the values that broke it. Raises a refusal."""
    if not raw or len(raw) > commands.LONGEST_FRAME:
        raise Refusal(UNHANDLED, f"A block or document of at most {commands.LONGEST_FRAME} bytes is wanted in the body")
    is_document = raw.split(b"\n", 2)[1:2] not in ([], [b"Type: Block"]) and raw.split(b"\n", 2)[1].startswith(b"Type: ")
    return await (_why_document if is_document else _why_block)(ledger, trial, raw)


async def _why_block(ledger: Ledger, trial: Trial, raw: bytes) -> dict[str, Any]:
    claims, false = await _claims_of(ledger, raw)
    answer = await trial.block(claims, raw)
    rule = answer[1] if answer[0] == "REFUSED" else None
    line = int(answer[2]) if rule == "P01" else None
    values = await ledger.turn(lambda turn: values_of(turn, raw, rule, false, line))
    return {"kind": "block", "accepted": answer[0] == "ACCEPTED", **_said(rule), "line": line, "false_signatures_in_lines": false, "values": values}


async def _why_document(ledger: Ledger, trial: Trial, raw: bytes) -> dict[str, Any]:
    if has_too_many_lines(raw):
        broken = "L18" if raw.split(b"\n", 2)[1] == b"Type: Transaction" else "D01"
        return {"kind": "document", "accepted": False, **_said(broken), "line": None, "false_signatures_in_lines": [], "values": []}
    try:
        found = document_claims(raw)
    except Unreadable as error:
        values = [{"what": "what a library says of it", "value": str(error), "line": None}]
        return {"kind": "document", "accepted": False, **_said("D01"), "line": None, "false_signatures_in_lines": [], "values": values}
    claims, false = await _split(found)
    key, second = await ledger.turn(_forger)
    beside = await ledger.turn(lambda turn: _beside(turn, raw))
    for text in beside:
        claims += (await _split(document_claims(text)))[0]
    rule, is_in = await trial.document(claims, raw, key, second, beside)
    values = await ledger.turn(lambda turn: values_of(turn, raw, rule, false, None))
    return {"kind": found[0].kind, "accepted": is_in, **_said(rule), "line": None, "false_signatures_in_lines": false, "values": values}


async def _beside(turn: Turn, raw: bytes) -> list[bytes]:
    """What waits in the list of the service of the newcomer of whom a document speaks."""
    pending = read_pending(raw.decode("ascii"))
    if not is_of_newcomer(turn.index, pending):
        return []
    return [each.text.encode("ascii") for each in listed_about(turn.index, newcomer_of(pending)) if each.hash != pending.hash]


def _said(rule: str | None) -> dict[str, Any]:
    return {"rule": rule, "sentence": None if rule is None else sentence(rule), "chapter": None if rule is None else chapter(rule)}


async def _forger(turn: Turn) -> tuple[str, int]:
    """Some member's key, and when the next block may be. Raises a refusal where nobody is a member."""
    for identity in turn.index.identities():
        if await people.is_member(turn, identity.key):
            return identity.key, forging_time(turn.index, int(time.time()))
    raise Refusal(UNHANDLED, "No block can be forged, since nobody is a member")


async def _claims_of(ledger: Ledger, raw: bytes) -> tuple[list[commands.Command], list[int]]:
    """The verdicts on a block's signatures, and the lines of those that are false. They are found by a thread, so that nobody waits for a long
    block."""
    try:
        read = await asyncio.to_thread(read_block, raw)
    except Unreadable:
        return [], []

    async def work(turn: Turn) -> list[Claim]:
        return list(read.claims(Branch(turn.index, read.block.number, read.block.prev_hash)))

    return await _split(await ledger.turn(work))


async def _split(claims: list[Claim]) -> tuple[list[commands.Command], list[int]]:
    """The verdicts on true signatures, and the lines of the others. Others are answered meanwhile."""
    true, false = [], []
    for place, claim in enumerate(claims):
        if place % _CLAIMS_AT_ONCE == _CLAIMS_AT_ONCE - 1:
            await asyncio.sleep(0)
        if is_true(claim):
            assert claim.text is not None
            true.append(commands.verdict(claim.key, digest(claim.text), claim.signature))
        else:
            false.append(claim.line)
    return true, false
