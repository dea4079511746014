"""Forging: the program says what the next block has, a process of its own finds the nonce and signs, and the block is submitted."""
import asyncio
import base64
import contextlib
import json
import math
import sys
import time
from dataclasses import dataclass
from pathlib import Path

from nacl.signing import SigningKey

from . import commands, people
from .blocks import BlockText, digest, joined
from .ledger import Lacking, Ledger, Turn, Unavailable
from .refusals import Refusal, by_rule
from .verdicts import Base58Encoder
from .writes import clear_pool, forged

_MINER = Path(__file__).resolve().parent / "miner.py"
_SECONDS_BEHIND_FAILURE = 5.0
_SECONDS_BETWEEN_LOOKS = 1.0


class NoKey(ValueError):
    """A key file is not what it has to be."""


@dataclass(frozen=True)
class Issuer:
    """Who signs blocks."""

    seed: bytes

    @classmethod
    def from_file(cls, path: Path) -> "Issuer":
        """The key of a file with a seed in 64 hexadecimal digits. Raises NoKey."""
        try:
            seed = bytes.fromhex(path.read_text(encoding="ascii").strip())
        except (OSError, ValueError) as error:
            raise NoKey(f"{path} has no seed in 64 hexadecimal digits: {error}") from error
        if len(seed) != 32:
            raise NoKey(f"{path} has no seed in 64 hexadecimal digits")
        return cls(seed)

    @property
    def key(self) -> str:
        """The public key as text."""
        return str(Base58Encoder.encode(bytes(SigningKey(self.seed).verify_key)))

    def sign(self, text: str) -> str:
        """The signature of a text."""
        return base64.b64encode(SigningKey(self.seed).sign(text.encode("ascii")).signature).decode("ascii")


@dataclass(frozen=True)
class Draft:
    """A forged block that is not signed yet, and what its hash has to meet."""

    lines: list[str]
    difficulty: int

    @property
    def inner(self) -> str:
        """The line InnerHash."""
        return self.lines[-3]

    def signed(self, nonce: int, signature: str) -> bytes:
        """The block with a nonce and a signature."""
        return joined([*self.lines[:-2], f"Nonce: {nonce}", signature]).encode("ascii")


async def draft(turn: Turn, key: str, clock: int | None = None) -> Draft:
    """What a key would forge now. Raises a refusal."""
    lines, _ = await forged(turn, key, clock)
    difficulty = await people.difficulty_of(turn, key)
    if difficulty is None:
        raise by_rule("G101")
    return Draft(lines, difficulty)


class Miner:
    """A process that finds nonces. It is ended where a search is cancelled, and started anew at the next."""

    def __init__(self, issuer: Issuer) -> None:
        self._issuer = issuer
        self._process: asyncio.subprocess.Process | None = None

    async def find(self, wanted: Draft) -> bytes:
        """The signed block."""
        task = json.dumps({"inner": wanted.inner, "difficulty": wanted.difficulty, "seed": self._issuer.seed.hex()})
        found = b""
        try:
            process = self._process or await self._start()
            assert process.stdin is not None and process.stdout is not None
            process.stdin.write(task.encode() + b"\n")
            await process.stdin.drain()
            found = await process.stdout.readline()
        finally:
            if not found:
                await self.stop()
        nonce, signature = found.decode().split()
        return wanted.signed(int(nonce), signature)

    async def _start(self) -> asyncio.subprocess.Process:
        self._process = await asyncio.create_subprocess_exec(
            sys.executable, "-B", str(_MINER), stdin=asyncio.subprocess.PIPE, stdout=asyncio.subprocess.PIPE, start_new_session=True
        )
        return self._process

    async def stop(self) -> None:
        """Ends the process."""
        process, self._process = self._process, None
        if process is not None:
            with contextlib.suppress(ProcessLookupError):
                process.kill()
            await process.wait()


async def submit_own(turn: Turn, raw: bytes, key: str) -> str:
    """Gives a block of one's own to the chain. Gives its stamp. Raises a refusal."""
    block = BlockText.of(raw.decode("ascii"))
    await turn.verdict(key, digest(block.signed), block.signature)
    answer = await turn.change(commands.block(raw))
    if not answer[0].startswith("ACCEPTED "):
        raise by_rule(answer[0].split(" ")[1])
    await clear_pool(turn, [block])
    return answer[0].split(" ")[1]


class Forger:
    """Forges one block behind another by one key, each at the earliest so many seconds behind the last."""

    def __init__(self, ledger: Ledger, issuer: Issuer, pace: float | None, on_request: bool) -> None:
        self._ledger, self._issuer, self._pace, self._last = ledger, issuer, pace, -math.inf
        self._on_request, self._miner = on_request, Miner(issuer)
        self._changed, self._wanted = asyncio.Event(), asyncio.Event()
        self._forging = asyncio.Lock()
        ledger.listen(self._changed.set)

    async def run(self) -> None:
        """Forges until it is cancelled."""
        said = ""
        while True:
            if not self._ledger.can_write:
                await asyncio.sleep(_SECONDS_BETWEEN_LOOKS)
                continue
            try:
                if not self._on_request:
                    await self._wait_for_pace()
                    await self.forge()
                else:
                    await asyncio.sleep(3600)
                said = ""
            except (Refusal, Unavailable, Lacking) as error:
                if str(error) != said:
                    said = str(error)
                    print(f"serve: no block forged: {said}", file=sys.stderr, flush=True)
                await asyncio.sleep(_SECONDS_BEHIND_FAILURE)

    async def forge(self) -> str:
        """Forges one block. Gives its stamp. Begins anew where the head changes meanwhile. Raises a refusal."""
        async with self._forging:
            while True:
                wanted, head = await self._ledger.turn(self._draft)
                raw = await self._mine_while_head_stays(wanted, head)
                stamp = None if raw is None else await self._submit(raw, head)
                if stamp is not None:
                    return stamp

    async def _draft(self, turn: Turn) -> tuple[Draft, str]:
        return await draft(turn, self._issuer.key), turn.index.head_stamp()

    async def _submit(self, raw: bytes, head: str) -> str | None:
        """Gives the block to the chain, where it still stands on the last block."""
        async def work(turn: Turn) -> str | None:
            return await submit_own(turn, raw, self._issuer.key) if turn.index.head_stamp() == head else None

        return await self._ledger.turn(work)

    async def _mine_while_head_stays(self, wanted: Draft, head: str) -> bytes | None:
        mining = asyncio.ensure_future(self._miner.find(wanted))
        try:
            while self._ledger.index.head_stamp() == head:
                self._changed.clear()
                changed = asyncio.ensure_future(self._changed.wait())
                await asyncio.wait({mining, changed}, return_when=asyncio.FIRST_COMPLETED)
                changed.cancel()
                if mining.done():
                    return mining.result()
            return None
        finally:
            mining.cancel()
            with contextlib.suppress(asyncio.CancelledError, ValueError, OSError):
                await mining

    async def stop(self) -> None:
        """Ends the search."""
        await self._miner.stop()

    async def _wait_for_pace(self) -> None:
        """Waits until so many seconds are over since the head last changed; avgGenTime of the currency where no pace was given."""
        head = ""
        while True:
            now = self._ledger.index.head_stamp()
            if head and now != head:
                self._last = time.monotonic()
            head, pace = now, self._pace
            if pace is None and now != "NONE":
                pace = float(people.parameters(self._ledger.index)["avgGenTime"])
            left = self._last + (pace or 0.0) - time.monotonic()
            if left <= 0 and now != "NONE":
                self._last = time.monotonic()
                return
            await asyncio.sleep(min(max(left, 0.05), 0.5))
