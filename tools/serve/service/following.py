"""A node whose log is on a server: it takes what another writes, takes the place of one that is gone, and begins again when the server is back."""
import asyncio
import time
from collections.abc import Callable

from .database import DATABASE_ERRORS, NoDatabase, said_by
from .ledger import Ledger, Role
from .log import LogRefused
from .program import ProgramEnded

SECONDS_BETWEEN_LOOKS = 2.0
"""How long a node waits for word of an entry before it looks by itself, and one that writes before it asks whether its lock is there."""

_SECONDS_BETWEEN_TRIALS = 0.5
_SECONDS_FOR_LOCK = 20.0
_GONE = (*DATABASE_ERRORS, NoDatabase, OSError)


class Following:
    """Watches over a ledger whose log is on a server."""

    def __init__(self, ledger: Ledger, role: Role, say: Callable[[str], None]) -> None:
        assert ledger.server is not None
        self._ledger, self._server, self.role, self._say = ledger, ledger.server, role, say
        self.is_connected = True
        self.taken = 0
        """How many entries of others were taken since the start."""

    def promote(self) -> None:
        """Has a follower take the place of the one that writes, as soon as that is gone."""
        if self.role is Role.FOLLOWER:
            self.role = Role.STANDBY
            self._say("this node takes the place of the one that writes, as soon as nobody has the lock")

    async def run(self) -> None:
        """Watches until it is cancelled, or the ledger cannot go on."""
        try:
            while not self._ledger.failure.done():
                await self._watch_while_connected()
                await self._reconnect()
        except LogRefused as error:
            self._ledger.fail(str(error))

    async def _watch_while_connected(self) -> None:
        try:
            while self._ledger.away is None:
                if not self._ledger.can_write:
                    await self._follow()
                await self._server.changed(SECONDS_BETWEEN_LOOKS)
        except _GONE as error:
            self._say(f"{self._server.name} is gone: {said_by(error)}")
        else:
            self._say(str(self._ledger.away))
        self.is_connected = False

    async def _follow(self) -> None:
        self.taken += await self._ledger.catch_up()
        if self.role is Role.STANDBY and self._ledger.away is None and await self._server.take_lock():
            await self._ledger.become_writer()
            self._say(f"this node writes from now on, behind entry {self._ledger.log.number}")

    async def _reconnect(self) -> None:
        """Connects again, as often as it takes; a node that wrote goes on where nobody took its place."""
        since: float | None = None
        while not self._ledger.failure.done():
            try:
                await self._server.connect()
                since = since or time.monotonic()
                if await self._go_on(time.monotonic() - since > _SECONDS_FOR_LOCK):
                    self.is_connected = True
                    self._say(f"{self._server.name} is there again, head {self._ledger.index.head_stamp()}")
                    return
            except (*_GONE, ProgramEnded):
                pass
            await asyncio.sleep(_SECONDS_BETWEEN_TRIALS)

    async def _go_on(self, is_late: bool) -> bool:
        """Gives whether this node goes on. Raises LogRefused where it cannot any more."""
        must_write, is_in_step = self.role is Role.WRITER, await self._ledger.is_still_that_log()
        has_lock = (must_write or self._ledger.can_write) and await self._server.take_lock()
        if must_write and not has_lock:
            if is_late:
                raise LogRefused(f"{self._server.name} is in use by another node that writes")
            return False
        if not is_in_step and not has_lock and self._ledger.away is None:
            raise LogRefused(f"{self._server.name} has another log than the one that this node followed")
        if self._ledger.away is not None or self._ledger.can_write:
            # whether the last turn was kept is not known, and others may have written since
            await self._ledger.begin_again(has_lock)
        return True
