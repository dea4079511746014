"""The connections: how many there may be, and how long one may take to ask or to be answered."""
import asyncio
import time
from collections import Counter
from collections.abc import Callable, Collection
from typing import Any

from .limits import OWN_ADDRESSES, Limits, network_of

_FULL = (
    b"HTTP/1.1 503 1006 Too many connections\r\nContent-Type: application/json\r\nRetry-After: 5\r\nConnection: close\r\nContent-Length: 52\r\n\r\n"
    b'{"ucode": 1006, "message": "Too many connections"}\r\n'
)
_LATE = (
    b"HTTP/1.1 408 1002 The request did not come in time\r\nContent-Type: application/json\r\nConnection: close\r\nContent-Length: 64\r\n\r\n"
    b'{"ucode": 1002, "message": "The request did not come in time"}\r\n'
)
_SECONDS_BETWEEN_LOOKS = 1.0


class Doors:
    """All connections of a service."""

    def __init__(self, limits: Limits, free: Collection[str] = ()) -> None:
        """`free` are addresses of which connections are not counted, besides those of the machine itself."""
        self._limits, self._free = limits, {*OWN_ADDRESSES, *free}
        self._doors: set[Door] = set()
        self._by_address: Counter[str] = Counter()
        self._asked: set[int] = set()
        self.refused: Counter[str] = Counter()
        """How often each limit was reached."""

    def __len__(self) -> int:
        return len(self._doors)

    def protocol(self, inner: Callable[[], Any]) -> Callable[[], asyncio.Protocol]:
        """A maker of protocols that lets connections through to another's."""
        return lambda: Door(self, inner())

    def lets_in(self, door: "Door") -> bool:
        """Counts a connection, where there may be one more."""
        address, limits = door.address, self._limits
        if len(self._doors) >= limits.all_connections:
            self.refused["all_connections"] += 1
            return False
        if address not in self._free and self._by_address[address] >= limits.connections:
            self.refused["connections"] += 1
            return False
        self._doors.add(door)
        self._by_address[address] += 1
        return True

    def forget(self, door: "Door") -> None:
        """A connection ended."""
        if door in self._doors:
            self._doors.discard(door)
            self._asked.discard(id(door.transport))
            self._by_address[door.address] -= 1
            if self._by_address[door.address] <= 0:
                del self._by_address[door.address]

    def has_asked(self, transport: object) -> None:
        """The head of a request came whole over a connection."""
        self._asked.add(id(transport))

    async def watch(self) -> None:
        """Ends connections over which no request comes, or whose answers nobody takes, until it is cancelled."""
        while True:
            await asyncio.sleep(_SECONDS_BETWEEN_LOOKS)
            now = time.monotonic()
            for door in list(self._doors):
                if id(door.transport) not in self._asked and now - door.begun > self._limits.seconds_for_head:
                    self.refused["seconds_for_head"] += 1
                    door.end(_LATE)
                elif door.seconds_of_silence(now) > self._limits.seconds_for_answer:
                    self.refused["seconds_for_answer"] += 1
                    door.transport.abort()


class Door(asyncio.Protocol):
    """One connection."""

    def __init__(self, doors: Doors, inner: Any) -> None:
        self._doors, self._inner, self._is_open = doors, inner, False
        self.transport: Any = None
        self.address, self.begun = "", time.monotonic()
        self._unsent, self._since = 0, self.begun

    def connection_made(self, transport: asyncio.BaseTransport) -> None:
        """Lets a connection through, or refuses it."""
        self.transport = transport
        peer = transport.get_extra_info("peername")
        self.address = network_of(str(peer[0])) if peer else ""
        self._is_open = self._doors.lets_in(self)
        if self._is_open:
            self._inner.connection_made(transport)
        else:
            self.end(_FULL)

    def end(self, said: bytes) -> None:
        """Says why, and closes."""
        self.transport.write(said)
        self.transport.close()

    def seconds_of_silence(self, now: float) -> float:
        """How long none of what is to be sent was taken."""
        unsent = self.transport.get_write_buffer_size()
        if unsent == 0 or unsent != self._unsent:
            self._unsent, self._since = unsent, now
        return now - self._since

    def connection_lost(self, exc: Exception | None) -> None:
        """The connection ended."""
        self._doors.forget(self)
        if self._is_open:
            self._inner.connection_lost(exc)

    def data_received(self, data: bytes) -> None:
        """Bytes came."""
        if self._is_open:
            self._inner.data_received(data)

    def eof_received(self) -> bool | None:
        """No more bytes will come."""
        return bool(self._inner.eof_received()) if self._is_open else None

    def pause_writing(self) -> None:
        """Too much waits to be sent."""
        if self._is_open:
            self._inner.pause_writing()

    def resume_writing(self) -> None:
        """Enough was sent."""
        if self._is_open:
            self._inner.resume_writing()
