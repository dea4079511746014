"""Where a node keeps what it knows: a local database, from which its index is read, and the server that nodes share, where there is one."""
from typing import Any

from .database import File, Server, Values


class Storage:
    """A local database, and a server to which the same changes go where this node writes."""

    def __init__(self, local: File, server: Server | None = None) -> None:
        self.local, self.server = local, server
        self.writes = server is None
        """Whether changes of the index go to the server too."""

    @property
    def home(self) -> File | Server:
        """The database that has the log."""
        return self.server or self.local

    def put(self, change: Any, values: Values) -> None:
        """Executes a statement that changes rows of the index."""
        self.local.put(change, values)
        if self.server is not None and self.writes:
            self.server.put(change, values)

    def begin(self) -> None:
        """Begins a transaction where none is open."""
        self.local.begin()
        if self.server is not None and self.writes:
            self.server.begin()

    async def commit(self) -> None:
        """Keeps what was put since `begin`. Raises errors of the databases."""
        if self.server is not None and self.writes:
            await self.server.commit()
        await self.local.commit()

    def roll_back(self) -> None:
        """Drops what was put since `begin`."""
        if self.server is not None:
            self.server.roll_back()
        self.local.roll_back()

    async def close(self) -> None:
        """Closes the databases."""
        if self.server is not None:
            await self.server.close()
        self.local.close()
