"""The databases of a node: a SQLite file or memory that it has for itself, and a PostgreSQL server that several nodes share."""
import asyncio
import contextlib
import sqlite3
from collections.abc import Callable, Mapping, Sequence
from functools import lru_cache
from pathlib import Path
from typing import Any, TypeVar

import sqlalchemy
from sqlalchemy import Table
from sqlalchemy.engine import Connection, make_url
from sqlalchemy.exc import ArgumentError, NoSuchModuleError, SQLAlchemyError
from sqlalchemy.pool import NullPool, StaticPool

from .schema import METADATA

T = TypeVar("T")
Rows = list[tuple[Any, ...]]
Values = Mapping[str, object] | Sequence[Mapping[str, object]]
Place = Path | str
"""The path of a SQLite file, or the address of a database on a PostgreSQL server."""

DATABASE_ERRORS = (SQLAlchemyError, sqlite3.Error)
_LOCK = 0x64756270
_CHANNEL = "dubp_log"
_SECONDS_TO_CONNECT = 5
_MILLISECONDS_OF_SILENCE = 10_000
_MILLISECONDS_OF_A_STATEMENT = 60_000


class NoDatabase(Exception):
    """A database cannot be used; the message says why."""


def said_by(error: BaseException) -> str:
    """What a database says of its failure, in one line."""
    lines = str(getattr(error, "orig", None) or error).strip().splitlines()
    return lines[0] if lines else type(error).__name__


@lru_cache(None)
def statement(text: str) -> Any:
    """The statement with this text; values stand in it as `:name`."""
    return sqlalchemy.text(text)


def is_server(place: Place) -> bool:
    """Whether a place is that of a PostgreSQL server."""
    return isinstance(place, str) and place.split(":", 1)[0].split("+")[0] in ("postgresql", "postgres")


def place_of(word: str) -> Place:
    """The place that a word of a command line names."""
    return word if is_server(word) else Path(word)


class File:
    """A SQLite database of this process alone. What is put is there at once, and kept by `commit`."""

    def __init__(self, path: Path | None = None) -> None:
        """Opens a file, which is made where there is none; without a path one in memory. Raises errors of the database."""
        self._is_in_memory = path is None
        target = ":memory:" if path is None else str(path)
        self._raw = sqlite3.connect(target, isolation_level=None, timeout=0.5, check_same_thread=False)
        engine = sqlalchemy.create_engine("sqlite://", creator=lambda: self._raw, poolclass=StaticPool, future=True)
        self.connection: Connection = engine.connect()  # type: ignore[no-untyped-call]

    def be_alone(self) -> None:
        """Keeps all others from the file for as long as it is open; each commit is on the disk behind it."""
        for words in ("locking_mode = EXCLUSIVE", "journal_mode = WAL", "synchronous = FULL"):
            self._raw.execute(f"PRAGMA {words}")
        self._raw.execute("BEGIN IMMEDIATE")
        self._raw.execute("COMMIT")

    def damage(self) -> str | None:
        """What a look at the whole file finds damaged."""
        found = str(self._raw.execute("PRAGMA quick_check(1)").fetchone()[0])
        return None if found == "ok" else found.splitlines()[0]

    def make_tables(self, *tables: Table) -> None:
        """Makes the tables that are not there; all where none is named."""
        METADATA.create_all(self.connection, tables=tables or None)

    def drop_tables(self, *tables: Table) -> None:
        """Drops tables."""
        METADATA.drop_all(self.connection, tables=tables)

    def select(self, text: str, **values: object) -> Rows:
        """The rows that a statement finds."""
        return [tuple(row) for row in self.connection.execute(statement(text), values)]

    async def rows(self, text: str, **values: object) -> Rows:
        """The same, as of a server."""
        return self.select(text, **values)

    def put(self, change: Any, values: Values) -> None:
        """Executes a statement that changes rows."""
        self.connection.execute(change, values)

    def begin(self) -> None:
        """Begins a transaction where none is open."""
        if not self._raw.in_transaction:
            self._raw.execute("BEGIN IMMEDIATE")

    async def commit(self) -> None:
        """Keeps what was put since `begin`. Nobody waits for the disk but who asks."""
        if not self._raw.in_transaction:
            return
        if self._is_in_memory:
            self._raw.execute("COMMIT")
        else:
            await asyncio.shield(asyncio.to_thread(self._raw.execute, "COMMIT"))

    def roll_back(self) -> None:
        """Drops what was put since `begin`."""
        if self._raw.in_transaction:
            self._raw.execute("ROLLBACK")

    def close(self) -> None:
        """Closes it."""
        self.connection.close()
        self._raw.close()


class Server:
    """A PostgreSQL database over one connection, which asks in a thread of its own, so that nobody waits for the network. What is put is gathered,
    and sent by `commit` as one transaction."""

    def __init__(self, address: str) -> None:
        """Raises NoDatabase where the address is none; connects to nobody yet."""
        options = f"-c statement_timeout={_MILLISECONDS_OF_A_STATEMENT} -c client_encoding=utf8"
        given = {
            "connect_timeout": _SECONDS_TO_CONNECT, "application_name": "dubp_node", "options": options, "keepalives_idle": 5,
            "keepalives_interval": 2, "keepalives_count": 3, "tcp_user_timeout": _MILLISECONDS_OF_SILENCE,
        }
        try:
            url = make_url(address.replace("postgres://", "postgresql://", 1))
            self._engine = sqlalchemy.create_engine(
                url, connect_args=given, poolclass=NullPool, future=True, executemany_mode="values_plus_batch", isolation_level="AUTOCOMMIT"
            )
        except (ArgumentError, NoSuchModuleError, ValueError, TypeError) as error:
            raise NoDatabase(f"{address.split('@')[-1]} is no address of a PostgreSQL database: {error}") from error
        except ImportError as error:
            raise NoDatabase("python3-psycopg2 is missing: apt-get install -y python3-psycopg2") from error
        self.name = url.render_as_string(hide_password=True)
        self._connection: Connection | None = None
        self._gathered: list[tuple[Any, Values]] = []
        self._generation = 0
        self._begun_at: int | None = None
        self._turn = asyncio.Lock()
        self.is_writer = False

    async def _in_thread(self, work: Callable[[], T]) -> T:
        async with self._turn:
            return await asyncio.shield(asyncio.to_thread(work))

    def _open(self) -> Connection:
        if self._connection is None:
            raise NoDatabase(f"{self.name} is not connected")
        return self._connection

    async def connect(self) -> None:
        """Connects anew, and asks to be told of entries. The lock of the connection before is given up. Raises errors of the database."""
        await self.close()

        def work() -> None:
            connection: Connection = self._engine.connect()  # type: ignore[no-untyped-call]
            connection.exec_driver_sql(f"LISTEN {_CHANNEL}")
            self._connection, self._generation = connection, self._generation + 1

        await self._in_thread(work)

    async def close(self) -> None:
        """Ends the connection, and with it the lock."""
        self.is_writer = False

        def work() -> None:
            connection, self._connection = self._connection, None
            if connection is not None:
                with contextlib.suppress(*DATABASE_ERRORS):
                    connection.invalidate()
                    connection.close()

        await self._in_thread(work)

    async def take_lock(self) -> bool:
        """Takes the lock of the one that writes, where nobody has it. It ends with the connection."""
        if not self.is_writer:
            self.is_writer = bool((await self.rows("SELECT pg_try_advisory_lock(:lock)", lock=_LOCK))[0][0])
        return self.is_writer

    async def has_tables(self) -> bool:
        """Whether the log's table is there."""
        return bool((await self.rows("SELECT to_regclass('log') IS NOT NULL"))[0][0])

    async def make_tables(self) -> None:
        """Makes the tables that are not there."""

        def make() -> None:
            METADATA.create_all(self._open())

        await self._in_thread(make)

    async def rows(self, text: str, **values: object) -> Rows:
        """The rows that a statement finds."""
        def work() -> Rows:
            return [tuple(_plain(value) for value in row) for row in self._open().execute(statement(text), values)]

        return await self._in_thread(work)

    async def at_once(self, texts: Sequence[str]) -> list[Rows]:
        """The rows that each of some statements finds, all in one state of the database."""
        def work() -> list[Rows]:
            connection = self._open()
            connection.exec_driver_sql("BEGIN ISOLATION LEVEL REPEATABLE READ READ ONLY")
            try:
                return [[tuple(_plain(value) for value in row) for row in connection.execute(statement(text))] for text in texts]
            finally:
                connection.exec_driver_sql("COMMIT")

        return await self._in_thread(work)

    def begin(self) -> None:
        """Begins a transaction where none is open: what is put from now on is gathered."""
        if self._begun_at is None:
            self._begun_at = self._generation

    def put(self, change: Any, values: Values) -> None:
        """Gathers a statement that changes rows."""
        self._gathered.append((change, values))

    async def commit(self) -> None:
        """Sends what was gathered as one transaction, and tells the others. Raises errors of the database; then it is not known whether it is
        kept. Raises NoDatabase where the connection, and so the lock, is another than at `begin`."""
        gathered, begun_at = self._gathered, self._begun_at
        self.roll_back()
        if not gathered:
            return
        if not self.is_writer or begun_at not in (None, self._generation):
            raise NoDatabase("the connection to the database ended meanwhile")

        def work() -> None:
            connection = self._open()
            connection.exec_driver_sql("BEGIN")
            for change, values in gathered:
                connection.execute(change, values)
            connection.exec_driver_sql(f"NOTIFY {_CHANNEL}")
            connection.exec_driver_sql("COMMIT")

        await self._in_thread(work)

    def roll_back(self) -> None:
        """Drops what was gathered."""
        self._gathered, self._begun_at = [], None

    async def changed(self, seconds: float) -> None:
        """Waits until somebody tells of entries, at most so long. Raises errors of the database where the connection ended."""
        raw: Any = self._open().connection.dbapi_connection  # type: ignore[attr-defined]
        if not raw.notifies:
            loop, told = asyncio.get_running_loop(), asyncio.Event()
            loop.add_reader(raw.fileno(), told.set)
            try:
                await asyncio.wait_for(told.wait(), seconds)
            except asyncio.TimeoutError:
                pass
            finally:
                loop.remove_reader(raw.fileno())

        def work() -> None:
            # a question, so that a connection that ended is noticed; it also takes what was told
            self._open().exec_driver_sql("SELECT 1")
            raw.notifies.clear()

        await self._in_thread(work)


def _plain(value: object) -> object:
    return bytes(value) if isinstance(value, memoryview) else value
