"""The log of every command that changed the state, with the facts that are noted beside it, in a SQLite file or on a PostgreSQL server."""
import hashlib
from collections.abc import AsyncIterator
from dataclasses import dataclass
from typing import Any

from .database import DATABASE_ERRORS, File, Server, said_by, statement
from .schema import LOG

FORMAT = "2"
"""The form of the log and of the index; a file of another form is refused, but for one that differs in the index alone."""

_WITH_ANOTHER_INDEX = "1"
_AT_ONCE, _MOST_AT_ONCE = 100, 5000
_BYTES_OF_A_PIECE = 4_000_000
_ENTRIES = "SELECT number, line, frame, answer, head, sum FROM log WHERE number > :whole ORDER BY number LIMIT :count"


class LogRefused(Exception):
    """The log cannot be used; the message is a sentence that says why."""


@dataclass(frozen=True)
class Entry:
    """A command that changed the state, with its whole answer and the stamp of the head behind it (`NONE` for the empty chain)."""

    number: int
    line: str
    frame: bytes | None
    answer: str
    head: str
    sum: str


def _sum(before: str, line: str, frame: bytes | None, answer: str, head: str) -> str:
    """The SHA-256 of an entry and of the sum before it."""
    parts = [before.encode(), line.encode(), frame or b"", answer.encode(), head.encode()]
    return hashlib.sha256(b"".join(b"%d:" % len(part) + part for part in parts)).hexdigest()


class Log:
    """An open log. Nothing is kept before its database commits."""

    def __init__(self, home: File | Server, name: str) -> None:
        self._home, self.name = home, name
        self._number, self._last_sum = 0, ""

    async def is_of_this_form(self) -> bool:
        """Notes the form in a log that has none. Gives whether the index is of this form too. Raises LogRefused at another form of the log."""
        form = await self.fact("format")
        if form not in (None, FORMAT, _WITH_ANOTHER_INDEX):
            raise LogRefused(f"{self.name} has the form {form} of a log; this service reads {FORMAT}")
        return form != _WITH_ANOTHER_INDEX

    def note_form(self) -> None:
        """Notes the form, in the transaction that is open."""
        self.set_fact("format", FORMAT)

    async def find_last(self) -> None:
        """Reads which entry is the last."""
        rows = await self._home.rows("SELECT number, sum FROM log ORDER BY number DESC LIMIT 1")
        self._number, self._last_sum = (int(rows[0][0]), str(rows[0][1])) if rows else (0, "")

    async def whole_part(self) -> str:
        """How far the entries can be read and have their sums, as an end of a sentence."""
        whole = 0
        try:
            async for entry in self.entries():
                whole = entry.number
        except (*DATABASE_ERRORS, LogRefused, AttributeError):
            pass
        return f"; entries up to {whole} are whole" if whole else "; no entry is whole"

    async def fact(self, name: str) -> str | None:
        """What is noted under a name."""
        rows = await self._home.rows("SELECT value FROM fact WHERE name = :name", name=name)
        return str(rows[0][0]) if rows else None

    def set_fact(self, name: str, value: str) -> None:
        """Notes a value under a name."""
        text = "INSERT INTO fact (name, value) VALUES (:name, :value) ON CONFLICT (name) DO UPDATE SET value = excluded.value"
        self._home.put(statement(text), {"name": name, "value": value})

    @property
    def number(self) -> int:
        """The number of the last entry, 0 where there is none."""
        return self._number

    @property
    def last(self) -> tuple[int, str]:
        """Number and sum of the last entry."""
        return self._number, self._last_sum

    async def has_verdict(self, line: str) -> bool:
        """Whether a VERDICT of this line stands in the log."""
        text = "SELECT 1 FROM log WHERE line = :line AND substr(line, 1, 8) = 'VERDICT '"
        return bool(await self._home.rows(text, line=line))

    def append(self, line: str, frame: bytes | None, answer: str, head: str) -> None:
        """Puts an entry behind the others, in the transaction that is open."""
        self._number += 1
        self._last_sum = _sum(self._last_sum, line, frame, answer, head)
        row: dict[str, Any] = {"number": self._number, "line": line, "frame": frame, "answer": answer, "head": head, "sum": self._last_sum}
        self._home.put(LOG.insert(), row)

    def pass_on_to(self, last: tuple[int, str]) -> None:
        """Goes on behind an entry that another node wrote."""
        self._number, self._last_sum = last

    async def piece(self, after: tuple[int, str], count: int = _AT_ONCE) -> list[Entry]:
        """At most so many entries behind that of a number and sum. Raises LogRefused where one is missing or has another sum, with the number of
        the last that is whole."""
        whole, before = after
        try:
            found = []
            for row in await self._home.rows(_ENTRIES, whole=whole, count=count):
                entry = Entry(*row)
                if entry.number != whole + 1 or entry.sum != _sum(before, entry.line, entry.frame, entry.answer, entry.head):
                    raise self._damaged(f"entry {whole + 1} is not as it was written", whole)
                before, whole = entry.sum, entry.number
                found.append(entry)
            return found
        except (TypeError, AttributeError) as error:
            raise self._damaged(str(error), whole) from error
        except DATABASE_ERRORS as error:
            if isinstance(self._home, Server):
                raise
            raise self._damaged(said_by(error), whole) from error

    def _damaged(self, what: str, whole: int) -> LogRefused:
        return LogRefused(f"{self.name} is damaged: {what}; entries up to {whole} are whole")

    async def entries(self, after: tuple[int, str] = (0, "")) -> AsyncIterator[Entry]:
        """The entries behind that of a number and sum, else all, in order. Raises LogRefused as `piece` does."""
        count = _AT_ONCE
        while piece := await self.piece(after, count):
            for entry in piece:
                yield entry
            after = piece[-1].number, piece[-1].sum
            # a piece is as long as memory is not noticed for it
            length = sum(len(entry.frame or b"") + len(entry.answer) for entry in piece)
            count = min(2 * count, _MOST_AT_ONCE) if length < _BYTES_OF_A_PIECE else max(1, count // 2)
