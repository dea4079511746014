"""The service's own index: what no query of the program gives, by block, so that it goes back where blocks are taken off.

It is a function of the log, and is written in the transaction of the log's entries."""
from collections.abc import Iterable, Sequence
from dataclasses import dataclass
from decimal import Decimal
from functools import lru_cache
from typing import Any

from sqlalchemy import Table

from .blocks import BlockText, Transaction, digest
from .database import Rows, statement
from .schema import (
    BLOCK,
    BY_BLOCK,
    CERTIFICATION,
    IDENTITY,
    INDEX_TABLES,
    MEMBERSHIP,
    MOVE,
    PARTY,
    PAYMENT,
    PENDING,
    PENDING_PARTY,
    REVOCATION,
    SECTION,
    SOURCE,
    STORED,
)
from .storage import Storage

MADE, SPENT, CLEARED = "MADE", "SPENT", "CLEARED"
LISTED, POOLED = "listed", "pooled"
"""Where a document waits: in the list of the service, or in the pool of the program."""

_PENDING = "hash, kind, issuer, subject, text, stage"


@dataclass(frozen=True)
class Identity:
    """An identity that a block wrote, or that waits (then `block` is None)."""

    key: str
    uid: str
    stamp: str
    signature: str
    block: int | None


@dataclass(frozen=True)
class WrittenCertification:
    """A line of Certifications; `number` is that of the block of its stamp."""

    issuer: str
    receiver: str
    block: int
    number: int
    signature: str


@dataclass(frozen=True)
class Pending:
    """A document that waits. The subject of a certification is the certified key, that of an identity its name, else the issuer. `stage` says
    whether it waits in the list of the service or in the pool of the program."""

    hash: str
    kind: str
    issuer: str
    subject: str
    text: str
    stage: str = POOLED

    def fields(self) -> dict[str, str]:
        """The lines with a name, the first of each name. A transaction's lists have none."""
        found: dict[str, str] = {}
        for line in self.text.split("\n"):
            name, colon, value = line.partition(": ")
            if colon:
                found.setdefault(name, value)
        return found

    def signature(self) -> str:
        """The last line."""
        return self.text.split("\n")[-2]


@dataclass(frozen=True)
class Move:
    """A move of an account: MADE, SPENT or CLEARED, with the source as `AMOUNT:BASE:SOURCE` and the balance behind it."""

    block: int
    kind: str
    source: str
    balance: int


def units(source: str) -> int:
    """What a source `AMOUNT:BASE:..` is worth."""
    amount, base, _ = source.split(":", 2)
    power: int = 10 ** int(base)
    return int(amount) * power


def read_pending(text: str) -> Pending:
    """A document that the program put into the pool, by its text."""
    lines = text.split("\n")
    kind = lines[1].removeprefix("Type: ").lower()
    pending = Pending(digest(text), kind, "", "", text)
    fields = pending.fields()
    if kind == "transaction":
        issuer = subject = lines[lines.index("Issuers:") + 1]
    else:
        issuer = fields["Issuer"]
        subject = {"certification": fields.get("IdtyIssuer"), "identity": fields.get("UniqueID")}.get(kind) or issuer
    return Pending(pending.hash, kind, issuer, subject, text)


@lru_cache(None)
def _inserting(table: Table) -> Any:
    return table.insert()


@lru_cache(None)
def _inserting_unless_there(table: Table) -> Any:
    names = table.c.keys()
    values = ", ".join(f":{name}" for name in names)
    return statement(f"INSERT INTO {table.name} ({', '.join(names)}) VALUES ({values}) ON CONFLICT DO NOTHING")


class Index:
    """The tables. What changes them is called within a transaction of the log."""

    def __init__(self, storage: Storage) -> None:
        self._storage = storage
        self._rows = storage.local.select

    def clear(self) -> None:
        """Empties all tables, before the log is gone through anew."""
        for table in INDEX_TABLES:
            self._storage.put(statement(f"DELETE FROM {table.name}"), {})

    def dump(self) -> dict[str, Rows]:
        """All rows of all tables, in order, for comparison."""
        return {table.name: sorted(self._rows(f"SELECT * FROM {table.name}"), key=repr) for table in INDEX_TABLES}

    def take_over(self, rows: dict[str, Rows]) -> None:
        """Fills the tables of the local database, which are empty, with what a server has."""
        for table in INDEX_TABLES:
            names = table.c.keys()
            lines = [dict(zip(names, map(_as_local, row))) for row in rows[table.name]]
            if lines:
                self._storage.local.put(_inserting(table), lines)

    def _row(self, text: str, **values: object) -> tuple[Any, ...] | None:
        found = self._rows(text, **values)
        return found[0] if found else None

    def _insert(self, table: Table, rows: Iterable[Sequence[object]], *, unless_there: bool = False) -> None:
        names = table.c.keys()
        lines = [dict(zip(names, row, strict=True)) for row in rows]
        if lines:
            self._storage.put((_inserting_unless_there if unless_there else _inserting)(table), lines)

    def _delete(self, text: str, **values: object) -> None:
        self._storage.put(statement(f"DELETE FROM {text}"), values)

    def count(self, table: str) -> int:
        """How many rows a table has."""
        assert table in {each.name for each in INDEX_TABLES}
        return int(self._rows(f"SELECT count(*) FROM {table}")[0][0])

    # the chain

    def head(self) -> tuple[int, str] | None:
        """Number and hash of the last block."""
        row = self._row("SELECT number, hash FROM block ORDER BY number DESC LIMIT 1")
        return None if row is None else (int(row[0]), str(row[1]))

    def head_stamp(self) -> str:
        """The stamp of the last block, `NONE` for the empty chain."""
        head = self.head()
        return "NONE" if head is None else f"{head[0]}-{head[1]}"

    def length(self) -> int:
        """How many blocks the chain has."""
        head = self.head()
        return 0 if head is None else head[0] + 1

    def hash_of(self, number: int) -> str | None:
        """The hash of the chain's block with this number."""
        row = self._row("SELECT hash FROM block WHERE number = :number", number=number)
        return None if row is None else str(row[0])

    def number_of(self, block_hash: str) -> int | None:
        """The number of the chain's block with this hash."""
        row = self._row("SELECT number FROM block WHERE hash = :hash", hash=block_hash)
        return None if row is None else int(row[0])

    def median_time(self, number: int) -> int | None:
        """MedianTime of a block of the chain."""
        row = self._row("SELECT median_time FROM block WHERE number = :number", number=number)
        return None if row is None else int(row[0])

    def times(self, count: int) -> list[int]:
        """Time of the last blocks, at most so many."""
        return [row[0] for row in self._rows("SELECT time FROM block ORDER BY number DESC LIMIT :count", count=count)]

    def block(self, number: int) -> tuple[BlockText, int] | None:
        """A block of the chain and the mass behind it."""
        row = self._row("SELECT text, mass FROM block WHERE number = :number", number=number)
        return None if row is None else (BlockText.of(row[0]), int(row[1]))

    def blocks(self, start: int, count: int) -> list[tuple[BlockText, int]]:
        """Blocks of the chain from a number on."""
        rows = self._rows("SELECT text, mass FROM block WHERE number >= :start ORDER BY number LIMIT :count", start=start, count=count)
        return [(BlockText.of(text), int(mass)) for text, mass in rows]

    def values(self, start: int) -> Rows:
        """Number, hash, issuer, time, median time, members, least difficulty, dividend in units (None where none was paid) and mass of the
        chain's blocks from a number on."""
        names = "number, hash, issuer, time, median_time, members, pow_min, dividend, mass"
        return self._rows(f"SELECT {names} FROM block WHERE number >= :start ORDER BY number", start=start)

    def cleared(self, start: int) -> list[tuple[int, str]]:
        """The sources that blocks from a number on cleared, each with its block."""
        text = "SELECT block, source FROM move WHERE block >= :start AND kind = 'CLEARED'"
        return [(row[0], row[1]) for row in self._rows(text, start=start)]

    def condition_of(self, source: str) -> str | None:
        """The condition of a source `AMOUNT:BASE:SOURCE` that a block of the chain made."""
        row = self._row("SELECT condition FROM source WHERE identifier = :identifier", identifier=source.split(":", 2)[2])
        return None if row is None else str(row[0])

    def source(self, identifier: str) -> tuple[str, int, str, int] | None:
        """Of a source that the chain made: its condition, its block, the kind of its last move (MADE where it is unspent) and the block of that."""
        row = self._row("SELECT condition, block FROM source WHERE identifier = :identifier", identifier=identifier)
        if row is None:
            return None
        text = (
            "SELECT kind, block FROM move WHERE condition = :condition AND block >= :block AND source LIKE :source "
            "ORDER BY block DESC, place DESC LIMIT 1"
        )
        last = self._row(text, condition=row[0], block=row[1], source=f"%:{identifier}")
        return str(row[0]), int(row[1]), str(last[0]) if last else MADE, int(last[1]) if last else int(row[1])

    def has_made(self, source: str) -> bool:
        """Whether the chain made a source `AMOUNT:BASE:SOURCE` with just this amount and base."""
        condition = self.condition_of(source)
        text = "SELECT 1 FROM move WHERE condition = :condition AND source = :source AND kind = 'MADE'"
        return condition is not None and self._row(text, condition=condition, source=source) is not None

    def transaction_block(self, text_hash: str) -> int | None:
        """The block that has the transaction with this hash."""
        row = self._row("SELECT block FROM payment WHERE hash = :hash", hash=text_hash)
        return None if row is None else int(row[0])

    def with_section(self, name: str) -> list[int]:
        """The numbers of the blocks that have something in a section; `ud` and `tx` are names here too."""
        return [row[0] for row in self._rows("SELECT block FROM section WHERE name = :name ORDER BY block", name=name)]

    def issuers(self, count: int) -> list[str]:
        """The issuers of the last blocks, each once, newest first."""
        rows = self._rows("SELECT issuer FROM block ORDER BY number DESC LIMIT :count", count=count)
        return list(dict.fromkeys(row[0] for row in rows))

    def take_off(self, length: int) -> list[BlockText]:
        """Drops what blocks from this number on wrote. Gives these blocks."""
        gone = [block for block, _ in self.blocks(length, self.length())]
        for table in BY_BLOCK if gone else ():
            self._delete(f"{table.name} WHERE block >= :length", length=length)
        if gone:
            self._delete("block WHERE number >= :length", length=length)
        return gone

    def put_on(self, block: BlockText, records: list[str]) -> None:
        """Writes what the next block has, and what the program says that it wrote."""
        number, before = block.number, self._row("SELECT mass FROM block ORDER BY number DESC LIMIT 1")
        mass, paid = int(before[0] if before else 0) + block.issued(), block.paid()
        of = (int(block.fields["Time"]), block.median_time, int(block.fields["MembersCount"]), int(block.fields["PoWMin"]))
        row = (number, block.hash, block.fields["Issuer"], *of, None if paid is None else str(paid), str(mass), block.text)
        self._insert(BLOCK, [row])
        names = [name for name, lines in block.sections.items() if lines] + ["ud"] * (paid is not None)
        self._insert(SECTION, [(name, number) for name in names])
        self._put_people(number, block, records)
        self._put_payments(number, block.transactions)
        self._put_moves(number, records)

    def _put_people(self, number: int, block: BlockText, records: list[str]) -> None:
        lines = {name: [line.split(":") for line in block.sections[name]] for name in block.sections if name != "Transactions"}
        self._insert(IDENTITY, [(key, uid, stamp, signature, number) for key, signature, stamp, uid in lines["Identities"]])
        memberships = [(name, words) for name in ("Joiners", "Actives", "Leavers") for words in lines[name]]
        self._insert(MEMBERSHIP, [(words[0], number, name, words[2], words[1]) for name, words in memberships])
        self._insert(REVOCATION, [(key, number, signature) for key, signature in lines["Revoked"]])
        ended = [record.split(" ")[2] for record in records if record.startswith("MIDX EXPIREREV ")]
        self._insert(REVOCATION, [(key, number, None) for key in ended], unless_there=True)
        written = [(issuer, receiver, number, int(made), signature) for issuer, receiver, made, signature in lines["Certifications"]]
        self._insert(CERTIFICATION, written)

    def _put_payments(self, number: int, transactions: list[Transaction]) -> None:
        self._insert(PAYMENT, [(number, place, each.hash, each.document()) for place, each in enumerate(transactions)])
        parties = [(key, "sent", number, place) for place, each in enumerate(transactions) for key in each.issuers]
        parties += [(key, "received", number, place) for place, each in enumerate(transactions) for key in each.receivers()]
        self._insert(PARTY, parties)

    def _put_moves(self, number: int, records: list[str]) -> None:
        lines = [record.split(" ", 3)[1:] for record in records if record.startswith("SIDX ")]
        made: dict[str, str] = {}
        for kind, source, *condition in lines:
            if kind in ("MAKE", "DIVIDEND"):
                made[source.split(":", 2)[2]] = condition[0] if condition else f"SIG({source.split(':')[3]})"
        self._insert(SOURCE, [(identifier, condition, number) for identifier, condition in made.items()])
        moves = []
        for place, (kind, source, *_) in enumerate(lines):
            move = {"SPEND": SPENT, "CLEAR": CLEARED}.get(kind, MADE)
            moves.append((made.get(source.split(":", 2)[2]) or self._condition(source), number, place, move, source, str(units(source))))
        self._insert(MOVE, moves)

    def _condition(self, source: str) -> str:
        condition = self.condition_of(source)
        assert condition is not None, f"source {source} was never made"
        return condition

    # people

    def identity(self, key: str) -> Identity | None:
        """The written identity of a key."""
        row = self._row("SELECT key, uid, stamp, signature, block FROM identity WHERE key = :key", key=key)
        return None if row is None else Identity(*row)

    def identity_with_uid(self, uid: str) -> Identity | None:
        """The written identity with a name."""
        row = self._row("SELECT key, uid, stamp, signature, block FROM identity WHERE uid = :uid", uid=uid)
        return None if row is None else Identity(*row)

    def identities(self, part: str = "") -> list[Identity]:
        """The written identities whose name has this part, without regard to case; all where it is empty."""
        pattern = "".join(f"/{character}" if character in "/%_" else character for character in part.lower())
        text = "SELECT key, uid, stamp, signature, block FROM identity WHERE lower(uid) LIKE :pattern ESCAPE '/' ORDER BY uid"
        return [Identity(*row) for row in self._rows(text, pattern=f"%{pattern}%")]

    def pending_identities(self, key: str | None = None) -> list[Identity]:
        """The identities that wait, of one key or all, in the order in which they came."""
        found = []
        for pending in self.pending("identity") if key is None else self.pending_of("identity", issuer=key):
            fields = pending.fields()
            found.append(Identity(pending.issuer, fields["UniqueID"], fields["Timestamp"], pending.signature(), None))
        return found

    def revocation(self, key: str) -> tuple[int, str | None] | None:
        """The block that revoked a key, and the signature where a line did."""
        row = self._row("SELECT block, signature FROM revocation WHERE key = :key", key=key)
        return None if row is None else (row[0], row[1])

    def memberships(self, key: str) -> list[tuple[int, str, str]]:
        """Block, section and stamp of each written membership of a key."""
        rows = self._rows("SELECT block, kind, stamp FROM membership WHERE key = :key ORDER BY block", key=key)
        return [(row[0], row[1], row[2]) for row in rows]

    def has_joined(self, key: str) -> bool:
        """Whether a block made the key a member."""
        return self._row("SELECT 1 FROM membership WHERE key = :key AND kind = 'Joiners'", key=key) is not None

    def certification(self, issuer: str, receiver: str, block: int) -> WrittenCertification | None:
        """The certification of a pair that a block wrote."""
        text = (
            "SELECT issuer, receiver, block, number, signature FROM certification "
            "WHERE issuer = :issuer AND receiver = :receiver AND block = :block"
        )
        row = self._row(text, issuer=issuer, receiver=receiver, block=block)
        return None if row is None else WrittenCertification(*row)

    def last_certification_block(self, issuer: str) -> int | None:
        """The last block with a certification by this key."""
        row = self._row("SELECT max(block) FROM certification WHERE issuer = :issuer", issuer=issuer)
        return None if row is None or row[0] is None else int(row[0])

    # money

    def payments(self, key: str, role: str) -> list[tuple[int, Transaction]]:
        """The transactions that a key `sent` or `received`, each with its block, in order."""
        text = (
            "SELECT party.block, document FROM party JOIN payment ON payment.block = party.block AND payment.place = party.place "
            "WHERE key = :key AND role = :role ORDER BY party.block, party.place"
        )
        return [(block, Transaction.from_document(document)) for block, document in self._rows(text, key=key, role=role)]

    def moves(self, condition: str) -> list[Move]:
        """The moves of a condition in order, each with the balance behind it."""
        found, balance = [], 0
        text = "SELECT block, kind, source FROM move WHERE condition = :condition ORDER BY block, place"
        for block, kind, source in self._rows(text, condition=condition):
            balance += units(source) if kind == MADE else -units(source)
            found.append(Move(block, kind, source, balance))
        return found

    # branches

    def store(self, block: BlockText) -> None:
        """Notes a block of a branch."""
        previous = None if block.previous is None else f"{block.number - 1}-{block.previous}"
        self._insert(STORED, [(block.stamp, previous, self._next_place("stored"), block.text)], unless_there=True)

    def _next_place(self, table: str) -> int:
        return int(self._rows(f"SELECT max(place) FROM {table}")[0][0] or 0) + 1

    def forget(self, stamp: str) -> None:
        """Drops a block of a branch, where it is noted."""
        self._delete("stored WHERE stamp = :stamp", stamp=stamp)

    def stored(self, stamp: str) -> BlockText | None:
        """The block of a branch with this stamp."""
        row = self._row("SELECT text FROM stored WHERE stamp = :stamp", stamp=stamp)
        return None if row is None else BlockText.of(row[0])

    def all_stored(self) -> list[BlockText]:
        """The blocks of branches, in the order in which they were stored."""
        return [BlockText.of(row[0]) for row in self._rows("SELECT text FROM stored ORDER BY place")]

    # what waits

    def pend(self, text: str, stage: str = POOLED) -> None:
        """Notes a document that waits. One that waits in the list already goes on to the pool in its place."""
        pending = read_pending(text)
        if self.is_pending(pending.hash):
            self._storage.put(statement("UPDATE pending SET stage = :stage WHERE hash = :hash"), {"stage": stage, "hash": pending.hash})
            return
        row = (pending.hash, self._next_place("pending"), pending.kind, pending.issuer, pending.subject, stage, pending.text)
        self._insert(PENDING, [row])
        if pending.kind == "transaction":
            transaction = Transaction.from_document(text)
            parties = [(key, "sent", pending.hash) for key in dict.fromkeys(transaction.issuers)]
            self._insert(PENDING_PARTY, [*parties, *((key, "received", pending.hash) for key in transaction.receivers())])

    def unpend(self, text_hash: str) -> None:
        """Drops a document that waited."""
        self._delete("pending WHERE hash = :hash", hash=text_hash)
        self._delete("pending_party WHERE hash = :hash", hash=text_hash)

    def is_pending(self, text_hash: str) -> bool:
        """Whether the document with this hash waits."""
        return self._row("SELECT 1 FROM pending WHERE hash = :hash", hash=text_hash) is not None

    def pending_text(self, text_hash: str) -> str | None:
        """The document with this hash that waits."""
        row = self._row("SELECT text FROM pending WHERE hash = :hash", hash=text_hash)
        return None if row is None else str(row[0])

    def pending(self, kind: str | None = None) -> list[Pending]:
        """The documents that wait, of one kind or all, in order."""
        if kind is None:
            return [Pending(*row) for row in self._rows(f"SELECT {_PENDING} FROM pending ORDER BY place")]
        return [Pending(*row) for row in self._rows(f"SELECT {_PENDING} FROM pending WHERE kind = :kind ORDER BY place", kind=kind)]

    def pending_of(self, kind: str, *, issuer: str | None = None, subject: str | None = None) -> list[Pending]:
        """The documents of a kind that wait, by issuer or subject."""
        of = [f"{name} = :{name}" for name, value in (("issuer", issuer), ("subject", subject)) if value is not None]
        text = f"SELECT {_PENDING} FROM pending WHERE {' AND '.join(['kind = :kind', *of])} ORDER BY place"
        values = {name: value for name, value in (("issuer", issuer), ("subject", subject)) if value is not None}
        return [Pending(*row) for row in self._rows(text, kind=kind, **values)]

    def pending_about(self, key: str) -> list[Pending]:
        """The identities and memberships of a key that wait, and the certifications of it."""
        text = (
            f"SELECT {_PENDING} FROM pending WHERE (issuer = :key AND kind IN ('identity', 'membership')) "
            "OR (subject = :key AND kind = 'certification') ORDER BY place"
        )
        return [Pending(*row) for row in self._rows(text, key=key)]

    def uncertified(self) -> list[tuple[str, str]]:
        """Hash and key of the identities in the list whom no document that waits certifies, oldest first."""
        text = (
            "SELECT hash, issuer FROM pending WHERE kind = 'identity' AND stage = 'listed' AND issuer NOT IN "
            "(SELECT subject FROM pending WHERE kind = 'certification') ORDER BY place"
        )
        return [(row[0], row[1]) for row in self._rows(text)]

    def listed(self) -> list[tuple[str, str, str]]:
        """Hash, kind and issuer of the documents in the list."""
        rows = self._rows("SELECT hash, kind, issuer FROM pending WHERE stage = 'listed' ORDER BY place")
        return [(row[0], row[1], row[2]) for row in rows]

    def count_of_issuer(self, kind: str, issuer: str) -> int:
        """How many documents of a kind and an issuer wait."""
        return int(self._rows("SELECT count(*) FROM pending WHERE kind = :kind AND issuer = :issuer", kind=kind, issuer=issuer)[0][0])

    def pending_counts(self) -> dict[str, int]:
        """How many documents of each kind wait."""
        return {str(kind): int(count) for kind, count in self._rows("SELECT kind, count(*) FROM pending GROUP BY kind")}

    def pending_payments(self, key: str, role: str) -> list[Transaction]:
        """The transactions that wait and that a key sends or receives."""
        text = (
            "SELECT text FROM pending_party JOIN pending ON pending.hash = pending_party.hash "
            "WHERE key = :key AND role = :role ORDER BY place"
        )
        return [Transaction.from_document(row[0]) for row in self._rows(text, key=key, role=role)]


def _as_local(value: object) -> object:
    """A value of a server as a local database has it: sums are texts."""
    return str(int(value)) if isinstance(value, Decimal) else value
