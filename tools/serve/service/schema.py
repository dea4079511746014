"""The tables of the log and of the service's own index, the same in SQLite and in PostgreSQL."""
from typing import Any

from sqlalchemy import BigInteger, Column, Index, Integer, LargeBinary, MetaData, Numeric, PrimaryKeyConstraint, Table, Text, text

METADATA = MetaData()
_WHOLE: Any = BigInteger().with_variant(Integer(), "sqlite")  # type: ignore[no-untyped-call]
_UNITS: Any = Text().with_variant(Numeric(), "postgresql")  # type: ignore[no-untyped-call]
"""A sum of units may have more than 64 bits: it is a text in SQLite, a number of any length in PostgreSQL."""

_VERDICTS = text("substr(line, 1, 8) = 'VERDICT '")
_CLEARED = text("kind = 'CLEARED'")


def _text(name: str, *, is_null: bool = False) -> Column:
    return Column(name, Text, nullable=is_null)


def _whole(name: str) -> Column:
    return Column(name, _WHOLE, nullable=False)


def _table(name: str, *columns: Column, key: str) -> Table:
    return Table(name, METADATA, *columns, PrimaryKeyConstraint(*key.split()))


FACT = _table("fact", _text("name"), _text("value"), key="name")
LOG = _table(
    "log", Column("number", _WHOLE, primary_key=True, autoincrement=False), _text("line"), Column("frame", LargeBinary), _text("answer"),
    _text("head"), _text("sum"), key="number",
)
BLOCK = _table(
    "block", Column("number", _WHOLE, primary_key=True, autoincrement=False), Column("hash", Text, nullable=False, unique=True), _text("issuer"),
    _whole("time"), _whole("median_time"), _whole("members"), _whole("pow_min"), Column("dividend", _UNITS), Column("mass", _UNITS, nullable=False),
    _text("text"), key="number",
)
SECTION = _table("section", _text("name"), _whole("block"), key="name block")
IDENTITY = _table(
    "identity", _text("key"), Column("uid", Text, nullable=False, unique=True), _text("stamp"), _text("signature"), _whole("block"), key="key"
)
MEMBERSHIP = _table("membership", _text("key"), _whole("block"), _text("kind"), _text("stamp"), _text("signature"), key="key block")
REVOCATION = _table("revocation", _text("key"), _whole("block"), _text("signature", is_null=True), key="key")
CERTIFICATION = _table(
    "certification", _text("issuer"), _text("receiver"), _whole("block"), _whole("number"), _text("signature"), key="issuer receiver block"
)
PAYMENT = _table("payment", _whole("block"), _whole("place"), _text("hash"), _text("document"), key="block place")
PARTY = _table("party", _text("key"), _text("role"), _whole("block"), _whole("place"), key="key role block place")
SOURCE = _table("source", _text("identifier"), _text("condition"), _whole("block"), key="identifier")
MOVE = _table(
    "move", _text("condition"), _whole("block"), _whole("place"), _text("kind"), _text("source"), Column("units", _UNITS, nullable=False),
    key="condition block place",
)
STORED = _table("stored", _text("stamp"), _text("previous", is_null=True), _whole("place"), _text("text"), key="stamp")
PENDING = _table(
    "pending", _text("hash"), _whole("place"), _text("kind"), _text("issuer"), _text("subject"), _text("stage"), _text("text"), key="hash"
)
PENDING_PARTY = _table("pending_party", _text("key"), _text("role"), _text("hash"), key="key role hash")

BY_BLOCK = (SECTION, IDENTITY, MEMBERSHIP, REVOCATION, CERTIFICATION, PAYMENT, PARTY, SOURCE, MOVE)
"""The tables of which each row has the number of the block that wrote it."""

INDEX_TABLES = (BLOCK, *BY_BLOCK, STORED, PENDING, PENDING_PARTY)
"""The tables of the index: a function of the log."""

for _each in BY_BLOCK:
    Index(f"{_each.name}_block", _each.c.block)
Index("log_verdicts", LOG.c.line, sqlite_where=_VERDICTS, postgresql_where=_VERDICTS)
Index("payment_hash", PAYMENT.c.hash)
Index("move_cleared", MOVE.c.block, sqlite_where=_CLEARED, postgresql_where=_CLEARED)
Index("certification_receiver", CERTIFICATION.c.receiver, CERTIFICATION.c.issuer, CERTIFICATION.c.block)
