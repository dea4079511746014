"""A refused block, or a document as a block with nothing else in it, and the values that are told of it."""
from collections.abc import Awaitable, Callable, Iterator
from typing import Any

from . import people
from .blocks import BlockText, Transaction
from .ledger import Turn
from .people import State, state_of

Values = list[dict[str, Any]]
OF_BLOCK = "Type: Block"
_MOST = 40


class Case:
    """A block that was refused, or a document as a block with nothing else in it."""

    def __init__(self, turn: Turn, block: BlockText, false: list[int], whose: str = "the block") -> None:
        self.turn, self.index, self.block, self.false = turn, turn.index, block, false
        self.whose = whose
        """Whose header it is: the block's own, or for a document that of the last block."""
        self.fields, self.found = block.fields, Values()
        self.start = block.lines.index("Identities:")

    def tell(self, what: str, value: object, line: int | None = None) -> None:
        """Notes a value."""
        if len(self.found) < _MOST:
            self.found.append({"what": what, "value": str(value), "line": line})

    def lines(self, *sections: str) -> Iterator[tuple[int, list[str]]]:
        """The lines of sections with their places from 1, each cut at its colons."""
        for name in sections:
            place = self.block.lines.index(f"{name}:", self.start) + 2
            for offset, line in enumerate(self.block.sections[name]):
                yield place + offset, line.split(":")

    def transactions(self) -> Iterator[tuple[int, Transaction]]:
        """The transactions with the place of the first line of each."""
        place = self.block.lines.index("Transactions:", self.start) + 2
        for each in self.block.transactions:
            yield place, each
            place += each.compact_size

    async def state(self, key: str) -> State | None:
        """What the chain says of a person."""
        return await state_of(self.turn, key)

    def time_of(self, stamp: str) -> int | None:
        """The median time of the chain's block with a stamp."""
        number, _, block_hash = stamp.partition("-")
        return self.index.median_time(int(number)) if number.isdigit() and self.index.hash_of(int(number)) == block_hash else None

    @property
    def now(self) -> int:
        """MedianTime that the block says."""
        return int(self.fields["MedianTime"])

    def parameter(self, name: str) -> int:
        """A parameter of the currency."""
        return int(people.parameters(self.index)[name])


def in_document(value: dict[str, Any], block: BlockText, text: str) -> dict[str, Any]:
    """The value with the document's own line: that with the same text, where there is one."""
    if value["line"] is None:
        return value
    lines, wanted = text.split("\n"), block.lines[value["line"] - 1]
    return {**value, "line": lines.index(wanted) + 1 if wanted in lines else None}


def as_block(turn: Turn, text: str) -> BlockText:
    """The block; of a document one with its line alone, at the time of the last block."""
    lines = text.split("\n")[:-1]
    if lines[1] == OF_BLOCK:
        return BlockText(lines)
    last = turn.index.block(turn.index.length() - 1)
    assert last is not None
    block = BlockText(list(last[0].lines))
    for name in block.sections:
        block.sections[name] = []
    section, line = _line_of_document(lines, text)
    block.sections[section] = line
    header = block.lines[: block.lines.index("Identities:")]
    body = [each for name, inside in block.sections.items() for each in (f"{name}:", *inside)]
    return BlockText([*header, *body, *block.lines[-3:]])


def _line_of_document(lines: list[str], text: str) -> tuple[str, list[str]]:
    fields = dict(line.split(": ", 1) for line in reversed(lines) if ": " in line)
    kind, key, signature = fields["Type"], fields.get("Issuer", ""), lines[-1]
    if kind == "Transaction":
        return "Transactions", _compact(Transaction.from_document(text))
    if kind == "Identity":
        return "Identities", [f"{key}:{signature}:{fields['Timestamp']}:{fields['UniqueID']}"]
    if kind == "Membership":
        section = "Joiners" if fields["Membership"] == "IN" else "Leavers"
        return section, [f"{key}:{signature}:{fields['Block']}:{fields['CertTS']}:{fields['UserID']}"]
    if kind == "Certification":
        return "Certifications", [f"{key}:{fields['IdtyIssuer']}:{fields['CertTimestamp'].split('-')[0]}:{signature}"]
    return "Revoked", [f"{key}:{signature}"]


def _compact(each: Transaction) -> list[str]:
    counts = ":".join(str(len(part)) for part in (each.issuers, each.inputs, each.unlocks, each.outputs))
    first = f"TX:10:{counts}:{int(each.comment != '')}:{each.locktime}"
    comment = [each.comment] if each.comment else []
    return [first, each.stamp, *each.issuers, *each.inputs, *each.unlocks, *each.outputs, *comment, *each.signatures]


Teller = Callable[[Case], Awaitable[None]]
"""Tells the values of a case by one rule."""
