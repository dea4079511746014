"""Claims: the signatures that a block or a document has, each with the key and the text that it is said to sign."""
import hashlib
from collections.abc import Iterator, Sequence
from dataclasses import dataclass

from history import History
from library import REFUSALS, Block, BlockID, Certification, Identity, Membership, Revocation, Transaction

DOCUMENT_VERSION = 10
"""The version of documents, in blocks of version 11 too."""

_HEADINGS = ("Identities", "Joiners", "Actives", "Leavers", "Revoked", "Excluded", "Certifications", "Transactions")
_DOCUMENTS = {kind.__name__: kind for kind in (Identity, Revocation, Certification, Membership, Transaction)}
_END_LINES = 3
_LONGEST_REASON = 200


class Unreadable(Exception):
    """The bytes are no block, or no document; the message says why."""


@dataclass(frozen=True)
class Claim:
    """The claim that a signature is a key's over a text. The line is counted from 1 in the block or document. Where the text is not known it is
    None, and `lacks` says why."""

    kind: str
    line: int
    key: str
    signature: str
    text: str | None
    lacks: str = ""


@dataclass(frozen=True)
class ReadBlock:
    """A block as the library reads it, with its own lines and the place of the first line of each section, from 0."""

    block: Block
    lines: list[str]
    sections: dict[str, int]

    def hash(self) -> str:
        """The SHA-256 of the lines InnerHash, Nonce and that of the signature."""
        return digest(_joined(self.lines[-_END_LINES:]))

    def has_right_inner_hash(self) -> bool:
        """Whether InnerHash is the SHA-256 of the text above its line."""
        return self.block.inner_hash == digest(_joined(self.lines[:-_END_LINES]))

    def claims(self, history: History) -> Iterator[Claim]:
        """The claims of the block's lines in their order, and last its own. `history` follows the branch before the block."""
        yield from self._claims("Identities", "identity", self.block.identities)
        for section, memberships in self._memberships():
            yield from self._claims(section, "membership", memberships)
        identities = {identity.pubkey: identity for identity in self.block.identities}
        for place, revocation in enumerate(self.block.revoked, self.sections["Revoked"]):
            yield self._revocation(place, revocation, identities.get(revocation.pubkey) or history.identity(revocation.pubkey))
        for place, certification in enumerate(self.block.certifications, self.sections["Certifications"]):
            receiver = identities.get(certification.pubkey_to) or history.identity(certification.pubkey_to)
            yield self._certification(place, certification, receiver, history)
        yield from self._transactions()
        own = len(self.lines) - 1
        yield Claim("block", own + 1, self.block.issuer, self.lines[own], _joined(self.lines[-_END_LINES:-1]))

    def _memberships(self) -> list[tuple[str, list[Membership]]]:
        return [("Joiners", self.block.joiners), ("Actives", self.block.actives), ("Leavers", self.block.leavers)]

    def _claims(self, section: str, kind: str, documents: list[Identity] | list[Membership]) -> Iterator[Claim]:
        for place, document in enumerate(documents, self.sections[section]):
            key = document.pubkey if isinstance(document, Identity) else document.issuer
            yield Claim(kind, place + 1, key, document.signature, document.raw())

    def _revocation(self, place: int, revocation: Revocation, identity: Identity | None) -> Claim:
        text, lacks = None, f"no identity of {revocation.pubkey} came before"
        if identity is not None:
            revocation.identity = identity
            text, lacks = revocation.raw(), ""
        return Claim("revocation", place + 1, revocation.pubkey, revocation.signature, text, lacks)

    def _certification(self, place: int, certification: Certification, receiver: Identity | None, history: History) -> Claim:
        stamp = _stamp_of(certification, self.block, history)
        text, lacks = None, f"no identity of {certification.pubkey_to} came before"
        if stamp is None:
            lacks = f"no block {certification.block_id.number} came before on its branch"
        elif receiver is not None:
            certification.identity, certification.block_id = receiver, stamp
            text, lacks = certification.raw(), ""
        return Claim("certification", place + 1, certification.pubkey_from, certification.signature, text, lacks)

    def _transactions(self) -> Iterator[Claim]:
        place = self.sections["Transactions"]
        for transaction in self.block.transactions:
            lines = self.lines[place : place + _compact_lines(transaction)]
            text = _signed_text(transaction, self.block.currency, lines)
            place += len(lines)
            first = place - len(transaction.signatures)
            for line, (key, signature) in enumerate(zip(transaction.issuers, transaction.signatures), first + 1):
                yield Claim("transaction", line, key, signature, text)


def digest(text: str) -> str:
    """The SHA-256 of a text in upper case."""
    return hashlib.sha256(text.encode("ascii")).hexdigest().upper()


def read_block(raw: bytes) -> ReadBlock:
    """The block with these bytes. Raises Unreadable."""
    text = _printable(raw)
    try:
        block = Block.from_signed_raw(text)
    except REFUSALS as error:
        raise Unreadable(_reason(error)) from error
    lines = text.split("\n")[:-1]
    for document in (*block.identities, *block.joiners, *block.actives, *block.leavers, *block.revoked, *block.certifications):
        document.version = DOCUMENT_VERSION
    return ReadBlock(block, lines, _sections(block, lines))


def document_claims(raw: bytes) -> list[Claim]:
    """The claims of a single document: one, or as many as a transaction has issuers. Raises Unreadable."""
    text = _printable(raw)
    lines = text.split("\n")[:-1]
    kind = _DOCUMENTS.get(lines[1].removeprefix("Type: ")) if len(lines) > 1 else None
    if kind is None:
        raise Unreadable(f"its second line is none of {', '.join(f'Type: {name}' for name in _DOCUMENTS)}")
    try:
        document = kind.from_signed_raw(text)
    except REFUSALS as error:
        raise Unreadable(_reason(error)) from error
    if isinstance(document, Transaction):
        keys, signatures = document.issuers, document.signatures
    else:
        keys, signatures = [_signer(document)], [document.signature]
    first = len(lines) - len(signatures)
    if len(keys) != len(signatures) or lines[first:] != signatures:
        raise Unreadable("behind its values stand not just the signatures, one for each issuer")
    return [
        Claim(kind.__name__.lower(), line, key, signature, _joined(lines[:first]))
        for line, (key, signature) in enumerate(zip(keys, signatures), first + 1)
    ]


def _signer(document: Identity | Revocation | Certification | Membership) -> str:
    if isinstance(document, Certification):
        return document.pubkey_from
    return document.issuer if isinstance(document, Membership) else document.pubkey


def _stamp_of(certification: Certification, block: Block, history: History) -> BlockID | None:
    """The stamp of the block that the certification names by its number. In the first block it is that of the empty text."""
    number = certification.block_id.number
    return BlockID.empty() if number == block.number == 0 else history.stamp(number)


def _printable(raw: bytes) -> str:
    text = raw.decode("latin-1")
    if not all(" " <= character <= "~" or character == "\n" for character in set(text)):
        raise Unreadable("it has bytes other than printable ASCII and LF")
    if not text.endswith("\n"):
        raise Unreadable("its last line does not end with LF")
    return text


def _reason(error: Exception) -> str:
    """What the library says in its own words; where lines are missing it has none of its own."""
    return "lines are missing" if isinstance(error, IndexError) else str(error).split("\n")[0][:_LONGEST_REASON]


def _sections(block: Block, lines: list[str]) -> dict[str, int]:
    """Where the lines of each section begin. Raises Unreadable where the library passed over a line."""
    starts, place = {}, 0
    for heading in _HEADINGS:
        try:
            place = lines.index(f"{heading}:", place) + 1
        except ValueError as error:
            raise Unreadable(f"the heading {heading} is missing") from error
        starts[heading] = place
    sections: list[Sequence[object]] = [block.identities, block.joiners, block.actives, block.leavers, block.revoked, block.excluded]
    ends = [starts[heading] + len(entries) for heading, entries in zip(_HEADINGS, [*sections, block.certifications])]
    last = starts["Transactions"] + sum(_compact_lines(transaction) for transaction in block.transactions)
    if ends != [start - 1 for start in list(starts.values())[1:]] or last + _END_LINES != len(lines):
        raise Unreadable("it has lines that are none of a block's")
    return starts


def _compact_lines(transaction: Transaction) -> int:
    """How many lines a transaction has in its compact form."""
    parts: list[Sequence[object]] = [transaction.issuers, transaction.inputs, transaction.unlocks, transaction.outputs, transaction.signatures]
    return 2 + sum(map(len, parts)) + (transaction.comment != "")


def _signed_text(transaction: Transaction, currency: str, lines: list[str]) -> str:
    """The signed text of a transaction, of its own compact lines."""
    header, stamp, *rest = lines
    document = [f"Version: {DOCUMENT_VERSION}", "Type: Transaction", f"Currency: {currency}", f"Blockstamp: {stamp}"]
    document.append(f"Locktime: {header.rsplit(':', 1)[1]}")
    parts: list[tuple[str, Sequence[object]]] = [("Issuers", transaction.issuers), ("Inputs", transaction.inputs)]
    parts += [("Unlocks", transaction.unlocks), ("Outputs", transaction.outputs)]
    for name, values in parts:
        document += [f"{name}:", *rest[: len(values)]]
        del rest[: len(values)]
    comment = rest[0] if transaction.comment else ""
    return _joined([*document, f"Comment: {comment}"])


def _joined(lines: list[str]) -> str:
    return "".join(f"{line}\n" for line in lines)
