"""Documents of blocks that were taken off the chain: they wait again, as far as the chain that came instead lets them."""
from . import commands
from .blocks import BlockText, joined
from .index import Index
from .ledger import Turn


async def put_back(turn: Turn) -> None:
    """Gives the documents of the blocks that this turn took off to the pool. What the new chain has, or can never have, is cleared behind it."""
    if turn.lacks("PEND"):
        return
    for block in turn.gone:
        for text in _documents(block, turn.index, turn.gone):
            await turn.change(commands.pend(text.encode("ascii")))


def _documents(block: BlockText, index: Index, gone: list[BlockText]) -> list[str]:
    """The documents of a block's lines. A certification or revocation of somebody whose identity is nowhere has none."""
    lines = {name: [line.split(":") for line in block.sections[name]] for name in block.sections if name != "Transactions"}
    found = [
        _document(block, "Identity", [f"Issuer: {key}", f"UniqueID: {uid}", f"Timestamp: {stamp}"], signature)
        for key, signature, stamp, uid in lines["Identities"]
    ]
    for section in ("Joiners", "Actives", "Leavers"):
        way = "OUT" if section == "Leavers" else "IN"
        for key, signature, stamp, of, uid in lines[section]:
            fields = [f"Issuer: {key}", f"Block: {stamp}", f"Membership: {way}", f"UserID: {uid}", f"CertTS: {of}"]
            found.append(_document(block, "Membership", fields, signature))
    for key, signature in lines["Revoked"]:
        about = _identity_lines(key, index, gone)
        if about:
            found.append(_document(block, "Revocation", [f"Issuer: {key}", *about[1:]], signature))
    for issuer, receiver, number, signature in lines["Certifications"]:
        about, block_hash = _identity_lines(receiver, index, gone), _hash_of(int(number), index, gone)
        if about and block_hash:
            found.append(_document(block, "Certification", [f"Issuer: {issuer}", *about, f"CertTimestamp: {number}-{block_hash}"], signature))
    return [*found, *(transaction.document() for transaction in block.transactions)]


def _document(block: BlockText, kind: str, fields: list[str], signature: str) -> str:
    return joined(["Version: 10", f"Type: {kind}", f"Currency: {block.fields['Currency']}", *fields, signature])


def _identity_lines(key: str, index: Index, gone: list[BlockText]) -> list[str]:
    """What documents on an identity say of it: key, name, stamp and signature."""
    written = index.identity(key)
    about = None if written is None else (written.uid, written.stamp, written.signature)
    for block in gone:
        for line in block.sections["Identities"]:
            issuer, signature, stamp, uid = line.split(":")
            about = (uid, stamp, signature) if issuer == key else about
    if about is None:
        return []
    return [f"IdtyIssuer: {key}", f"IdtyUniqueID: {about[0]}", f"IdtyTimestamp: {about[1]}", f"IdtySignature: {about[2]}"]


def _hash_of(number: int, index: Index, gone: list[BlockText]) -> str | None:
    """The hash of the block with a number on the chain that was there."""
    return next((block.hash for block in gone if block.number == number), index.hash_of(number))
