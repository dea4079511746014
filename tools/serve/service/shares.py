"""What waits outside of the program: documents of newcomers, until they can come into a block together; and how much may wait of each kind.

The pool of the program has room for 1,024 documents and verdicts stay for ever, while identities cost nothing. So what strangers make waits in a list
of the service, of which the program is told nothing, and the list and the pool together have a share for each kind."""
from collections.abc import Collection, Iterable

from . import commands, people
from .index import LISTED, POOLED, Index, Pending
from .ledger import Turn
from .limits import Origin
from .refusals import LIMITATION, Refusal
from .verdicts import digest, document_claims

IDENTITY, MEMBERSHIP, CERTIFICATION, REVOCATION, TRANSACTION = "identity", "membership", "certification", "revocation", "transaction"
SHARES = {IDENTITY: 256, MEMBERSHIP: 256, CERTIFICATION: 256, REVOCATION: 32, TRANSACTION: 224}
"""How many documents of each kind wait at most: together as many as the pool of the program takes."""

OF_ONE_ISSUER = {IDENTITY: 2, MEMBERSHIP: 2, CERTIFICATION: 32, REVOCATION: 1, TRANSACTION: 64}
"""How many documents of each kind one key may have waiting."""

LEFT_WITHOUT = {MEMBERSHIP: "G82", CERTIFICATION: "G69"}
"""The rules by which the program would leave out documents of a newcomer alone."""


def is_of_newcomer(index: Index, pending: Pending) -> bool:
    """Whether a document speaks of somebody whom no block has."""
    return pending.kind in (IDENTITY, MEMBERSHIP, CERTIFICATION) and index.identity(newcomer_of(pending)) is None


def newcomer_of(pending: Pending) -> str:
    """The key of whom an identity, a membership or a certification speaks."""
    return pending.subject if pending.kind == CERTIFICATION else pending.issuer


async def make_room(turn: Turn, pending: Pending, origin: Origin) -> None:
    """Sees that one more document of the kind may wait; where newcomers' are too many, the oldest whom nobody certified gives way. Raises a
    refusal."""
    index = turn.index
    if index.count_of_issuer(pending.kind, pending.issuer) >= OF_ONE_ISSUER[pending.kind]:
        raise Refusal(LIMITATION, f"No more than {OF_ONE_ISSUER[pending.kind]} documents of this kind and key can wait")
    waiting = origin.waiting(index)
    if len(waiting) >= origin.most and not await _give_way(turn, pending, waiting):
        raise Refusal(LIMITATION, "No more documents from this address can wait now")
    if index.pending_counts().get(pending.kind, 0) >= SHARES[pending.kind]:
        if not await _give_way(turn, pending):
            raise Refusal(LIMITATION, f"No more documents of the kind {pending.kind} can wait now")


async def _give_way(turn: Turn, pending: Pending, among: Collection[str] | None = None) -> bool:
    """Drops the oldest newcomer whom nobody certified, where there are some hashes whose identity is among these. Gives whether there was one."""
    if pending.kind not in (IDENTITY, MEMBERSHIP):
        return False
    for text_hash, key in turn.index.uncertified():
        if key != pending.issuer and (among is None or text_hash in among):
            for each in listed_about(turn.index, key):
                await turn.leave(each.hash)
            return True
    return False


def listed_about(index: Index, key: str) -> list[Pending]:
    """What waits of a newcomer in the list."""
    return [each for each in index.pending_about(key) if each.stage == LISTED]


def identity_fields(pending: Pending) -> tuple[str, str, str | None]:
    """Name, stamp and signature of the identity that a document speaks of; a membership does not tell the signature."""
    fields = pending.fields()
    if pending.kind == IDENTITY:
        return fields["UniqueID"], fields["Timestamp"], pending.signature()
    if pending.kind == MEMBERSHIP:
        return fields["UserID"], fields["CertTS"], None
    return fields["IdtyUniqueID"], fields["IdtyTimestamp"], fields["IdtySignature"]


async def complete(turn: Turn, key: str) -> list[Pending]:
    """The documents of a newcomer that can come into a block together: an identity, a membership, and enough certifications by members. None
    where something is lacking."""
    waiting = turn.index.pending_about(key)
    wanted = int(people.parameters(turn.index)["sigQty"])
    for identity in waiting:
        if identity.kind != IDENTITY:
            continue
        uid, stamp, signature = identity_fields(identity)
        memberships = [each for each in waiting if each.kind == MEMBERSHIP and identity_fields(each) == (uid, stamp, None)]
        certifications = [each for each in waiting if each.kind == CERTIFICATION and identity_fields(each) == (uid, stamp, signature)]
        by = {each.issuer: each for each in certifications if await people.is_member(turn, each.issuer)}
        if memberships and len(by) >= wanted:
            return [identity, memberships[-1], *by.values()]
    return []


async def give(turn: Turn, documents: Iterable[Pending]) -> list[Pending]:
    """Gives documents of the list to the program, with the verdicts on their signatures, which were found to be true when they came. Gives those
    that the pool has now; what is no document for the program leaves the list."""
    given = []
    for each in documents:
        if each.stage == POOLED:
            continue
        for claim in document_claims(each.text.encode("ascii")):
            assert claim.text is not None
            await turn.verdict(claim.key, digest(claim.text), claim.signature)
        answer = (await turn.change(commands.pend(each.text.encode("ascii"))))[0]
        if answer.startswith("REFUSED"):
            await turn.leave(each.hash)
        elif not answer.startswith("FULL"):
            given.append(each)
    return given


def left_in_list(index: Index) -> dict[str, str]:
    """For each document of the list, the rule by which a block would have to leave it out."""
    waiting = index.listed()
    with_membership = {issuer for _, kind, issuer in waiting if kind == MEMBERSHIP}
    return {text_hash: LEFT_WITHOUT.get(kind) or ("G79" if issuer in with_membership else "L10") for text_hash, kind, issuer in waiting}
