"""Sessions in which a program is tried with reads, writes and allocations that fail: each makes the commands, by a program that forges the blocks."""

import re
from collections.abc import Callable

import making
from making import MEDIAN_TIME, Made, blocks
from node import Broken, Node


def every_kind(program: str) -> list[bytes]:
    """A chain in which somebody takes a name, joins, is certified, renews, leaves, is revoked and excluded, and pays; and queries."""
    chain = making.generated(16)
    with Node(program) as node:
        forge, stamp = making.Forge(node, chain), chain[12].stamp
        for number, documents in enumerate((kinds(forge, stamp), list[making.Document]()), start=16):
            forge.forge(blocks.key(number % 8), making.FIRST_TIME + making.PACE * number, documents)
        made = forge.chain
    lacking = [name for name in blocks.SECTIONS if not any(re.search(rf"^{name}:\n[1T]", it.text, re.MULTILINE) for it in made)]
    if lacking:
        raise Broken(f"no block has a line of {' '.join(lacking)}")
    asked = ["HEAD", "MONEY", "RECORDS 16", "RECORDS 17", "SHOW 16"]
    for number in (1, 2, 20):
        asked += [f"{word} {blocks.key(number)}" for word in ("IDENTITY", "CERTS", "DISTANCE", "DIFF")]
        asked += [f"{word} SIG({blocks.key(number)})" for word in ("BALANCE", "SOURCES", "STATEMENT")]
    return [*making.lasting(made), *(f"{line}\n".encode() for line in asked)]


def kinds(forge: making.Forge, stamp: str) -> list[making.Document]:
    """A document of each kind."""
    found = making.newcomer(20, 7, stamp)
    for number, way in ((1, "IN"), (2, "OUT")):
        lines = [f"Issuer: {blocks.key(number)}", f"Block: {stamp}", f"Membership: {way}", f"UserID: user{number}", f"CertTS: {blocks.EMPTY}"]
        found.append(making.signed_document(blocks.key(number), blocks.document("Membership", *lines)))
    signature = re.search(rf"^{blocks.key(3)}:([^:]+):{blocks.EMPTY}:user3$", forge.chain[0].text, re.MULTILINE)
    assert signature
    lines = [f"Issuer: {blocks.key(3)}", "IdtyUniqueID: user3", f"IdtyTimestamp: {blocks.EMPTY}", f"IdtySignature: {signature[1]}"]
    found.append(making.signed_document(blocks.key(3), blocks.document("Revocation", *lines)))
    paid = forge.payment(4, 5, stamp, 40)
    return found + ([paid] if paid else [])


def from_nothing(program: str) -> list[bytes]:
    """Three blocks that are offered to the empty chain, and switched to."""
    chain = making.generated(3)
    verdicts = [verdict for made in chain for verdict in made.verdicts]
    offers = [made.command("OFFER") for made in chain]
    return [*verdicts, *offers, f"SWITCH {chain[-1].stamp}\n".encode(), b"HEAD\n", b"MONEY\n", f"CERTS {blocks.key(1)}\n".encode(), b"SHOW 2\n"]


def there_and_back(program: str) -> list[bytes]:
    """A chain of five blocks, and a switch to a branch of four and back."""
    chain = making.generated(5)
    with Node(program) as node:
        branch = branch_behind(node, chain[:2], 4)
    given = making.lasting(chain)
    for made in branch:
        given += [*made.verdicts, made.command("OFFER")]
    there, back = (f"SWITCH {tip.stamp}\n".encode() for tip in (branch[-1], chain[-1]))
    return [*given, there, b"HEAD\n", b"RECORDS 4\n", back, b"HEAD\n", b"RECORDS 4\n"]


def what_waits_and_is_chosen(program: str) -> list[bytes]:
    """Documents that wait, a block that is forged of them, and a node that chooses among two branches, of which the first one fails."""
    chain = making.generated(5)
    with Node(program) as node:
        branch = branch_behind(node, chain[:2], 6)
    failing = making.with_one_spoilt(branch, 2, MEDIAN_TIME, blocks.key(0))
    documents, stamp = making.newcomer(20, 7, chain[3].stamp), chain[-1].stamp
    payer, time = blocks.key(1), making.FIRST_TIME + making.PACE * 5
    _, paid = blocks.payment(payer, stamp, [f"1000:0:D:{payer}:9"], [f"1000:0:SIG({blocks.key(2)})"])
    pends = [making.framed("PEND", it.text.encode()) for it in [*documents, making.signed_document(payer, paid)]]
    given = [*making.lasting(chain), *(it.verdict for it in documents), *pends, pends[0], making.framed("PEND", b"x\n")]
    given += [f"FORGE {blocks.key(number)} {time}\n".encode() for number in (3, 20)] + [b"AUTO ON\n"]
    for made in [*failing, *branch]:
        given += [*made.verdicts, made.command("OFFER")]
    asked = ["FAILED", "AUTO ON", f"STATEMENT SIG({payer})", f"SWITCH {failing[-1].stamp}", f"FORGET {failing[2].stamp}", "FAILED", "AUTO OFF"]
    asked += [f"FORGE {blocks.key(3)} {time + 3 * making.PACE}", f"UNPEND {blocks.digest(documents[0].text)}", f"UNPEND {'0' * 64}"]
    asked += ["REVERT 2", "SHOW 5", "HEAD", "MONEY", "no command", f"FORGE {blocks.key(3)} {time + making.PACE}"]
    return [*given, *(f"{line}\n".encode() for line in asked)]


def branch_behind(node: Node, below: list[Made], count: int) -> list[Made]:
    """So many blocks without lines behind a chain, which a program forges."""
    forge = making.Forge(node, below)
    for number in range(len(below), len(below) + count):
        forge.forge(blocks.key(number % making.PEOPLE), making.FIRST_TIME + making.PACE * number + 7, [])
    return forge.chain[len(below) :]


SESSIONS: dict[str, Callable[[str], list[bytes]]] = {
    "every kind of line": every_kind,
    "three offered blocks": from_nothing,
    "there and back": there_and_back,
    "what waits and is chosen": what_waits_and_is_chosen,
}
