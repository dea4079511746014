"""What is posted: documents go into the pool where they may come into a block, blocks to the chain or among the stored ones."""
import asyncio
import re
import statistics
import time
from collections.abc import Awaitable, Callable

from . import commands, people, spelling
from .blocks import BlockText, Transaction, condition_keys
from .branch import Branch
from .index import LISTED, MADE, Identity, Index, Pending, read_pending, units
from .ledger import Lacking, OnlyReads, Turn, Unavailable
from .limits import Origin
from .people import head_of
from .refusals import (
    ALREADY_UP_TO_DATE,
    BLOCK_REQUIRED,
    LIMITATION,
    NO_MATCHING_IDENTITY,
    NOT_A_MEMBER,
    PUBKEY_ALREADY_USED,
    UID_ALREADY_USED,
    UNHANDLED,
    WRONG_DOCUMENT,
    WRONG_MEMBERSHIP_SIGNATURE,
    WRONG_SIGNATURE,
    Refusal,
    by_rule,
    sentence,
)
from .returning import put_back
from .shares import (
    CERTIFICATION,
    IDENTITY,
    MEMBERSHIP,
    REVOCATION,
    TRANSACTION,
    complete,
    give,
    identity_fields,
    is_of_newcomer,
    left_in_list,
    make_room,
    newcomer_of,
)
from .verdicts import Claim, Unreadable, digest, document_claims, is_true, read_block

__all__ = ["CERTIFICATION", "IDENTITY", "MEMBERSHIP", "REVOCATION", "TRANSACTION"]
_MENDED_LATER = {
    IDENTITY: ("L10", "G79", "G76"),
    MEMBERSHIP: ("G82", "G79", "G76"),
    CERTIFICATION: ("G69", "G72", "G67", "G66", "L16"),
}
_FULL = ("G50", "X01")
MOST_TAKEN_OFF = 100
"""How many blocks the program can take off at most."""

_PASSWORD = re.compile(r"XHX\(([^)]*)\)")
_CURRENCY_LINE = 2
_SECONDS_OF_A_PAYMENT = 604_800
_MOST_LINES, _MOST_LINES_OF_PAYMENT = 16, 128
"""More lines than any document has; a payment has at most 100 in its compact form."""

_LINES_ABOVE_ISSUER = 12
_BLOCKS_BETWEEN_LOOKS = 20
_LOOKS_AT_ONCE = 10
_NO_LIMIT = Origin(1 << 30)


async def submit_document(turn: Turn, kind: str, raw: bytes, origin: Origin = _NO_LIMIT) -> Pending:
    """Has a document wait: in the pool where it may come into the next block, in the list of the service where a newcomer's lacks others. Raises a
    refusal, and then this document does not wait; Lacking where the program has no pool, OnlyReads where this node does not write."""
    if turn.lacks("PEND"):
        raise Lacking("PEND")
    if not turn.can_write:
        raise OnlyReads()
    claims = _claims(kind, raw)
    pending = read_pending(raw.decode("ascii"))
    head = await head_of(turn)
    if turn.index.is_pending(pending.hash):
        raise Refusal(ALREADY_UP_TO_DATE, "This document waits already")
    _check_currency(turn.index, pending)
    if not all(map(is_true, claims)):
        raise Refusal(WRONG_MEMBERSHIP_SIGNATURE if kind == MEMBERSHIP else WRONG_SIGNATURE, "The signature is not the issuer's of this text")
    await _CHECKS[kind](turn, pending, head.median_time)
    await make_room(turn, pending, origin)
    if is_of_newcomer(turn.index, pending):
        await turn.wait(pending.text)
        await _let_in(turn, newcomer_of(pending), pending)
    else:
        await _put_in(turn, pending, claims)
    if origin is not _NO_LIMIT:
        origin.hashes.append(pending.hash)
    return pending


async def _let_in(turn: Turn, key: str, newest: Pending | None = None) -> None:
    """Gives what waits of a newcomer to the program, where it can come into a block together. What can come into none leaves. Raises a refusal
    where that is the document that came now."""
    group = await complete(turn, key)
    if not group or not await give(turn, group):
        return
    left = await left_out(turn)
    for each in group:
        rule = left.get(each.hash)
        if rule is not None and _is_final(turn.index, each, rule):
            await turn.change(commands.unpend(each.hash))
            if newest is not None and each.hash == newest.hash:
                raise by_rule(rule)


def has_too_many_lines(raw: bytes) -> bool:
    """Whether a document has more lines than any of its kind: such ones are not read to their end, for which others would wait."""
    is_payment = raw.split(b"\n", 2)[1:2] == [b"Type: Transaction"]
    return raw.count(b"\n") > (_MOST_LINES_OF_PAYMENT if is_payment else _MOST_LINES)


def _claims(kind: str, raw: bytes) -> list[Claim]:
    if len(raw) > commands.LONGEST_FRAME:
        raise Refusal(WRONG_DOCUMENT, f"A document has at most {commands.LONGEST_FRAME} bytes")
    if has_too_many_lines(raw):
        raise by_rule("L18") if kind == TRANSACTION else Refusal(WRONG_DOCUMENT, f"This is no {kind}")
    try:
        claims = document_claims(raw)
    except Unreadable as error:
        raise Refusal(WRONG_DOCUMENT, f"This is no document: {error}") from error
    if not claims or claims[0].kind != kind:
        raise Refusal(WRONG_DOCUMENT, f"This is no {kind}")
    if kind == TRANSACTION and not all(map(str.isdecimal, _PASSWORD.findall(_unlocks(raw.decode("ascii"))))):
        raise Refusal(WRONG_DOCUMENT, "Wallets cannot read a password that is no number, so that this is not taken here")
    return claims


def _unlocks(text: str) -> str:
    return text.partition("Unlocks:\n")[2].partition("Outputs:\n")[0]


def _check_currency(index: Index, pending: Pending) -> None:
    first = index.block(0)
    line = pending.text.split("\n")[_CURRENCY_LINE]
    if first is None or line != f"Currency: {first[0].fields['Currency']}":
        raise Refusal(WRONG_DOCUMENT, "This document is of another currency")


async def _put_in(turn: Turn, pending: Pending, claims: list[Claim]) -> None:
    """Gives verdicts and the document to the program, and asks whether it may come into a block."""
    for claim in claims:
        assert claim.text is not None
        await turn.verdict(claim.key, digest(claim.text), claim.signature)
    command = commands.pend(pending.text.encode("ascii"))
    answer = await turn.ask(command)
    if answer[0] == "REFUSED D01":
        raise Refusal(WRONG_DOCUMENT, "This is no document's text")
    if answer[0].startswith("FULL"):
        raise Refusal(LIMITATION, "No more documents can wait now")
    if not command.has_changed(answer[0]):
        raise Refusal(ALREADY_UP_TO_DATE, "This document waits already")
    try:
        rule = (await left_out(turn)).get(pending.hash)
    except (Lacking, Unavailable):
        await turn.ask(commands.unpend(pending.hash))
        raise
    if rule is not None and _is_final(turn.index, pending, rule):
        # neither the document nor that it went is kept
        await turn.ask(commands.unpend(pending.hash))
        raise by_rule(rule)
    await turn.keep(command, answer)


def forging_time(index: Index, clock: int) -> int:
    """The clock, as far as the next block may say it."""
    values = people.parameters(index)
    count, mean = int(values["medianTimeBlocks"]), int(values["avgGenTime"])
    median = max(index.median_time(index.length() - 1) or 0, int(statistics.median(index.times(count))))
    longest = -(-mean * 1189 // 1000)
    return min(max(clock, median), median + longest * count)


async def forged(turn: Turn, key: str, clock: int | None = None) -> tuple[list[str], dict[str, str]]:
    """The lines of the block that a key would forge now, and the rule by which each document is left out. Raises a refusal."""
    lines = await turn.ask(commands.forge(key, forging_time(turn.index, int(time.time()) if clock is None else clock)))
    if lines[0].startswith("REFUSED "):
        raise by_rule(lines[0].split(" ")[1], "No block can be forged: ")
    left = {}
    while lines[-1].startswith("LEFT "):
        _, text_hash, rule = lines.pop().split(" ")
        left[text_hash] = rule
    return lines, left


async def left_out(turn: Turn) -> dict[str, str]:
    """The rules by which pending documents do not come into a block that some member would forge now."""
    found = left_in_list(turn.index)
    for identity in turn.index.identities():
        if await people.is_member(turn, identity.key):
            try:
                return {**found, **(await forged(turn, identity.key))[1]}
            except Refusal:
                return found
    return found


def _is_final(index: Index, pending: Pending, rule: str) -> bool:
    """Whether a document that is left out by a rule can never come into a block of this chain."""
    if rule in _FULL or rule in _MENDED_LATER.get(pending.kind, ()):
        return False
    if pending.kind == TRANSACTION and rule == "G87":
        # the payment that makes its source may wait too
        inputs = pending.text.partition("Inputs:\n")[2].partition("Unlocks:\n")[0].split("\n")
        return not any(":T:" in each and index.is_pending(each.split(":")[3]) for each in inputs)
    return True


async def clear_pool(turn: Turn, blocks: list[BlockText]) -> None:
    """Takes out of pool and list what these blocks have, and what can come into no block any more."""
    if turn.lacks("PEND") or not turn.index.pending():
        return
    lines = [line for block in blocks for name in block.sections if name != "Transactions" for line in block.sections[name]]
    signatures = {word for line in lines for word in line.split(":")}
    hashes = {transaction.hash for block in blocks for transaction in block.transactions}
    for pending in turn.index.pending():
        if pending.hash in hashes or pending.signature() in signatures:
            await _take_out(turn, pending)
    await _clear_list(turn, blocks)
    left = await left_out(turn)
    for pending in turn.index.pending():
        if pending.stage != LISTED and pending.hash in left and _is_final(turn.index, pending, left[pending.hash]):
            await turn.change(commands.unpend(pending.hash))


async def _take_out(turn: Turn, pending: Pending) -> None:
    if pending.stage == LISTED:
        await turn.leave(pending.hash)
    else:
        await turn.change(commands.unpend(pending.hash))


async def _clear_list(turn: Turn, blocks: list[BlockText]) -> None:
    """Looks at documents of the list anew behind blocks: they leave, or go to the program where that has become possible. They are those of whom
    the blocks brought in; and all of them now and then, or where blocks were taken off."""
    new = {word for block in blocks for line in block.sections["Identities"] for word in (line.split(":")[0], line.split(":")[3])}
    is_of_all = bool(turn.gone) or any(block.number % _BLOCKS_BETWEEN_LOOKS == 0 for block in blocks)
    waiting = [each for each in turn.index.pending() if each.stage == LISTED]
    chosen = [each for each in waiting if is_of_all or {newcomer_of(each), identity_fields(each)[0]} & new]
    now = (await head_of(turn)).median_time if chosen else 0
    for place, pending in enumerate(chosen):
        if place % _LOOKS_AT_ONCE == _LOOKS_AT_ONCE - 1:
            # pages that are at hand are given meanwhile
            await asyncio.sleep(0)
        await _look_again(turn, pending, now)
    for key in dict.fromkeys(map(newcomer_of, chosen)):
        await _let_in(turn, key)


async def _look_again(turn: Turn, pending: Pending, now: int) -> None:
    try:
        await _CHECKS[pending.kind](turn, pending, now)
    except Refusal:
        await turn.leave(pending.hash)
        return
    if not is_of_newcomer(turn.index, pending):
        await give(turn, [pending])


async def _check_identity(turn: Turn, pending: Pending, now: int) -> None:
    fields = pending.fields()
    if not spelling.is_uid(fields["UniqueID"]) or not spelling.is_key(pending.issuer):
        raise Refusal(WRONG_DOCUMENT, "This is no identity: its name or its key is not spelled as it has to be")
    if turn.index.identity_with_uid(fields["UniqueID"]) is not None:
        raise Refusal(UID_ALREADY_USED, f"G73: {sentence('G73')}", rule="G73")
    if turn.index.identity(pending.issuer) is not None:
        raise Refusal(PUBKEY_ALREADY_USED, f"G74: {sentence('G74')}", rule="G74")
    _check_stamp(turn.index, fields["Timestamp"], now, "idtyWindow", "G63")


async def _check_membership(turn: Turn, pending: Pending, now: int) -> None:
    fields = pending.fields()
    wanted = (pending.issuer, fields["UserID"], fields["CertTS"])
    if all((each.key, each.uid, each.stamp) != wanted for each in _identities(turn.index, pending.issuer)):
        raise Refusal(NO_MATCHING_IDENTITY, "No identity has this key, name and stamp")
    _check_stamp(turn.index, fields["Block"], now, "msWindow", "G64")


async def _check_certification(turn: Turn, pending: Pending, now: int) -> None:
    fields = pending.fields()
    if not await people.is_member(turn, pending.issuer):
        raise Refusal(NOT_A_MEMBER, f"G68: {sentence('G68')}", rule="G68")
    wanted = (fields["IdtyUniqueID"], fields["IdtyTimestamp"], fields["IdtySignature"])
    if all((each.uid, each.stamp, each.signature) != wanted for each in _identities(turn.index, pending.subject)):
        raise Refusal(NO_MATCHING_IDENTITY, "No identity has this key, name, stamp and signature")
    _check_stamp(turn.index, fields["CertTimestamp"], now, "sigWindow", "G65")


async def _check_revocation(turn: Turn, pending: Pending, _: int) -> None:
    if turn.index.identity(pending.issuer) is None:
        raise Refusal(NO_MATCHING_IDENTITY, "No block has an identity of this key")
    if turn.index.revocation(pending.issuer) is not None:
        raise by_rule("G83")


async def _check_payment(turn: Turn, pending: Pending, now: int) -> None:
    """What can be seen without the program, so that it is given no verdict on what nobody could spend."""
    payment = Transaction.from_document(pending.text)
    if turn.index.transaction_block(pending.hash) is not None:
        raise by_rule("X05")
    try:
        inputs, outputs = [sum(map(units, each)) for each in (payment.inputs, payment.outputs)]
    except ValueError as error:
        raise Refusal(WRONG_DOCUMENT, "This is no transaction: an amount is no number") from error
    if inputs != outputs:
        raise by_rule("L23")
    _check_stamp(turn.index, payment.stamp, now, _SECONDS_OF_A_PAYMENT, "G103")
    taken = {source for each in turn.index.pending(TRANSACTION) for source in Transaction.from_document(each.text).inputs}
    for source in payment.inputs:
        condition = _condition_of(turn.index, source)
        if condition is None or source in taken:
            raise by_rule("G87")
        if condition == f"SIG({(condition_keys(condition) or [''])[0]})" and condition_keys(condition)[0] not in payment.issuers:
            raise by_rule("G88")


def _condition_of(index: Index, source: str) -> str | None:
    """The condition of an unspent source of the chain, or of an output of a payment that waits; None where it is neither."""
    identifier = source.split(":", 2)[2]
    found = index.source(identifier)
    if found is not None:
        return found[0] if found[2] == MADE and index.has_made(source) else None
    words = identifier.split(":")
    waiting = index.pending_text(words[1]) if words[0] == "T" and len(words) == 3 else None
    if waiting is None or not spelling.is_number(words[2]):
        return None
    outputs = Transaction.from_document(waiting).outputs
    amount, base, condition = outputs[int(words[2])].split(":", 2) if int(words[2]) < len(outputs) else ("", "", "")
    return condition if source.split(":")[:2] == [amount, base] else None


_CHECKS: dict[str, Callable[[Turn, Pending, int], Awaitable[None]]] = {
    IDENTITY: _check_identity, MEMBERSHIP: _check_membership, CERTIFICATION: _check_certification, REVOCATION: _check_revocation,
    TRANSACTION: _check_payment,
}


def _identities(index: Index, key: str) -> list[Identity]:
    """The identities of a key: the written one, or those that wait."""
    written = index.identity(key)
    return index.pending_identities(key) if written is None else [written]


def _check_stamp(index: Index, stamp: str, now: int, window: str | int, rule: str) -> None:
    """Raises a refusal where no block of the chain has the stamp, or that block is too old."""
    number, _, block_hash = stamp.partition("-")
    made = index.median_time(int(number)) if spelling.is_stamp(stamp) and index.hash_of(int(number)) == block_hash else None
    if made is None or now > made + (window if isinstance(window, int) else int(people.parameters(index)[window])):
        raise Refusal(UNHANDLED, f"{rule}: {sentence(rule)}", rule=rule)


async def submit_block(turn: Turn, raw: bytes) -> str:
    """Gives a block to the chain where it stands on the last one, else stores it. Gives what became of it. Raises a refusal."""
    if not raw:
        raise Refusal(BLOCK_REQUIRED, "The field block is missing")
    if len(raw) > commands.LONGEST_FRAME:
        raise by_rule("X01")
    _check_issuer(turn.index, raw)
    try:
        read = read_block(raw)
    except Unreadable as error:
        raise Refusal(WRONG_DOCUMENT, f"This is no block: {error}") from error
    for claim in read.claims(Branch(turn.index, read.block.number, read.block.prev_hash)):
        if is_true(claim):
            assert claim.text is not None
            await turn.verdict(claim.key, digest(claim.text), claim.signature)
    head = turn.index.head()
    follows = (read.block.number, read.block.prev_hash) == ((0, None) if head is None else (head[0] + 1, head[1]))
    if not follows and turn.lacks("OFFER"):
        raise Refusal(UNHANDLED, "The block does not stand on the last one")
    length = turn.index.length()
    answer = await turn.change(commands.block(raw) if follows or head is None else commands.offer(raw))
    word, *words = answer[0].split(" ")
    if word == "REFUSED":
        where = f"line {words[1]} is refused by " if len(words) > 1 else ""
        raise by_rule(words[0], where)
    if word in ("KNOWN", "FULL"):
        raise Refusal(ALREADY_UP_TO_DATE, "This block is known") if word == "KNOWN" else Refusal(LIMITATION, "No more blocks can be stored")
    if turn.index.head() != head:
        await _settle(turn, length)
    return "\n".join(answer)


def _check_issuer(index: Index, raw: bytes) -> None:
    """Whether somebody who has an identity signed the end of a block: strangers' are read no further, and never stored. Raises a refusal."""
    lines = raw.decode("latin-1").rsplit("\n", 4)[-4:]
    above = raw[:2000].decode("latin-1").split("\n")[:_LINES_ABOVE_ISSUER]
    issuer = next((line.removeprefix("Issuer: ") for line in above if line.startswith("Issuer: ")), None)
    if issuer is None or len(lines) < 4 or lines[-1] or not lines[0].startswith("InnerHash: "):
        raise Refusal(WRONG_DOCUMENT, "This is no block: its issuer or its end is missing")
    if not is_true(Claim("block", 0, issuer, lines[2], f"{lines[0]}\n{lines[1]}\n")):
        raise by_rule("L05")
    is_known = index.length() == 0 or index.identity(issuer) is not None
    if not is_known and not any(line.startswith(f"{issuer}:") for block in index.all_stored() for line in block.sections["Identities"]):
        raise by_rule("G101")


async def _settle(turn: Turn, length: int) -> None:
    """Has the documents of blocks that were taken off wait again, and clears what the new chain has."""
    await put_back(turn)
    new = [block for block, _ in turn.index.blocks(max(0, length - MOST_TAKEN_OFF), turn.index.length())]
    await clear_pool(turn, new)


async def switch_by_hand(turn: Turn, stamp: str) -> str:
    """Puts a stored branch in the place of the chain's last blocks. Gives the answer. Raises a refusal."""
    length = turn.index.length()
    answer = await turn.change(commands.switch(stamp))
    word, *words = answer[0].split(" ")
    if word == "REFUSED" and spelling.is_stamp(words[0]):
        raise by_rule(words[1], f"block {words[0]} is refused by ")
    if word != "SWITCHED":
        raise Refusal(UNHANDLED, f"No switch to {stamp} can be made: {answer[0]}")
    await _settle(turn, length)
    return answer[0]
