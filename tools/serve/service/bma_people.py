"""BMA's pages on people: `wot/*`."""
from typing import Any

from . import commands, people
from .index import Identity, Pending
from .ledger import Turn
from .people import LiveCertification, checked_number, checked_word, head_of
from .refusals import NO_MATCHING_IDENTITY, NO_MEMBER_MATCHING, Refusal
from .writes import left_out


async def lookup(turn: Turn, word: str) -> dict[str, Any]:
    """The identities that a word finds, pending ones too, with the certifications that they received and issued."""
    found = people.found_identities(turn.index, checked_word(word))
    if not found:
        raise Refusal(NO_MATCHING_IDENTITY, "No identity has this key or name")
    return {"partial": False, "results": [await _looked_up(turn, identity) for identity in found]}


async def _looked_up(turn: Turn, identity: Identity) -> dict[str, Any]:
    received, issued = await people.certifications_of(turn, identity.key)
    waiting = _waiting_for(turn, identity)
    keys = [*(each.issuer for each in received), *(each.receiver for each in issued), *(each.issuer for each in waiting)]
    members = await people.members_among(turn, keys)
    others = [_other(turn, each, members) for each in received] + [_other_pending(turn, each, members) for each in waiting]
    # the wallet takes them to be in the order of expiry
    others.sort(key=lambda each: (each["meta"]["block_number"], each["pubkey"]))
    signed = [_signed(turn, each, members) for each in issued]
    uid = {
        "uid": identity.uid, "meta": {"timestamp": identity.stamp}, "self": identity.signature, **_revoked(turn, identity), "others": others,
    }
    return {"pubkey": identity.key, "uids": [uid], "signed": [each for each in signed if each is not None]}


def _waiting_for(turn: Turn, identity: Identity) -> list[Pending]:
    """The certifications of just this identity that wait."""
    return [each for each in turn.index.pending_of("certification", subject=identity.key) if _is_for(each, identity)]


def _is_for(certification: Pending, identity: Identity) -> bool:
    fields = certification.fields()
    wanted = (identity.key, identity.uid, identity.stamp, identity.signature)
    return (fields["IdtyIssuer"], fields["IdtyUniqueID"], fields["IdtyTimestamp"], fields["IdtySignature"]) == wanted


def _revoked(turn: Turn, identity: Identity) -> dict[str, Any]:
    revocation = None if identity.block is None else turn.index.revocation(identity.key)
    if revocation is None:
        return {"revoked": False, "revoked_on": None, "revocation_sig": None}
    return {"revoked": True, "revoked_on": turn.index.median_time(revocation[0]), "revocation_sig": revocation[1]}


def _other(turn: Turn, live: LiveCertification, members: set[str]) -> dict[str, Any]:
    written = turn.index.certification(live.issuer, live.receiver, live.written)
    assert written is not None, "a live certification stands in the block that wrote it"
    meta = {"block_number": written.number, "block_hash": turn.index.hash_of(written.number)}
    return {
        "pubkey": live.issuer, "meta": meta, "uids": _uids(turn, live.issuer), "isMember": live.issuer in members,
        "wasMember": turn.index.has_joined(live.issuer), "signature": written.signature,
    }


def _other_pending(turn: Turn, pending: Pending, members: set[str]) -> dict[str, Any]:
    number, block_hash = pending.fields()["CertTimestamp"].split("-")
    return {
        "pubkey": pending.issuer, "meta": {"block_number": int(number), "block_hash": block_hash}, "uids": _uids(turn, pending.issuer),
        "isMember": pending.issuer in members, "wasMember": turn.index.has_joined(pending.issuer),
        "signature": pending.signature(),
    }


def _uids(turn: Turn, key: str) -> list[str]:
    identity = turn.index.identity(key)
    return [] if identity is None else [identity.uid]


def _signed(turn: Turn, live: LiveCertification, members: set[str]) -> dict[str, Any] | None:
    identity = turn.index.identity(live.receiver)
    written = turn.index.certification(live.issuer, live.receiver, live.written)
    if identity is None or written is None:
        return None
    return {
        "uid": identity.uid, "pubkey": identity.key, "meta": {"timestamp": identity.stamp},
        "cert_time": {"block": written.number, "block_hash": turn.index.hash_of(written.number)},
        "isMember": identity.key in members, "wasMember": turn.index.has_joined(identity.key),
        "signature": written.signature, **_revoked(turn, identity),
    }


async def identity_of(turn: Turn, word: str) -> dict[str, Any]:
    """Key, name and stamp of a member."""
    identity = people.written_identity(turn.index, checked_word(word))
    if identity is None or not await people.is_member(turn, identity.key):
        raise Refusal(NO_MEMBER_MATCHING, "No member has this key or name")
    return {"pubkey": identity.key, "uid": identity.uid, "sigDate": identity.stamp}


async def members(turn: Turn) -> dict[str, Any]:
    """All members."""
    everybody = turn.index.identities()
    members_now = await people.members_among(turn, [each.key for each in everybody])
    found = [each for each in everybody if each.key in members_now]
    return {"results": [{"pubkey": each.key, "uid": each.uid} for each in found]}


async def certifiers_of(turn: Turn, word: str) -> dict[str, Any]:
    """The live certifications that a person received."""
    return await _certifications(turn, word, is_received=True)


async def certified_by(turn: Turn, word: str) -> dict[str, Any]:
    """The live certifications that a person issued."""
    return await _certifications(turn, word, is_received=False)


async def _certifications(turn: Turn, word: str, is_received: bool) -> dict[str, Any]:
    identity = people.written_identity(turn.index, checked_word(word))
    if identity is None:
        raise Refusal(NO_MEMBER_MATCHING, "No member has this key or name")
    received, issued = await people.certifications_of(turn, identity.key)
    wanted = received if is_received else issued
    now = await people.members_among(turn, [identity.key, *(key for live in wanted for key in (live.issuer, live.receiver))])
    lines = []
    for live in wanted:
        other = turn.index.identity(live.issuer if is_received else live.receiver)
        written = turn.index.certification(live.issuer, live.receiver, live.written)
        if other is None or written is None:
            continue
        lines.append({
            "pubkey": other.key, "uid": other.uid, "isMember": other.key in now,
            "wasMember": turn.index.has_joined(other.key), "sigDate": other.stamp, "signature": written.signature,
            "cert_time": {"block": written.number, "medianTime": turn.index.median_time(written.number)},
            "written": {"number": live.written, "hash": turn.index.hash_of(live.written)},
        })
    return {
        "pubkey": identity.key, "uid": identity.uid, "sigDate": identity.stamp, "isMember": identity.key in now,
        "certifications": lines,
    }


async def requirements(turn: Turn, word: str) -> dict[str, Any]:
    """How the identities that a word finds stand to membership."""
    found = people.found_identities(turn.index, checked_word(word))
    if not found:
        raise Refusal(NO_MEMBER_MATCHING, "No identity has this key or name")
    return {"identities": [await _required(turn, identity) for identity in found]}


async def requirements_of_pending(turn: Turn, word: str) -> dict[str, Any]:
    """The same of pending identities with at least so many certifications."""
    least = checked_number(word)
    shown = [await _required(turn, identity) for identity in turn.index.pending_identities()]
    return {"identities": [each for each in shown if len(each["pendingCerts"]) >= least]}


async def _required(turn: Turn, identity: Identity) -> dict[str, Any]:
    head, values = await head_of(turn), people.parameters(turn.index)
    state = None if identity.block is None else await people.state_of(turn, identity.key)
    received, _ = await people.certifications_of(turn, identity.key)
    degree = people.least_sentry_degree(head.members, int(values["stepMax"]))
    member = state is not None and await people.is_member(turn, identity.key)
    waiting = [each for each in turn.index.pending_of("membership", issuer=identity.key) if each.fields()["CertTS"] == identity.stamp]
    ends = [_end_of_window(turn, each, int(values["msWindow"]), head.median_time) for each in waiting]
    return {
        "pubkey": identity.key, "uid": identity.uid, "sig": identity.signature, "meta": {"timestamp": identity.stamp},
        **_revoked(turn, identity), "revokation_sig": None, "isMember": member,
        "wasMember": state is not None and turn.index.has_joined(identity.key), "identity_written": identity.block is not None,
        "expired": state is not None and not member and state.state == "OUT",
        "outdistanced": await _is_far(turn, identity, member, waiting),
        "isSentry": member and state is not None and min(state.received, state.issued) >= degree,
        "membershipExpiresIn": max(0, state.expires - head.median_time) if member and state is not None else 0,
        "membershipPendingExpiresIn": max(ends, default=0),
        "pendingMemberships": [_shown_membership(each) for each in waiting],
        "certifications": [{"from": each.issuer, "to": each.receiver, "expiresIn": each.expires - head.median_time} for each in received],
        "pendingCerts": [_pending_certification(each) for each in _waiting_for(turn, identity)],
    }


async def _is_far(turn: Turn, identity: Identity, member: bool, waiting: list[Pending]) -> bool:
    """Whether the distance is not kept. Of who is no member the program tells it only where it leaves out a membership that waits for that."""
    if member:
        return (await turn.ask(commands.of_key("DISTANCE", identity.key)))[0].endswith(" FAIL")
    if not waiting or turn.lacks("FORGE"):
        return False
    left = await left_out(turn)
    hashes = [each.hash for each in waiting + turn.index.pending_of("identity", issuer=identity.key)]
    return any(left.get(each) == "G76" for each in hashes)


def _end_of_window(turn: Turn, membership: Pending, window: int, now: int) -> int:
    made = turn.index.median_time(int(membership.fields()["Block"].split("-")[0])) or 0
    return max(0, made + window - now)


def _shown_membership(pending: Pending) -> dict[str, Any]:
    fields = pending.fields()
    number, block_hash = fields["Block"].split("-")
    return {
        "membership": fields["Membership"], "type": fields["Membership"], "issuer": pending.issuer, "userid": fields["UserID"],
        "certts": fields["CertTS"], "block": fields["Block"], "number": int(number), "blockNumber": int(number), "blockHash": block_hash,
        "signature": pending.signature(),
    }


def _pending_certification(pending: Pending) -> dict[str, Any]:
    fields = pending.fields()
    return {
        "from": pending.issuer, "to": pending.subject, "sig": pending.signature(), "blockstamp": fields["CertTimestamp"],
        "block_number": int(fields["CertTimestamp"].split("-")[0]),
    }
