"""Whether a claim is true, and the verdict on it."""
import base64
import binascii
import re
from functools import lru_cache

from claims import Claim, digest
from library import BadSignatureError, Base58Encoder, VerifyKey

_SIGNATURE = re.compile("[A-Za-z0-9+/]{86}==")
_KEY_LENGTHS = (43, 44)
_KEY_BYTES = 32
_KEYS_AT_HAND = 65_536


def is_true(claim: Claim) -> bool:
    """Whether the signature is the key's over the claim's text. A signature has one text: one whose last digit has bits that no byte has is false."""
    key, signature = _key_of(claim.key), _bytes_of(claim.signature)
    if claim.text is None or key is None or signature is None:
        return False
    try:
        key.verify(claim.text.encode("ascii"), signature)
    except BadSignatureError:
        return False
    return True


def verdict(claim: Claim) -> str:
    """The command that tells the node that a claim with a text is true."""
    assert claim.text is not None
    return f"VERDICT {claim.key} {digest(claim.text)} {claim.signature}\n"


@lru_cache(_KEYS_AT_HAND)
def _key_of(text: str) -> VerifyKey | None:
    """The key with this text, or None where it is no key's."""
    try:
        key = Base58Encoder.decode(text)
    except ValueError:
        return None
    return VerifyKey(key) if len(text) in _KEY_LENGTHS and len(key) == _KEY_BYTES else None


def _bytes_of(signature: str) -> bytes | None:
    """The 64 bytes of a signature, or None where the text is not the one that they have."""
    if _SIGNATURE.fullmatch(signature) is None:
        return None
    try:
        content = base64.b64decode(signature, validate=True)
    except binascii.Error:
        return None
    return content if base64.b64encode(content).decode("ascii") == signature else None
