"""The library of `tools/verdicts` for signatures and texts, as this service uses it."""
import sys
from pathlib import Path

_FOLDER = Path(__file__).resolve().parents[2] / "verdicts"
sys.path.insert(0, str(_FOLDER))

from checking import is_true  # noqa: E402
from claims import Claim, ReadBlock, Unreadable, digest, document_claims, read_block  # noqa: E402
from history import History  # noqa: E402
from library import Base58Encoder, BlockID, Certification, Membership, Revocation  # noqa: E402
from library import Identity as ReadIdentity  # noqa: E402

__all__ = [
    "Base58Encoder",
    "BlockID",
    "Certification",
    "Claim",
    "History",
    "Membership",
    "ReadBlock",
    "ReadIdentity",
    "Revocation",
    "Unreadable",
    "digest",
    "document_claims",
    "is_true",
    "read_block",
]
