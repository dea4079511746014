"""The library of the field's own clients as this tool uses it, and the places in which it reads less than the protocol has.

`duniterpy` reads blocks and documents; `nacl` checks Ed25519 signatures. Version 1.1.0 of the former refuses some texts that are blocks, so that
its patterns are widened here:

- parameters without a point, such as `1` for `1.0`;
- unit bases of two digits in inputs and outputs;
- unlocks by a password that is no number.

Conditions are kept as they stand: nothing here asks what one means, and the library's own text of `A && B && C` is `A && C`.
"""
import re

from duniterpy.documents import (
    Block,
    BlockID,
    Certification,
    Document,
    Identity,
    MalformedDocumentError,
    Membership,
    Revocation,
    Transaction,
)
from duniterpy.documents.transaction import InputSource, OutputSource, Unlock
from duniterpy.grammars.output import Condition
from duniterpy.key.base58 import Base58Encoder
from nacl.exceptions import BadSignatureError
from nacl.signing import VerifyKey

__all__ = [
    "BadSignatureError",
    "Base58Encoder",
    "Block",
    "BlockID",
    "Certification",
    "Document",
    "Identity",
    "Membership",
    "REFUSALS",
    "Revocation",
    "Transaction",
    "VerifyKey",
]

REFUSALS = (MalformedDocumentError, IndexError, ValueError, AssertionError)
"""How the library refuses a text: by its own error; where lines are missing; at a number of thousands of digits; at a short hash."""

_DECIMALS = {0, 10, 16}
_PARAMETERS = 20
_NUMBER, _DECIMAL = "([0-9]+)", r"([0-9]+(?:\.[0-9]+)?)"


def _widen_patterns() -> None:
    """Lets the library read every text that is a block or a document."""
    fields = (_DECIMAL if place in _DECIMALS else _NUMBER for place in range(_PARAMETERS))
    Block.re_parameters = re.compile("Parameters: " + ":".join(fields) + "\n")
    one_digit = ":([0-9]):"
    InputSource.re_inline = re.compile(InputSource.re_inline.pattern.replace(one_digit, f":{_NUMBER}:", 1))
    OutputSource.re_inline = re.compile(OutputSource.re_inline.pattern.replace(one_digit, f":{_NUMBER}:", 1))
    OutputSource.condition_from_text = staticmethod(Condition)
    Unlock.re_inline = re.compile(f"{_NUMBER}:([^\n]+)\n")


_widen_patterns()
