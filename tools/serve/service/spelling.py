"""How the protocol spells the words that commands are made of. A text is matched whole, so none of these has a line feed."""
import re

KEY_PATTERN = "[1-9A-HJ-NP-Za-km-z]{43,44}"
UID_PATTERN = "[A-Za-z0-9_-]{2,100}"
HASH_PATTERN = "[0-9A-F]{64}"
SIGNATURE_PATTERN = "[A-Za-z0-9+/]{86}=="
NUMBER_PATTERN = "0|[1-9][0-9]{0,15}"
STAMP_PATTERN = f"(?:{NUMBER_PATTERN})-{HASH_PATTERN}"
CONDITION_PATTERN = rf"(?:SIG\({KEY_PATTERN}\)|XHX\({HASH_PATTERN}\)|(?:CSV|CLTV)\((?:{NUMBER_PATTERN})\)|[()]| && | \|\| )+"
LONGEST_CONDITION = 1000

MOST_NUMBER = 2**53 - 1
EMPTY_STAMP = "0-E3B0C44298FC1C149AFBF4C8996FB92427AE41E4649B934CA495991B7852B855"
"""Number 0 and the SHA-256 of the empty text."""

_KEY = re.compile(KEY_PATTERN)
_UID = re.compile(UID_PATTERN)
_HASH = re.compile(HASH_PATTERN)
_SIGNATURE = re.compile(SIGNATURE_PATTERN)
_NUMBER = re.compile(NUMBER_PATTERN)
_STAMP = re.compile(STAMP_PATTERN)
_CONDITION = re.compile(CONDITION_PATTERN)


def is_key(text: str) -> bool:
    """Whether the text is spelled as a key."""
    return _KEY.fullmatch(text) is not None


def is_uid(text: str) -> bool:
    """Whether the text is spelled as a name of a person. Texts of keys are spelled so too."""
    return _UID.fullmatch(text) is not None


def is_hash(text: str) -> bool:
    """Whether the text is spelled as a SHA-256."""
    return _HASH.fullmatch(text) is not None


def is_signature(text: str) -> bool:
    """Whether the text is spelled as a signature."""
    return _SIGNATURE.fullmatch(text) is not None


def is_number(text: str) -> bool:
    """Whether the text is spelled as a number below 2^53."""
    return _NUMBER.fullmatch(text) is not None and int(text) <= MOST_NUMBER


def is_stamp(text: str) -> bool:
    """Whether the text is spelled as a number and a hash with a dash between."""
    return _STAMP.fullmatch(text) is not None and is_number(text.split("-")[0])


def is_condition_like(text: str) -> bool:
    """Whether the text has only words of conditions, and at most 1,000 characters. Whether it is a condition the program says."""
    return len(text) <= LONGEST_CONDITION and _CONDITION.fullmatch(text) is not None
