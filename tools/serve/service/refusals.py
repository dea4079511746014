"""Refusals as BMA has them: Duniter's codes, and the rules' sentences from the protocol's chapter."""
import re
from functools import lru_cache
from pathlib import Path

UNKNOWN, UNHANDLED, WRONG_SIGNATURE, ALREADY_UP_TO_DATE, WRONG_DOCUMENT, LIMITATION = range(1001, 1007)
BLOCK_REQUIRED = 1104
NO_MATCHING_IDENTITY, UID_ALREADY_USED, PUBKEY_ALREADY_USED, NO_MEMBER_MATCHING = range(2001, 2005)
WRONG_MEMBERSHIP_SIGNATURE, ALREADY_RECEIVED_MEMBERSHIP, CANNOT_LEAVE, NOT_A_MEMBER, NO_CURRENT_BLOCK, BLOCK_NOT_FOUND = range(2006, 2012)
WRONG_UNLOCKER, LOCKTIME_PREVENT, SOURCE_ALREADY_CONSUMED, WRONG_AMOUNTS, WRONG_OUTPUT_BASE = range(2013, 2018)

_NOT_FOUND = (NO_MATCHING_IDENTITY, NO_MEMBER_MATCHING, NO_CURRENT_BLOCK, BLOCK_NOT_FOUND, UNKNOWN)
_CODES = {
    UID_ALREADY_USED: ("G73", "L08"),
    PUBKEY_ALREADY_USED: ("G74", "L09"),
    ALREADY_RECEIVED_MEMBERSHIP: ("G75", "L12"),
    CANNOT_LEAVE: ("G80",),
    NOT_A_MEMBER: ("G68", "G81", "G101"),
    ALREADY_UP_TO_DATE: ("X05", "G83"),
    WRONG_SIGNATURE: ("L05", "L07", "L24", "G72", "G84"),
    WRONG_MEMBERSHIP_SIGNATURE: ("L11",),
    WRONG_UNLOCKER: ("L20", "G88"),
    LOCKTIME_PREVENT: ("G89",),
    SOURCE_ALREADY_CONSUMED: ("G87", "L21"),
    WRONG_AMOUNTS: ("L22", "L23"),
    WRONG_OUTPUT_BASE: ("G90",),
    WRONG_DOCUMENT: ("P01", "X01"),
}
_CODE_OF_RULE = {rule: code for code, rules in _CODES.items() for rule in rules}
_RULES_CHAPTER = Path(__file__).resolve().parents[3] / "docs" / "protocol" / "rules.md"
_ROW = re.compile(r"\| ([A-Z]\d\d\d?) \| (.*?) \|")
_LONGEST_REASON = 200


class Refusal(Exception):
    """A request is refused: status, Duniter's code, and a sentence."""

    def __init__(self, ucode: int, message: str, status: int | None = None, rule: str | None = None) -> None:
        super().__init__(message)
        usual = {LIMITATION: 503}.get(ucode, 404 if ucode in _NOT_FOUND else 400)
        self.ucode, self.message, self.status, self.rule = ucode, message, status or usual, rule

    def reason(self) -> str:
        """The phrase behind the status: wallets show nothing else. Printable ASCII only."""
        text = "".join(character if " " <= character <= "~" else "?" for character in f"{self.ucode} {self.message}")
        return text[:_LONGEST_REASON]


@lru_cache(None)
def sentences() -> dict[str, str]:
    """The sentence of each rule, by its code."""
    return dict(_ROW.findall(_RULES_CHAPTER.read_text(encoding="ascii")))


def sentence(rule: str) -> str:
    """The sentence of a rule; its code where it has none."""
    return {**_NO_RULES, **sentences()}.get(rule, f"rule {rule}")


_CHAPTERS = {
    "the-input": ("X01",), "block-text": ("P01", "L01", "X07", "L02", "L06", "G50"), "parameters": ("X02",), "documents": ("D01",),
    "verdicts": ("L05", "L07", "L11", "L24", "G72", "G84"), "the-time-of-a-stamp": ("L03", "L04", "G63", "G64", "G65", "G103"),
    "chains": ("G51", "G52", "G53", "G49"), "head-values": ("X03", "X04", "X08", *(f"G{code}" for code in range(54, 63))),
    "people": ("L08", "L09", "L10", "L12", "L13", "G101", "X06", "G73", "G74", "G75", "G108", "G82", "G78", "G81", "G80", "G77", "G83"),
    "certifications": ("L14", "L15", "L16", "L17", "G66", "G67", "G68", "G69", "G70", "G71", "G79", "G85", "G86"), "distance": ("G76",),
    "transactions": ("L18", "L19", "L22", "L23", "X05", "G89"), "unlocks": ("L20",), "sources": ("L21", "G87"), "conditions": ("G88",),
    "outputs": ("G90",), "commands-and-answers": ("W01",),
}
_CHAPTER_OF_RULE = {rule: name for name, rules in _CHAPTERS.items() for rule in rules}
_NO_RULES = {"D01": "The bytes are the text of a document.", "W01": "No more blocks are taken off than can be."}


def chapter(rule: str) -> str:
    """The chapter of the protocol that has what a rule speaks of; that on rules where none other has."""
    return _CHAPTER_OF_RULE.get(rule, "rules")


def by_rule(rule: str, before: str = "") -> Refusal:
    """The refusal of what breaks a rule."""
    return Refusal(_CODE_OF_RULE.get(rule, UNHANDLED), f"{before}{rule}: {sentence(rule)}", rule=rule)
