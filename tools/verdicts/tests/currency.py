"""A small currency with real keys, made from fixed seeds: people, what they sign, and blocks that are hashed, mined and signed.

Texts are spelled here as the protocol's chapters have them, apart from the tool, so that the tool's texts are compared with these."""
import base64
import hashlib
from collections.abc import Callable
from dataclasses import dataclass, field, replace
from functools import lru_cache

from base58 import b58encode
from nacl.signing import SigningKey

CURRENCY = "test_currency"
PARAMETERS = "0.1:100:1000:50:20:1000:5000:1:1000:1000:0.5:2000:3:5:60:10:0.67:1100:1500:1000"
EMPTY = "0-E3B0C44298FC1C149AFBF4C8996FB92427AE41E4649B934CA495991B7852B855"
SECTIONS = ("Identities", "Joiners", "Actives", "Leavers", "Revoked", "Excluded", "Certifications", "Transactions")
MINED = "00"
"""With what the hash of each block begins here: more than any difficulty of this chain asks for."""


def digest(text: str) -> str:
    return hashlib.sha256(text.encode("ascii")).hexdigest().upper()


def joined(*lines: str) -> str:
    return "".join(f"{line}\n" for line in lines)


def document(kind: str, *lines: str) -> str:
    """The signed text of a document."""
    return joined("Version: 10", f"Type: {kind}", f"Currency: {CURRENCY}", *lines)


def turned(signature: str, bit: int = 0) -> str:
    """The signature with one bit of its bytes turned."""
    content = bytearray(base64.b64decode(signature))
    content[bit // 8] ^= 1 << bit % 8
    return base64.b64encode(content).decode("ascii")


@lru_cache(None)
def signing_key(number: int) -> SigningKey:
    """The key of a fixed seed."""
    return SigningKey(bytes([number + 1]) * 32)


@dataclass(frozen=True)
class Person:
    """Somebody with a key of a fixed seed, and what they sign."""

    number: int

    @property
    def _signing(self) -> SigningKey:
        return signing_key(self.number)

    @property
    def key(self) -> str:
        return b58encode(bytes(self._signing.verify_key)).decode("ascii")

    @property
    def uid(self) -> str:
        return f"user{self.number}"

    def sign(self, text: str) -> str:
        return base64.b64encode(self._signing.sign(text.encode("ascii")).signature).decode("ascii")

    def identity_text(self, stamp: str = EMPTY) -> str:
        return document("Identity", f"Issuer: {self.key}", f"UniqueID: {self.uid}", f"Timestamp: {stamp}")

    def identity(self, stamp: str = EMPTY) -> str:
        return f"{self.key}:{self.sign(self.identity_text(stamp))}:{stamp}:{self.uid}"

    def membership_text(self, way: str = "IN", stamp: str = EMPTY, of: str = EMPTY) -> str:
        return document(
            "Membership", f"Issuer: {self.key}", f"Block: {stamp}", f"Membership: {way}", f"UserID: {self.uid}", f"CertTS: {of}"
        )

    def membership(self, way: str = "IN", stamp: str = EMPTY, of: str = EMPTY) -> str:
        return f"{self.key}:{self.sign(self.membership_text(way, stamp, of))}:{stamp}:{of}:{self.uid}"

    def certification_text(self, receiver: "Person", stamp: str = EMPTY, of: str = EMPTY) -> str:
        about = [f"IdtyIssuer: {receiver.key}", f"IdtyUniqueID: {receiver.uid}", f"IdtyTimestamp: {of}"]
        about.append(f"IdtySignature: {receiver.sign(receiver.identity_text(of))}")
        return document("Certification", f"Issuer: {self.key}", *about, f"CertTimestamp: {stamp}")

    def certification(self, receiver: "Person", stamp: str = EMPTY, of: str = EMPTY) -> str:
        number = stamp.split("-")[0]
        return f"{self.key}:{receiver.key}:{number}:{self.sign(self.certification_text(receiver, stamp, of))}"

    def revocation_text(self, of: str = EMPTY) -> str:
        signature = self.sign(self.identity_text(of))
        return document(
            "Revocation", f"Issuer: {self.key}", f"IdtyUniqueID: {self.uid}", f"IdtyTimestamp: {of}", f"IdtySignature: {signature}"
        )

    def revocation(self, of: str = EMPTY) -> str:
        return f"{self.key}:{self.sign(self.revocation_text(of))}"


@dataclass(frozen=True)
class Payment:
    """A transaction, as a document and in compact form."""

    issuers: tuple[Person, ...]
    inputs: tuple[str, ...]
    outputs: tuple[str, ...]
    stamp: str
    unlocks: tuple[str, ...] = ("0:SIG(0)",)
    comment: str = ""
    locktime: int = 0

    @property
    def _keys(self) -> list[str]:
        return [issuer.key for issuer in self.issuers]

    def text(self) -> str:
        lists = ["Issuers:", *self._keys, "Inputs:", *self.inputs, "Unlocks:", *self.unlocks, "Outputs:", *self.outputs]
        return document("Transaction", f"Blockstamp: {self.stamp}", f"Locktime: {self.locktime}", *lists, f"Comment: {self.comment}")

    def signatures(self) -> list[str]:
        return [issuer.sign(self.text()) for issuer in self.issuers]

    def lines(self) -> list[str]:
        counts = ":".join(str(len(part)) for part in (self.issuers, self.inputs, self.unlocks, self.outputs))
        header = f"TX:10:{counts}:{int(self.comment != '')}:{self.locktime}"
        comment = [self.comment] if self.comment else []
        return [header, self.stamp, *self._keys, *self.inputs, *self.unlocks, *self.outputs, *comment, *self.signatures()]


@dataclass(frozen=True)
class Block:
    """A block before it is hashed, mined and signed."""

    number: int
    issuer: Person
    time: int
    median_time: int
    frame: int
    variation: int
    issuers: int
    previous: "Sealed | None" = None
    dividend: int | None = None
    members: int = 3
    version: int = 10
    parameters: str = PARAMETERS
    sections: dict[str, list[str]] = field(default_factory=dict)

    def having(self, **sections: list[str]) -> "Block":
        """The same block with these lines, and no others, in the sections that are named."""
        return replace(self, sections={**self.sections, **sections})

    def changed(self, section: str, place: int, change: Callable[[str], str]) -> "Block":
        """The same block with one line changed."""
        lines = list(self.sections[section])
        lines[place] = change(lines[place])
        return self.having(**{section: lines})

    def _header(self) -> list[str]:
        lines = [f"Version: {self.version}", "Type: Block", f"Currency: {CURRENCY}", f"Number: {self.number}", "PoWMin: 0"]
        lines += [f"Time: {self.time}", f"MedianTime: {self.median_time}"]
        lines += [] if self.dividend is None else [f"UniversalDividend: {self.dividend}"]
        lines += ["UnitBase: 0", f"Issuer: {self.issuer.key}", f"IssuersFrame: {self.frame}", f"IssuersFrameVar: {self.variation}"]
        lines.append(f"DifferentIssuersCount: {self.issuers}")
        if self.previous is None:
            lines.append(f"Parameters: {self.parameters}")
        else:
            lines += [f"PreviousHash: {self.previous.hash}", f"PreviousIssuer: {self.previous.issuer.key}"]
        return [*lines, f"MembersCount: {self.members}"]

    def sealed(self, seal: Callable[[str], str] = lambda signature: signature) -> "Sealed":
        """The block with the hash above it, the least nonce whose hash is hard enough, and the issuer's signature, which `seal` may change."""
        above = joined(*self._header(), *(line for name in SECTIONS for line in (f"{name}:", *self.sections.get(name, []))))
        nonce, inner = 0, digest(above)
        while True:
            signed = f"InnerHash: {inner}\nNonce: {nonce}\n"
            end = f"{signed}{seal(self.issuer.sign(signed))}\n"
            if digest(end).startswith(MINED):
                return Sealed(above + end, digest(end), self.number, self.issuer)
            nonce += 1


@dataclass(frozen=True)
class Sealed:
    """A raw block, with its hash."""

    text: str
    hash: str
    number: int
    issuer: Person

    @property
    def stamp(self) -> str:
        return f"{self.number}-{self.hash}"

    @property
    def raw(self) -> bytes:
        return self.text.encode("ascii")

    def line_of(self, content: str) -> int:
        """The number from 1 of a line."""
        return self.text.split("\n").index(content) + 1


PEOPLE = [Person(number) for number in range(6)]


def first_block(**changes: object) -> Block:
    """A first block with three people who certify one another."""
    three = PEOPLE[:3]
    block = Block(number=0, issuer=three[0], time=1000, median_time=1000, frame=1, variation=0, issuers=0)
    certifications = [issuer.certification(receiver) for issuer in three for receiver in three if issuer != receiver]
    sections = {"Identities": [p.identity() for p in three], "Joiners": [p.membership() for p in three], "Certifications": certifications}
    return replace(block, sections=sections, **changes)


def second_block(previous: Sealed, **changes: object) -> Block:
    """A block without lines behind the first."""
    return replace(Block(1, PEOPLE[1], 1300, 1000, 1, 5, 1, previous), **changes)


def third_block(previous: Sealed, **changes: object) -> Block:
    """A block without lines that pays a dividend."""
    return replace(Block(2, PEOPLE[2], 1150, 1150, 2, 4, 1, previous, dividend=1000), **changes)


def fourth_block(previous: Sealed, **changes: object) -> Block:
    """A block behind the dividend."""
    return replace(Block(3, PEOPLE[0], 1150, 1150, 3, 8, 2, previous), **changes)


def fifth_block(previous: Sealed, **changes: object) -> Block:
    """A block behind that."""
    return replace(Block(4, PEOPLE[1], 1150, 1150, 4, 12, 3, previous), **changes)


def dividend_of(person: Person, amount: int = 1000, base: int = 0) -> str:
    """The source that the third block makes for a member, as an input."""
    return f"{amount}:{base}:D:{person.key}:2"


def payment(previous: Sealed, **changes: object) -> Payment:
    """The first member pays 100 units to somebody who is no member."""
    issuer, receiver = PEOPLE[0], PEOPLE[3]
    outputs = (f"100:0:SIG({receiver.key})", f"900:0:SIG({issuer.key})")
    return replace(Payment((issuer,), (dividend_of(issuer),), outputs, previous.stamp), **changes)


@lru_cache(None)
def whole_chain() -> tuple[Sealed, ...]:
    """Five blocks: three people who certify one another, two blocks without lines, a payment, a revocation."""
    chain = [first_block().sealed()]
    for following in (second_block, third_block):
        chain.append(following(chain[-1]).sealed())
    chain.append(fourth_block(chain[-1]).having(Transactions=payment(chain[-1]).lines()).sealed())
    chain.append(fifth_block(chain[-1]).having(Revoked=[PEOPLE[2].revocation()]).sealed())
    return tuple(chain)


def whole() -> list[Sealed]:
    """The five blocks."""
    return list(whole_chain())


def start() -> list[Sealed]:
    """The first three of them."""
    return whole()[:3]
