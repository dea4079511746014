"""What a person signs: documents as wallets make them, for the demonstration and for tests."""
from dataclasses import dataclass, replace

from .blocks import Transaction
from .forging import Issuer
from .verdicts import BlockID, Certification, Membership, ReadIdentity, Revocation


@dataclass(frozen=True)
class Wallet:
    """A person with a key and a name in a currency."""

    issuer: Issuer
    uid: str
    currency: str

    @property
    def key(self) -> str:
        """The public key."""
        return self.issuer.key

    def _signed(self, text: str) -> str:
        return f"{text}{self.issuer.sign(text)}\n"

    def _identity(self, stamp: str, *, signed: bool = True) -> ReadIdentity:
        identity = ReadIdentity(self.key, self.uid, BlockID.from_str(stamp), currency=self.currency)
        if signed:
            identity.signature = self.issuer.sign(identity.raw())
        return identity

    def identity(self, stamp: str) -> str:
        """The identity, made at a block."""
        return self._signed(self._identity(stamp, signed=False).raw())

    def membership(self, stamp: str, identity_stamp: str, way: str = "IN") -> str:
        """The wish to be a member, or with OUT to leave, made at a block."""
        blocks = [BlockID.from_str(each) for each in (stamp, identity_stamp)]
        return self._signed(Membership(self.key, blocks[0], self.uid, blocks[1], currency=self.currency, membership_type=way).raw())

    def certification(self, other: "Wallet", other_stamp: str, stamp: str) -> str:
        """The certification of another person's identity, made at a block."""
        identity = other._identity(other_stamp)
        return self._signed(Certification(self.key, identity, BlockID.from_str(stamp), currency=self.currency).raw())

    def revocation(self, identity_stamp: str) -> str:
        """The revocation of the own identity."""
        return self._signed(Revocation(self._identity(identity_stamp), currency=self.currency).raw())

    def payment(self, sources: list[str], outputs: list[str], stamp: str, comment: str = "") -> str:
        """A payment of whole sources `AMOUNT:BASE:SOURCE` to outputs `AMOUNT:BASE:CONDITION`."""
        unlocks = [f"{place}:SIG(0)" for place in range(len(sources))]
        payment = Transaction(self.currency, stamp, 0, [self.key], sources, unlocks, outputs, comment, [])
        return replace(payment, signatures=[self.issuer.sign(payment.document())]).document()
