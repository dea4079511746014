"""What the signatures of a block sign over: stamps and identities of the branch before it, from the index."""
from .blocks import BlockText
from .index import Index
from .spelling import EMPTY_STAMP
from .verdicts import BlockID, History, ReadIdentity


class Branch(History):
    """The branch that a block stands on: stored blocks down to one of the chain, and the chain from there."""

    def __init__(self, index: Index, number: int, previous: str | None) -> None:
        super().__init__()
        self._index, self._stored = index, dict[int, BlockText]()
        number -= 1
        while previous is not None and index.hash_of(number) != previous:
            block = index.stored(f"{number}-{previous}")
            if block is None:
                break
            self._stored[number] = block
            number, previous = number - 1, block.previous
        self._shared = number if previous is not None and index.hash_of(number) == previous else -1

    def stamp(self, number: int) -> BlockID | None:
        """The stamp of the branch's block with this number."""
        if number in self._stored:
            return BlockID(number, self._stored[number].hash)
        block_hash = self._index.hash_of(number) if number <= self._shared else None
        return None if block_hash is None else BlockID(number, block_hash)

    def identity(self, key: str) -> ReadIdentity | None:
        """The identity that a block of the branch gives the key."""
        written = self._index.identity(key)
        if written is not None and written.block is not None and written.block <= self._shared:
            return _read(written.key, written.uid, written.stamp, written.signature, self._currency())
        for block in self._stored.values():
            for line in block.sections["Identities"]:
                issuer, signature, stamp, uid = line.split(":")
                if issuer == key:
                    return _read(key, uid, stamp, signature, block.fields["Currency"])
        return None

    def _currency(self) -> str:
        first = self._index.block(0)
        assert first is not None
        return first[0].fields["Currency"]


def _read(key: str, uid: str, stamp: str, signature: str, currency: str) -> ReadIdentity:
    block_id = BlockID.empty() if stamp == EMPTY_STAMP else BlockID.from_str(stamp)
    identity = ReadIdentity(pubkey=key, uid=uid, block_id=block_id, currency=currency)
    identity.signature = signature
    return identity
