"""The blocks so far: their stamps along the previous hashes, and who has which identity."""
from collections import defaultdict
from dataclasses import dataclass

from library import Block, BlockID, Identity


@dataclass(frozen=True)
class _Kept:
    number: int
    previous: str | None


class History:
    """What later blocks sign over: the hashes of the blocks so far and their identities, on every branch."""

    def __init__(self) -> None:
        self._blocks: dict[str, _Kept] = {}
        self._identities: dict[str, list[tuple[BlockID, Identity]]] = defaultdict(list)
        self._first = 0
        self._branch: list[str] = []

    def follow(self, block: Block) -> None:
        """Makes the branch that ends with the block before this one the one that `stamp` and `identity` speak of. It is as long as the previous
        hashes lead back over blocks that came before."""
        above: list[str] = []
        number, found = block.number - 1, block.prev_hash
        while number >= 0 and found is not None and not self._has(number, found):
            above.append(found)
            kept = self._blocks.get(found)
            if kept is None or kept.number != number:
                self._branch = []
                break
            number, found = number - 1, kept.previous
        else:
            del self._branch[max(0, number + 1 - self._first) :]
        if not self._branch:
            self._first = block.number - len(above)
        self._branch.extend(reversed(above))

    def stamp(self, number: int) -> BlockID | None:
        """The stamp of the branch's block with this number, where it is known."""
        place = number - self._first
        return BlockID(number, self._branch[place]) if 0 <= place < len(self._branch) else None

    def identity(self, key: str) -> Identity | None:
        """The identity that a block of the branch gives the key, where one does."""
        written = (identity for stamp, identity in self._identities.get(key, ()) if self._has(stamp.number, stamp.sha_hash))
        return next(written, None)

    def add(self, block: Block, block_hash: str) -> None:
        """Keeps the stamp and the identities of a block whose InnerHash is right, so that no other block has this hash."""
        if block_hash in self._blocks:
            return
        self._blocks[block_hash] = _Kept(block.number, block.prev_hash)
        for identity in block.identities:
            self._identities[identity.pubkey].append((BlockID(block.number, block_hash), identity))

    def _has(self, number: int, block_hash: str) -> bool:
        place = number - self._first
        return 0 <= place < len(self._branch) and self._branch[place] == block_hash
