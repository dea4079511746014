"""Blocks of tests, mined and signed."""
from service.blocks import digest, joined
from service.miner import search
from service.wallet import Wallet

ENOUGH = 32


def mined(lines: list[str], wallet: Wallet, difficulty: int = ENOUGH) -> bytes:
    """The block with these lines above InnerHash, which meets a difficulty at least."""
    inner = f"InnerHash: {digest(joined(lines))}"
    nonce, signature = search(inner, difficulty, wallet.issuer.seed)
    return joined([*lines, inner, f"Nonce: {nonce}", signature]).encode()


def changed(lines: list[str], name: str, value: str | None) -> list[str]:
    """The lines with another value behind a name; without that line where there is None."""
    found = [f"{name}: {value}" if line.startswith(f"{name}: ") else line for line in lines]
    return [line for line in found if value is not None or not line.startswith(f"{name}: ")]
