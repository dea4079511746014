"""The first block of a currency: people who certify one another, signed and mined by one of them."""
from .blocks import SECTIONS, digest, joined
from .miner import search
from .spelling import EMPTY_STAMP
from .wallet import Wallet


def first_block(founders: list[Wallet], parameters: str, time: int, difficulty: int = 0) -> bytes:
    """The block with these people as members; the first of them issues it. `time` is in seconds."""
    issuer = founders[0]
    lines: dict[str, list[str]] = {name: [] for name in SECTIONS}
    for each in founders:
        signature = each.identity(EMPTY_STAMP).split("\n")[-2]
        lines["Identities"].append(f"{each.key}:{signature}:{EMPTY_STAMP}:{each.uid}")
        signature = each.membership(EMPTY_STAMP, EMPTY_STAMP).split("\n")[-2]
        lines["Joiners"].append(f"{each.key}:{signature}:{EMPTY_STAMP}:{EMPTY_STAMP}:{each.uid}")
        for other in founders:
            if other is not each:
                signature = each.certification(other, EMPTY_STAMP, EMPTY_STAMP).split("\n")[-2]
                lines["Certifications"].append(f"{each.key}:{other.key}:0:{signature}")
    above = [
        "Version: 10", "Type: Block", f"Currency: {issuer.currency}", "Number: 0", f"PoWMin: {difficulty}", f"Time: {time}",
        f"MedianTime: {time}", "UnitBase: 0", f"Issuer: {issuer.key}", "IssuersFrame: 1", "IssuersFrameVar: 0",
        "DifferentIssuersCount: 0", f"Parameters: {parameters}", f"MembersCount: {len(founders)}",
    ]
    for name in SECTIONS:
        above += [f"{name}:", *lines[name]]
    inner = f"InnerHash: {digest(joined(above))}"
    nonce, signature = search(inner, difficulty, issuer.issuer.seed)
    return joined([*above, inner, f"Nonce: {nonce}", signature]).encode("ascii")
