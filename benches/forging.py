"""Makes inputs in which a block is forged of documents that wait: each is a chain, the documents with their verdicts, and one FORGE."""
import pathlib
import sys
from collections.abc import Iterator

sys.dont_write_bytecode = True
sys.path.append(str(pathlib.Path(__file__).resolve().parent.parent / "examples"))
import blocks

WAITING = 1_024
# the lines of a payment with one input and one output
PAYMENT_LINES = 7
# what a member gets by the first dividend, which block 1 brings; there is no other
DIVIDEND = 1_000_000
OUTPUTS = 86
SPENDING = blocks.PARAMETERS.replace(":100:1000:", f":1000000:{DIVIDEND}:").replace(":1000000000000:1000000000000:", ":1000:1000000000000:")
CERTIFIED = 4
# four certifications make a member, and who certified need not wait
JOINING = blocks.PARAMETERS.replace(":50:20:1000:5000:0:", f":0:20:1000:5000:{CERTIFIED}:")
NEWCOMERS, EACH_CERTIFIED = 128, 6


def pend(issuer: str, signed: str) -> str:
    """The verdict on a document, and the document."""
    text = f"{signed}{blocks.SIGNATURE}\n"
    return f"{blocks.verdict(issuer, signed)}PEND {len(text)}\n{text}\n"


def digest_of(signed: str) -> str:
    """The hash of a document that is signed."""
    return blocks.digest(f"{signed}{blocks.SIGNATURE}\n")


class Payer:
    """Somebody who is paid a dividend, and who issues blocks in which it goes from hand to hand, each a tenth longer than the one before, as long as a block may be."""

    def __init__(self) -> None:
        self.chain, members = blocks.Chain(), [blocks.Member(number) for number in range(3)]
        self.key = blocks.key(0)
        self.commands = [*blocks.verdicts_of(members)]
        self.issue(blocks.sections_of_members(members))
        self.issue(blocks.sections(), dividend=DIVIDEND)
        self.stamp, self.source = self.chain.stamp(), f"{DIVIDEND}:0:D:{self.key}:1"

    def issue(self, lines: str, dividend: int | None = None) -> None:
        block = blocks.next_block(self.chain, self.key, 3, lines, SPENDING, dividend=dividend)
        self.commands += [block.verdict, block.command()]

    def pays(self, source: str, outputs: list[str]) -> tuple[str, str]:
        """The lines of a payment, and the text whose hash names what it makes."""
        lines, signed = blocks.payment(self.key, self.stamp, [source], outputs)
        return lines, signed

    def passes(self) -> tuple[str, str]:
        """A payment of what the last one made."""
        amount = self.source.split(":")[0]
        lines, signed = self.pays(self.source, [f"{amount}:0:SIG({self.key})"])
        self.source = f"{amount}:0:T:{digest_of(signed)}:0"
        return lines, signed

    def passes_on(self, count: int) -> str:
        """The lines of so many payments, each of what the one before makes."""
        found = [self.passes() for _ in range(count)]
        self.commands += [blocks.verdict(self.key, signed) for _, signed in found]
        return "".join(lines for lines, _ in found)

    def splits(self, count: int) -> tuple[str, list[str]]:
        """The lines of payments by which so many sources of one unit are there, and these."""
        found, sources = [], []
        while len(sources) < count:
            amount = int(self.source.split(":")[0]) - OUTPUTS
            lines, signed = self.pays(self.source, [f"{amount}:0:SIG({self.key})", *[f"1:0:SIG({self.key})"] * OUTPUTS])
            self.commands.append(blocks.verdict(self.key, signed))
            digest = digest_of(signed)
            found.append(lines)
            sources += [f"1:0:T:{digest}:{place}" for place in range(1, OUTPUTS + 1)]
            self.source = f"{amount}:0:T:{digest}:0"
        return "".join(found), sources[:count]

    def pays_each(self, conditions: list[str], units: int) -> str:
        """The lines of payments of so many units to each of these conditions."""
        found = []
        for place in range(0, len(conditions), OUTPUTS):
            paid = [f"{units}:0:{condition}" for condition in conditions[place : place + OUTPUTS]]
            amount = int(self.source.split(":")[0]) - units * len(paid)
            lines, signed = self.pays(self.source, [f"{amount}:0:SIG({self.key})", *paid])
            self.commands.append(blocks.verdict(self.key, signed))
            self.source = f"{amount}:0:T:{digest_of(signed)}:0"
            found.append(lines)
        return "".join(found)

    def grows(self, lines: int) -> int:
        """Blocks are issued until one with so many lines may follow, and no more; told is how many it may have."""
        most = 499
        while most < lines:
            count = most // PAYMENT_LINES
            self.issue(blocks.sections(Transactions=self.passes_on(count)))
            most = -(-11 * count * PAYMENT_LINES // 10) - 1
        return most

    def forge(self) -> str:
        return f"FORGE {self.key} {1000 + 60 * self.chain.length()}\n"


def apart() -> tuple[list[str], str]:
    """As many payments as may wait, each of a source of its own: all fit."""
    payer = Payer()
    most = payer.grows(WAITING * PAYMENT_LINES)
    lines, sources = payer.splits(WAITING)
    others = (most - lines.count("\n")) // PAYMENT_LINES
    payer.issue(blocks.sections(Transactions=lines + payer.passes_on(others)))
    pends = [pend(payer.key, payer.pays(source, [f"1:0:SIG({blocks.key(1)})"])[1]) for source in sources]
    return [*payer.commands, *pends], payer.forge()


def one_source() -> tuple[list[str], str]:
    """As many payments as may wait, all of one source: one fits."""
    payer = Payer()
    amount = payer.source.split(":")[0]
    pends = [pend(payer.key, payer.pays(payer.source, [f"{amount}:0:SIG({blocks.key(number)})"])[1]) for number in range(WAITING)]
    return [*payer.commands, *pends], payer.forge()


def passed_on(backward: bool) -> tuple[list[str], str]:
    """As many payments as may wait, each of what the one before makes, or the one behind: as many fit as a block may have."""
    payer, pends = Payer(), []
    for _ in range(WAITING):
        pends.append(pend(payer.key, payer.passes()[1]))
    return [*payer.commands, *(pends[::-1] if backward else pends)], payer.forge()


class Newcomer:
    """Somebody who is to join, by six members of whom none certifies anybody else."""

    def __init__(self, number: int, members: int, stamp: str) -> None:
        self.key, uid = blocks.key(members + number), f"new{number}"
        issuer = f"Issuer: {self.key}"
        identity = blocks.document("Identity", issuer, f"UniqueID: {uid}", f"Timestamp: {stamp}")
        membership = blocks.document("Membership", issuer, f"Block: {stamp}", "Membership: IN", f"UserID: {uid}", f"CertTS: {stamp}")
        certifiers = [blocks.key(EACH_CERTIFIED * number + place) for place in range(EACH_CERTIFIED)]
        self.own = [pend(self.key, identity), pend(self.key, membership)]
        self.certifications = [pend(other, blocks.certification(other, self.key, uid, stamp, 0, stamp)[1]) for other in certifiers]


def newcomers(backward: bool) -> tuple[list[str], str]:
    """128 people who are to join, with six certifications each: one after another, or all certifications before the memberships, and these before the identities."""
    count = NEWCOMERS * EACH_CERTIFIED
    members, chain = [blocks.Member(number) for number in range(count)], blocks.Chain()
    certifications, commands = [], blocks.verdicts_of(members)
    for number, member in enumerate(members):
        for step in range(1, CERTIFIED + 1):
            other = members[(number + step * step * 7) % count]
            line, signed = blocks.certification(member.key, other.key, other.uid, blocks.EMPTY, 0, blocks.EMPTY)
            certifications.append(line)
            commands.append(blocks.verdict(member.key, signed))
    block = blocks.next_block(chain, members[0].key, count, blocks.sections_of_members(members, "".join(certifications)), JOINING)
    come = [Newcomer(number, count, chain.stamp()) for number in range(NEWCOMERS)]
    in_turn = [text for each in come for text in (*each.own, *each.certifications)]
    worst = [text for each in come for text in each.certifications] + [each.own[place] for place in (1, 0) for each in come]
    return [*commands, block.verdict, block.command(), *(worst if backward else in_turn)], f"FORGE {members[1].key} 1060\n"


MADE = {
    "payments_apart": apart,
    "payments_of_one_source": one_source,
    "payments_passed_on": lambda: passed_on(False),
    "payments_passed_on_backward": lambda: passed_on(True),
    "newcomers": lambda: newcomers(False),
    "newcomers_certified_first": lambda: newcomers(True),
}


def waiting(name: str) -> Iterator[bytes]:
    """The chain and the documents of an input."""
    yield from (command.encode() for command in MADE[name]()[0])


def forged(name: str) -> Iterator[bytes]:
    """The same, and what forges a block of them."""
    commands, forge = MADE[name]()
    yield from (command.encode() for command in [*commands, forge])
