"""Blocks to try a program with: those of the generated chain in the examples, and others that a program forges of documents and that are sealed
here. Signatures are stand-ins, true by their verdicts alone."""

import re
import sys
from dataclasses import dataclass, field, replace
from pathlib import Path
from random import Random

from node import Broken, Node

EXAMPLES = Path(__file__).resolve().parent.parent.parent / "examples"
sys.path.append(str(EXAMPLES))
import asking  # noqa: E402
import blocks  # noqa: E402

# of the generated chain: its first people, its first time, the seconds between its blocks
PEOPLE, FIRST_TIME, PACE = 8, 1_000_000, 60


@dataclass(frozen=True)
class Made:
    """A block, the verdicts on its lines and on itself, and the difficulty that its hash meets. `lacks` are verdicts that are left aside at first."""

    number: int
    issuer: str
    text: str
    stamp: str
    difficulty: int
    verdicts: list[bytes] = field(default_factory=list)
    lacks: list[bytes] = field(default_factory=list)

    def command(self, word: str = "BLOCK") -> bytes:
        return framed(word, self.text.encode())

    def previous(self) -> str:
        return f"{self.number - 1}-{value_of(self.text, 'PreviousHash')}" if self.number else ""


@dataclass(frozen=True)
class Document:
    """The text of a document with its signature, and the verdict on that."""

    text: str
    verdict: bytes


def framed(word: str, text: bytes) -> bytes:
    return b"%s %d\n%s\n" % (word.encode(), len(text), text)


def value_of(text: str, name: str) -> str:
    found = re.search(rf"^{name}: (.*)$", text, re.MULTILINE)
    assert found
    return found[1]


def read(text: str, verdicts: list[bytes], difficulty: int = 0) -> Made:
    """A block that is there already."""
    number = int(value_of(text, "Number"))
    stamp = f"{number}-{blocks.digest(text[text.rindex('InnerHash: ') :])}"
    return Made(number, value_of(text, "Issuer"), text, stamp, difficulty, verdicts)


def sealed(above: str, issuer: str, difficulty: int, verdicts: list[bytes], nonce: int = 0, lacks: list[bytes] | None = None) -> Made:
    """The block with these lines above InnerHash, of the first nonce from this one that meets the difficulty."""
    number = int(value_of(above, "Number"))
    block = blocks.sealed(above, number, issuer, difficulty, nonce)
    return Made(number, issuer, block.text, block.stamp, difficulty, [*verdicts, block.verdict.encode()], lacks or [])


def above_of(text: str) -> str:
    return text[: text.rindex("InnerHash: ")]


def generated(count: int) -> list[Made]:
    """The first blocks of the generated chain of a hundred that is in the examples."""
    found: list[Made] = []
    verdicts: list[bytes] = []
    for command in asking.commands_of((EXAMPLES / "generated_and_reversed.in").read_bytes()):
        if command.startswith(b"VERDICT "):
            verdicts.append(command)
        elif command.startswith(b"BLOCK ") and len(found) < 100:
            made = read(command.split(b"\n", 1)[1][:-1].decode(), [])
            found.append(made)
    # the verdicts come before the first block, in the order of the lines: each block has its own as the last one
    texts = {verdict.split()[2]: place for place, verdict in enumerate(verdicts)}
    begin = 0
    for place, made in enumerate(found):
        signed = made.text[made.text.rindex("InnerHash: ") : made.text.rindex("\n", 0, -1) + 1]
        end = texts[blocks.digest(signed).encode()] + 1
        found[place] = replace(made, verdicts=verdicts[begin:end])
        begin = end
    return found[:count]


def lasting(made: list[Made]) -> list[bytes]:
    """The commands that give these blocks to a program, as the last of its chain."""
    return [command for block in made for command in (*block.verdicts, block.command())]


class Forge:
    """A program that has a chain, and forges blocks on it."""

    def __init__(self, node: Node, chain: list[Made]) -> None:
        self.node, self.chain = node, list(chain)
        if not self.node.ask(lasting(chain))[-1].startswith(b"ACCEPTED "):
            raise Broken("the generated chain is refused")

    def go_to(self, chain: list[Made]) -> None:
        """Makes this chain the program's, which has a block in common with it."""
        same = 0
        while same < min(len(chain), len(self.chain)) and chain[same].stamp == self.chain[same].stamp:
            same += 1
        answers = self.node.ask([b"REVERT %d\n" % (len(self.chain) - same), *lasting(chain[same:])])
        if not answers[-1].startswith((b"ACCEPTED", b"REVERTED")):
            raise Broken(f"a block that was accepted is refused: {answers[-1].decode()}")
        self.chain = list(chain)

    def difficulty(self, issuer: str) -> int:
        return int(self.node.answer(f"DIFF {issuer}\n").split()[1])

    def forge(self, issuer: str, time: int, documents: list[Document], nonce: int = 0) -> Made:
        """The next block, of those of these documents that fit, which the program has from then on."""
        pends = [command for it in documents for command in (it.verdict, framed("PEND", it.text.encode()))]
        hashes = [answer.split()[1] for answer in self.node.ask(pends)[1::2]]
        answer = self.node.answer(f"FORGE {issuer} {time}\n")
        self.node.ask([b"UNPEND %s\n" % it for it in hashes])
        if answer.startswith(("REFUSED", "NONE", "NOMEM")):
            raise Broken(f"FORGE is answered {answer}")
        lines = answer.split("\n")
        out = {line.split()[1] for line in lines if line.startswith("LEFT ")}
        text = "\n".join(line for line in lines[:-1] if not line.startswith("LEFT ")) + "\n"
        verdicts = [it.verdict for it in documents if blocks.digest(it.text) not in out]
        made = sealed(above_of(text), issuer, self.difficulty(issuer), verdicts, nonce)
        accepted = self.node.ask([made.verdicts[-1], made.command()])[-1].decode()
        if accepted != f"ACCEPTED {made.stamp}\n":
            raise Broken(f"a forged block is answered {accepted}")
        self.chain.append(made)
        return made

    def payment(self, payer: int, payee: int, stamp: str, part: int) -> Document | None:
        """The first source of somebody, of which so many hundredths go to somebody else."""
        lines = self.node.answer(f"SOURCES SIG({blocks.key(payer)})\n").split("\n")
        if lines[0] == "END":
            return None
        source = lines[0].split()[1]
        amount, base = map(int, source.split(":")[:2])
        paid = max(1, amount * part // 100)
        outputs = [f"{paid}:{base}:SIG({blocks.key(payee)})"]
        if paid < amount:
            outputs.append(f"{amount - paid}:{base}:SIG({blocks.key(payer)})")
        return signed_document(blocks.key(payer), blocks.payment(blocks.key(payer), stamp, [source], outputs)[1])


def signed_document(issuer: str, signed: str) -> Document:
    return Document(f"{signed}{blocks.SIGNATURE}\n", blocks.verdict(issuer, signed).encode())


def newcomer(number: int, certifier: int, stamp: str) -> list[Document]:
    """Somebody takes a name, joins, and is certified, all with one stamp."""
    key, uid = blocks.key(number), f"user{number}"
    identity = blocks.document("Identity", f"Issuer: {key}", f"UniqueID: {uid}", f"Timestamp: {stamp}")
    joins = [f"Issuer: {key}", f"Block: {stamp}", "Membership: IN", f"UserID: {uid}", f"CertTS: {stamp}"]
    _, certified = blocks.certification(blocks.key(certifier), key, uid, stamp, 0, stamp)
    membership = blocks.document("Membership", *joins)
    return [signed_document(key, identity), signed_document(key, membership), signed_document(blocks.key(certifier), certified)]


# ---- blocks that break a rule

SOURCE, VERDICT, MEDIAN_TIME = "a source that is not there", "a missing verdict", "a median time that is too low"
RULES = {SOURCE: "G87", VERDICT: "G72", MEDIAN_TIME: "G57"}


def resealed(made: Made, above: str, lacks: list[bytes] | None = None) -> Made:
    """The block with other lines, whose own verdict is the last."""
    lacks = lacks or []
    verdicts = [it for it in made.verdicts[:-1] if it not in lacks]
    return sealed(above, made.issuer, made.difficulty, verdicts, lacks=lacks)


def spoilt(made: Made, how: str, issuer: str) -> Made:
    """The block, which breaks one rule first."""
    above = above_of(made.text)
    if how == MEDIAN_TIME:
        told = value_of(above, "MedianTime")
        return resealed(made, above.replace(f"\nMedianTime: {told}\n", f"\nMedianTime: {int(told) - 1}\n"))
    if how == VERDICT:
        # what is signed last, of the documents, is the certification
        return resealed(made, above, [made.verdicts[-2]])
    # block 1 paid nobody a dividend
    lines, text = blocks.payment(issuer, made.previous(), [f"1000:0:D:{issuer}:1"], [f"1000:0:SIG({issuer})"])
    broken = resealed(made, above + lines)
    return replace(broken, verdicts=[blocks.verdict(issuer, text).encode(), *broken.verdicts])


def with_one_spoilt(branch: list[Made], place: int, how: str, issuer: str) -> list[Made]:
    """The branch, whose block at this place, from 0, breaks a rule; those behind it stand on it."""
    found = [*branch[:place], spoilt(branch[place], how, issuer)]
    for made in branch[place + 1 :]:
        before = f"PreviousHash: {found[-1].stamp.split('-')[1]}\n"
        found.append(resealed(made, re.sub(r"PreviousHash: .*\n", before, above_of(made.text), count=1)))
    return found


# ---- a tree of branches


def fork(forge: Forge, below: list[Made], count: int, delay: int, chance: Random) -> list[Made]:
    """So many blocks behind a chain, of payments and newcomers, which come so many seconds behind their minutes."""
    forge.go_to(below)
    # a stamp that all branches have
    stamp = below[-1].stamp
    for place in range(count):
        number, documents = len(forge.chain), []
        paid = forge.payment(chance.randrange(PEOPLE), chance.randrange(PEOPLE), stamp, chance.randrange(1, 101))
        documents += [paid] if paid and chance.random() < 0.8 else []
        documents += newcomer(100 + delay * 50 + place, chance.randrange(PEOPLE), stamp) if chance.random() < 0.3 else []
        forge.forge(blocks.key(number % PEOPLE), FIRST_TIME + PACE * number + delay, documents, chance.randrange(1 << 20))
    return forge.chain[len(below) :]
