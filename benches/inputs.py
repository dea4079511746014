"""Makes the inputs that are measured, as pieces of bytes."""
import copy
import functools
import pathlib
import subprocess
import sys
import tempfile
from collections.abc import Callable, Iterable, Iterator
from dataclasses import dataclass

HERE = pathlib.Path(__file__).resolve().parent
sys.dont_write_bytecode = True
sys.path.append(str(HERE.parent / "examples"))
import asking
import blocks
import forging

MEGABYTE = 1_000_000
REVERSIBLE, STORED = 100, 1024
QUERIES = ["HEAD", "MONEY", "IDENTITY", "UID", "CERTS", "BALANCE", "SOURCES", "DISTANCE", "DIFF", "RECORDS", "SHOW"]
QUERY_COUNT, STATEMENT_COUNT, SWITCH_COUNT = 100_000, 10_000, 200
GENERATED_BLOCKS, GENERATED_ISSUERS = 5_000, 40
EXCLUDED_KEYS = 23_000
# a command that might change something, and changes nothing where a node does not choose by itself
CHANGE = b"AUTO OFF\n"
# where what was crafted is kept, if anywhere
KEPT: pathlib.Path | None = None
WEB_MEMBERS, WEB_CERTIFICATIONS, JOINERS = 2_000, 50, 100
WEB_PARAMETERS = "0.1:100:1000:0:1000:1000000:1000000000:0:1000:1000:0.8:1000000000:5:5:60:10:0.67:1000000000000:1000000000000:1000"


@dataclass
class Workload:
    """An input, and the words that the program is given. Where it begins with all of another one, that one is named, and what it costs is taken off."""

    name: str
    pieces: Callable[[], Iterable[bytes]]
    behind: str | None = None
    words: tuple[str, ...] = ("run",)


def generated(count: int, issuers: int) -> Iterator[bytes]:
    """A chain of so many blocks, each behind the verdicts on its signatures: each piece has one block."""
    chain, members = blocks.Chain(), [blocks.Member(number) for number in range(issuers)]
    for number in range(count):
        lines = blocks.sections() if number else blocks.sections_of_members(members)
        verdicts = [] if number else blocks.verdicts_of(members)
        block = blocks.next_block(chain, blocks.key(number % issuers), issuers, lines)
        yield "".join([*verdicts, block.verdict, block.command()]).encode()


def frames_of(commands: bytes) -> list[bytes]:
    """The texts of the submitted blocks."""
    return [command.split(b"\n", 1)[1][:-1] for command in asking.commands_of(commands) if command.startswith(b"BLOCK ")]


def stamp_of(text: bytes) -> str:
    number = text.split(b"\nNumber: ", 1)[1].split(b"\n", 1)[0].decode()
    return f"{number}-{blocks.digest(text[text.rindex(b'InnerHash: ') :].decode())}"


def switched(chain: bytes, times: int = SWITCH_COUNT) -> bytes:
    """So many times: a hundred blocks are taken off the chain and offered, and a switch to the last one puts them back."""
    last = frames_of(chain)[-REVERSIBLE:]
    offers = b"".join(b"OFFER %d\n%s\n" % (len(text), text) for text in last)
    return (f"REVERT {len(last)}\n".encode() + offers + f"SWITCH {stamp_of(last[-1])}\n".encode()) * times


def asked(chain: bytes, word: str, count: int = QUERY_COUNT) -> bytes:
    """So many queries of one kind, on the first 40 keys, names or accounts of the first block in turn, or on blocks from all over the chain."""
    texts = frames_of(chain)
    lines = texts[0].split(b"\nIdentities:\n")[1].split(b"Joiners:\n")[0].decode().splitlines()[:40]
    keys, uids = [line.split(":")[0] for line in lines], [line.split(":")[-1] for line in lines]
    words = {"UID": uids, "BALANCE": [f"SIG({key})" for key in keys]}
    words["SOURCES"] = words["STATEMENT"] = words["BALANCE"]
    if word in ("HEAD", "MONEY"):
        return f"{word}\n".encode() * count
    if word in ("RECORDS", "SHOW"):
        return "".join(f"{word} {place * 7919 % len(texts)}\n" for place in range(count)).encode()
    named = words.get(word, keys)
    return "".join(f"{word} {named[place % len(named)]}\n" for place in range(count)).encode()


def anew(queries: bytes) -> bytes:
    """The same queries, before each of which a command stands that might change something, and changes nothing."""
    return queries.replace(b"\n", b"\n" + CHANGE)


def offered(given: str) -> bytes:
    """The block of a BLOCK command as one of OFFER."""
    return b"OFFER" + given.encode().removeprefix(b"BLOCK")


def path_chosen(stored: int = STORED) -> Iterator[bytes]:
    """A path of so many blocks on a first one, offered from its end to its beginning while the node chooses by itself: with the last offer it is a candidate."""
    first, *path = [asking.commands_of(piece) for piece in generated(stored + 1, GENERATED_ISSUERS)]
    yield from [*first, b"AUTO ON\n"]
    for *verdicts, block in reversed(path):
        yield from [*verdicts, offered(block.decode())]


def rivals_fail(nonces: Iterable[int] = range(STORED - 2)) -> Iterator[bytes]:
    """Two blocks on a first one, and on them rivals with these nonces, as many as fill the store, offered while the node chooses by itself: each is tried,
    and fails by its median time."""
    chain, members = blocks.Chain(), [blocks.Member(number) for number in range(GENERATED_ISSUERS)]
    first = blocks.next_block(chain, blocks.key(0), len(members), blocks.sections_of_members(members))
    yield "".join([*blocks.verdicts_of(members), first.verdict, first.command(), "AUTO ON\n"]).encode()
    for number in (1, 2):
        block = blocks.next_block(chain, blocks.key(number), len(members), blocks.sections())
        yield block.verdict.encode() + offered(block.command())
    for nonce in nonces:
        rival = blocks.next_block(copy.deepcopy(chain), blocks.key(3), len(members), blocks.sections(), early=1, nonce=nonce)
        yield rival.verdict.encode() + offered(rival.command())


def stored(condition: str, count: int = 16) -> Iterator[bytes]:
    """A first block, and so many rivals behind it that are offered, each a megabyte of payments to this condition that keeps all rules on a block
    by itself."""
    chain, members = blocks.Chain(), [blocks.Member(number) for number in range(GENERATED_ISSUERS)]
    first = blocks.next_block(chain, blocks.key(0), len(members), blocks.sections_of_members(members))
    yield "".join([*blocks.verdicts_of(members), first.verdict, first.command()]).encode()
    lines, length = [], 0
    while length < MEGABYTE - 20_000:
        place = len(lines)
        made, signed = blocks.payment(blocks.key(1), chain.stamp(), [f"90:0:D:{blocks.key(1)}:{place}"], [f"1:0:{condition}"] * 90, place)
        lines.append(made)
        yield blocks.verdict(blocks.key(1), signed).encode()
        length += len(made)
    paid = blocks.sections(Transactions="".join(lines))
    for nonce in range(count):
        rival = blocks.next_block(copy.deepcopy(chain), blocks.key(2), len(members), paid, nonce=nonce * 1_000)
        yield rival.verdict.encode() + offered(rival.command())


@functools.cache
def crafted_lines(kind: str, count: int) -> list[str]:
    """So many lines of `crafted.c`: `keys`, `conditions`, or verdicts by `bytes` or `whole`, that fall into one group of a hash table under the
    toolchain's own hash; or `other-keys`, `other-conditions` and verdicts by `none`, which nobody crafted. Some of them take minutes, and stay in
    the folder KEPT where that is named."""
    kept = KEPT and KEPT / f"{kind}-{count}"
    if kept and kept.exists():
        return kept.read_text().splitlines()
    with tempfile.TemporaryDirectory() as folder:
        program = pathlib.Path(folder) / "crafted"
        subprocess.run(["cc", "-O2", "-o", program, HERE / "crafted.c"], check=True)
        made = subprocess.run([program, kind, str(count)], stdout=subprocess.PIPE, check=True, text=True).stdout
    if kept:
        kept.write_text(made)
    return made.splitlines()


def excluding(kind: str, issuer: int, count: int = 20) -> Iterator[bytes]:
    """A first block of 40 members, and so many times a block of a megabyte by the key of this number, with such keys in Excluded."""
    chain, members = blocks.Chain(), [blocks.Member(number) for number in range(GENERATED_ISSUERS)]
    first = blocks.next_block(chain, blocks.key(0), len(members), blocks.sections_of_members(members))
    yield "".join([*blocks.verdicts_of(members), first.verdict, first.command()]).encode()
    lines = "".join(f"{key}\n" for key in crafted_lines(kind, EXCLUDED_KEYS))
    block = blocks.next_block(chain, blocks.key(issuer), len(members), blocks.sections(Excluded=lines))
    yield block.verdict.encode()
    for _ in range(count):
        yield block.command().encode()


def crafted() -> list[Workload]:
    """Keys that strangers choose, crafted to collide and not, in blocks by one who is no member and by one who is."""
    issuers = {"stranger": GENERATED_ISSUERS, "member": 1}
    return [
        Workload(f"excluded_{name}_by_a_{who}", lambda kind=kind, issuer=issuer: excluding(kind, issuer))
        for who, issuer in issuers.items()
        for name, kind in [("crafted", "keys"), ("others", "other-keys")]
    ]


def first_blocks() -> Iterator[bytes]:
    given = (HERE.parent / "examples/first_block.in").read_bytes().removeprefix(b"HEAD\n").removesuffix(b"HEAD\n")
    verdict, block = given.split(b"\n", 1)
    yield verdict + b"\n"
    for _ in range(1_000):
        yield block * 1_000


def full_section(section: str, lines: str, count: int = 50) -> list[bytes]:
    """So many blocks of a megabyte whose one section has these lines over and over, and whose InnerHash is wrong."""
    digest, key = "0" * 64, "4" * 43
    above = (
        "Version: 10\nType: Block\nCurrency: test_currency\nNumber: 12\nPoWMin: 0\nTime: 1488987127\nMedianTime: 1488987127\nUnitBase: 0\n"
        f"Issuer: {blocks.key(0)}\nIssuersFrame: 1\nIssuersFrameVar: 0\nDifferentIssuersCount: 0\n"
        f"PreviousHash: {digest}\nPreviousIssuer: {key}\nMembersCount: 59\n"
    )
    above += blocks.sections(**{section: lines * (MEGABYTE // len(lines))})
    text = f"{above}InnerHash: {digest}\nNonce: 0\n{blocks.SIGNATURE}\n"
    return [f"BLOCK {len(text)}\n{text}\n".encode()] * count


def paying(count: int, condition: str) -> str:
    """A transaction with so many outputs of a condition."""
    key, digest = "4" * 43, "0" * 64
    lines, _ = blocks.payment(key, f"7-{digest}", [f"1000:0:D:{key}:4"], [f"1:0:{condition}"] * count, 60)
    return lines


def local_blocks(certifications: int, transactions: int) -> list[bytes]:
    return [subprocess.run([HERE / "local_blocks", str(certifications), str(transactions)], stdout=subprocess.PIPE, check=True).stdout]


def lines_and_frames() -> list[Workload]:
    """What is read and refused, or answered without a chain."""
    key, digest = "4" * 43, "0" * 64
    return [
        Workload("heads", lambda: [b"HEAD\n"] * 100_000),
        Workload("frames", lambda: [b"BLOCK %d\n" % MEGABYTE + b"x" * MEGABYTE + b"\n"] * 200),
        Workload("long_frames", lambda: [b"BLOCK %d\n" % (2 * MEGABYTE) + b"x" * (2 * MEGABYTE) + b"\n"] * 100),
        Workload("bad_lines", lambda: [b"x" * 99 + b"\n"] * 1_000_000),
        Workload("first_blocks", first_blocks),
        Workload("certifications", lambda: full_section("Certifications", f"{key}:{key}:9:{blocks.SIGNATURE}\n")),
        Workload("identities", lambda: full_section("Identities", f"{key}:{blocks.SIGNATURE}:7-{digest}:alice\n")),
        Workload("transactions", lambda: full_section("Transactions", paying(2, f"SIG({key})"))),
        Workload("short_conditions", lambda: full_section("Transactions", paying(100, "CSV(0)"))),
        Workload("nested_conditions", lambda: full_section("Transactions", paying(100, "(" * 63 + "CSV(0)" + ")" * 63))),
        Workload("many_certifications", lambda: local_blocks(5_000, 1)),
        Workload("many_transactions", lambda: local_blocks(0, 2_000)),
    ]


def choices() -> list[Workload]:
    """What the node chooses among by itself."""
    return [Workload("path_chosen", path_chosen), Workload("rivals_fail", rivals_fail)]


def blocks_stored() -> list[Workload]:
    """Offered blocks of a megabyte, of conditions that take much room, and of others."""
    nested, key = "(" * 63 + "CSV(0)" + ")" * 63, blocks.key(1)
    return [Workload(f"stored_{name}", lambda given=given: stored(given)) for name, given in [("nested", nested), ("short", "CSV(0)"), ("signed", f"SIG({key})")]]


class Web:
    """A chain whose members certify one another: each certifies so many others, one in each block behind the first."""

    def __init__(self, count: int, certifications: int) -> None:
        self.members, self.certifications, self.chain = [blocks.Member(number) for number in range(count)], certifications, blocks.Chain()

    def next(self, lines: str, verdicts: Iterable[str], members: int) -> bytes:
        """The next block with these lines, behind the verdicts on them; there are so many members with it."""
        issuer = self.members[self.chain.length() % 3].key
        block = blocks.next_block(self.chain, issuer, members, lines, WEB_PARAMETERS)
        return "".join([*verdicts, block.verdict, block.command()]).encode()

    def commands(self) -> Iterator[bytes]:
        """All its blocks, in pieces."""
        members, count = self.members, len(self.members)
        yield self.next(blocks.sections_of_members(members), blocks.verdicts_of(members), count)
        for _ in range(self.certifications):
            yield self.certified(count)

    def certified(self, count: int) -> bytes:
        """The next block, with which so many of them certify one more each."""
        members, number = self.members, self.chain.length()
        lines, verdicts, step = [], [], number * (number + 1) // 2
        for at, member in enumerate(members[:count]):
            other = members[(at + step) % len(members)]
            line, signed = blocks.certification(member.key, other.key, other.uid, blocks.EMPTY, number - 1, self.chain.stamp())
            lines.append(line)
            verdicts.append(blocks.verdict(member.key, signed))
        return self.next(blocks.sections(Certifications="".join(lines)), verdicts, len(members))

    def joined(self, joiners: int = JOINERS) -> bytes:
        """One block more, with which so many join: how near each is to the sentries is asked of the whole web."""
        count, stamp = len(self.members), self.chain.stamp()
        lines: dict[str, list[str]] = {"Identities": [], "Joiners": [], "Certifications": []}
        verdicts = []
        for number in range(joiners):
            key, uid, certifier = blocks.key(count + number), f"new{number}", self.members[number]
            issuer = f"Issuer: {key}"
            identity = blocks.document("Identity", issuer, f"UniqueID: {uid}", f"Timestamp: {stamp}")
            membership = blocks.document("Membership", issuer, f"Block: {stamp}", "Membership: IN", f"UserID: {uid}", f"CertTS: {stamp}")
            line, signed = blocks.certification(certifier.key, key, uid, stamp, self.chain.length() - 1, stamp)
            lines["Identities"].append(f"{key}:{blocks.SIGNATURE}:{stamp}:{uid}\n")
            lines["Joiners"].append(f"{key}:{blocks.SIGNATURE}:{stamp}:{stamp}:{uid}\n")
            lines["Certifications"].append(line)
            verdicts += [blocks.verdict(key, identity), blocks.verdict(key, membership), blocks.verdict(certifier.key, signed)]
        return self.next(blocks.sections(**{name: "".join(each) for name, each in lines.items()}), verdicts, count + joiners)

    def and_joined(self) -> Iterator[bytes]:
        """All its blocks, and that one."""
        yield from self.commands()
        yield self.joined()


def webs() -> list[Workload]:
    """A dense web, and a block with which many join it."""
    name = f"web_{WEB_MEMBERS}_{WEB_CERTIFICATIONS}"
    whole, joined = (lambda: Web(WEB_MEMBERS, WEB_CERTIFICATIONS).commands()), (lambda: Web(WEB_MEMBERS, WEB_CERTIFICATIONS).and_joined())
    return [Workload(name, whole), Workload("joiners_of_a_web", joined, name)]


def chains() -> list[Workload]:
    """Chains of blocks without lines."""
    sizes = [(1_000, 40), (10_000, 40), (100_000, 40), (1_000, 2_000), (10_000, 2_000)]
    return [Workload(f"chain_{count}_{issuers}", lambda count=count, issuers=issuers: generated(count, issuers)) for count, issuers in sizes]


def behind_a_chain(file: pathlib.Path | None) -> list[Workload]:
    """A chain, which is handed in or made; and behind it switches, and queries of each kind."""
    name = "generated" if file else f"chain_{GENERATED_BLOCKS}_{GENERATED_ISSUERS}"

    def chain() -> bytes:
        return file.read_bytes() if file else b"".join(generated(GENERATED_BLOCKS, GENERATED_ISSUERS))

    found = [Workload(name, lambda: [chain()]), Workload("switches", lambda: [given := chain(), switched(given)], name)]
    found += [Workload(word.lower(), lambda word=word: [given := chain(), asked(given, word)], name) for word in QUERIES]
    found.append(Workload("changes", lambda: [chain(), CHANGE * QUERY_COUNT], name))
    found += [Workload(f"{word.lower()}_anew", lambda word=word: [given := chain(), anew(asked(given, word))], "changes") for word in QUERIES]
    return [*found, Workload("statement", lambda: [given := chain(), asked(given, "STATEMENT", STATEMENT_COUNT)], name)]


def blocks_forged() -> list[Workload]:
    """Documents that wait, and a block that is forged of them."""
    found = []
    for name in forging.MADE:
        found.append(Workload(f"{name}_waiting", lambda name=name: forging.waiting(name)))
        found.append(Workload(name, lambda name=name: forging.forged(name), f"{name}_waiting"))
    return found


def made_from_a_number() -> list[Workload]:
    """A chain that the program makes itself: it is given no input."""
    return [Workload("gen", list, words=("gen", str(GENERATED_BLOCKS), "7"))]


def handed_in(name: str, file: pathlib.Path) -> Workload:
    return Workload(name, lambda: [file.read_bytes()])
