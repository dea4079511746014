"""Makes blocks of a small currency, and computes what their headers say. All signatures are the same, and true by the verdicts alone."""
import hashlib
from collections import Counter, deque

DIGITS = "123456789ABCDEFGHJKLMNPQRSTUVWXYZabcdefghijkmnopqrstuvwxyz"
PARAMETERS = "0.1:100:1000:50:20:1000:5000:0:1000:1000:0.5:1000000000:3:5:60:10:0.67:1000000000000:1000000000000:1000"
MEDIAN_TIME_BLOCKS, DIFFICULTY_BLOCKS = 5, 10
SHORTEST, LONGEST = 60 * 1000 // 1189, -(-60 * 1189 // 1000)
EMPTY = "0-E3B0C44298FC1C149AFBF4C8996FB92427AE41E4649B934CA495991B7852B855"
SIGNATURE = "A" * 86 + "=="
SECTIONS = ["Identities", "Joiners", "Actives", "Leavers", "Revoked", "Excluded", "Certifications", "Transactions"]


def digest(text):
    return hashlib.sha256(text.encode()).hexdigest().upper()


def key(number):
    return "1" * 40 + DIGITS[number // 3364] + DIGITS[number // 58 % 58] + DIGITS[number % 58]


def document(kind, *lines):
    return "".join(f"{line}\n" for line in ("Version: 10", f"Type: {kind}", "Currency: test_currency", *lines))


class Member:
    """One of whom the first block has a line of Identities and one of Joiners."""

    def __init__(self, number):
        self.key, self.uid = key(number), f"user{number}"

    def identity(self):
        return f"{self.key}:{SIGNATURE}:{EMPTY}:{self.uid}\n"

    def joiner(self):
        return f"{self.key}:{SIGNATURE}:{EMPTY}:{EMPTY}:{self.uid}\n"

    def documents(self):
        """The texts that the two lines sign."""
        issuer = f"Issuer: {self.key}"
        yield document("Identity", issuer, f"UniqueID: {self.uid}", f"Timestamp: {EMPTY}")
        yield document("Membership", issuer, f"Block: {EMPTY}", "Membership: IN", f"UserID: {self.uid}", f"CertTS: {EMPTY}")


def sections(**lines):
    """The sections of a block, where those that are named have these lines."""
    return "".join(f"{name}:\n{lines.get(name, '')}" for name in SECTIONS)


def sections_of_members(members, certifications=""):
    identities, joiners = "".join(m.identity() for m in members), "".join(m.joiner() for m in members)
    return sections(Identities=identities, Joiners=joiners, Certifications=certifications)


def handicap(own, doubled_median):
    step, reached = 1_000_000, 0
    while reached < 64:
        step = -(-step * 1189 // 1000)
        if step * doubled_median > (own + 1) * 2_000_000:
            break
        reached += 1
    return reached


def meets(text, difficulty):
    zeros, least = difficulty // 16, 15 - difficulty % 16
    return text.startswith("0" * zeros) and int(text[zeros], 16) <= least


class Chain:
    """What the header of the next block is computed from."""

    def __init__(self):
        self.times, self.frame_issuers, self.counts = deque(), deque(), Counter()
        self.frame, self.variation, self.issuers, self.median_time = 1, 0, 0, 0
        self.medians, self.last_blocks = [], {}
        self.least, self.next_evaluation = 0, DIFFICULTY_BLOCKS
        self.previous = None

    def length(self):
        return len(self.medians)

    def stamp(self):
        """The stamp of the last block."""
        return f"{self.length() - 1}-{self.previous[0]}"

    def header(self, number, time):
        """The values of the head of the next block."""
        if number == 0:
            return time, 1, 0, 0, 0
        ordered = sorted(self.times)
        middle = (ordered[(len(ordered) - 1) // 2] + ordered[len(ordered) // 2]) // 2
        median_time, issuers = max(self.median_time, middle), len(self.counts)
        sign = (self.variation > 0) - (self.variation < 0)
        variation = self.variation + 5 * (issuers - self.issuers) - sign
        return median_time, max(1, self.frame + sign), variation, issuers, self.least_difficulty(number, median_time)

    def least_difficulty(self, number, median_time):
        if self.next_evaluation > number:
            return self.least
        blocks = min(DIFFICULTY_BLOCKS, number)
        elapsed = median_time - self.medians[number - blocks]
        if elapsed <= blocks * SHORTEST:
            return self.least + (2 if (self.least + 2) % 16 == 0 else 1)
        if elapsed >= blocks * LONGEST:
            return max(0, self.least - 2) if self.least % 16 == 0 else self.least - 1
        return self.least

    def difficulty(self, number, issuer, least):
        if number == 0:
            return 0
        last, issuers = self.last_blocks.get(issuer, (number - 1, 0))
        found = max(least, least * (67 * issuers // (100 * (number - last))))
        found += (found + 1) % 16 == 0
        each = sorted(self.counts.values())
        return found + handicap(self.counts.get(issuer, 0), each[(len(each) - 1) // 2] + each[len(each) // 2])

    def join(self, number, issuer, time, values, text):
        self.median_time, self.frame, self.variation, self.issuers, self.least = values
        if number and self.next_evaluation <= number:
            self.next_evaluation += DIFFICULTY_BLOCKS
        self.medians.append(self.median_time)
        self.last_blocks[issuer] = (number, self.issuers)
        self.times.append(time)
        if len(self.times) > MEDIAN_TIME_BLOCKS:
            self.times.popleft()
        self.frame_issuers.append(issuer)
        self.counts[issuer] += 1
        while len(self.frame_issuers) > self.frame:
            gone = self.frame_issuers.popleft()
            self.counts[gone] -= 1
            if self.counts[gone] == 0:
                del self.counts[gone]
        self.previous = (text, issuer)


def verdict(issuer, text, signature=SIGNATURE):
    """The command which says that the signature of a text is true."""
    return f"VERDICT {issuer} {digest(text)} {signature}\n"


def verdicts_of(members):
    """The verdicts on the lines of the first block."""
    return [verdict(member.key, text) for member in members for text in member.documents()]


def certification(issuer, receiver, uid, identity, number, stamp, signature=SIGNATURE, identity_signature=SIGNATURE):
    """The line of a certification, on the block of this number and stamp, and the text that it signs. The identity is told by its stamp and its signature."""
    lines = [f"Issuer: {issuer}", f"IdtyIssuer: {receiver}", f"IdtyUniqueID: {uid}", f"IdtyTimestamp: {identity}"]
    text = document("Certification", *lines, f"IdtySignature: {identity_signature}", f"CertTimestamp: {stamp}")
    return f"{issuer}:{receiver}:{number}:{signature}\n", text


def payment(issuer, stamp, inputs, outputs, locktime=0, signature=SIGNATURE):
    """The lines of a transaction by one issuer, and the text that they sign."""
    unlocks = [f"{place}:SIG(0)" for place in range(len(inputs))]
    opening = f"TX:10:1:{len(inputs)}:{len(unlocks)}:{len(outputs)}:0:{locktime}"
    lines = [opening, stamp, issuer, *inputs, *unlocks, *outputs, signature]
    lists = ["Issuers:", issuer, "Inputs:", *inputs, "Unlocks:", *unlocks, "Outputs:", *outputs]
    text = document("Transaction", f"Blockstamp: {stamp}", f"Locktime: {locktime}", *lists, "Comment: ")
    return "".join(f"{line}\n" for line in lines), text


class Block:
    """A block: its stamp, its text, and the commands with the verdict on its signature and with itself."""

    def __init__(self, number, issuer, signed, above):
        self.text = f"{above}{signed}{SIGNATURE}\n"
        self.stamp = f"{number}-{digest(signed + SIGNATURE + chr(10))}"
        self.verdict = verdict(issuer, signed)

    def command(self, word="BLOCK"):
        return f"{word} {len(self.text)}\n{self.text}\n"


def sealed(above, number, issuer, difficulty=0, nonce=0):
    """The block with these lines above InnerHash, of the first nonce from this one that meets the difficulty."""
    inner = digest(above)
    while True:
        signed = f"InnerHash: {inner}\nNonce: {nonce}\n"
        if meets(digest(f"{signed}{SIGNATURE}\n"), difficulty):
            return Block(number, issuer, signed, above)
        nonce += 1


def next_block(chain, issuer, members, lines, parameters=PARAMETERS, delay=0, early=0, nonce=0, dividend=None):
    """The next block of a chain, of so many members, with these sections; the chain has it from then on. It comes so many seconds after its minute,
    its median time is told so many seconds too early, and it pays a dividend where one is given."""
    number = chain.length()
    time = 1000 + 60 * number + delay
    values = chain.header(number, time)
    median_time, frame, variation, count, least = values
    where = f"PreviousHash: {chain.previous[0]}\nPreviousIssuer: {chain.previous[1]}\n" if number else f"Parameters: {parameters}\n"
    pays = f"UniversalDividend: {dividend}\n" if dividend else ""
    above = (
        f"Version: 10\nType: Block\nCurrency: test_currency\nNumber: {number}\nPoWMin: {least}\nTime: {time}\nMedianTime: {median_time - early}\n"
        f"{pays}UnitBase: 0\nIssuer: {issuer}\nIssuersFrame: {frame}\nIssuersFrameVar: {variation}\nDifferentIssuersCount: {count}\n"
        f"{where}MembersCount: {members}\n{lines}"
    )
    block = sealed(above, number, issuer, chain.difficulty(number, issuer, least), nonce)
    chain.join(number, issuer, time, values, block.stamp.split("-")[1])
    return block
