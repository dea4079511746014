"""Texts that have to be exact: where the library's own spelling is another one, where it refuses a block, and on branches."""
import base64
from dataclasses import replace

from currency import (
    EMPTY,
    PARAMETERS,
    PEOPLE,
    Block,
    Payment,
    Sealed,
    digest,
    dividend_of,
    fifth_block,
    first_block,
    fourth_block,
    joined,
    payment,
    second_block,
    start,
    third_block,
    whole,
)
from support import NodeTest, block_answers, run_tool

PASSWORD = "abc"


def paying(before: list[Sealed], **changes: object) -> tuple[Sealed, Payment]:
    """A block behind the dividend, with one payment."""
    paid = payment(before[-1], **changes)
    return fourth_block(before[-1]).having(Transactions=paid.lines()).sealed(), paid


def shares(*conditions: str) -> tuple[str, ...]:
    """A dividend in equal parts, each for a condition."""
    return tuple(f"{1000 // len(conditions)}:0:{condition}" for condition in conditions)


class Accepts(NodeTest):
    def check(self, chain: list[Sealed], last: str = "ACCEPTED") -> None:
        ran, given = self.answers_to(block.raw for block in chain)
        self.assertEqual((ran.said, ran.status), ("", 0))
        self.assertEqual(given[:-1], [f"ACCEPTED {block.stamp}" for block in chain[:-1]])
        self.assertEqual(given[-1], f"ACCEPTED {chain[-1].stamp}" if last == "ACCEPTED" else f"REFUSED {last}")


class Documents(Accepts):
    def test_version_11(self) -> None:
        """Documents have version 10 in blocks of version 11."""
        chain = [first_block(version=11).sealed()]
        chain.append(second_block(chain[-1], version=11).sealed())
        chain.append(third_block(chain[-1], version=11).sealed())
        chain.append(fourth_block(chain[-1], version=11).having(Transactions=payment(chain[-1]).lines()).sealed())
        chain.append(fifth_block(chain[-1], version=11).having(Revoked=[PEOPLE[2].revocation()]).sealed())
        self.check(chain)

    def test_certification_on_each_earlier_block(self) -> None:
        """Also on the first block, by another one than that."""
        before = start()
        for block in before:
            with self.subTest(number=block.number):
                self.check([*before, newcomer(before, block.stamp).sealed()])

    def test_certification_on_the_empty_stamp_by_a_later_block(self) -> None:
        before = start()
        block = newcomer(before, EMPTY).sealed()
        ran, given = self.answers_to(each.raw for each in (*before, block))
        self.assertEqual((given[-1], ran.status, len(ran.places())), ("REFUSED G72", 1, 1))

    def test_renewal_and_leaving(self) -> None:
        before = start()
        stamp = before[2].stamp
        self.check([*before, fourth_block(before[2]).having(Actives=[PEOPLE[1].membership("IN", stamp)]).sealed()])
        self.check([*before, fourth_block(before[2]).having(Leavers=[PEOPLE[1].membership("OUT", stamp)]).sealed()])

    def test_parameters_without_a_point(self) -> None:
        for place, value in ((0, "0"), (10, "1"), (16, "1")):
            with self.subTest(place=place):
                fields = PARAMETERS.split(":")
                fields[place] = value
                self.check([first_block(parameters=":".join(fields)).sealed()])


class Transactions(Accepts):
    def check_payment(self, last: str = "ACCEPTED", **changes: object) -> None:
        before = start()
        self.check([*before, paying(before, **changes)[0]], last)

    def test_conditions(self) -> None:
        a, b, c = (f"SIG({person.key})" for person in PEOPLE[:3])
        nested = f"{'(' * 64}{a}{')' * 64}"
        for condition in (f"{a} && {b} && {c}", f"{a} || {b} && CSV(1)", f"({a} || {b}) && CLTV(2) && {c}", f"(({a}))", nested):
            with self.subTest(condition=condition):
                self.check_payment(outputs=shares(condition, a))

    def test_passwords(self) -> None:
        before = start()
        conditions = f"XHX({digest(PASSWORD)})", f"SIG({PEOPLE[1].key}) && XHX({digest(PASSWORD)})"
        block, paid = paying(before, outputs=shares(*conditions))
        made = digest(paid.text() + joined(*paid.signatures()))
        for place, unlock in ((0, f"0:XHX({PASSWORD})"), (1, f"0:SIG(0) XHX({PASSWORD})")):
            with self.subTest(unlock=unlock):
                outputs = (f"500:0:SIG({PEOPLE[1].key})",)
                spent = Payment((PEOPLE[1],), (f"500:0:T:{made}:{place}",), outputs, block.stamp, (unlock,))
                self.check([*before, block, fifth_block(block).having(Transactions=spent.lines()).sealed()])

    def test_base_of_two_digits(self) -> None:
        """The signature is true, and a later rule refuses what there is not."""
        self.check_payment("G87", inputs=(dividend_of(PEOPLE[0], 1, 10),), outputs=(f"1:10:SIG({PEOPLE[0].key})",))

    def test_comments(self) -> None:
        printable = "".join(map(chr, range(ord(" "), ord("~") + 1)))
        for comment in (printable, " ", "Version: 10", "Type: Block", "Comment: ", f"InnerHash: {'0' * 64}", "A" * 86 + "==", "TX:10:1:1:1:1:0:0"):
            with self.subTest(comment=comment):
                self.check_payment(comment=comment)

    def test_several_issuers_inputs_and_a_locktime(self) -> None:
        issuers, a = PEOPLE[:2], PEOPLE[0]
        inputs = tuple(dividend_of(person) for person in issuers)
        unlocks = ("0:SIG(0)", "1:SIG(1) SIG(0)")
        outputs = (f"2000:0:SIG({a.key})",)
        self.check_payment(issuers=tuple(issuers), inputs=inputs, unlocks=unlocks, outputs=outputs, comment="both of us")
        self.check_payment("G89", locktime=7)

    def test_two_payments(self) -> None:
        before = start()
        other = payment(before[2], issuers=(PEOPLE[1],), inputs=(dividend_of(PEOPLE[1]),), outputs=(f"1000:0:SIG({PEOPLE[0].key})",), comment="two")
        lines = [*payment(before[2], comment="one").lines(), *other.lines()]
        self.check([*before, fourth_block(before[2]).having(Transactions=lines).sealed()])


class Signatures(NodeTest):
    def test_another_text_of_the_same_bytes(self) -> None:
        """The last digit of a signature stands for two bits, and has room for six."""
        block = first_block()
        key, signature, *rest = block.sections["Joiners"][0].split(":")
        other = signature[:85] + chr(ord(signature[85]) + 1) + "=="
        self.assertEqual(base64.b64decode(other), base64.b64decode(signature))
        changed = block.changed("Joiners", 0, lambda _: ":".join((key, other, *rest))).sealed()
        ran, given = self.answers_to([changed.raw])
        self.assertEqual((given, ran.status, len(ran.places())), (["REFUSED L11"], 1, 1))

    def test_a_key_that_is_none(self) -> None:
        """Base58 of 43 or 44 digits that is no 32 bytes, and an issuer of nothing."""
        for key in ("z" * 44, "1" * 43, "2" * 43):
            with self.subTest(key=key):
                sealed = first_block().sealed()
                text = sealed.text.replace(f"Issuer: {sealed.issuer.key}", f"Issuer: {key}")
                above, end = text.split("InnerHash: ")
                raw = f"{above}InnerHash: {digest(above)}{end[64:]}".encode("ascii")
                ran, given = self.answers_to([raw])
                self.assertEqual((given, ran.status, ran.places()), (["REFUSED L05"], 1, [text.count("\n")]))

    def test_a_repeated_block(self) -> None:
        chain = start()
        ran, given = self.answers_to([chain[0].raw, chain[0].raw, chain[1].raw])
        self.assertEqual(given, [f"ACCEPTED {chain[0].stamp}", "REFUSED G51", f"ACCEPTED {chain[1].stamp}"])
        self.assertEqual(ran.status, 0)


class Branches(NodeTest):
    def test_another_text_with_the_same_hash(self) -> None:
        """A block's hash is of its last three lines: what stands above them counts only where InnerHash is right."""
        chain = whole()
        false = chain[0].raw.replace(b":user2\n", b":user5\n")
        for blocks in ([chain[0].raw, false], [false, chain[0].raw]):
            ran, given = self.answers_to([*blocks, *(block.raw for block in chain[1:])])
            self.assertEqual(sorted(given), sorted(["REFUSED L01", *(f"ACCEPTED {block.stamp}" for block in chain)]))
            self.assertEqual(ran.status, 1)

    def test_two_chains(self) -> None:
        """Two branches behind the first block, each with an identity of the same key, come in turns."""
        first = first_block().sealed()
        one, other = branch(first, PEOPLE[1], PEOPLE[2]), branch(first, PEOPLE[2], PEOPLE[1])
        mixed = [first.raw] + [block.raw for pair in zip(one, other) for block in pair]
        ran, _ = self.answers_to(mixed)
        self.assertEqual((ran.said, ran.status), ("", 0))
        verdicts = "".join(f"{verdict}\n" for verdict in ran.verdicts).encode("ascii")
        for chain in ([first, *one], [first, *other]):
            frames = b"".join(b"BLOCK %d\n%b\n" % (len(block.raw), block.raw) for block in chain)
            self.assertEqual(block_answers(verdicts + frames), [f"ACCEPTED {block.stamp}" for block in chain])

    def test_a_chain_without_its_beginning(self) -> None:
        """The block before is known by its hash, other blocks and identities are not."""
        chain = whole()
        ran = run_tool(given=chain[4].raw)
        self.assertEqual((ran.status, ran.places(), len(ran.verdicts)), (1, [chain[4].line_of(PEOPLE[2].revocation())], 1))
        before = start()
        for block, known in zip(before, (False, False, True)):
            late = newcomer(before, block.stamp).sealed()
            ran = run_tool(given=late.raw)
            self.assertEqual((ran.status, len(ran.verdicts)), (0, 4) if known else (1, 3))


def newcomer(before: list[Sealed], stamp: str) -> Block:
    """A block with somebody new, whom the first member certifies on the block with this stamp."""
    latest, person = before[-1].stamp, PEOPLE[3]
    certification = PEOPLE[0].certification(person, stamp, latest)
    block = fourth_block(before[-1], members=4)
    return block.having(Identities=[person.identity(latest)], Joiners=[person.membership("IN", latest, latest)], Certifications=[certification])


def branch(first: Sealed, second_issuer: object, third_issuer: object) -> list[Sealed]:
    """Four blocks behind the first: the fourth has a newcomer, whom the fifth certifies on the second."""
    second = second_block(first, issuer=second_issuer).sealed()
    third = third_block(second, issuer=third_issuer).sealed()
    fourth = newcomer([first, second, third], second.stamp).sealed()
    certification = PEOPLE[1].certification(PEOPLE[3], second.stamp, third.stamp)
    fifth = replace(fifth_block(fourth, members=4), issuer=second_issuer).having(Certifications=[certification])
    return [second, third, fourth, fifth.sealed()]
