"""A small currency with real keys: all is accepted, and with one bit of a signature turned the rule on that signature is named."""
from collections.abc import Callable

from currency import PEOPLE, SECTIONS, Block, Sealed, digest, fifth_block, first_block, fourth_block, payment, start, turned, whole
from support import NodeTest, answers, run_tool

BITS = (0, 255, 256, 511)


def turn_field(place: int, bit: int) -> Callable[[str], str]:
    """Turns one bit of the signature that stands at this place of a line."""

    def change(line: str) -> str:
        fields = line.split(":")
        fields[place] = turned(fields[place], bit)
        return ":".join(fields)

    return change


def verdict_line(key: str, text: str, signature: str) -> str:
    return f"VERDICT {key} {digest(text)} {signature}"


def own_verdict(block: Sealed) -> str:
    *_, inner, nonce, signature = block.text.splitlines()
    return verdict_line(block.issuer.key, f"{inner}\n{nonce}\n", signature)


def all_verdicts(chain: list[Sealed]) -> list[str]:
    """The verdicts of the whole currency, by the texts that its makers signed."""
    three, paid, gone = PEOPLE[:3], payment(chain[2]), PEOPLE[2]
    lines = [verdict_line(p.key, p.identity_text(), p.sign(p.identity_text())) for p in three]
    lines += [verdict_line(p.key, p.membership_text(), p.sign(p.membership_text())) for p in three]
    texts = [(issuer, issuer.certification_text(receiver)) for issuer in three for receiver in three if issuer != receiver]
    lines += [verdict_line(issuer.key, text, issuer.sign(text)) for issuer, text in texts]
    lines += [own_verdict(block) for block in chain[:3]]
    lines += [verdict_line(PEOPLE[0].key, paid.text(), paid.signatures()[0]), own_verdict(chain[3])]
    return [*lines, verdict_line(gone.key, gone.revocation_text(), gone.sign(gone.revocation_text())), own_verdict(chain[4])]


class Accepted(NodeTest):
    def test_every_block_is_accepted(self) -> None:
        chain = whole()
        ran, given = self.answers_to(block.raw for block in chain)
        self.assertEqual(given, [f"ACCEPTED {block.stamp}" for block in chain])
        self.assertEqual((ran.status, ran.said), (0, ""))

    def test_the_head_is_that_of_the_chain(self) -> None:
        chain = whole()
        ran, _ = self.answers_to(block.raw for block in chain[:3])
        self.assertEqual(answers(ran.commands + b"HEAD\n")[-1], f"HEAD {chain[2].stamp} 1150 3 0 1000 0 3000 2 4 1")

    def test_verdicts_are_on_what_was_signed(self) -> None:
        chain = whole()
        ran, _ = self.answers_to(block.raw for block in chain)
        self.assertEqual(ran.verdicts, all_verdicts(chain))

    def test_each_frame_is_behind_its_verdicts(self) -> None:
        chain = start()
        ran = run_tool(given=b"".join(block.raw for block in chain))
        lines = all_verdicts(whole())
        wanted = "".join(f"{line}\n" for line in lines[:13])
        for block, own in zip(chain, ["", *(f"{line}\n" for line in lines[13:])]):
            wanted += f"{own}BLOCK {len(block.text)}\n{block.text}\n"
        self.assertEqual(ran.commands.decode("ascii"), wanted)


class OneBit(NodeTest):
    def check(self, rule: str, before: list[Sealed], block: Sealed, places: list[int]) -> None:
        ran, given = self.answers_to(each.raw for each in (*before, block))
        self.assertEqual(given, [*(f"ACCEPTED {each.stamp}" for each in before), f"REFUSED {rule}"])
        self.assertEqual((ran.status, ran.places()), (1, places))

    def check_line(self, rule: str, before: list[Sealed], block: Block, section: str, place: int = 0, field: int | None = None) -> None:
        """With one bit turned of a field of a line, or of the whole line, which is the only one that is named."""
        for bit in BITS:
            with self.subTest(rule=rule, bit=bit):
                line = turn_field(field, bit) if field is not None else lambda whole, bit=bit: turned(whole, bit)
                false = block.changed(section, place, line)
                sealed = false.sealed()
                self.check(rule, before, sealed, [sealed.line_of(false.sections[section][place])])

    def test_block(self) -> None:
        for bit in BITS:
            with self.subTest(bit=bit):
                block = first_block().sealed(lambda signature, bit=bit: turned(signature, bit))
                self.check("L05", [], block, [block.text.count("\n")])

    def test_identity(self) -> None:
        for bit in BITS:
            with self.subTest(bit=bit):
                block = first_block().changed("Identities", 1, turn_field(1, bit))
                sealed = block.sealed()
                signed_over = [line for line in block.sections["Certifications"] if line.split(":")[1] == PEOPLE[1].key]
                places = [sealed.line_of(line) for line in (block.sections["Identities"][1], *signed_over)]
                self.check("L07", [], sealed, places)

    def test_membership(self) -> None:
        self.check_line("L11", [], first_block(), "Joiners", 2, 1)

    def test_renewed_membership_and_leaving(self) -> None:
        before = start()
        stamp, person = before[2].stamp, PEOPLE[1]
        renewal, leaving = person.membership("IN", stamp), person.membership("OUT", stamp)
        self.check_line("L11", before, fourth_block(before[2]).having(Actives=[renewal]), "Actives", 0, 1)
        self.check_line("L11", before, fourth_block(before[2]).having(Leavers=[leaving]), "Leavers", 0, 1)

    def test_membership_the_wrong_way(self) -> None:
        before = start()
        block = fourth_block(before[2]).having(Leavers=[PEOPLE[1].membership("IN", before[2].stamp)])
        self.check("L11", before, block.sealed(), [block.sealed().line_of(block.sections["Leavers"][0])])

    def test_certification(self) -> None:
        self.check_line("G72", [], first_block(), "Certifications", 3, 3)

    def test_revocation(self) -> None:
        before = whole()[:4]
        self.check_line("G84", before, fifth_block(before[3]).having(Revoked=[PEOPLE[2].revocation()]), "Revoked", 0, 1)

    def test_transaction(self) -> None:
        before = start()
        lines = payment(before[2]).lines()
        self.check_line("L24", before, fourth_block(before[2]).having(Transactions=lines), "Transactions", len(lines) - 1)


class LineTooMany(NodeTest):
    def test_each_place_of_a_block(self) -> None:
        chain = whole()
        for block in (chain[0], chain[3], chain[4]):
            lines = block.text.splitlines(keepends=True)
            changed = ["".join([*lines[:place], "more\n", *lines[place:]]).encode("ascii") for place in range(len(lines) + 1)]
            ran, given = self.answers_to(changed)
            self.assertEqual(given, [f"REFUSED P01 {place}" for place in range(1, len(lines) + 2)])
            self.assertEqual(ran.status, 0)
            self.assertEqual([raw for raw in changed if b"BLOCK %d\n%b\n" % (len(raw), raw) not in ran.commands], [])

    def test_a_second_line_of_a_kind(self) -> None:
        block = first_block()
        for section in SECTIONS:
            with self.subTest(section=section):
                sealed = block.having(**{section: [*block.sections.get(section, []), f"{section}:"]}).sealed()
                place = len(sealed.text[: sealed.text.rindex(f"{section}:\n")].splitlines()) + 1
                self.assertEqual(self.answers_to([sealed.raw])[1], [f"REFUSED P01 {place}"])
