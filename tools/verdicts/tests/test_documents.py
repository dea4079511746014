"""Single documents: of each it is said whether its signature is true, with the verdict."""
import unittest

from currency import EMPTY, PEOPLE, digest, dividend_of, document, first_block, joined, payment, start, turned
from support import Ran, answers, folder_of, run_tool

ISSUER, RECEIVER = PEOPLE[0], PEOPLE[1]
TEXTS = {
    "identity": ISSUER.identity_text(),
    "membership": ISSUER.membership_text("OUT"),
    "certification": ISSUER.certification_text(RECEIVER),
    "revocation": ISSUER.revocation_text(),
}


def signed(text: str) -> bytes:
    return joined(text.removesuffix("\n"), ISSUER.sign(text)).encode("ascii")


def run_documents(*documents: bytes) -> Ran:
    """Each document in a file of its own, in this order."""
    with folder_of({str(place): raw for place, raw in enumerate(documents)}) as folder:
        return run_tool("--documents", *sorted(folder.iterdir()))


class OneDocument(unittest.TestCase):
    def test_true(self) -> None:
        for kind, text in TEXTS.items():
            with self.subTest(kind=kind):
                ran = run_tool("--documents", given=signed(text))
                self.assertEqual(ran.commands.decode("ascii"), f"VERDICT {ISSUER.key} {digest(text)} {ISSUER.sign(text)}\n")
                wanted = f"verdicts: standard input, document 1, line {text.count(chr(10)) + 1}: the {kind}'s signature by {ISSUER.key} is true\n"
                self.assertEqual((ran.said, ran.status), (wanted, 0))
                self.assertEqual(answers(ran.commands), ["NOTED"])

    def test_one_bit(self) -> None:
        """Of the signature, and of each line of the text."""
        for kind, text in TEXTS.items():
            signature = ISSUER.sign(text)
            changed = [joined(text.removesuffix("\n"), turned(signature, bit)) for bit in (0, 255, 256, 511)]
            changes = (("currency\n", "currencx\n"), (ISSUER.uid, "user9"), ("-E3", "-E4"))
            changed += [text.replace(name, other) + signature + "\n" for name, other in changes]
            false = [raw for raw in changed if raw != text + signature + "\n"]
            with self.subTest(kind=kind):
                ran = run_documents(*(raw.encode("ascii") for raw in false))
                self.assertEqual((ran.commands, ran.status), (b"", 1))
                self.assertEqual(ran.places(), [text.count("\n") + 1] * len(false))
                self.assertEqual(ran.said.count(f"the {kind}'s signature by {ISSUER.key} is false"), len(false))

    def test_the_verdict_is_that_of_the_block(self) -> None:
        """The verdicts of a first block are those of its documents, and its own."""
        three = PEOPLE[:3]
        pairs = [(issuer, receiver) for issuer in three for receiver in three if issuer != receiver]
        texts = [(p, p.identity_text()) for p in three] + [(p, p.membership_text()) for p in three]
        texts += [(issuer, issuer.certification_text(receiver)) for issuer, receiver in pairs]
        ran = run_tool("--documents", given=b"".join(joined(text.removesuffix("\n"), p.sign(text)).encode("ascii") for p, text in texts))
        self.assertEqual(ran.verdicts, run_tool(given=first_block().sealed().raw).verdicts[:-1])


class TransactionDocument(unittest.TestCase):
    def setUp(self) -> None:
        issuers = (PEOPLE[0], PEOPLE[1])
        conditions = f"SIG({issuers[0].key}) && CSV(1) && XHX({digest('abc')})"
        self.paid = payment(
            start()[2],
            issuers=issuers,
            inputs=tuple(map(dividend_of, issuers)),
            unlocks=("0:SIG(0) XHX(abc)", "1:SIG(1)"),
            outputs=(f"2000:0:{conditions}",),
            comment="Type: Block",
        )

    def test_two_issuers(self) -> None:
        raw = (self.paid.text() + joined(*self.paid.signatures())).encode("ascii")
        ran = run_tool("--documents", given=raw)
        keys = [issuer.key for issuer in self.paid.issuers]
        verdicts = [f"VERDICT {key} {digest(self.paid.text())} {signature}" for key, signature in zip(keys, self.paid.signatures())]
        self.assertEqual((ran.verdicts, ran.status, ran.said.count("is true")), (verdicts, 0, 2))

    def test_one_of_two_is_false(self) -> None:
        first, second = self.paid.signatures()
        for signatures, place in (([turned(first), second], 1), ([first, turned(second)], 2)):
            ran = run_tool("--documents", given=(self.paid.text() + joined(*signatures)).encode("ascii"))
            self.assertEqual((len(ran.verdicts), ran.status), (1, 1))
            self.assertEqual(ran.places(), [self.paid.text().count("\n") + place])

    def test_signatures_exchanged_or_missing(self) -> None:
        first, second = self.paid.signatures()
        ran = run_tool("--documents", given=(self.paid.text() + joined(second, first)).encode("ascii"))
        self.assertEqual((ran.commands, len(ran.places()), ran.status), (b"", 2, 1))
        for signatures in ([first], [first, second, second], []):
            ran = run_tool("--documents", given=(self.paid.text() + joined(*signatures)).encode("ascii"))
            self.assertEqual((ran.commands, ran.said.count("no document"), ran.status), (b"", 1, 1))


class NoDocument(unittest.TestCase):
    def test_named(self) -> None:
        identity = signed(TEXTS["identity"])
        texts = [b"", b"\n", b"hello\n", identity[:-1], identity + b"\n", identity.replace(b"\n", b"\r\n"), b"\xff" * 90, b"x" * 2_000_000]
        texts += [identity.replace(b"Issuer", b"Sender"), identity.replace(b"Type: Identity", b"Type: Peer"), first_block().sealed().raw]
        texts.append(document("Identity", f"Issuer: {ISSUER.key}").encode("ascii"))
        ran = run_documents(*texts)
        self.assertEqual((ran.commands, ran.status), (b"", 1))
        self.assertEqual(ran.said.count(": no document"), len(texts))

    def test_others_are_read_all_the_same(self) -> None:
        ran = run_documents(b"hello\n", signed(TEXTS["identity"]))
        self.assertEqual((len(ran.verdicts), ran.status), (1, 1))

    def test_stamps_are_what_they_are(self) -> None:
        """The signed text is the document's own: a stamp in lower case is another text than one in upper case."""
        text = ISSUER.identity_text(EMPTY.lower())
        ran = run_documents(signed(text))
        self.assertEqual(ran.verdicts, [f"VERDICT {ISSUER.key} {digest(text)} {ISSUER.sign(text)}"])
