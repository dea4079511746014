"""Blocks and transactions that the program took: their texts cut into fields, and what BMA shows of them."""
import hashlib
from collections.abc import Sequence
from dataclasses import dataclass
from functools import cached_property
from typing import Any

SECTIONS = ("Identities", "Joiners", "Actives", "Leavers", "Revoked", "Excluded", "Certifications", "Transactions")
_END_LINES = 3
_PARAMETERS = (
    "c dt ud0 sigPeriod sigStock sigWindow sigValidity sigQty idtyWindow msWindow xpercent msValidity stepMax "
    "medianTimeBlocks avgGenTime dtDiffEval percentRot udTime0 udReevalTime0 dtReeval"
).split()
_DECIMALS = ("c", "xpercent", "percentRot")


def digest(text: str) -> str:
    """The SHA-256 of a text in upper case."""
    return hashlib.sha256(text.encode("latin-1")).hexdigest().upper()


def joined(lines: Sequence[str]) -> str:
    """The lines with a line feed behind each."""
    return "".join(f"{line}\n" for line in lines)


def condition_keys(condition: str) -> list[str]:
    """The keys that a condition names, each once, in order."""
    parts = condition.split("SIG(")[1:]
    return list(dict.fromkeys(part.split(")", 1)[0] for part in parts))


@dataclass(frozen=True)
class Transaction:
    """A transaction by its lines."""

    currency: str
    stamp: str
    locktime: int
    issuers: list[str]
    inputs: list[str]
    unlocks: list[str]
    outputs: list[str]
    comment: str
    signatures: list[str]

    @classmethod
    def from_compact(cls, lines: list[str], currency: str) -> "Transaction":
        """The transaction that begins with the first of these lines of a block."""
        _, _, *counts, has_comment, locktime = lines[0].split(":")
        parts, place = [], 2
        for count in map(int, counts):
            parts.append(lines[place : place + count])
            place += count
        comment = lines[place] if has_comment == "1" else ""
        place += int(has_comment)
        issuers, inputs, unlocks, outputs = parts
        return cls(currency, lines[1], int(locktime), issuers, inputs, unlocks, outputs, comment, lines[place : place + len(issuers)])

    @classmethod
    def from_document(cls, text: str) -> "Transaction":
        """The transaction with this document."""
        lines = text.split("\n")[:-1]
        places = [lines.index(f"{name}:") for name in ("Issuers", "Inputs", "Unlocks", "Outputs")]
        end = next(place for place in range(places[3], len(lines)) if lines[place].startswith("Comment: "))
        issuers, inputs, unlocks, outputs = [lines[start + 1 : stop] for start, stop in zip(places, [*places[1:], end])]
        currency, stamp, locktime = [line.split(": ", 1)[1] for line in lines[2:5]]
        comment = lines[end].removeprefix("Comment: ")
        return cls(currency, stamp, int(locktime), issuers, inputs, unlocks, outputs, comment, lines[end + 1 :])

    @property
    def compact_size(self) -> int:
        """How many lines it has in a block."""
        parts = (self.issuers, self.inputs, self.unlocks, self.outputs, self.signatures)
        return 2 + sum(map(len, parts)) + (self.comment != "")

    def document(self) -> str:
        """The whole text, of which the hash is the transaction's."""
        lines = ["Version: 10", "Type: Transaction", f"Currency: {self.currency}", f"Blockstamp: {self.stamp}", f"Locktime: {self.locktime}"]
        parts = (("Issuers", self.issuers), ("Inputs", self.inputs), ("Unlocks", self.unlocks), ("Outputs", self.outputs))
        for name, values in parts:
            lines += [f"{name}:", *values]
        return joined([*lines, f"Comment: {self.comment}", *self.signatures])

    @cached_property
    def hash(self) -> str:
        """The SHA-256 of the document."""
        return digest(self.document())

    def receivers(self) -> list[str]:
        """The keys that its outputs name, each once."""
        return list(dict.fromkeys(key for output in self.outputs for key in condition_keys(output)))

    def json(self) -> dict[str, Any]:
        """What BMA shows of it wherever it stands."""
        return {
            "version": 10, "currency": self.currency, "locktime": self.locktime, "blockstamp": self.stamp,
            "issuers": self.issuers, "inputs": self.inputs, "unlocks": self.unlocks, "outputs": self.outputs,
            "comment": self.comment, "signatures": self.signatures, "hash": self.hash,
        }


class BlockText:
    """A block that the program took, by its lines."""

    def __init__(self, lines: list[str]) -> None:
        self.lines = lines
        first = lines.index("Identities:")
        self.fields = dict(line.split(": ", 1) for line in lines[:first])
        self.sections: dict[str, list[str]] = {}
        place = first
        for name, following in zip(SECTIONS, SECTIONS[1:]):
            end = lines.index(f"{following}:", place)
            self.sections[name] = lines[place + 1 : end]
            place = end
        self.sections[SECTIONS[-1]] = lines[place + 1 : -_END_LINES]

    @classmethod
    def of(cls, text: str) -> "BlockText":
        """The block with this text."""
        return cls(text.split("\n")[:-1])

    @property
    def text(self) -> str:
        """The whole text."""
        return joined(self.lines)

    @cached_property
    def hash(self) -> str:
        """The SHA-256 of the lines InnerHash, Nonce and of the signature."""
        return digest(joined(self.lines[-_END_LINES:]))

    @property
    def number(self) -> int:
        """Its number."""
        return int(self.fields["Number"])

    @property
    def stamp(self) -> str:
        """Number and hash."""
        return f"{self.number}-{self.hash}"

    @property
    def previous(self) -> str | None:
        """The hash of the block before."""
        return self.fields.get("PreviousHash")

    @property
    def median_time(self) -> int:
        """MedianTime."""
        return int(self.fields["MedianTime"])

    @property
    def signature(self) -> str:
        """The last line."""
        return self.lines[-1]

    @property
    def signed(self) -> str:
        """The lines that the signature signs."""
        return joined(self.lines[-_END_LINES:-1])

    def dividend(self) -> int | None:
        """What each member gets by it, in units of the base."""
        value = self.fields.get("UniversalDividend")
        return None if value is None else int(value)

    def paid(self) -> int | None:
        """The units that each member gets by it."""
        value, base = self.dividend(), 10 ** int(self.fields["UnitBase"])
        return None if value is None else value * int(base)

    def issued(self) -> int:
        """The units that its dividend makes."""
        return (self.paid() or 0) * int(self.fields["MembersCount"])

    @cached_property
    def transactions(self) -> list[Transaction]:
        """Its transactions in order."""
        lines, found, place = self.sections["Transactions"], [], 0
        while place < len(lines):
            found.append(Transaction.from_compact(lines[place:], self.fields["Currency"]))
            place += found[-1].compact_size
        return found

    def parameters(self) -> dict[str, int | float]:
        """The parameters of the currency, of block 0."""
        values = self.fields["Parameters"].split(":")
        return {name: float(value) if name in _DECIMALS else int(value) for name, value in zip(_PARAMETERS, values)}

    def _parameters_line(self) -> str:
        """The parameters with a point in each decimal: the field's own library wants one."""
        values = zip(_PARAMETERS, self.fields.get("Parameters", "").split(":"))
        line = ":".join(f"{value}.0" if name in _DECIMALS and "." not in value else value for name, value in values)
        return line if "Parameters" in self.fields else ""

    def raw(self) -> str:
        """The text without the line of the signature."""
        return joined(self.lines[:-1])

    def json(self, mass: int) -> dict[str, Any]:
        """What BMA shows of it; `mass` is the units that dividends issued up to it."""
        fields, numbers = self.fields, {}
        names = {
            "version": "Version", "number": "Number", "powMin": "PoWMin", "time": "Time", "medianTime": "MedianTime",
            "membersCount": "MembersCount", "unitbase": "UnitBase", "issuersCount": "DifferentIssuersCount",
            "issuersFrame": "IssuersFrame", "issuersFrameVar": "IssuersFrameVar",
        }
        for shown, name in names.items():
            numbers[shown] = int(fields[name])
        transactions = [
            {**transaction.json(), "block_number": self.number, "time": self.median_time} for transaction in self.transactions
        ]
        return {
            **numbers, "nonce": int(self.lines[-2].removeprefix("Nonce: ")), "monetaryMass": mass, "currency": fields["Currency"],
            "issuer": fields["Issuer"], "signature": self.signature, "hash": self.hash, "parameters": self._parameters_line(),
            "previousHash": self.previous, "previousIssuer": fields.get("PreviousIssuer"),
            "inner_hash": self.lines[-_END_LINES].removeprefix("InnerHash: "), "dividend": self.dividend(), "fork": False,
            **{name.lower(): self.sections[name] for name in SECTIONS[:-1]}, "transactions": transactions, "raw": self.raw(),
        }
