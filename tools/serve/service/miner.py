"""Finds the least nonce with which a block's hash meets a difficulty: for each JSON line on standard input `NONCE SIGNATURE` on standard output.

It is a process of its own, and gives way to every other (nice 19)."""
import base64
import hashlib
import json
import os
import sys

from nacl.signing import SigningKey


def threshold(difficulty: int) -> str:
    """The greatest hash that meets a difficulty below 1,024: so many zeros, a greatest next digit, and digits F."""
    zeros, rest = divmod(difficulty, 16)
    return "0" * zeros + f"{15 - rest:X}" + "F" * (63 - zeros) if zeros < 64 else ""


def search(inner: str, difficulty: int, seed: bytes) -> tuple[int, str]:
    """The least nonce and the signature with it. `inner` is the line InnerHash."""
    key, greatest, nonce = SigningKey(seed), threshold(difficulty), 0
    while True:
        signed = f"{inner}\nNonce: {nonce}\n".encode("ascii")
        signature = base64.b64encode(key.sign(signed).signature)
        if hashlib.sha256(signed + signature + b"\n").hexdigest().upper() <= greatest:
            return nonce, signature.decode("ascii")
        nonce += 1


def main() -> None:
    """Reads tasks and writes what was found."""
    os.nice(19)
    for line in sys.stdin:
        task = json.loads(line)
        print(*search(task["inner"], task["difficulty"], bytes.fromhex(task["seed"])), flush=True)


if __name__ == "__main__":
    main()
