"""A program that answers commands, asked while it runs; and the answers that docs/COMMANDS.md allows for each command."""

import os
import queue
import re
import resource
import select
import subprocess
import threading
from pathlib import Path
from types import TracebackType

# a line that is no command, behind each command: its BAD tells where the answer before it ends, which may have several lines
FENCE = b"FENCE\n"
SECONDS = 600
UNDER_BLOCKS = "X02 X07".split() + [f"L{number:02d}" for number in range(1, 25)]
HEADERS = "G51 G52 G53 G49 G101 X03 X04 X08 G50 G54 G55 G56 G57 G58 G59 G60 G61 G62".split()
PEOPLE = "X06 G63 G73 G74 G64 G75 G108 G82 G78 G81 G80 G77 G83 G84 G65 G66 G67 G68 G69 G70 G71 G72 G79 G76 G85 G86".split()
CHAIN_RULES = HEADERS + PEOPLE + "X05 G103 G87 G88 G89 G90".split()
# what may be answered NOMEM
HUNGRY = ["VERDICT", "BLOCK", "OFFER", "SWITCH", "AUTO ON", "FAILED", "PEND", "FORGE", "CERTS", "SOURCES", "STATEMENT", "DISTANCE", "RECORDS", "SHOW"]


class Broken(Exception):
    """The program did what it may not, or not what it has to."""


class Ended(Broken):
    """The program ended with this status before it answered a command."""

    def __init__(self, status: int, command: str) -> None:
        super().__init__(f"the program ended with status {status} before it answered {command}")
        self.status = status


class Node:
    """A program that runs, with so many bytes of address space where a limit is given, and with more in its environment."""

    def __init__(self, program: str, limit: int | None = None, environment: dict[str, str] | None = None) -> None:
        def limited() -> None:
            assert limit is not None
            resource.setrlimit(resource.RLIMIT_AS, (limit, limit))

        self.process = subprocess.Popen(
            [program, "run"],
            stdin=subprocess.PIPE,
            stdout=subprocess.PIPE,
            bufsize=0,
            preexec_fn=limited if limit is not None else None,
            env={**os.environ, **(environment or {})},
        )
        assert self.process.stdin and self.process.stdout
        self.given, self.taken = self.process.stdin, self.process.stdout
        self.buffer, self.waiting = bytearray(), queue.SimpleQueue[bytes | None]()
        self.feeder = threading.Thread(target=self.feed, daemon=True)
        self.feeder.start()

    def __enter__(self) -> "Node":
        return self

    def __exit__(self, kind: type[BaseException] | None, error: BaseException | None, trace: TracebackType | None) -> None:
        if self.process.poll() is None:
            self.process.kill()
        self.process.wait()
        self.waiting.put(None)
        self.feeder.join()
        self.taken.close()

    def feed(self) -> None:
        """Writes what waits, so that the program may answer meanwhile."""
        try:
            while (given := self.waiting.get()) is not None:
                at = memoryview(given)
                while at:
                    at = at[self.given.write(at) :]
        except (BrokenPipeError, ValueError):
            pass
        try:
            self.given.close()
        except OSError:
            pass

    def more(self) -> bool:
        """Reads some bytes, or tells that there are no more."""
        if not select.select([self.taken], [], [], SECONDS)[0]:
            raise Broken(f"nothing is answered for {SECONDS} seconds")
        read = os.read(self.taken.fileno(), 1 << 16)
        self.buffer += read
        return bool(read)

    def say(self, commands: list[bytes]) -> None:
        self.waiting.put(b"".join(part for command in commands for part in (command, FENCE)))

    def ask(self, commands: list[bytes]) -> list[bytes]:
        """The bytes of the answer to each command."""
        self.say(commands)
        return self.hear(commands)

    def hear(self, commands: list[bytes]) -> list[bytes]:
        """The bytes of the answer to each of these commands, which were said."""
        answers: list[bytes] = []
        begin = at = 0
        while len(answers) < len(commands):
            end = self.buffer.find(b"\n", at) + 1
            if not end:
                # what was read is kept from the answer on that is being read
                del self.buffer[:begin]
                begin, at = 0, at - begin
                if not self.more():
                    command = commands[len(answers)].split(b"\n")[0].decode(errors="replace")
                    raise Ended(self.process.wait(), command)
                continue
            if at > begin and self.buffer[at:end] == b"BAD\n":
                answers.append(bytes(self.buffer[begin:at]))
                begin = end
            at = end
        del self.buffer[:begin]
        return answers

    def answer(self, command: str) -> str:
        """The answer to one command, without its last LF."""
        return self.ask([command.encode()])[0].decode().removesuffix("\n")

    def memory(self) -> int:
        """The bytes of it that are in memory."""
        said = Path(f"/proc/{self.process.pid}/status").read_text()
        found = re.search(r"^VmRSS:\s+(\d+) kB$", said, re.MULTILINE)
        assert found
        return int(found[1]) * 1024

    def end(self) -> int:
        """Ends its input, and gives the status; nothing more may have been answered."""
        self.waiting.put(None)
        while self.more():
            pass
        if self.buffer:
            raise Broken(f"it answered more than it was asked: {bytes(self.buffer[:80])!r}")
        return self.process.wait()


def one_of(words: list[str]) -> str:
    return "(?:" + "|".join(words) + ")"


NUM = r"(?:0|[1-9]\d{0,38})"
HASH, STAMP = "[0-9A-F]{64}", rf"{NUM}-[0-9A-F]{{64}}"
KEY, UID = "[1-9A-HJ-NP-Za-km-z]{43,44}", "[A-Za-z0-9_-]{2,100}"
SOURCE = rf"{NUM}:{NUM}:(?:D:{KEY}:{NUM}|T:{HASH}:{NUM})"
LOCAL, ALL = one_of(UNDER_BLOCKS), one_of([*UNDER_BLOCKS, *CHAIN_RULES])
FAILED = rf"FAILED {STAMP} {STAMP} {one_of(CHAIN_RULES)}\n"
CHOSEN = rf"(?:{FAILED})*(?:SWITCHED {STAMP}\n)?"
IDENTITY = rf"NONE\n|IDENTITY {KEY} {UID} {NUM} {one_of(['REVOKED', 'LEAVING', 'MEMBER', 'OUT'])} {NUM} {NUM} {NUM}\n"
SHOWN = rf"(?:[^\n]*\n)+Nonce: {NUM}\n[^\n]*\n"
FRAME = r"BAD\n|NOMEM\n|REFUSED X01\n|REFUSED P01 [1-9]\d*\n"
ALLOWED = {
    "VERDICT": r"NOTED\n|NOMEM\n",
    "BLOCK": rf"{FRAME}|ACCEPTED {STAMP}\n|REFUSED {ALL}\n",
    "REVERT": rf"REVERTED {NUM}\n|REFUSED W01 {NUM}\n",
    "OFFER": rf"{FRAME}|REFUSED {LOCAL}\n|STORED {STAMP}\n{CHOSEN}|KNOWN {STAMP}\n|FULL 1024\n",
    "SWITCH": rf"SWITCHED {STAMP}\n|UNKNOWN\n|DETACHED {STAMP}\n|REFUSED W01 {NUM}\n|FULL 1024\n|REFUSED {STAMP} {ALL}\n|NOMEM\n",
    "FORGET": r"FORGOTTEN\n|UNKNOWN\n",
    "AUTO ON": rf"AUTO ON\n{CHOSEN}|NOMEM\n",
    "AUTO OFF": r"AUTO OFF\n",
    "FAILED": rf"(?:{FAILED})*END\n|NOMEM\n",
    "PEND": rf"BAD\n|NOMEM\n|PENDING {HASH}\n|REFUSED (?:X01|D01)\n|KNOWN {HASH}\n|FULL 1024\n",
    "UNPEND": r"FORGOTTEN\n|UNKNOWN\n",
    "FORGE": rf"{SHOWN}(?:LEFT {HASH} {ALL}\n)*END\n|NONE\n|REFUSED {ALL}\n|NOMEM\n",
    "HEAD": rf"NONE\n|HEAD {STAMP}(?: {NUM}){{7}} -?{NUM} {NUM}\n",
    "MONEY": rf"MONEY {NUM} {NUM} {NUM}\n",
    "IDENTITY": IDENTITY,
    "UID": IDENTITY,
    "CERTS": rf"NONE\n|(?:CERT {KEY} {KEY} {NUM} {NUM} {NUM}\n)*END\n|NOMEM\n",
    "BALANCE": rf"BALANCE {NUM}\n",
    "SOURCES": rf"(?:SOURCE {SOURCE}\n)*END\n|NOMEM\n",
    "STATEMENT": rf"(?:MOVE {NUM} (?:MADE|SPENT|CLEARED) {SOURCE} {NUM}\n)*END\n|NOMEM\n",
    "DISTANCE": rf"NONE\n|DISTANCE {NUM} {NUM} (?:PASS|FAIL)\n|NOMEM\n",
    "DIFF": rf"NONE\n|DIFF {NUM}\n",
    "RECORDS": r"NONE\n|(?:[IMCS]IDX [^\n]+\n)*END\n|NOMEM\n",
    "SHOW": rf"NONE\n|{SHOWN}END\n|NOMEM\n",
    "": r"BAD\n",
}
COMPILED = {word: re.compile(allowed.encode()) for word, allowed in ALLOWED.items()}


def word_of(command: bytes) -> str:
    """The first word of a command that is one, or both of AUTO."""
    words = command.split(b"\n", 1)[0].decode(errors="replace").split(" ")
    word = " ".join(words[:2]) if words[0] == "AUTO" else words[0]
    return word if word in ALLOWED else ""


def is_allowed(command: bytes, answer: bytes) -> bool:
    """Whether docs/COMMANDS.md has an answer of this form to a command that is spelled as one."""
    return COMPILED[word_of(command)].fullmatch(answer) is not None
